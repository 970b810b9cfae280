package metad

import (
	"bufio"
	"bytes"
	"encoding/json"
	"errors"
	"io"
	"net"
	"strings"
	"sync"
	"time"
)

// longestLine is how long a line may be, without its line feed.
const longestLine = 1 << 16

// acceptAgain is how long no connections are taken after the system refused one.
const acceptAgain = time.Second

// ServeQuestions answers the lines of l's connections that change nothing, as why an object is
// kept. Every other line is answered as no request, and never sent on. It returns when l is closed,
// and closes the connections.
func (c *Client) ServeQuestions(l net.Listener) error {
	var mu sync.Mutex
	open := map[net.Conn]bool{}
	defer func() {
		mu.Lock()
		defer mu.Unlock()
		for conn := range open {
			conn.Close()
		}
	}()
	for {
		conn, err := l.Accept()
		if errors.Is(err, net.ErrClosed) {
			return err
		}
		if err != nil { // too many files may be open now
			time.Sleep(acceptAgain)
			continue
		}
		mu.Lock()
		open[conn] = true
		mu.Unlock()
		go func() {
			c.answer(conn)
			mu.Lock()
			delete(open, conn)
			mu.Unlock()
		}()
	}
}

func (c *Client) answer(conn net.Conn) {
	defer conn.Close()
	lines := bufio.NewScanner(conn)
	lines.Buffer(nil, longestLine+1)
	lines.Split(wholeLines)
	for lines.Scan() {
		if len(lines.Bytes()) == 0 {
			continue // metad doesn't answer it either
		}
		reply := `{"fault":5,"name":"BadLine"}` + "\n"
		if isQuestion(lines.Bytes()) {
			text := append(append([]byte{}, lines.Bytes()...), '\n')
			replies, err := c.send(text, 1)
			if err != nil {
				return
			}
			reply = replies[0]
		}
		if _, err := io.WriteString(conn, reply); err != nil {
			return
		}
	}
}

// wholeLines splits as bufio.ScanLines does, but leaves a carriage return: metad answers a line that
// has nothing else.
func wholeLines(data []byte, atEOF bool) (advance int, line []byte, err error) {
	if end := bytes.IndexByte(data, '\n'); end >= 0 {
		return end + 1, data[:end], nil
	}
	if atEOF && len(data) > 0 {
		return len(data), data, nil
	}
	return 0, nil, nil
}

// isQuestion says whether a line asks for rows, or for what a collection would do. A member that
// stands twice counts as it does for metad: the last value is taken.
func isQuestion(line []byte) bool {
	var members map[string]json.RawMessage
	var op string
	if json.Unmarshal(line, &members) != nil || json.Unmarshal(members["op"], &op) != nil {
		return false
	}
	switch op {
	case "gc.explain", "gc.impact", "gc.plan", "lease.resources", "snap.snapshotters":
		return true
	}
	return strings.HasSuffix(op, ".get") || strings.HasSuffix(op, ".list")
}
