// Package metad speaks the lines of a metad process, or of a socket that one answers: a request is
// a line of JSON, and so is its reply. The lines of concurrent callers share one stream.
package metad

import (
	"bufio"
	"bytes"
	"context"
	"errors"
	"fmt"
	"io"
	"net"
	"os"
	"os/exec"
	"strconv"
	"strings"
	"sync"
	"sync/atomic"
	"syscall"

	"github.com/containerd/containerd/errdefs"

	"metad/internal/knows"
)

// Client sends lines to one process or socket.
type Client struct {
	closeInput func() error
	// wait returns how the other side ended. It is called once, behind its last reply.
	wait func() error
	done chan struct{}

	numbered bool // each reply begins with its line's number and a space

	// sendL gives the lines the order of their calls.
	sendL sync.Mutex
	in    io.Writer

	callsL sync.Mutex
	calls  []*call // those that still miss replies, in the order of their lines
	err    error   // why no line is taken any more

	trips, lines atomic.Uint64
}

// call has the replies to lines that were sent together.
type call struct {
	replies []string
	missing int
	done    chan struct{}
}

// StartService starts a metad program that keeps a store. The command is the program and its word
// serve. Two words are given if serve has them. By --numbered each reply begins with its line's
// number: a reply to another line than the one that waits ends the client. By --clock a line whose
// moment is more than so many seconds from the program's clock is refused, where clock isn't 0.
func StartService(ctx context.Context, command []string, clock int, words ...string) (*Client, error) {
	known := knows.Words(ctx, command)
	args := append(command[1:len(command):len(command)], words...)
	if clock > 0 && known["--clock"] {
		args = append(args, "--clock", strconv.Itoa(clock))
	}
	numbered := known["--numbered"]
	if numbered {
		args = append(args, "--numbered")
	}
	return start(numbered, command[0], args)
}

// Start runs a program that answers each line of its input by a line. Signals of the terminal don't
// reach it: its input ends when this process does.
func Start(program string, args ...string) (*Client, error) { return start(false, program, args) }

func start(numbered bool, program string, args []string) (*Client, error) {
	cmd := exec.Command(program, args...)
	cmd.Stderr = os.Stderr
	cmd.SysProcAttr = &syscall.SysProcAttr{Setpgid: true}
	in, err := cmd.StdinPipe()
	if err != nil {
		return nil, err
	}
	out, err := cmd.StdoutPipe()
	if err != nil {
		return nil, err
	}
	if err := cmd.Start(); err != nil {
		return nil, err
	}
	widen(out)
	c := &Client{in: in, closeInput: in.Close, numbered: numbered, wait: func() error {
		cmd.Wait()
		return errors.New(cmd.ProcessState.String())
	}}
	c.begin(out)
	return c, nil
}

// widest is the size of the pipe of replies: a listing needs few turns of both sides.
const widest = 1 << 20

// widen gives a pipe more room, if the system allows it.
func widen(pipe io.Reader) {
	const setSize = 1031 // F_SETPIPE_SZ
	if file, ok := pipe.(*os.File); ok {
		if conn, err := file.SyscallConn(); err == nil {
			conn.Control(func(fd uintptr) {
				syscall.Syscall(syscall.SYS_FCNTL, fd, setSize, widest)
			})
		}
	}
}

// Dial connects to a Unix socket on which lines are answered.
func Dial(path string) (*Client, error) {
	conn, err := net.Dial("unix", path)
	if err != nil {
		return nil, err
	}
	c := &Client{in: conn, closeInput: conn.(*net.UnixConn).CloseWrite, wait: func() error {
		conn.Close()
		return errors.New("the connection is closed")
	}}
	c.begin(conn)
	return c, nil
}

// begin has the client read what the other side writes.
func (c *Client) begin(out io.Reader) {
	c.done = make(chan struct{})
	go c.read(bufio.NewReaderSize(out, 1<<16))
}

// Done is closed when the other side has ended.
func (c *Client) Done() <-chan struct{} { return c.done }

// Close ends the input of the other side, which answers what it has, and waits for its end.
func (c *Client) Close() error {
	err := c.closeInput()
	<-c.done
	return err
}

// Trips returns how many groups of lines were sent, and how many lines.
func (c *Client) Trips() (trips, lines uint64) {
	return c.trips.Load(), c.lines.Load()
}

func (c *Client) read(out *bufio.Reader) {
	lines := lineReader{in: out}
	for number := uint64(1); ; number++ {
		line, err := lines.next()
		if err != nil {
			break
		}
		if err := c.take(line, number); err != nil {
			// No caller may get another's reply, so nothing is read any more.
			c.fail(err)
			c.closeInput()
			io.Copy(io.Discard, out)
			break
		}
	}
	c.fail(fmt.Errorf("metad has ended: %v", c.wait()))
	close(c.done)
}

// mostKept is how long a line may be whose room is kept for the next.
const mostKept = 1 << 20

// lineReader reads lines. A line that is longer than the reader's buffer, as that of a listing, is
// put together in room that is kept.
type lineReader struct {
	in   *bufio.Reader
	long []byte
}

// next returns a line with its line feed.
func (l *lineReader) next() (string, error) {
	part, err := l.in.ReadSlice('\n')
	if err != bufio.ErrBufferFull {
		return string(part), err
	}
	l.long = l.long[:0]
	for err == bufio.ErrBufferFull {
		l.long = append(l.long, part...)
		part, err = l.in.ReadSlice('\n')
	}
	l.long = append(l.long, part...)
	line := string(l.long)
	if len(l.long) > mostKept {
		l.long = nil
	}
	return line, err
}

// take takes the reply to the line of this number.
func (c *Client) take(reply string, number uint64) error {
	if c.numbered {
		own := strconv.FormatUint(number, 10) + " "
		if !strings.HasPrefix(reply, own) {
			return fmt.Errorf("metad sent %.30q where the reply to line %d was due", reply, number)
		}
		reply = reply[len(own):]
	}
	if !c.deliver(reply) {
		return errors.New("metad sent a reply that no line asked for")
	}
	return nil
}

// deliver hands a reply to the first call that misses one. It returns false if there is none.
func (c *Client) deliver(line string) bool {
	c.callsL.Lock()
	defer c.callsL.Unlock()
	if len(c.calls) == 0 {
		return false
	}
	first := c.calls[0]
	first.replies = append(first.replies, line)
	if first.missing--; first.missing == 0 {
		c.calls = c.calls[1:]
		close(first.done)
	}
	return true
}

// fail ends all calls. The first reason counts.
func (c *Client) fail(reason error) {
	c.callsL.Lock()
	defer c.callsL.Unlock()
	if c.err == nil {
		c.err = fmt.Errorf("%v: %w", reason, errdefs.ErrUnavailable)
	}
	for _, call := range c.calls {
		close(call.done)
	}
	c.calls = nil
}

// Do sends the lines next to each other, so no other caller's line comes between, and returns their
// replies. A refusal isn't an error of Do. If ctx has ended nothing is sent; afterwards ctx isn't
// asked, since lines that were sent are done.
func (c *Client) Do(ctx context.Context, lines ...Line) ([]Reply, error) {
	if err := ctx.Err(); err != nil {
		return nil, err
	}
	if len(lines) == 0 {
		return nil, nil
	}
	var text bytes.Buffer
	for _, line := range lines {
		if err := line.encode(&text); err != nil {
			return nil, err
		}
	}
	texts, err := c.send(text.Bytes(), len(lines))
	if err != nil {
		return nil, err
	}
	replies := make([]Reply, len(lines))
	for i, text := range texts {
		if err := readReply(text, &replies[i]); err != nil {
			return nil, fmt.Errorf("reply to %v: %w", lines[i]["op"], err)
		}
		replies[i].line = lines[i]
	}
	return replies, nil
}

// Call sends one line and returns its reply. A refusal is an error.
func (c *Client) Call(ctx context.Context, line Line) (Reply, error) {
	replies, err := c.Do(ctx, line)
	if err != nil {
		return Reply{}, err
	}
	return replies[0], replies[0].Err()
}

// send writes lines, and returns as many replies.
func (c *Client) send(text []byte, lines int) ([]string, error) {
	call := &call{missing: lines, done: make(chan struct{})}
	if err := c.write(text, call); err != nil {
		return nil, err
	}
	<-call.done
	if len(call.replies) < lines {
		c.callsL.Lock()
		defer c.callsL.Unlock()
		return nil, c.err
	}
	return call.replies, nil
}

func (c *Client) write(text []byte, call *call) error {
	c.sendL.Lock()
	defer c.sendL.Unlock()

	c.callsL.Lock()
	if err := c.err; err != nil {
		c.callsL.Unlock()
		return err
	}
	c.calls = append(c.calls, call)
	c.callsL.Unlock()

	c.trips.Add(1)
	c.lines.Add(uint64(call.missing))
	if _, err := c.in.Write(text); err != nil {
		return fmt.Errorf("metad takes no lines: %v: %w", err, errdefs.ErrUnavailable)
	}
	return nil
}
