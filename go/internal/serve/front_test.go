package serve

import (
	"bufio"
	"bytes"
	"fmt"
	"io"
	"math/rand"
	"net"
	"os"
	"path/filepath"
	"runtime"
	"strings"
	"sync"
	"testing"
	"time"
)

const asService = "METAD_SERVE_TEST_SERVICE"

// TestMain runs the tests, or answers each line by itself, as the service of a test.
func TestMain(m *testing.M) {
	if os.Getenv(asService) == "" {
		os.Exit(m.Run())
	}
	lines, replies := bufio.NewReaderSize(os.Stdin, 1<<16), bufio.NewWriter(os.Stdout)
	for {
		line, err := lines.ReadBytes('\n')
		if err != nil {
			os.Exit(0)
		}
		_, _ = replies.Write(line)
		if lines.Buffered() == 0 {
			_ = replies.Flush()
		}
	}
}

// served starts a front over a service that answers each line by itself. end ends it, and returns
// its status.
func served(t *testing.T, idle time.Duration) (path string, front *Front, end func() int) {
	t.Helper()
	t.Setenv(asService, "yes")
	path = filepath.Join(t.TempDir(), "socket")
	l, err := listen(path, "")
	if err != nil {
		t.Fatal(err)
	}
	options := Options{Command: []string{os.Args[0]}, Clients: 64, Idle: idle}
	front = newFront(options, []*listener{l})
	status := make(chan int)
	go func() {
		runtime.LockOSThread() // the service lives as long as this thread
		status <- front.serve(make(chan os.Signal))
	}()
	return path, front, func() int {
		front.stop()
		return <-status
	}
}

// talk sends lines of a client's own, cut anywhere, and wants the same back.
func talk(path string, number int) error {
	chance := rand.New(rand.NewSource(int64(number)))
	conn, err := net.Dial("unix", path)
	if err != nil {
		return err
	}
	defer conn.Close()
	var sent, wanted bytes.Buffer
	for line := 0; line < 300; line++ {
		text := fmt.Sprintf("%d.%d %s", number, line, strings.Repeat("x", chance.Intn(2000)))
		wanted.WriteString(text + "\n")
		sent.WriteString(strings.Repeat("\n", chance.Intn(3)) + text + "\n")
	}
	sent.WriteString(strings.Repeat("\n", chance.Intn(3)) + "half")
	go func() {
		for sent.Len() > 0 {
			_, _ = conn.Write(sent.Next(1 + chance.Intn(30000)))
		}
		_ = conn.(*net.UnixConn).CloseWrite()
	}()
	got, err := io.ReadAll(conn)
	if err != nil || !bytes.Equal(got, wanted.Bytes()) {
		return fmt.Errorf("client %d got %d bytes of %d: %v", number, len(got), wanted.Len(), err)
	}
	return nil
}

func TestClientsAtOnceGetTheirOwn(t *testing.T) {
	path, front, end := served(t, time.Minute)
	var all sync.WaitGroup
	for number := 0; number < 24; number++ {
		all.Add(2)
		go func(number int) {
			defer all.Done()
			if err := talk(path, number); err != nil {
				t.Error(err)
			}
		}(number)
		go func() { // leaves without reading
			defer all.Done()
			if conn, err := net.Dial("unix", path); err == nil {
				_, _ = conn.Write([]byte(strings.Repeat("gone\n", 3000)))
				_ = front.metrics()
				_ = conn.Close()
			}
		}()
	}
	all.Wait()
	if status := end(); status != Done {
		t.Errorf("it ends with %d", status)
	}
	if _, err := os.Lstat(path); !os.IsNotExist(err) {
		t.Errorf("its socket is left: %v", err)
	}
}

func TestAnEndWhileClientsSend(t *testing.T) {
	path, _, end := served(t, 0)
	for number := 0; number < 20; number++ {
		conn, err := net.Dial("unix", path)
		if err != nil {
			t.Fatal(err)
		}
		defer conn.Close()
		go func() { _, _ = conn.Write(bytes.Repeat([]byte("line\n"), 100000)) }()
		go func() { _, _ = io.Copy(io.Discard, conn) }()
	}
	if status := end(); status != Done {
		t.Errorf("it ends with %d", status)
	}
}

func TestOneOverTheLimitIsTold(t *testing.T) {
	path, front, end := served(t, 0)
	var conns []net.Conn
	for number := 0; number < front.options.Clients; number++ {
		conn, err := net.Dial("unix", path)
		if err != nil {
			t.Fatal(err)
		}
		conns = append(conns, conn)
	}
	over, err := net.Dial("unix", path)
	if err != nil {
		t.Fatal(err)
	}
	if got, _ := io.ReadAll(over); string(got) != tooMany {
		t.Errorf("it gets %q", got)
	}
	for _, conn := range conns {
		_ = conn.Close()
	}
	for front.count() > 0 {
		time.Sleep(time.Millisecond)
	}
	if err := talk(path, 1); err != nil {
		t.Error(err)
	}
	if status := end(); status != Done {
		t.Errorf("it ends with %d", status)
	}
}

func TestAFaultEndsTheFront(t *testing.T) {
	path, front, end := served(t, 0)
	if err := talk(path, 1); err != nil {
		t.Fatal(err)
	}
	conn, err := net.Dial("unix", path)
	if err != nil {
		t.Fatal(err)
	}
	func() {
		defer front.guard()
		panic("a fault")
	}()
	_ = conn.SetDeadline(time.Now().Add(time.Minute))
	if got, err := io.ReadAll(conn); len(got) != 0 || os.IsTimeout(err) {
		t.Errorf("who waits gets %q: %v", got, err)
	}
	if status := end(); status != Failed {
		t.Errorf("it ends with %d", status)
	}
}
