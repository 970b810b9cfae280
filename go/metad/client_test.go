package metad

import (
	"bufio"
	"bytes"
	"context"
	"encoding/json"
	"errors"
	"fmt"
	"io"
	"net"
	"os"
	"path/filepath"
	"strings"
	"sync"
	"syscall"
	"testing"

	"github.com/containerd/containerd/errdefs"
)

var background = context.Background()

// answered returns a client of a socket on which answer gives the reply to each line.
func answered(t *testing.T, answer func(line string) string) *Client {
	t.Helper()
	path := filepath.Join(t.TempDir(), "sock")
	l, err := net.Listen("unix", path)
	if err != nil {
		t.Fatal(err)
	}
	t.Cleanup(func() { l.Close() })
	go func() {
		conn, err := l.Accept()
		if err != nil {
			return
		}
		defer conn.Close()
		for lines := bufio.NewScanner(conn); lines.Scan(); {
			fmt.Fprint(conn, answer(lines.Text()))
		}
	}()
	c, err := Dial(path)
	if err != nil {
		t.Fatal(err)
	}
	return c
}

// named answers with the name that a line asks for.
func named(line string) string {
	var request struct{ Name string }
	json.Unmarshal([]byte(line), &request)
	return fmt.Sprintf(`{"names":[%q],"ok":true}`+"\n", request.Name)
}

func TestEachCallerGetsItsReplies(t *testing.T) {
	c := answered(t, named)
	defer c.Close()
	var callers sync.WaitGroup
	for i := 0; i < 20; i++ {
		callers.Add(1)
		go func(i int) {
			defer callers.Done()
			for j := 0; j < 50; j++ {
				a, b := fmt.Sprintf("%d a %d", i, j), fmt.Sprintf("%d b %d", i, j)
				replies, err := c.Do(background, Line{"op": "x", "name": a}, Line{"op": "x", "name": b})
				if err != nil || replies[0].Names[0] != a || replies[1].Names[0] != b {
					t.Errorf("%v, %v, want %q and %q", err, replies, a, b)
					return
				}
			}
		}(i)
	}
	callers.Wait()
	if trips, lines := c.Trips(); trips != 1000 || lines != 2000 {
		t.Fatalf("%d trips and %d lines, want 1000 and 2000", trips, lines)
	}
}

func TestLinesOfAnyLengthAreReadWhole(t *testing.T) {
	lengths := []int{0, 15, 16, 17, 40, mostKept + 1, 1, 33, 16}
	var text strings.Builder
	for i, length := range lengths {
		text.WriteString(strings.Repeat(string(rune('a'+i)), length) + "\n")
	}
	text.WriteString("cut")
	lines := lineReader{in: bufio.NewReaderSize(strings.NewReader(text.String()), 16)}
	var kept []string // a line stays as it is while later ones are read
	for range lengths {
		line, err := lines.next()
		if err != nil {
			t.Fatal(err)
		}
		kept = append(kept, line)
	}
	for i, length := range lengths {
		if kept[i] != strings.Repeat(string(rune('a'+i)), length)+"\n" {
			t.Errorf("line %d: %d bytes, want %d and a line feed", i, len(kept[i]), length)
		}
	}
	if cap(lines.long) > mostKept {
		t.Errorf("room for %d bytes is kept", cap(lines.long))
	}
	if line, err := lines.next(); line != "cut" || err != io.EOF {
		t.Errorf("%q, %v, want what a cut line has", line, err)
	}
}

func TestFaultsAreContainerdsErrors(t *testing.T) {
	fault := 0
	c := answered(t, func(string) string { return fmt.Sprintf(`{"fault":%d,"name":"F"}`+"\n", fault) })
	defer c.Close()
	for i, want := range []error{errdefs.ErrInvalidArgument, errdefs.ErrNotFound,
		errdefs.ErrAlreadyExists,
		errdefs.ErrFailedPrecondition, errdefs.ErrInvalidArgument, errdefs.ErrInvalidArgument,
		errdefs.ErrUnavailable,
		errdefs.ErrUnavailable, errdefs.ErrUnknown} {
		fault = i + 1
		_, err := c.Call(background, Line{"op": "image.get", "name": "app"})
		if !errors.Is(err, want) || !strings.Contains(err.Error(), `image.get "app"`) {
			t.Errorf("fault %d is %v, want %v of the op and the name", fault, err, want)
		}
	}
}

func TestAnEndIsUnavailable(t *testing.T) {
	c := answered(t, named)
	if _, err := c.Call(background, Line{"op": "x", "name": "a"}); err != nil {
		t.Fatal(err)
	}
	c.Close()
	if _, err := c.Call(background, Line{"op": "x", "name": "a"}); !errdefs.IsUnavailable(err) {
		t.Fatalf("%v, want unavailable", err)
	}
}

// One reply too many may be another caller's, so none is handed on any more.
func TestAReplyThatNobodyAskedForEndsTheClient(t *testing.T) {
	c := answered(t, func(line string) string { return named(line) + named(line) })
	c.Call(background, Line{"op": "x", "name": "a"})
	<-c.Done()
	if _, err := c.Call(background, Line{"op": "x", "name": "b"}); !errdefs.IsUnavailable(err) {
		t.Fatalf("%v, want unavailable", err)
	}
}

func TestATextThatIsntUTF8IsRefused(t *testing.T) {
	c := answered(t, named)
	defer c.Close()
	for _, line := range []Line{{"op": "x", "name": "a\xff"},
		Line{"op": "x"}.WithLabels(map[string]string{"k": "\xff"}),
		Line{"op": "x"}.WithLabels(map[string]string{"\xff": "v"})} {
		if _, err := c.Call(background, line); !errdefs.IsInvalidArgument(err) {
			t.Errorf("%v: %v, want an invalid argument", line, err)
		}
	}
	if trips, _ := c.Trips(); trips != 0 {
		t.Fatalf("%d trips, want none", trips)
	}
}

func TestAnEndedContextSendsNothing(t *testing.T) {
	c := answered(t, named)
	defer c.Close()
	ctx, cancel := context.WithCancel(background)
	cancel()
	if _, err := c.Call(ctx, Line{"op": "x"}); !errors.Is(err, context.Canceled) {
		t.Fatalf("%v, want canceled", err)
	}
	if trips, _ := c.Trips(); trips != 0 {
		t.Fatalf("%d trips, want none", trips)
	}
}

func TestLinesLeaveOutWhatIsEmpty(t *testing.T) {
	var text bytes.Buffer
	line := Line{"op": "image.add"}.With("name", "<a>").With("lease", "").WithLabels(nil)
	if err := line.encode(&text); err != nil ||
		text.String() != `{"name":"<a>","op":"image.add"}`+"\n" {
		t.Fatalf("%v, %s", err, text.String())
	}
}

func TestAReportNamesSnapshotsByPairs(t *testing.T) {
	var r Reply
	err := json.Unmarshal([]byte(`{"report":{"backend":{"blobs":["sha256:a"],"ingests":[7],`+
		`"snapshots":[["native",3]]}}}`), &r)
	if err != nil || r.Report.Backend.Snapshots[0] != (SnapshotNumber{"native", 3}) ||
		r.Report.Backend.Ingests[0] != 7 {
		t.Fatalf("%v, %+v", err, r.Report)
	}
}

func TestQuestionsAloneAreSentOn(t *testing.T) {
	var mu sync.Mutex
	var sent []string
	c := answered(t, func(line string) string {
		mu.Lock()
		defer mu.Unlock()
		sent = append(sent, line)
		return named(line)
	})
	defer c.Close()
	path := filepath.Join(t.TempDir(), "questions")
	l, err := net.Listen("unix", path)
	if err != nil {
		t.Fatal(err)
	}
	defer l.Close()
	served := make(chan error)
	go func() { served <- c.ServeQuestions(l) }()
	conn, err := net.Dial("unix", path)
	if err != nil {
		t.Fatal(err)
	}
	defer conn.Close()
	replies := bufio.NewReader(conn)
	questions := []string{`{"op":"gc.explain","name":"a"}`, `{"op":"gc.impact"}`, `{"op":"gc.plan"}`,
		`{"op":"ns.list"}`, `{"op":"snap.snapshotters"}`, `{"op":"back.list"}`,
		`{"op":"lease.resources"}`, `{"op":"image.remove","op":"image.get"}`}
	others := []string{`{"op":"gc.run"}`, `{"op":"image.set","answer":"row"}`, `{"op":"image.remove"}`,
		`{"op":"image.get","op":"image.remove"}`,
		`{"op":"image.get","Op":"gc.run","x":1`, `{"Op":"image.get","op":"ns.remove"}`, `no line`, ` `, "\r",
		`{"op":7}`}
	for i, line := range append(append([]string{}, questions...), others...) {
		fmt.Fprintln(conn, line)
		reply, err := replies.ReadString('\n')
		if err != nil {
			t.Fatal(err)
		}
		if refused := strings.Contains(reply, "BadLine"); refused != (i >= len(questions)) {
			t.Errorf("%s is answered %s", line, reply)
		}
	}
	if mu.Lock(); strings.Join(sent, "\n") != strings.Join(questions, "\n") {
		t.Errorf("sent on:\n%s", strings.Join(sent, "\n"))
	}
	mu.Unlock()
	l.Close()
	if err := <-served; !errors.Is(err, net.ErrClosed) {
		t.Errorf("it ends by %v", err)
	}
	if _, err := replies.ReadString('\n'); err == nil {
		t.Error("a connection outlives its listener")
	}
}

// refusing is a listener of which the first Accept fails, as with too many open files.
type refusing struct {
	net.Listener
	refused bool
}

func (l *refusing) Accept() (net.Conn, error) {
	if !l.refused {
		l.refused = true
		return nil, syscall.EMFILE
	}
	return l.Listener.Accept()
}

func TestQuestionsGoOnAfterARefusedConnection(t *testing.T) {
	c := answered(t, named)
	defer c.Close()
	path := filepath.Join(t.TempDir(), "questions")
	l, err := net.Listen("unix", path)
	if err != nil {
		t.Fatal(err)
	}
	defer l.Close()
	go c.ServeQuestions(&refusing{Listener: l})
	asker, err := Dial(path)
	if err != nil {
		t.Fatal(err)
	}
	defer asker.Close()
	if r, err := asker.Call(background, Line{"op": "image.get", "name": "a"}); err != nil || r.Names[0] != "a" {
		t.Errorf("%v, %+v", err, r)
	}
}

// program writes a script that numbers its replies, or tells its words, and returns its path.
func program(t *testing.T, usage, answers string) string {
	t.Helper()
	path := filepath.Join(t.TempDir(), "program")
	text := "#!/bin/sh\n[ $# -gt 1 ] || { echo 'usage: program serve " + usage + "' >&2; exit 2; }\n" +
		"case \"$*\" in *--numbered) is=yes ;; *) is= ;; esac\nn=0\n" +
		"while read -r line; do n=$((n + 1))\n" + answers + "\ndone\n"
	if err := os.WriteFile(path, []byte(text), 0o700); err != nil {
		t.Fatal(err)
	}
	return path
}

const answersEach = `printf '%s{"names":["%s"],"ok":true}\n' "${is:+$n }" "$n"`

func TestNumbersOfRepliesAreTakenOff(t *testing.T) {
	for usage, name := range map[string]string{"--dir DIR [--numbered]": "numbered", "--dir DIR": "plain"} {
		path := program(t, usage, answersEach)
		c, err := StartService(background, []string{path, "serve"}, 0, "--dir", "d")
		if err != nil {
			t.Fatal(err)
		}
		if c.numbered != (name == "numbered") {
			t.Errorf("%s: numbered is %v", name, c.numbered)
		}
		for i := 1; i <= 3; i++ {
			r, err := c.Call(background, Line{"op": "x"})
			if err != nil || r.Names[0] != fmt.Sprint(i) {
				t.Errorf("%s: %v, %v, want the reply to line %d", name, err, r.Names, i)
			}
		}
		c.Close()
	}
}

// A reply of another line, whatever its text, ends the client: no caller gets it.
func TestAReplyToAnotherLineEndsTheClient(t *testing.T) {
	for _, answer := range []string{`echo "3 {\"ok\":true}"`, `echo "{\"ok\":true}"`,
		`echo "1 {\"ok\":true}"; echo "1 {\"ok\":true}"`, `echo "01 {\"ok\":true}"`, `echo "1{\"ok\":true}"`,
		`echo " {\"ok\":true}"`, `echo`, `echo "0 {\"ok\":true}"`} {
		c, err := StartService(background, []string{program(t, "--numbered", answer), "serve"}, 0,
			"--dir", "d")
		if err != nil {
			t.Fatal(err)
		}
		replies, err := c.Do(background, Line{"op": "x"}, Line{"op": "x"})
		if !errdefs.IsUnavailable(err) {
			t.Errorf("%s: %v, %v, want unavailable", answer, err, replies)
		}
		if err == nil || !strings.Contains(err.Error(), "was due") {
			t.Errorf("%s: %v, want the line that was due", answer, err)
		}
		c.Close()
		if _, err := c.Call(background, Line{"op": "x"}); !errdefs.IsUnavailable(err) {
			t.Errorf("%s: %v, want unavailable", answer, err)
		}
	}
}
