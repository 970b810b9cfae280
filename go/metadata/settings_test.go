package metadata

import (
	"context"
	"net"
	"os"
	"path/filepath"
	"strings"
	"syscall"
	"testing"

	"github.com/containerd/containerd/content"
	"github.com/containerd/containerd/content/local"
	"github.com/opencontainers/go-digest"

	"metad/store"
)

// world is a root, with a program that notes its words in a file "calls", tells those of serve where
// it is given none, and else runs a script.
type world struct {
	t     *testing.T
	root  string
	blobs content.Store
	c     Config
}

func newWorld(t *testing.T, script string) *world {
	w := &world{t: t, root: t.TempDir()}
	program := filepath.Join(w.root, "program")
	text := "#!/bin/sh\necho \"$*\" >> '" + filepath.Join(w.root, "calls") + "'\n" +
		"[ $# -gt 1 ] || { echo \"usage: program serve $KNOWS | new\"; exit 2; }\n" + script
	if err := os.WriteFile(program, []byte(text), 0700); err != nil {
		t.Fatal(err)
	}
	var err error
	if w.blobs, err = local.NewStore(filepath.Join(w.root, "content")); err != nil {
		t.Fatal(err)
	}
	w.c = Config{Command: []string{program, "serve"}, Workers: 3}
	return w
}

// start starts the program, waits for its end, and returns the words of its calls without the
// folder.
func (w *world) start() ([]string, error) {
	w.t.Helper()
	client, err := w.c.start(context.Background(), w.root, func() (string, error) {
		return store.Traces(context.Background(), w.folders(), w.blobs, nil)
	})
	if err == nil {
		client.Close()
	}
	calls, _ := os.ReadFile(filepath.Join(w.root, "calls"))
	text := strings.ReplaceAll(string(calls), w.c.folder(w.root), "FOLDER")
	return strings.Split(strings.TrimSpace(text), "\n"), err
}

func (w *world) folders() store.Folders {
	return store.Folders{Content: filepath.Join(w.root, "content"),
		Snapshotters: map[string]string{"native": filepath.Join(w.root, "native")}}
}

func (w *world) write(elements ...string) {
	w.t.Helper()
	path := filepath.Join(append([]string{w.root}, elements...)...)
	os.MkdirAll(filepath.Dir(path), 0700)
	if err := os.WriteFile(path, nil, 0600); err != nil {
		w.t.Fatal(err)
	}
}

func wants(t *testing.T, calls []string, err error, want ...string) {
	t.Helper()
	if err != nil || strings.Join(calls, "\n") != strings.Join(want, "\n") {
		t.Fatalf("%v, calls %q, want %q", err, calls, want)
	}
}

// asks and serves are the words of a program that is asked for its words, and then serves.
const (
	asks   = "serve"
	serves = "serve --dir FOLDER --workers 3"
)

func TestFirstStartMakesTheStore(t *testing.T) {
	w := newWorld(t, "exit 0")
	calls, err := w.start()
	wants(t, calls, err, "serve --new --dir FOLDER", asks, serves)
}

func TestFirstStartOfAProgramWithAnotherWord(t *testing.T) {
	w := newWorld(t, `[ "$2" != --new ] || exit 2`)
	calls, err := w.start()
	wants(t, calls, err, "serve --new --dir FOLDER", "new --dir FOLDER", asks, serves)
}

func TestFirstStartOfAProgramWithoutAWord(t *testing.T) {
	w := newWorld(t, `case "$1$2" in new*|*--new) exit 2 ;; esac`)
	calls, err := w.start()
	wants(t, calls, err, "serve --new --dir FOLDER", "new --dir FOLDER", asks, serves)
}

// A first start that was cut left a store, and nothing in the folder of content.
func TestStartBehindACutFirstStart(t *testing.T) {
	w := newWorld(t, `[ "$2" != --new ] || exit 3`)
	w.write("metad", "metad.journal")
	calls, err := w.start()
	wants(t, calls, err, "serve --new --dir FOLDER", asks, serves)
}

func TestLaterStartMakesNoStore(t *testing.T) {
	w := newWorld(t, "exit 0")
	w.write("content", "metad.id")
	w.write("metad", "metad.journal-wal")
	calls, err := w.start()
	wants(t, calls, err, asks, serves)
}

func TestLaterStartInAFolderWhoseNameHasAPattern(t *testing.T) {
	w := newWorld(t, "exit 0")
	w.c.Folder = filepath.Join(w.root, "[a]")
	w.write("content", "metad.id")
	w.write("[a]", "metad.journal")
	calls, err := w.start()
	wants(t, calls, err, asks, serves)
}

func TestRepliesAreNumberedWhereTheProgramCan(t *testing.T) {
	t.Setenv("KNOWS", "--dir DIR [--numbered]")
	w := newWorld(t, "exit 0")
	w.write("content", "metad.id")
	w.write("metad", "metad.journal")
	calls, err := w.start()
	wants(t, calls, err, asks, serves+" --numbered")
}

func TestTheClockIsAWordWhereTheProgramCan(t *testing.T) {
	for _, it := range []struct {
		knows string
		clock int
		want  string
	}{
		{"--dir DIR [--clock SECONDS]", Settings.Clock, " --clock 86400"},
		{"--dir DIR [--clock SECONDS] [--numbered]", 60, " --clock 60 --numbered"},
		{"--dir DIR [--clock SECONDS]", 0, ""}, {"--dir DIR", Settings.Clock, ""},
	} {
		t.Setenv("KNOWS", it.knows)
		w := newWorld(t, "exit 0")
		w.c.Clock = it.clock
		w.write("content", "metad.id")
		w.write("metad", "metad.journal")
		calls, err := w.start()
		wants(t, calls, err, asks, serves+it.want)
	}
}

func TestStoreThatIsGoneIsNotMadeAgain(t *testing.T) {
	w := newWorld(t, "exit 0")
	w.write("content", "metad.id")
	calls, err := w.start()
	if err == nil || !strings.Contains(err.Error(), "has no store") || calls[0] != "" {
		t.Fatalf("%v, calls %q, want a refusal and no call", err, calls)
	}
}

// What a store has left may be blobs alone, or the identity in a snapshotter's folder.
func TestNoStoreIsMadeBesideFiles(t *testing.T) {
	blob := filepath.Join("content", "blobs", "sha256", digest.FromString("").Encoded())
	for _, left := range []string{blob, filepath.Join("native", "metad.id")} {
		w := newWorld(t, "exit 0")
		w.write(left)
		calls, err := w.start()
		if err == nil || !strings.Contains(err.Error(), "has no store") || calls[0] != "" {
			t.Fatalf("%s: %v, calls %q, want a refusal and no call", left, err, calls)
		}
		if _, err := os.Stat(filepath.Join(w.root, "metad")); err == nil {
			t.Fatalf("%s: a refused start made the store's folder", left)
		}
	}
}

func TestSocketIsItsOwnersFromItsFirstMoment(t *testing.T) {
	folder := t.TempDir()
	path := filepath.Join(folder, "sock")
	watch, err := syscall.InotifyInit1(syscall.IN_NONBLOCK)
	if err != nil {
		t.Fatal(err)
	}
	defer syscall.Close(watch)
	if _, err := syscall.InotifyAddWatch(watch, folder, syscall.IN_ATTRIB); err != nil {
		t.Fatal(err)
	}
	defer syscall.Umask(syscall.Umask(0))
	l, err := listen(path)
	if err != nil {
		t.Fatal(err)
	}
	defer l.Close()
	info, err := os.Stat(path)
	if err != nil || info.Mode() != os.ModeSocket|0600 {
		t.Fatalf("%v %v, want a socket of its owner", info, err)
	}
	var events [512]byte
	if n, err := syscall.Read(watch, events[:]); err != syscall.EAGAIN {
		t.Fatalf("%d bytes, %v: the mode was another before", n, err)
	}
}

func TestSocketTakesThePlaceOfAnOldOneOnly(t *testing.T) {
	path := filepath.Join(t.TempDir(), "sock")
	old, err := net.Listen("unix", path)
	if err != nil {
		t.Fatal(err)
	}
	old.(*net.UnixListener).SetUnlinkOnClose(false)
	old.Close()
	l, err := listen(path)
	if err != nil {
		t.Fatal(err)
	}
	l.Close()
	if err := os.WriteFile(path, []byte("text"), 0600); err != nil {
		t.Fatal(err)
	}
	if _, err := listen(path); err == nil {
		t.Fatal("a file was taken for an old socket")
	}
}

func TestStoreThatCannotBeMade(t *testing.T) {
	w := newWorld(t, "echo no room >&2; exit 1")
	calls, err := w.start()
	if err == nil || !strings.Contains(err.Error(), "no room") || len(calls) != 1 {
		t.Fatalf("%v, calls %q, want what the program said", err, calls)
	}
}
