package store

import (
	"context"
	"fmt"
	"os"
	"os/exec"
	"path/filepath"
	"strings"
	"testing"
	"time"

	"github.com/containerd/containerd/errdefs"
	"github.com/containerd/containerd/namespaces"
	"github.com/opencontainers/go-digest"

	"metad/metad"
)

func inNamespace(ns string) context.Context {
	return namespaces.WithNamespace(context.Background(), ns)
}

// refuses fails unless a start fails with these words and leaves all files as they are.
func (w *world) refuses(words string, options ...Option) {
	w.t.Helper()
	before := w.tree()
	err := w.open(options...)
	if !errdefs.IsFailedPrecondition(err) || !strings.Contains(err.Error(), words) {
		w.t.Fatalf("%v, want a refusal with %q", err, words)
	}
	if after := w.tree(); after != before {
		w.t.Fatalf("a refused start changed files:\n%s\nwere\n%s", after, before)
	}
}

// tree lists the files of content and of the snapshotter, without its database.
func (w *world) tree() string {
	var paths []string
	for _, folder := range []string{"content", "native/snapshots"} {
		filepath.Walk(w.path(folder), func(path string, info os.FileInfo, err error) error {
			if err == nil && !info.IsDir() {
				paths = append(paths, path)
			}
			return nil
		})
	}
	return strings.Join(paths, "\n")
}

func (w *world) copy(from, to string) {
	w.t.Helper()
	w.must(os.RemoveAll(w.path(to)))
	if output, err := exec.Command("cp", "-a", w.path(from), w.path(to)).CombinedOutput(); err != nil {
		w.t.Fatalf("%v: %s", err, output)
	}
}

func TestEmptyStoreIsRefusedWhereFilesAre(t *testing.T) {
	w := newWorld(t)
	w.write("text")
	w.end()
	w.must(os.RemoveAll(w.path("rows")))
	w.refuses("this store is new")
}

func TestAnotherStoreIsRefused(t *testing.T) {
	w := newWorld(t)
	w.write("text")
	w.snapshot("base", "")
	w.end()
	other := newWorld(t)
	other.write("other text")
	other.end()
	w.must(os.RemoveAll(w.path("rows")))
	w.must(os.Rename(other.path("rows"), w.path("rows")))
	w.refuses("and this is store")
}

func TestSnapshotsOfAnotherStoreAreRefused(t *testing.T) {
	w := newWorld(t)
	w.snapshot("base", "")
	w.end()
	other := newWorld(t)
	other.snapshot("base", "")
	other.end()
	w.must(os.RemoveAll(w.path("native")))
	w.must(os.Rename(other.path("native"), w.path("native")))
	w.refuses("and this is store")
}

func TestFilesOfNoStoreAreRefused(t *testing.T) {
	w := newWorld(t)
	w.write("text")
	w.end()
	w.must(os.RemoveAll(w.path("rows")))
	w.must(os.Remove(w.path("content", identityFile)))
	w.refuses("aren't of this store")
}

// A backup is older as soon as a file was begun behind it, be it a blob or a snapshot. Every start
// refuses it: none uses up a number of the store.
func TestOlderStoreIsRefused(t *testing.T) {
	for name, change := range map[string]func(w *world){
		"a blob":     func(w *world) { w.write("newer") },
		"a snapshot": func(w *world) { w.snapshot("newer", "") },
		"a start":    func(w *world) { w.reopen() },
	} {
		t.Run(name, func(t *testing.T) {
			w := newWorld(t)
			w.write("text")
			w.end()
			w.copy("rows", "backup")
			w.mustOpen()
			change(w)
			w.end()
			w.copy("rows", "newest")
			w.copy("backup", "rows")
			for start := 0; start < 6; start++ {
				w.refuses("older than its files")
			}
			w.copy("newest", "rows")
			w.mustOpen()
		})
	}
}

// older puts the store back to what it was before a blob and a snapshot were made, and returns
// these.
func (w *world) older() (blob digest.Digest, key string) {
	w.t.Helper()
	w.write("text")
	w.end()
	w.copy("rows", "backup")
	w.mustOpen()
	blob, key = w.write("newer"), backendKey(w.snapshot("newer", ""), "committed")
	w.end()
	w.copy("rows", "newest")
	w.copy("backup", "rows")
	return blob, key
}

// cutStart ends metad while a start compares ages: the store has its mark.
func (w *world) cutStart() {
	w.t.Helper()
	w.client = serve(w.t, w.path("rows"))
	if _, err := (&Store{client: w.client, moment: time.Now}).mark(w.ctx); err != nil {
		w.t.Fatal(err)
	}
	w.client.Close()
	w.client = nil
}

func TestStartsThatAreCutDontMakeAStoreYounger(t *testing.T) {
	w := newWorld(t)
	newer, _ := w.older()
	for start := 0; start < 6; start++ {
		w.cutStart()
	}
	w.refuses("older than its files")
	w.copy("newest", "rows")
	w.cutStart()
	w.mustOpen()
	w.hasBlob(true, newer)
	w.row(false, getIngest(startRef).With("ns", ownNamespace))
	w.reopen()
}

// writeAndCollect gives numbers to files of which none is left.
func (w *world) writeAndCollect() {
	w.t.Helper()
	for _, text := range []string{"a", "b", "c"} {
		w.write(text)
	}
	w.do(metad.Line{"op": "lease.remove", "ns": "one", "id": "holder"})
	w.collect()
	w.end()
}

// Else its files had numbers that the newest store has given to others.
func TestOlderStoreIsRefusedWhereNoFileIs(t *testing.T) {
	w := newWorld(t)
	w.end()
	w.copy("rows", "backup")
	w.mustOpen()
	w.writeAndCollect()
	w.copy("backup", "rows")
	w.refuses("older than its files")
}

// What another store's witness has seen doesn't make this one look old.
func TestAnotherStoreIsTakenWhereNoFileIs(t *testing.T) {
	w := newWorld(t)
	w.writeAndCollect()
	w.must(os.RemoveAll(w.path("rows")))
	w.mustOpen()
	dgst := w.write("text")
	w.reopen()
	w.hasBlob(true, dgst)
}

// A start that is refused has changed no row, and moved no file.
func TestRefusedStartChangesNothing(t *testing.T) {
	w := newWorld(t)
	w.older()
	w.client = serve(t, w.path("rows"))
	w.do(metad.Line{"op": "lease.set", "ns": ownNamespace, "id": "store",
		"put": map[string]string{formLabel: "older"}})
	w.client.Close()
	w.refuses("older than its files")
	w.client = serve(t, w.path("rows"))
	store := w.row(true, metad.Line{"op": "lease.get", "ns": ownNamespace, "id": "store"})
	if store.Labels[formLabel] != "older" {
		t.Fatal("a refused start moved the data of rows")
	}
}

// fill has no file of the store grow over 1 MiB, and fills these.
func (w *world) fill() {
	w.t.Helper()
	w.most = "2048"
	w.client = w.serve()
	text, i := strings.Repeat("x", 40_000), 0
	for err := error(nil); !errdefs.IsUnavailable(err); i++ {
		if err != nil {
			w.t.Fatal(err)
		}
		if i == 10_000 {
			w.t.Fatal("the store takes all")
		}
		if i > 100 {
			text = ""
		}
		_, err = w.client.Call(w.ctx, metad.Line{"op": "lease.add", "ns": "one",
			"id": fmt.Sprint("full-", i)}.WithData(text))
	}
	w.client.Close()
	w.client = nil
}

// A store that takes no addition gives no number, so a start can't tell that it is older.
func TestOlderStoreOnAFullDiskLosesNoFile(t *testing.T) {
	w := newWorld(t)
	newer, key := w.older()
	w.fill()
	w.mustOpen()
	w.hasBlob(true, newer)
	w.hasLost(false, snapshotPath("native", key))
	_, err := w.s.Snapshotter("native").Prepare(w.ctx, "work", "")
	if !errdefs.IsUnavailable(err) {
		t.Fatalf("%v, want a full disk", err)
	}
	w.end()
	w.most = ""
	w.refuses("older than its files")
}

// Behind such a start the first number tells.
func TestWitnessThatIsUnsure(t *testing.T) {
	var w witness
	defer w.close()
	if err := w.begin(filepath.Join(t.TempDir(), witnessFile), 5, true); err != nil {
		t.Fatal(err)
	}
	if err := w.see(5); !errdefs.IsFailedPrecondition(err) {
		t.Fatalf("%v, want a refusal of a number that was seen", err)
	}
	for _, number := range []uint32{6, 5} {
		if err := w.see(number); err != nil {
			t.Fatal(err)
		}
	}
	if last, err := readWitness(w.file.Name()); last != 6 || err != nil {
		t.Fatalf("%d, %v, want 6", last, err)
	}
}

func TestNewestBackupIsTaken(t *testing.T) {
	w := newWorld(t)
	dgst := w.write("text")
	w.end()
	w.copy("rows", "backup")
	w.must(os.RemoveAll(w.path("rows")))
	w.copy("backup", "rows")
	w.mustOpen()
	w.contentRow(true, dgst)
	w.hasBlob(true, dgst)
}

func TestFolderThatIsntMountedIsRefused(t *testing.T) {
	w := newWorld(t)
	w.write("text")
	w.end()
	w.must(os.Rename(w.path("content"), w.path("elsewhere")))
	w.refuses("is it mounted?")
	w.must(os.RemoveAll(w.path("content")))
	w.must(os.Rename(w.path("elsewhere"), w.path("content")))
	w.mustOpen()

	w.snapshot("base", "")
	w.end()
	w.must(os.Rename(w.path("native"), w.path("elsewhere")))
	w.refuses("is it mounted?")
}

func TestTracesOfAStore(t *testing.T) {
	w := newWorld(t)
	finds := func(there bool) {
		t.Helper()
		trace, err := Traces(w.ctx, w.s.folders, w.files, w.s.backends())
		if err != nil || (trace != "") != there {
			t.Fatalf("%q, %v, want a trace %v", trace, err, there)
		}
	}
	forget := func() {
		w.must(os.Remove(w.path("content", identityFile)))
		w.must(os.Remove(w.path("native", identityFile)))
	}
	finds(true)
	forget()
	finds(false)
	key := backendKey(w.snapshot("base", ""), "committed")
	finds(true)
	w.must(w.native.Remove(w.ctx, key))
	finds(false)
	w.write("text")
	finds(true)
}

// A restore of the right store finds what a start with a wrong one moved away.
func TestAllBlobsComeBackFromLost(t *testing.T) {
	w := newWorld(t)
	a, b := w.write("a"), w.write("b")
	w.must(w.s.lost().take(blobPath(a), w.now))
	w.must(w.s.lost().take(blobPath(b), w.now.Add(time.Second)))
	w.reopen()
	w.hasBlob(true, a)
	w.hasBlob(true, b)
}

func TestSnapshotsOfAFolderThatNobodyKnows(t *testing.T) {
	w := newWorld(t)
	w.snapshot("base", "")
	w.end()
	w.must(os.Rename(w.path("native"), w.path("elsewhere")))
	stray := digest.FromString("stray")
	w.must(os.MkdirAll(w.path("content", "blobs", "sha256"), 0700))
	w.must(os.WriteFile(w.path("content", blobPath(stray)), []byte("stray"), 0600))
	w.refuses("is it mounted?", inNoFolder)
}

// inNoFolder is a start that doesn't know where the snapshotter has its files.
func inNoFolder(s *Store) { s.folders.Snapshotters = nil }

// The identity in the folder of content counts for a snapshotter whose folder nobody knows.
func TestNewStoreIsRefusedWhereOnlySuchSnapshotsAre(t *testing.T) {
	w := newWorld(t)
	w.snapshot("base", "")
	w.end()
	w.must(os.RemoveAll(w.path("rows")))
	w.must(os.RemoveAll(w.path("content")))
	w.refuses("has snapshots", inNoFolder)
}

func TestAnOlderProgramIsRefused(t *testing.T) {
	client, err := metad.Start("sh", "-c",
		`while read -r line; do echo '{"fault":5,"name":"BadLine"}'; done`)
	if err != nil {
		t.Fatal(err)
	}
	defer client.Close()
	_, err = Open(context.Background(), client, nil, nil)
	if !errdefs.IsFailedPrecondition(err) || !strings.Contains(err.Error(), "older") {
		t.Fatalf("%v, want a refusal", err)
	}
}

// A crash behind the store's first line leaves folders without files, which are the store's.
func TestStartBehindACutFirstStart(t *testing.T) {
	w := newWorld(t)
	w.end()
	w.must(os.Remove(w.path("content", identityFile)))
	w.mustOpen()
	w.write("text")
	w.reopen()
}

func TestNamespaceOfTheStoreIsNoClients(t *testing.T) {
	w := newWorld(t)
	ctx := inNamespace(ownNamespace)
	if _, err := NewLeaseManager(w.s).List(ctx); !errdefs.IsInvalidArgument(err) {
		t.Fatalf("%v, want an invalid argument", err)
	}
	if err := NewNamespaceStore(w.s).Delete(ctx, ownNamespace); !errdefs.IsInvalidArgument(err) {
		t.Fatalf("%v, want an invalid argument", err)
	}
	w.row(true, metad.Line{"op": "lease.get", "ns": ownNamespace, "id": "store"})
}
