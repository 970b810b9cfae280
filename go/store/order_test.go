package store

import (
	"context"
	"errors"
	"fmt"
	"os"
	"path/filepath"
	"strconv"
	"strings"
	"testing"
	"time"

	"github.com/containerd/containerd/content"
	"github.com/containerd/containerd/errdefs"
	"github.com/containerd/containerd/snapshots"
	"github.com/opencontainers/go-digest"
	ocispec "github.com/opencontainers/image-spec/specs-go/v1"

	"metad/metad"
)

var errDisk = errors.New("the disk fails")

// Commit of content: the file, then the row.

func TestBlobThatIsntMadeHasNoRow(t *testing.T) {
	w := newWorld(t)
	w.files.onCommit = func() error {
		w.contentRow(false, digest.FromString("text"))
		return errDisk
	}
	err := content.WriteBlob(w.ctx, w.s.ContentStore(), "r", strings.NewReader("text"),
		ocispec.Descriptor{Digest: digest.FromString("text"), Size: 4})
	if !errors.Is(err, errDisk) {
		t.Fatalf("%v, want the disk's error", err)
	}
	w.contentRow(false, digest.FromString("text"))
	w.files.onCommit = nil
	w.contentRow(true, w.write("text"))
}

// An ingest that another client ends while it is opened: its file is gone.

func TestIngestThatEndsWhileItIsOpenedIsOpenedAnew(t *testing.T) {
	w := newWorld(t)
	left := 2
	w.files.onWriter = func() error {
		if left == 0 {
			return nil
		}
		left--
		w.must(w.s.ContentStore().Abort(w.ctx, "r"))
		return fmt.Errorf("failed to open data file: %w", os.ErrNotExist)
	}
	dgst := digest.FromString("text")
	w.must(content.WriteBlob(w.ctx, w.s.ContentStore(), "r", strings.NewReader("text"),
		ocispec.Descriptor{Digest: dgst, Size: 4}))
	w.contentRow(true, dgst)

	tries := 0
	w.files.onWriter = func() error { tries++; return os.ErrNotExist }
	_, err := w.s.ContentStore().Writer(w.ctx, content.WithRef("s"))
	if !errors.Is(err, os.ErrNotExist) || tries != mostTries {
		t.Fatalf("%v after %d tries", err, tries)
	}
}

func TestStartMovesBlobWithoutRowToLost(t *testing.T) {
	w := newWorld(t)
	kept := w.write("kept")
	dgst := digest.FromString("no row")
	w.must(content.WriteBlob(w.ctx, w.files.Store, "99", strings.NewReader("no row"),
		ocispec.Descriptor{Digest: dgst}))
	w.reopen()
	w.hasBlob(true, kept)
	w.hasBlob(false, dgst)
	w.hasLost(true, blobPath(dgst))

	w.now = w.now.Add(lostFor - time.Minute)
	w.reopen()
	w.collect()
	w.hasLost(true, blobPath(dgst))

	w.now = w.now.Add(time.Hour)
	w.collect()
	w.hasLost(false, blobPath(dgst))
	w.hasBlob(true, kept)
}

func TestForgetRemovesLostAtOnce(t *testing.T) {
	w := newWorld(t)
	kept := w.write("kept")
	dgst := digest.FromString("no row")
	w.must(content.WriteBlob(w.ctx, w.files.Store, "99", strings.NewReader("no row"),
		ocispec.Descriptor{Digest: dgst}))
	w.reopen(WithForget)
	w.hasBlob(false, dgst)
	w.hasLost(false, blobPath(dgst))
	w.hasBlob(true, kept)
}

func TestRowGetsItsBlobBackFromLost(t *testing.T) {
	w := newWorld(t)
	w.write("another")
	dgst := w.write("text")
	w.must(w.s.lost().take(blobPath(dgst), w.now))
	w.hasBlob(false, dgst)
	w.reopen()
	w.hasBlob(true, dgst)
	if text := read(t, w.ctx, w.s.ContentStore(), dgst); text != "text" {
		t.Fatalf("read %q", text)
	}
}

func TestContentThatLostItsBlobStaysAndIsWrittenAgain(t *testing.T) {
	w := newWorld(t)
	w.write("another")
	dgst := w.write("text")
	w.must(os.Remove(w.path("content", blobPath(dgst))))
	w.reopen()
	w.contentRow(true, dgst)
	err := content.WriteBlob(w.ctx, w.s.ContentStore(), "again", strings.NewReader("text"),
		ocispec.Descriptor{Digest: dgst, Size: 4})
	if err != nil && !errdefs.IsAlreadyExists(err) {
		t.Fatal(err)
	}
	w.hasBlob(true, dgst)
	w.contentRow(true, dgst)
}

// A row that metad refuses leaves a blob that the next collection removes, unless another namespace
// has it.
func TestRefusedRowLeavesNoBlob(t *testing.T) {
	w := newWorld(t)
	shared := w.write("shared")
	for _, text := range []string{"refused", "shared"} {
		w.files.onCommit = func() error {
			w.do(metad.Line{"op": "ingest.abort", "ns": "two", "ref": text})
			return nil
		}
		ctx := inNamespace("two")
		cw, err := content.OpenWriter(ctx, w.s.ContentStore(), content.WithRef(text))
		w.must(err)
		cw.Write([]byte(text))
		if err := cw.Commit(ctx, 0, ""); !errdefs.IsNotFound(err) {
			t.Fatalf("%v, want not found", err)
		}
	}
	w.hasBlob(true, digest.FromString("refused"))
	w.collect()
	w.hasBlob(false, digest.FromString("refused"))
	w.hasBlob(true, shared)
}

func TestStartMovesIngestWithoutRowToLost(t *testing.T) {
	w := newWorld(t)
	for _, ref := range []string{"kept", "aborted"} {
		cw, err := content.OpenWriter(w.lease("holder"), w.s.ContentStore(), content.WithRef(ref))
		w.must(err)
		cw.Write([]byte(ref))
		w.must(cw.Close())
	}
	kept := w.row(true, getIngest("kept").With("ns", "one")).Number
	aborted := w.row(true, getIngest("aborted").With("ns", "one")).Number
	w.do(metad.Line{"op": "ingest.abort", "ns": "one", "ref": "aborted"})
	half := filepath.Join("ingest", strings.Repeat("0", 64))
	w.must(os.Mkdir(w.path("content", half), 0700))
	w.do(metad.Line{"op": "gc.run", "at": w.s.now()}) // and the daemon ends before it removes
	w.reopen()
	w.hasLost(true, ingestPath(ingestFolder(aborted)))
	w.hasLost(true, half)
	w.hasLost(false, ingestPath(ingestFolder(kept)))
	status, err := w.s.ContentStore().Status(w.ctx, "kept")
	if err != nil || status.Offset != 4 {
		t.Fatalf("%v, offset %d, want 4", err, status.Offset)
	}
}

// What the next collection removes isn't lost: the daemon ended behind a removal.
func TestStartLeavesWhatTheNextCollectionRemoves(t *testing.T) {
	w := newWorld(t)
	cw, err := content.OpenWriter(w.lease("holder"), w.s.ContentStore(), content.WithRef("aborted"))
	w.must(err)
	w.must(cw.Close())
	aborted := ingestPath(ingestFolder(w.row(true, getIngest("aborted").With("ns", "one")).Number))
	dgst, number := w.write("text"), w.snapshot("base", "")
	w.do(metad.Line{"op": "ingest.abort", "ns": "one", "ref": "aborted"},
		metad.Line{"op": "content.remove", "ns": "one", "digest": dgst},
		metad.Line{"op": "snap.remove", "ns": "one", "snapshotter": "native", "key": "base"})
	w.reopen()
	for _, path := range []string{aborted, blobPath(dgst),
		snapshotPath("native", backendKey(number, "committed"))} {
		w.hasLost(false, path)
	}
	w.hasBlob(true, dgst)
	w.collect()
	w.hasBlob(false, dgst)
	w.hasSnapshot(false, backendKey(number, "committed"))
	if _, err := os.Stat(w.path("content", aborted)); !errors.Is(err, os.ErrNotExist) {
		t.Fatalf("%v, want no ingest", err)
	}
}

// New snapshot: the row, then the backend.

func TestSnapshotThatWasNeverMadeGoesAtStart(t *testing.T) {
	w := newWorld(t)
	w.snapshot("base", "")
	w.do(metad.Line{"op": "snap.prepare", "ns": "one", "snapshotter": "native", "key": "never",
		"parent": "base"})
	w.reopen()
	w.snapshotRow(false, "never")
	w.snapshotRow(true, "base")
	_, err := w.s.Snapshotter("native").Prepare(w.ctx, "never", "base")
	w.must(err)
}

func TestBackendThatMakesNoSnapshotLeavesNoRow(t *testing.T) {
	w := newWorld(t)
	w.snapshot("base", "")
	w.native.onPrepare = errDisk
	if _, err := w.s.Snapshotter("native").Prepare(w.ctx, "never", "base"); !errors.Is(err, errDisk) {
		t.Fatalf("%v, want the disk's error", err)
	}
	w.snapshotRow(false, "never")
}

// Containerd's snapshotters make a folder before they commit its name.
func TestFolderThatACrashLeftIsInNoSnapshotsWay(t *testing.T) {
	w := newWorld(t)
	for number, key := range []string{"first", "second"} {
		w.must(os.MkdirAll(w.path("native", "snapshots", strconv.Itoa(number+1), "fs"), 0700))
		_, err := w.s.Snapshotter("native").Prepare(w.ctx, key, "")
		w.must(err)
		w.snapshotRow(true, key)
	}
}

// As the test before, of the first snapshot of all: overlayfs' clean-up finds no folder until there
// has been one.
func TestStartRemovesWhatACrashLeftOfTheFirstSnapshot(t *testing.T) {
	w := newOverlayWorld(t)
	w.do(metad.Line{"op": "ns.add", "ns": "one"},
		metad.Line{"op": "snap.prepare", "ns": "one", "snapshotter": "overlayfs", "key": "never"})
	for _, name := range []string{"1", "new-7"} {
		w.must(os.MkdirAll(w.path("overlayfs", "snapshots", name, "fs"), 0700))
	}
	w.reopen()
	w.hasOverlayFolders(0)
	_, err := w.s.Snapshotter("overlayfs").Prepare(w.ctx, "first", "")
	w.must(err)
}

// Folders of a snapshotter that has lost its database may have the files of rows.
func TestStartRemovesNoFolderThatMayHaveARow(t *testing.T) {
	w := newOverlayWorld(t)
	sn, ctx := w.s.Snapshotter("overlayfs"), w.lease("holder")
	_, err := sn.Prepare(ctx, "work", "")
	w.must(err)
	w.must(sn.Commit(ctx, "base", "work"))
	w.end()
	w.must(os.Remove(w.path("overlayfs", "metadata.db")))
	w.mustOpen()
	w.hasOverlayFolders(1)
}

// hasOverlayFolders fails if overlayfs has another number of folders of snapshots.
func (w *world) hasOverlayFolders(count int) {
	w.t.Helper()
	found, err := os.ReadDir(w.path("overlayfs", "snapshots"))
	w.must(err)
	if len(found) != count {
		w.t.Fatalf("%v: want %d folders", found, count)
	}
}

// A client that leaves in the middle of a step doesn't keep the step from its second half.
func TestClientThatLeavesLeavesNoHalf(t *testing.T) {
	w := newWorld(t)
	ctx, cancel := context.WithCancel(w.lease("holder"))
	w.native.onPrepare = errDisk
	w.native.before = cancel
	if _, err := w.s.Snapshotter("native").Prepare(ctx, "never", ""); !errors.Is(err, errDisk) {
		t.Fatalf("%v, want the disk's error", err)
	}
	w.snapshotRow(false, "never")

	ctx, cancel = context.WithCancel(w.lease("holder"))
	w.files.onCommit = func() error {
		cancel()
		return nil
	}
	dgst := digest.FromString("text")
	w.must(content.WriteBlob(ctx, w.s.ContentStore(), "r", strings.NewReader("text"),
		ocispec.Descriptor{Digest: dgst, Size: 4}))
	w.contentRow(true, dgst)
	w.hasBlob(true, dgst)
}

// Commit of a snapshot: the row, then the backend.

func TestStartCommitsBackendAsItsRow(t *testing.T) {
	w := newWorld(t)
	w.snapshot("other", "")
	mounts, err := w.s.Snapshotter("native").Prepare(w.lease("holder"), "work", "")
	w.must(err)
	w.must(os.WriteFile(filepath.Join(mounts[0].Source, "file"), []byte("text"), 0600))
	w.do(metad.Line{"op": "snap.commit", "ns": "one", "snapshotter": "native", "key": "work",
		"name": "done", "lease": "holder"})
	number := w.snapshotRow(true, "done").Number
	w.hasSnapshot(false, backendKey(number, "committed"))
	w.reopen()
	w.hasSnapshot(true, backendKey(number, "committed"))
	w.hasFile("done", "file")
}

func TestBackendThatDoesntCommitLosesNothing(t *testing.T) {
	w := newWorld(t)
	sn := w.s.Snapshotter("native")
	mounts, err := sn.Prepare(w.lease("holder"), "work", "")
	w.must(err)
	w.must(os.WriteFile(filepath.Join(mounts[0].Source, "file"), []byte("text"), 0600))
	w.native.onCommit = errDisk
	if err := sn.Commit(w.lease("holder"), "done", "work"); !errors.Is(err, errDisk) {
		t.Fatalf("%v, want the disk's error", err)
	}
	w.collect()
	w.native.onCommit = nil
	w.hasFile("done", "file")
}

// hasFile fails if a snapshot on this one hasn't the file.
func (w *world) hasFile(parent, file string) {
	w.t.Helper()
	mounts, err := w.s.Snapshotter("native").Prepare(w.lease("holder"), "on "+parent, parent)
	w.must(err)
	if _, err := os.Stat(filepath.Join(mounts[0].Source, file)); err != nil {
		w.t.Fatal(err)
	}
}

// Removal: the row, then the file.

func TestStartNotesSnapshotsWithoutRowsAndRemovesThemLater(t *testing.T) {
	w := newWorld(t)
	kept := backendKey(w.snapshot("kept", ""), "committed")
	parent, child := w.loseSnapshots()
	w.reopen()
	for _, key := range []string{parent, child} {
		w.hasSnapshot(true, key)
		w.hasLost(true, snapshotPath("native", key))
	}
	w.hasLost(false, snapshotPath("native", kept))
	w.now = w.now.Add(lostFor + time.Minute)
	w.collect()
	w.hasSnapshot(false, parent)
	w.hasSnapshot(false, child)
	w.hasSnapshot(true, kept)
	w.hasLost(false, snapshotPath("native", parent))
	w.hasCleanedUp()
}

func TestLostFilesInAFolderWhoseNameHasAPattern(t *testing.T) {
	w := newWorldIn(t, filepath.Join(t.TempDir(), "[a]"))
	dgst := w.write("text")
	w.must(w.s.lost().take(blobPath(dgst), w.now))
	parent, _ := w.loseSnapshots()
	w.reopen()
	w.hasBlob(true, dgst)
	w.hasLost(true, snapshotPath("native", parent))
	w.now = w.now.Add(lostFor + time.Minute)
	w.collect()
	w.hasSnapshot(false, parent)
}

// loseSnapshots has the daemon end behind a collection that removes a parent and its child, and
// returns their keys.
func (w *world) loseSnapshots() (parent, child string) {
	w.t.Helper()
	parent = backendKey(w.snapshot("parent", ""), "committed")
	child = backendKey(w.snapshot("child", "parent"), "committed")
	for _, key := range []string{"child", "parent"} {
		w.do(metad.Line{"op": "snap.remove", "ns": "one", "snapshotter": "native", "key": key})
	}
	w.do(metad.Line{"op": "gc.run", "at": w.s.now()})
	return parent, child
}

func TestForgetLeavesNothingToALaterCleanUp(t *testing.T) {
	w := newWorld(t)
	kept := w.snapshot("kept", "")
	parent, child := w.loseSnapshots()
	w.reopen(WithForget)
	for _, key := range []string{parent, child} {
		w.hasSnapshot(false, key)
		w.hasLost(false, snapshotPath("native", key))
	}
	w.hasCleanedUp()
	w.hasSnapshot(true, backendKey(kept, "committed"))
}

// A start may end when it has noted some of its lost snapshots, and the next one notes the others.
func TestForgetRemovesAParentWhoseChildALaterStartNoted(t *testing.T) {
	w := newWorld(t)
	w.snapshot("kept", "")
	parent, child := w.loseSnapshots()
	w.must(w.s.lost().mark(snapshotPath("native", parent), w.now.Add(-time.Minute)))
	w.reopen(WithForget)
	for _, key := range []string{parent, child} {
		w.hasSnapshot(false, key)
		w.hasLost(false, snapshotPath("native", key))
	}
	w.hasCleanedUp()
}

func TestCollectionRemovesWhatItReports(t *testing.T) {
	w := newWorld(t)
	w.write("kept")
	dgst := w.write("gone")
	number := w.snapshot("gone", "")
	w.do(metad.Line{"op": "lease.remove", "ns": "one", "id": "holder"})
	kept := w.write("held again")
	stats := w.collect()
	if stats.Blobs != 2 || stats.Snapshots != 1 {
		t.Fatalf("%d blobs and %d snapshots went, want 2 and 1", stats.Blobs, stats.Snapshots)
	}
	w.hasBlob(false, dgst)
	w.hasSnapshot(false, backendKey(number, "committed"))
	w.hasBlob(true, kept)
}

func TestFailedRemovalIsTriedAgainAndTheOthersGoOn(t *testing.T) {
	w := newWorld(t)
	var blobs []digest.Digest
	for _, text := range []string{"a", "b", "c"} {
		blobs = append(blobs, w.write(text))
	}
	parent := w.snapshot("parent", "")
	child := w.snapshot("child", "parent")
	other := w.snapshot("other", "")
	w.do(metad.Line{"op": "lease.remove", "ns": "one", "id": "holder"})
	w.files.onDelete = func(dgst digest.Digest) error {
		if dgst == blobs[1] {
			return errDisk
		}
		return nil
	}
	w.native.onRemove = func(key string) error {
		if key == backendKey(child, "committed") {
			return errDisk
		}
		return nil
	}
	w.collect()
	w.hasBlob(false, blobs[0])
	w.hasBlob(true, blobs[1])
	w.hasBlob(false, blobs[2])
	w.hasSnapshot(true, backendKey(child, "committed"))
	w.hasSnapshot(true, backendKey(parent, "committed"))
	w.hasSnapshot(false, backendKey(other, "committed"))

	w.files.onDelete, w.native.onRemove = nil, nil
	w.collect()
	w.hasBlob(false, blobs[1])
	w.hasSnapshot(false, backendKey(child, "committed"))
	w.hasSnapshot(false, backendKey(parent, "committed"))
}

func TestFailedRemovalOfABlobThatHasARowAgainIsForgotten(t *testing.T) {
	w := newWorld(t)
	dgst := w.write("text")
	w.do(metad.Line{"op": "lease.remove", "ns": "one", "id": "holder"})
	w.files.onDelete = func(digest.Digest) error { return errDisk }
	w.collect()
	w.files.onDelete = nil
	w.write("text")
	w.collect()
	w.collect()
	w.hasBlob(true, dgst)
	w.contentRow(true, dgst)
}

// A commit of a blob that a report names waits for its removal; any other passes, and questions
// too.
func TestCommitWaitsForTheRemovalOfItsBlob(t *testing.T) {
	w := newWorld(t)
	dgst := w.write("goes")
	w.do(metad.Line{"op": "lease.remove", "ns": "one", "id": "holder"})
	removing, remove := make(chan struct{}), make(chan struct{})
	w.files.onDelete = func(digest.Digest) error {
		close(removing)
		<-remove
		return nil
	}
	collected := make(chan error)
	go func() {
		_, err := w.s.GarbageCollect(w.ctx)
		collected <- err
	}()
	<-removing

	w.write("another")
	w.do(metad.Line{"op": "gc.plan", "at": w.s.now()})
	ctx := w.lease("holder")
	cw, err := content.OpenWriter(ctx, w.s.ContentStore(), content.WithRef("again"))
	w.must(err)
	cw.Write([]byte("goes"))
	committed := make(chan error)
	go func() { committed <- cw.Commit(ctx, 4, dgst) }()
	select {
	case err := <-committed:
		t.Fatalf("a commit passed the removal of its blob: %v", err)
	case <-time.After(200 * time.Millisecond):
	}
	close(remove)
	w.must(<-collected)
	w.must(<-committed)
	w.hasBlob(true, dgst)
	w.contentRow(true, dgst)
	if text := read(t, w.ctx, w.s.ContentStore(), dgst); text != "goes" {
		t.Fatalf("read %q", text)
	}
}

// A collection can't come between a blob and its row.
func TestCollectionWaitsForACommit(t *testing.T) {
	w := newWorld(t)
	dgst := w.write("text")
	w.do(metad.Line{"op": "lease.remove", "ns": "one", "id": "holder"})
	ctx := w.lease("holder")
	cw, err := content.OpenWriter(ctx, w.s.ContentStore(), content.WithRef("again"))
	w.must(err)
	cw.Write([]byte("text"))
	w.do(metad.Line{"op": "content.remove", "ns": "one", "digest": dgst})
	collected := make(chan error, 1)
	w.files.onCommit = func() error {
		go func() {
			_, err := w.s.GarbageCollect(w.ctx)
			collected <- err
		}()
		select {
		case err := <-collected:
			t.Errorf("a collection passed a commit: %v", err)
			collected <- err
		case <-time.After(200 * time.Millisecond):
		}
		return nil
	}
	w.must(cw.Commit(ctx, 4, dgst))
	w.must(<-collected)
	w.hasBlob(true, dgst)
	w.contentRow(true, dgst)
}

// What is there already is held by the lease that asked for it, so it stays when the first one ends.
func TestWhatIsThereIsHeld(t *testing.T) {
	w := newWorld(t)
	dgst := w.write("text")
	w.snapshot("base", "")
	sn := w.s.Snapshotter("native")
	second := w.lease("second")
	_, err := content.OpenWriter(second, w.s.ContentStore(), content.WithRef("again"),
		content.WithDescriptor(ocispec.Descriptor{Digest: dgst}))
	if !errdefs.IsAlreadyExists(err) {
		t.Fatalf("%v, want already exists", err)
	}
	_, err = sn.Prepare(second, "other", "", snapshots.WithLabels(
		map[string]string{labelSnapshotRef: "base"}))
	if !errdefs.IsAlreadyExists(err) {
		t.Fatalf("%v, want already exists", err)
	}
	w.do(metad.Line{"op": "lease.remove", "ns": "one", "id": "holder"})
	w.collect()
	w.hasBlob(true, dgst)
	w.contentRow(true, dgst)
	w.snapshotRow(true, "base")

	mounts, err := sn.Prepare(second, "work", "")
	if err != nil || len(mounts) == 0 {
		t.Fatal(err)
	}
	if err := sn.Commit(w.lease("third"), "base", "work"); !errdefs.IsAlreadyExists(err) {
		t.Fatalf("%v, want already exists", err)
	}
	w.do(metad.Line{"op": "lease.remove", "ns": "one", "id": "second"})
	w.collect()
	w.snapshotRow(true, "base")
	w.hasBlob(false, dgst)
}
