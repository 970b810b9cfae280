package store

import (
	"bytes"
	"context"
	"os"
	"os/exec"
	"path/filepath"
	"strings"
	"testing"
	"time"

	"github.com/containerd/containerd/content"
	"github.com/containerd/containerd/content/local"
	"github.com/containerd/containerd/errdefs"
	"github.com/containerd/containerd/leases"
	"github.com/containerd/containerd/mount"
	"github.com/containerd/containerd/namespaces"
	"github.com/containerd/containerd/snapshots"
	"github.com/containerd/containerd/snapshots/native"
	"github.com/containerd/containerd/snapshots/overlay"
	"github.com/containerd/containerd/snapshots/overlay/overlayutils"
	"github.com/opencontainers/go-digest"
	ocispec "github.com/opencontainers/image-spec/specs-go/v1"

	"metad/metad"
)

// serve starts the program METAD over the store in a folder.
func serve(t *testing.T, folder string) *metad.Client {
	t.Helper()
	program := os.Getenv("METAD")
	if program == "" {
		t.Skip("METAD names no program")
	}
	if found, _ := filepath.Glob(filepath.Join(folder, "metad.journal*")); len(found) == 0 {
		os.MkdirAll(folder, 0700)
		exec.Command(program, "serve", "--new", "--dir",
			folder).Run() // a program that makes none by itself
	}
	client, err := metad.Start(program, "serve", "--dir", folder)
	if err != nil {
		t.Fatal(err)
	}
	return client
}

// world is a store with its folders, which may be opened again as after a crash.
type world struct {
	t      *testing.T
	folder string
	ctx    context.Context // of namespace "one", under no lease
	now    time.Time

	client *metad.Client
	most   string // how many blocks of 512 bytes a file of the store may have, if that is limited
	files  *failingContent
	native *failingSnapshotter
	s      *Store

	hasOverlay bool // whether the store has overlayfs too
	overlay    snapshots.Snapshotter
}

func newWorld(t *testing.T) *world { return newWorldIn(t, t.TempDir()) }

func newWorldIn(t *testing.T, folder string) *world {
	return begin(&world{t: t, folder: folder})
}

// newOverlayWorld is a world with overlayfs, if that is there.
func newOverlayWorld(t *testing.T) *world {
	if err := overlayutils.Supported(t.TempDir()); err != nil {
		t.Skipf("overlayfs: %v", err)
	}
	return begin(&world{t: t, folder: t.TempDir(), hasOverlay: true})
}

func begin(w *world) *world {
	w.ctx, w.now = namespaces.WithNamespace(context.Background(), "one"), time.Now()
	w.mustOpen()
	w.t.Cleanup(w.end)
	return w
}

func (w *world) path(elements ...string) string {
	return filepath.Join(append([]string{w.folder}, elements...)...)
}

func (w *world) serve() *metad.Client {
	w.t.Helper()
	if w.most == "" {
		return serve(w.t, w.path("rows"))
	}
	client, err := metad.Start("sh", "-c", `trap "" XFSZ; ulimit -f `+w.most+`; exec "$0" "$@"`,
		os.Getenv("METAD"), "serve", "--dir", w.path("rows"))
	w.must(err)
	return client
}

// open opens the store as a start of the daemon does.
func (w *world) open(options ...Option) error {
	w.t.Helper()
	w.client = w.serve()
	cs, err := local.NewStore(w.path("content"))
	if err != nil {
		w.t.Fatal(err)
	}
	sn, err := native.NewSnapshotter(w.path("native"))
	if err != nil {
		w.t.Fatal(err)
	}
	w.files = &failingContent{Store: cs}
	w.native = &failingSnapshotter{Snapshotter: sn}
	named, folders := map[string]snapshots.Snapshotter{"native": w.native},
		map[string]string{"native": w.path("native")}
	if w.hasOverlay {
		w.overlay, err = overlay.NewSnapshotter(w.path("overlayfs"))
		w.must(err)
		named["overlayfs"], folders["overlayfs"] = w.overlay, w.path("overlayfs")
	}
	options = append([]Option{func(s *Store) { s.moment = func() time.Time { return w.now } },
		WithFolders(Folders{Content: w.path("content"), Snapshotters: folders})}, options...)
	w.s, err = Open(w.ctx, w.client, w.files, named, options...)
	if err != nil {
		w.end()
	}
	return err
}

func (w *world) mustOpen(options ...Option) {
	w.t.Helper()
	if err := w.open(options...); err != nil {
		w.t.Fatal(err)
	}
}

// end ends both sides. What was synced is what a crash leaves.
func (w *world) end() {
	if w.client == nil {
		return
	}
	w.client.Close()
	w.native.Close()
	if w.overlay != nil {
		w.overlay.Close()
	}
	if w.s != nil {
		w.s.Close()
	}
	w.client, w.s = nil, nil
}

func (w *world) reopen(options ...Option) {
	w.t.Helper()
	w.end()
	w.mustOpen(options...)
}

// row asks for a row, and fails if the answer to whether it is there is another.
func (w *world) row(there bool, line metad.Line) metad.Row {
	w.t.Helper()
	r, err := w.client.Call(context.Background(), line)
	if err != nil && r.Fault != metad.NotFound {
		w.t.Fatal(err)
	}
	if r.OK != there {
		w.t.Fatalf("%v: there %v, want %v", line, r.OK, there)
	}
	return r.Row
}

func (w *world) do(lines ...metad.Line) {
	w.t.Helper()
	replies, err := w.client.Do(context.Background(), lines...)
	if err == nil {
		err = firstRefusal(replies)
	}
	if err != nil {
		w.t.Fatal(err)
	}
}

func (w *world) must(err error) {
	w.t.Helper()
	if err != nil {
		w.t.Fatal(err)
	}
}

// write commits content of this text, held by a lease.
func (w *world) write(text string) digest.Digest {
	w.t.Helper()
	ctx := w.lease("holder")
	dgst := digest.FromString(text)
	err := content.WriteBlob(ctx, w.s.ContentStore(), text, strings.NewReader(text),
		ocispec.Descriptor{Digest: dgst, Size: int64(len(text))})
	w.must(err)
	return dgst
}

func (w *world) lease(id string) context.Context {
	w.t.Helper()
	_, err := NewLeaseManager(w.s).Create(w.ctx, leases.WithID(id))
	if err != nil && !errdefs.IsAlreadyExists(err) {
		w.t.Fatal(err)
	}
	return leases.WithLease(w.ctx, id)
}

func (w *world) collect() Stats {
	w.t.Helper()
	stats, err := w.s.GarbageCollect(context.Background())
	w.must(err)
	return stats.(Stats)
}

// hasBlob fails if the answer to whether the file of a blob is there is another.
func (w *world) hasBlob(there bool, dgst digest.Digest) {
	w.t.Helper()
	_, err := os.Stat(w.path("content", blobPath(dgst)))
	if (err == nil) != there {
		w.t.Fatalf("blob %s: %v, want there %v", dgst, err, there)
	}
}

func (w *world) hasLost(there bool, path string) {
	w.t.Helper()
	if found := w.s.lost().find(path); (len(found) > 0) != there {
		w.t.Fatalf("%s in lost/: %v, want there %v", path, found, there)
	}
}

// hasCleanedUp fails if something of a removed snapshot is left to a later clean-up.
func (w *world) hasCleanedUp() {
	w.t.Helper()
	if len(w.native.left) > 0 {
		w.t.Fatalf("%v are removed and not cleaned up", w.native.left)
	}
}

func (w *world) hasSnapshot(there bool, key string) {
	w.t.Helper()
	if _, err := w.native.Stat(w.ctx, key); (err == nil) != there {
		w.t.Fatalf("backend snapshot %s: %v, want there %v", key, err, there)
	}
}

// snapshot commits a snapshot with one file, held by a lease, and returns its number.
func (w *world) snapshot(name, parent string) uint32 {
	w.t.Helper()
	ctx := w.lease("holder")
	sn := w.s.Snapshotter("native")
	mounts, err := sn.Prepare(ctx, "work on "+name, parent)
	w.must(err)
	w.must(os.WriteFile(filepath.Join(mounts[0].Source, name), []byte(name), 0600))
	w.must(sn.Commit(ctx, name, "work on "+name))
	return w.snapshotRow(true, name).Number
}

func (w *world) snapshotRow(there bool, key string) metad.Row {
	w.t.Helper()
	return w.row(there, metad.Line{"op": "snap.get", "ns": "one", "snapshotter": "native", "key": key})
}

func (w *world) contentRow(there bool, dgst digest.Digest) {
	w.t.Helper()
	w.row(there, getContent(dgst).With("ns", "one"))
}

// failingContent is a content store whose removals may fail or wait.
type failingContent struct {
	content.Store
	onDelete func(digest.Digest) error
	onCommit func() error
	onWriter func() error
}

func (f *failingContent) Delete(ctx context.Context, dgst digest.Digest) error {
	if f.onDelete != nil {
		if err := f.onDelete(dgst); err != nil {
			return err
		}
	}
	return f.Store.Delete(ctx, dgst)
}

func (f *failingContent) Writer(ctx context.Context, opts ...content.WriterOpt) (content.Writer,
	error) {
	if f.onWriter != nil {
		if err := f.onWriter(); err != nil {
			return nil, err
		}
	}
	w, err := f.Store.Writer(ctx, opts...)
	return &failingWriter{w, f}, err
}

type failingWriter struct {
	content.Writer
	f *failingContent
}

func (w *failingWriter) Commit(ctx context.Context, size int64, expected digest.Digest,
	opts ...content.Opt) error {
	if w.f.onCommit != nil {
		if err := w.f.onCommit(); err != nil {
			w.Writer.Close()
			return err
		}
	}
	return w.Writer.Commit(ctx, size, expected, opts...)
}

// failingSnapshotter is a snapshotter whose calls may fail. As overlayfs does, it leaves something
// of what it removes to its clean-up.
type failingSnapshotter struct {
	snapshots.Snapshotter
	onCommit, onPrepare error
	onRemove            func(key string) error
	before              func()   // is called before Prepare
	left                []string // what is removed and not cleaned up
}

func (f *failingSnapshotter) Commit(ctx context.Context, name, key string,
	opts ...snapshots.Opt) error {
	if f.onCommit != nil {
		return f.onCommit
	}
	return f.Snapshotter.Commit(ctx, name, key, opts...)
}

func (f *failingSnapshotter) Prepare(ctx context.Context, key, parent string,
	opts ...snapshots.Opt) ([]mount.Mount, error) {
	if f.before != nil {
		f.before()
	}
	if f.onPrepare != nil {
		return nil, f.onPrepare
	}
	return f.Snapshotter.Prepare(ctx, key, parent, opts...)
}

func (f *failingSnapshotter) Remove(ctx context.Context, key string) error {
	if f.onRemove != nil {
		if err := f.onRemove(key); err != nil {
			return err
		}
	}
	err := f.Snapshotter.Remove(ctx, key)
	if err == nil {
		f.left = append(f.left, key)
	}
	return err
}

func (f *failingSnapshotter) Cleanup(context.Context) error {
	f.left = nil
	return nil
}

func read(t *testing.T, ctx context.Context, cs content.Store, dgst digest.Digest) string {
	t.Helper()
	blob, err := content.ReadBlob(ctx, cs, ocispec.Descriptor{Digest: dgst})
	if err != nil {
		t.Fatal(err)
	}
	return string(bytes.TrimSpace(blob))
}
