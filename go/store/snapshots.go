package store

import (
	"context"
	"errors"
	"fmt"
	"io/fs"
	"os"
	"path/filepath"
	"strconv"

	"github.com/containerd/containerd/errdefs"
	"github.com/containerd/containerd/leases"
	"github.com/containerd/containerd/log"
	"github.com/containerd/containerd/mount"
	"github.com/containerd/containerd/snapshots"

	"metad/metad"
)

// labelSnapshotRef is the name under which a client will commit what it prepares.
const labelSnapshotRef = "containerd.io/snapshot.ref"

// snapshotter has the rows of snapshots. The snapshotter that it embeds has the files, by their
// numbers.
type snapshotter struct {
	snapshots.Snapshotter
	name string
	s    *Store
}

// committed ends the name of a backend's committed snapshot. A backend can't commit one under the
// name that it has.
const committed = "-committed"

// backendKey names the backend's snapshot of a row.
func backendKey(number uint32, kind string) string {
	key := strconv.FormatUint(uint64(number), 10)
	if kind == "committed" {
		key += committed
	}
	return key
}

var snapshotKinds = map[string]snapshots.Kind{
	"active":    snapshots.KindActive,
	"view":      snapshots.KindView,
	"committed": snapshots.KindCommitted,
}

func (sn *snapshotter) line(op string) metad.Line {
	return metad.Line{"op": op, "snapshotter": sn.name}
}

func (sn *snapshotter) get(key string) metad.Line { return sn.line("snap.get").With("key", key) }

func (sn *snapshotter) resource(key string) leases.Resource {
	return leases.Resource{Type: "snapshots/" + sn.name, ID: key}
}

var snapshotKind = kind[snapshots.Info]{snapshotInfo, AdaptSnapshot}

func snapshotInfo(row metad.Row) (snapshots.Info, error) {
	data, err := decodeData(row.Data)
	if err != nil {
		return snapshots.Info{}, fmt.Errorf("snapshot %q: %w", row.Key, err)
	}
	ls, updated, err := clientLabels(row, data.Created)
	if err != nil {
		return snapshots.Info{}, fmt.Errorf("snapshot %q: %w", row.Key, err)
	}
	return snapshots.Info{
		Kind:    snapshotKinds[row.Kind],
		Name:    row.Key,
		Parent:  row.Parent,
		Labels:  ls,
		Created: data.Created,
		Updated: updated,
	}, nil
}

// inherited returns what the backend's snapshot has of the labels of a row.
func inherited(ls map[string]string) snapshots.Opt {
	return snapshots.WithLabels(snapshots.FilterInheritedLabels(ls))
}

func (sn *snapshotter) row(ctx context.Context, key string) (metad.Row, error) {
	r, err := sn.s.ask(ctx, sn.get(key))
	return r.Row, err
}

func (sn *snapshotter) Stat(ctx context.Context, key string) (snapshots.Info, error) {
	return snapshotKind.get(ctx, sn.s, sn.get(key))
}

func (sn *snapshotter) Update(ctx context.Context, info snapshots.Info,
	paths ...string) (snapshots.Info, error) {
	if len(paths) == 0 {
		paths = []string{"labels"}
	}
	row, err := sn.s.update(ctx, sn.line("snap.set").With("key", info.Name), info.Labels, paths,
		onlyLabels("snapshot", info.Name))
	if err != nil {
		return snapshots.Info{}, err
	}
	updated, err := snapshotInfo(row)
	if err != nil {
		return snapshots.Info{}, err
	}
	_, err = sn.Snapshotter.Update(ctx, snapshots.Info{
		Name:   backendKey(row.Number, row.Kind),
		Labels: snapshots.FilterInheritedLabels(updated.Labels),
	}, "labels")
	return updated, err
}

func (sn *snapshotter) Usage(ctx context.Context, key string) (snapshots.Usage, error) {
	row, err := sn.row(ctx, key)
	if err != nil {
		return snapshots.Usage{}, err
	}
	var usage snapshots.Usage
	err = sn.finishing(ctx, func() (metad.Row, error) { return row, nil }, func() (err error) {
		usage, err = sn.Snapshotter.Usage(ctx, backendKey(row.Number, row.Kind))
		return err
	})
	return usage, err
}

func (sn *snapshotter) Mounts(ctx context.Context, key string) ([]mount.Mount, error) {
	row, err := sn.row(ctx, key)
	if err != nil {
		return nil, err
	}
	return sn.Snapshotter.Mounts(ctx, backendKey(row.Number, row.Kind))
}

func (sn *snapshotter) Prepare(ctx context.Context, key, parent string,
	opts ...snapshots.Opt) ([]mount.Mount, error) {
	return sn.create(ctx, "snap.prepare", sn.Snapshotter.Prepare, key, parent, opts)
}

func (sn *snapshotter) View(ctx context.Context, key, parent string,
	opts ...snapshots.Opt) ([]mount.Mount, error) {
	return sn.create(ctx, "snap.view", sn.Snapshotter.View, key, parent, opts)
}

// backendMaker is a backend's Prepare or View.
type backendMaker func(ctx context.Context, key, parent string,
	opts ...snapshots.Opt) ([]mount.Mount, error)

// create makes the row, whose number names the backend's snapshot, and then that. A crash between
// leaves a row without a snapshot, which a start removes: nobody was answered. If the backend fails
// the row is removed, and the client is told.
//
// A client may say under which name it will commit, and is refused if that is there. That name is
// asked for behind the row, so both are one trip, and the row is removed again.
func (sn *snapshotter) create(ctx context.Context, op string, makeBackend backendMaker,
	key, parent string, opts []snapshots.Opt) ([]mount.Mount, error) {
	base, line, err := sn.newSnapshot(op, opts)
	if err != nil {
		return nil, err
	}
	ns, lease, err := requested(ctx)
	if err != nil {
		return nil, err
	}
	sn.s.filesL.RLock()
	defer sn.s.filesL.RUnlock()

	lines := []metad.Line{line.With("ns", ns).With("key", key).With("parent", parent).
		WithLease(lease)}
	target := base.Labels[labelSnapshotRef]
	if target != "" {
		lines = append(lines, sn.get(target).With("ns", ns))
	}
	replies, err := sn.s.add(ctx, ns, lines...)
	if err != nil {
		return nil, err
	}
	ctx = detached{ctx}
	reply := replies[0]
	if target != "" {
		if err := replies[1].Err(); !errdefs.IsNotFound(err) {
			if reply.OK && !reply.There {
				sn.undo(ctx, ns, lease, key)
			}
			if err == nil {
				err = sn.s.hold(ctx, ns, lease, sn.resource(target))
			}
			if err == nil {
				err = fmt.Errorf("target snapshot %q: %w", target, errdefs.ErrAlreadyExists)
			}
			return nil, err
		}
	}
	if err := reply.Err(); err != nil {
		return nil, err
	}
	if reply.There {
		return nil, fmt.Errorf("snapshot %q: %w", key, errdefs.ErrAlreadyExists)
	}
	mounts, err := sn.createBackend(ctx, ns, reply.Row, base, makeBackend)
	if err != nil {
		sn.undo(ctx, ns, lease, key)
		return nil, err
	}
	sn.s.changed(false)
	return mounts, nil
}

// createBackend makes the backend's snapshot of a row.
func (sn *snapshotter) createBackend(ctx context.Context, ns string, row metad.Row,
	base snapshots.Info, makeBackend backendMaker) ([]mount.Mount, error) {
	if err := sn.s.witness.see(row.Number); err != nil {
		return nil, err
	}
	parent := ""
	if row.Parent != "" {
		parent = backendKey(row.ParentNumber, "committed")
	}
	var mounts []mount.Mount
	err := sn.finishing(ctx, func() (metad.Row, error) {
		r, err := sn.s.client.Call(ctx, sn.get(row.Parent).With("ns", ns))
		return r.Row, err
	}, func() (err error) {
		mounts, err = twice(func() ([]mount.Mount, error) {
			return makeBackend(ctx, backendKey(row.Number, "active"), parent, inherited(base.Labels))
		})
		return err
	})
	return mounts, err
}

// twice calls makeBackend again if a folder is in its way. Containerd's snapshotters make a folder
// before they commit its name: a crash between leaves the folder, and the next snapshot gets the
// same folder. The call that fails for it removes it.
func twice(makeBackend func() ([]mount.Mount, error)) ([]mount.Mount, error) {
	mounts, err := makeBackend()
	if errors.Is(err, fs.ErrExist) {
		mounts, err = makeBackend()
	}
	return mounts, err
}

// undo removes a row that shall have no backend snapshot.
func (sn *snapshotter) undo(ctx context.Context, ns, lease, key string) {
	if err := sn.removeRow(ctx, ns, lease, key); err != nil {
		log.G(ctx).WithError(err).WithField("key", key).Error("this snapshot has no backend")
	}
	sn.s.changed(true)
}

// removeRow removes a row, which its lease then doesn't hold any more.
func (sn *snapshotter) removeRow(ctx context.Context, ns, lease, key string) error {
	_, err := sn.s.client.Call(ctx, sn.line("snap.remove").With("ns", ns).With("key", key).
		With("drop", lease))
	return err
}

// Commit commits the row, and then the backend's snapshot, since the new name is in the row alone.
// A crash between is ended by a start, and so is a backend that fails: the row stays, so nothing
// that was written is lost, and whatever uses the snapshot next commits the backend.
func (sn *snapshotter) Commit(ctx context.Context, name, key string, opts ...snapshots.Opt) error {
	base, line, err := sn.newSnapshot("snap.commit", opts)
	if err != nil {
		return err
	}
	ns, lease, err := requested(ctx)
	if err != nil {
		return err
	}
	sn.s.filesL.RLock()
	defer sn.s.filesL.RUnlock()

	r, err := sn.s.client.Call(ctx, line.With("ns", ns).With("key", key).With("name", name).
		WithLease(lease).With("drop", lease))
	if err != nil {
		return err
	}
	if r.There {
		return fmt.Errorf("snapshot %q: %w", name, errdefs.ErrAlreadyExists)
	}
	sn.s.changed(false)
	if err := sn.commitBackend(detached{ctx}, r.Row.Number, base.Labels); err != nil {
		return fmt.Errorf("snapshot %q is committed, and its snapshotter failed: %w", name, err)
	}
	return nil
}

// commitBackend commits the backend's snapshot, unless another client did that meanwhile.
func (sn *snapshotter) commitBackend(ctx context.Context, number uint32,
	ls map[string]string) error {
	active, key := backendKey(number, "active"), backendKey(number, "committed")
	defer sn.s.rowLocks.lock("backend", sn.name, key)()

	err := sn.Snapshotter.Commit(ctx, key, active, inherited(ls))
	if err != nil {
		if _, statErr := sn.Snapshotter.Stat(ctx, key); statErr == nil {
			return nil
		}
	}
	return err
}

// finishing calls fn, which needs the backend's snapshot of a row. If that is missing, and the row
// is committed and its backend isn't yet, the backend is committed and fn called again.
func (sn *snapshotter) finishing(ctx context.Context, get func() (metad.Row, error),
	fn func() error) error {
	err := fn()
	if !errdefs.IsNotFound(err) {
		return err
	}
	row, getErr := get()
	if getErr != nil || row.Kind != "committed" {
		return err
	}
	if commitErr := sn.commitBackend(ctx, row.Number, row.Labels); commitErr != nil {
		log.G(ctx).WithError(commitErr).WithField("number",
			row.Number).Error("a committed snapshot has no backend")
		return err
	}
	return fn()
}

// Remove removes the row. A collection removes the backend's snapshot.
func (sn *snapshotter) Remove(ctx context.Context, key string) error {
	ns, lease, err := requested(ctx)
	if err != nil {
		return err
	}
	if err := sn.removeRow(ctx, ns, lease, key); err != nil {
		return err
	}
	sn.s.changed(true)
	return nil
}

func (sn *snapshotter) Walk(ctx context.Context, fn snapshots.WalkFunc, fs ...string) error {
	return snapshotKind.walk(ctx, sn.s, sn.line("snap.list"), fs, func(info snapshots.Info) error {
		return fn(ctx, info)
	})
}

// newSnapshot returns the line that makes a snapshot with these options, but for its names.
func (sn *snapshotter) newSnapshot(op string, opts []snapshots.Opt) (snapshots.Info, metad.Line,
	error) {
	var base snapshots.Info
	for _, opt := range opts {
		if err := opt(&base); err != nil {
			return base, nil, err
		}
	}
	if err := checkLabels(base.Labels); err != nil {
		return base, nil, err
	}
	data, err := rowData{Created: sn.s.moment().UTC()}.encode()
	line := sn.line(op).WithLabels(base.Labels).WithData(data).AskingForRow()
	return base, line, err
}

// remove removes a backend snapshot, of whichever kind it is.
func (sn *snapshotter) remove(ctx context.Context, number uint32) error {
	err := sn.Snapshotter.Remove(ctx, backendKey(number, "committed"))
	if errdefs.IsNotFound(err) {
		err = sn.Snapshotter.Remove(ctx, backendKey(number, "active"))
	}
	return err
}

// cleanup removes what the backend's removals left for later. A backend that never had a snapshot
// finds nothing.
func (sn *snapshotter) cleanup(ctx context.Context) error {
	if err := sn.cleanBackend(ctx); !errdefs.IsNotImplemented(err) && !errdefs.IsNotFound(err) {
		return err
	}
	return nil
}

func (sn *snapshotter) cleanBackend(ctx context.Context) error {
	c, ok := sn.Snapshotter.(snapshots.Cleaner)
	if !ok {
		return errdefs.ErrNotImplemented
	}
	return c.Cleanup(ctx)
}

// firstSnapshot names a snapshot that is made and removed at once.
const firstSnapshot = "metad-first"

// cleanupAtStart is a cleanup that also removes what a crash left of the first snapshot of all.
// Until the backend has had a snapshot, its clean-up finds none of its folders, so it gets one for a
// moment. If the store has a row of the backend, the backend has lost its own database, and its
// folders stay.
func (sn *snapshotter) cleanupAtStart(ctx context.Context) error {
	folder := sn.s.folders.Snapshotters[sn.name]
	if folder == "" || !errdefs.IsNotFound(sn.cleanBackend(ctx)) {
		return sn.cleanup(ctx)
	}
	left, err := os.ReadDir(filepath.Join(folder, "snapshots"))
	if err != nil || len(left) == 0 { // another layout, or nothing to remove
		return nil
	}
	rows, err := sn.allRows(ctx)
	if err != nil {
		return err
	}
	for _, all := range rows {
		if len(all) > 0 {
			return nil
		}
	}
	_, err = twice(func() ([]mount.Mount, error) {
		return sn.Snapshotter.Prepare(ctx, firstSnapshot, "")
	})
	if err == nil {
		err = sn.Snapshotter.Remove(ctx, firstSnapshot)
	}
	if err != nil {
		log.G(ctx).WithError(err).WithField("snapshotter",
			sn.name).Warn("folders that a crash left aren't removed")
		return nil
	}
	return sn.cleanup(ctx)
}
