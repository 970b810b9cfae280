package store

import (
	"context"
	"errors"
	"fmt"
	"os"
	"path/filepath"
	"strings"

	"github.com/containerd/containerd/content"
	"github.com/containerd/containerd/errdefs"
	"github.com/containerd/containerd/log"
	"github.com/containerd/containerd/snapshots"
	"github.com/opencontainers/go-digest"

	"metad/metad"
)

// files are what the content store and the snapshotters have.
type files struct {
	blobs     map[digest.Digest]bool
	ingests   map[string]bool            // by the names of their folders
	snapshots map[string]map[string]bool // by snapshotter, the keys
}

// ingestFolder names the folder that containerd's content store makes for an ingest.
func ingestFolder(number uint32) string { return digest.FromString(ingestRef(number)).Encoded() }

// compare makes files and rows agree at a start, before any client is served. One line names all
// objects of the backend; rows are read where files differ from it. It removes no file: one that is
// no object's goes to lost/. It refuses files that are another store's, or newer than the store.
// Until no refusal is left it changes nothing, but for the mark of a start.
func (s *Store) compare(ctx context.Context) error {
	f, err := findFiles(ctx, s.folders, s.files(), s.backends())
	if err != nil {
		return err
	}
	back, own, err := s.backendAndOwnership(ctx)
	if err != nil {
		return err
	}
	if err := s.checkIdentity(&own, back, f); err != nil {
		return err
	}
	if err := s.checkMounted(ctx, back, f); err != nil {
		return err
	}
	a, err := s.checkAge(ctx, own, back)
	if err != nil {
		return err
	}

	if err := s.takeFolders(ctx, own); err != nil {
		return err
	}
	if err := s.takeAge(ctx, a); err != nil {
		return err
	}
	if s.content != nil {
		if err := s.content.compare(ctx, back, f, a.known); err != nil {
			return err
		}
	}
	for name, sn := range s.snapshotters {
		if err := sn.compare(ctx, back.Snapshots, f.snapshots[name], a.known); err != nil {
			return err
		}
	}
	s.lost().expire(ctx, s)
	s.forget = false
	return nil
}

// findFiles lists what the stores of files have.
func findFiles(ctx context.Context, folders Folders, cs content.Store,
	ss map[string]snapshots.Snapshotter) (*files, error) {
	f := &files{blobs: map[digest.Digest]bool{}, ingests: map[string]bool{},
		snapshots: map[string]map[string]bool{}}
	if cs != nil {
		err := cs.Walk(ctx, func(info content.Info) error {
			f.blobs[info.Digest] = true
			return nil
		})
		if err != nil && !errors.Is(err, os.ErrNotExist) { // a new folder has no blobs/
			return nil, err
		}
	}
	if folders.Content != "" {
		// The content store can't tell an ingest that a crash left half made, so its folder is read.
		ingests, err := os.ReadDir(filepath.Join(folders.Content, "ingest"))
		if err != nil && !errors.Is(err, os.ErrNotExist) {
			return nil, err
		}
		for _, folder := range ingests {
			f.ingests[folder.Name()] = true
		}
	}
	for name, sn := range ss {
		keys := map[string]bool{}
		f.snapshots[name] = keys
		err := sn.Walk(ctx, func(_ context.Context, info snapshots.Info) error {
			keys[info.Name] = true
			return nil
		})
		if err != nil && !errdefs.IsNotFound(err) { // of a new snapshotter
			return nil, err
		}
	}
	return f, nil
}

// checkMounted refuses a snapshotter whose folder nobody knows if it has no snapshot, and the store
// has committed ones of it: the identity in its folder can't be compared.
func (s *Store) checkMounted(ctx context.Context, back metad.Objects, f *files) error {
	has := map[string]bool{}
	for _, of := range back.Snapshots {
		has[of.Snapshotter] = true
	}
	for name, sn := range s.snapshotters {
		if !has[name] || len(f.snapshots[name]) > 0 || s.folders.Snapshotters[name] != "" {
			continue
		}
		rows, err := sn.allRows(ctx)
		if err != nil {
			return err
		}
		for _, all := range rows {
			for _, r := range all {
				if r.Kind == "committed" {
					return fmt.Errorf("the store has snapshots, and snapshotter %s has none: "+
						"is it mounted? %w", name, errdefs.ErrFailedPrecondition)
				}
			}
		}
	}
	return nil
}

// compare gives an object its blob back if that is in lost/, and moves blobs and ingests that are
// no object's there, unless they may be an object's of a newer store. Content without its blob is
// told and stays: its labels hold other rows, and a client may write the blob again.
func (cs *contentStore) compare(ctx context.Context, back metad.Objects, f *files,
	ageKnown bool) error {
	blobs, ingests := map[digest.Digest]bool{}, map[string]bool{}
	for _, dgst := range back.Blobs {
		blobs[digest.Digest(dgst)] = true
	}
	for _, number := range back.Ingests {
		ingests[ingestFolder(number)] = true
	}
	for dgst := range blobs {
		if f.blobs[dgst] {
			continue
		}
		if err := cs.findLost(ctx, dgst); err != nil {
			return err
		}
	}
	if !ageKnown {
		return nil
	}
	for dgst := range f.blobs {
		if !blobs[dgst] {
			cs.loseFile(ctx, blobPath(dgst))
		}
	}
	for folder := range f.ingests {
		if !ingests[folder] {
			cs.loseFile(ctx, ingestPath(folder))
		}
	}
	return nil
}

// findLost gives an object its blob back from lost/, or tells which rows have lost it.
func (cs *contentStore) findLost(ctx context.Context, dgst digest.Digest) error {
	if cs.s.folders.Content != "" {
		back, err := cs.s.lost().giveBack(blobPath(dgst))
		if err != nil {
			return err
		}
		if back {
			log.G(ctx).WithField("digest", dgst).Warn("a blob is back from lost/")
			return nil
		}
	}
	names, err := cs.s.names(ctx)
	if err != nil {
		return err
	}
	for _, ns := range names {
		r, err := cs.s.client.Call(ctx, getContent(dgst).With("ns", ns))
		if r.OK {
			log.G(ctx).WithField("digest", dgst).WithField("namespace",
				ns).Error("content has lost its blob")
		} else if !errdefs.IsNotFound(err) {
			return err
		}
	}
	return nil
}

// loseFile moves a file without a row to lost/. If it can't be moved it stays, and is told.
func (cs *contentStore) loseFile(ctx context.Context, path string) {
	l := log.G(ctx).WithField("file", path)
	if cs.s.folders.Content == "" {
		l.Warn("a file has no row")
		return
	}
	if err := cs.s.lost().take(path, cs.s.moment()); err != nil {
		l.WithError(err).Error("a file has no row, and can't be moved to lost/")
		return
	}
	l.Warn("a file has no row: it is in lost/")
}

// compare reads the rows of this snapshotter if one may have to be mended, and notes snapshots that
// are no object's in lost/. It does neither if the store may be older than its files.
func (sn *snapshotter) compare(ctx context.Context, back []metad.SnapshotNumber,
	keys map[string]bool, ageKnown bool) error {
	owned, isWhole := map[string]bool{}, true
	for _, of := range back {
		if of.Snapshotter == sn.name {
			key := backendKey(of.Number, "committed")
			owned[key], owned[backendKey(of.Number, "active")] = true, true
			isWhole = isWhole && keys[key]
		}
	}
	if !isWhole && ageKnown {
		if err := sn.mendRows(ctx, keys); err != nil {
			return err
		}
	}
	return sn.noteLost(ctx, owned, keys, ageKnown)
}

// mendRows commits the backend's snapshot of each row that is committed, and removes the row of a
// snapshot that was never made. A committed row without a backend is told and stays.
func (sn *snapshotter) mendRows(ctx context.Context, keys map[string]bool) error {
	rows, err := sn.allRows(ctx)
	if err != nil {
		return err
	}
	for ns, all := range rows {
		for _, r := range all {
			if err := sn.mendRow(ctx, ns, r, keys); err != nil {
				return err
			}
		}
	}
	return nil
}

// allRows returns the rows of this snapshotter by namespace.
func (sn *snapshotter) allRows(ctx context.Context) (map[string][]metad.Row, error) {
	names, err := sn.s.names(ctx)
	if err != nil {
		return nil, err
	}
	rows := map[string][]metad.Row{}
	for _, ns := range names {
		if rows[ns], err = sn.s.rowsOf(ctx, sn.line("snap.list").With("ns", ns)); err != nil {
			return nil, err
		}
	}
	return rows, nil
}

func (sn *snapshotter) mendRow(ctx context.Context, ns string, r metad.Row,
	keys map[string]bool) error {
	l := log.G(ctx).WithField("namespace", ns).WithField("key", r.Key)
	switch {
	case keys[backendKey(r.Number, r.Kind)]:
	case r.Kind == "committed" && keys[backendKey(r.Number, "active")]:
		if err := sn.commitBackend(ctx, r.Number, r.Labels); err != nil {
			return err
		}
		l.Info("a snapshot is committed as its row is")
	case r.Kind == "committed":
		l.Error("a committed snapshot has lost its backend")
	default:
		l.Warn("a snapshot was never made: its row goes")
		return sn.removeRow(ctx, ns, "", r.Key)
	}
	return nil
}

// noteLost forgets the snapshots in lost/ that have a row again, and notes those without one there,
// unless they may have one in a newer store.
func (sn *snapshotter) noteLost(ctx context.Context, owned, keys map[string]bool,
	ageKnown bool) error {
	l := sn.s.lost()
	if l.content == "" {
		return nil
	}
	for key := range keys {
		path := snapshotPath(sn.name, key)
		if owned[key] {
			if err := l.unmark(path); err != nil {
				return err
			}
			continue
		}
		if !ageKnown || strings.ContainsAny(key, `/*?[\`) { // or no key of this store
			continue
		}
		if err := l.mark(path, sn.s.moment()); err != nil {
			return err
		}
		log.G(ctx).WithField("snapshotter", sn.name).WithField("snapshot",
			key).Warn("a snapshot has no row: it is in lost/")
	}
	if !ageKnown {
		return sn.cleanup(ctx)
	}
	return sn.cleanupAtStart(ctx)
}
