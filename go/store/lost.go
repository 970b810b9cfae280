package store

import (
	"context"
	"errors"
	"os"
	"path/filepath"
	"time"

	"github.com/containerd/containerd/errdefs"
	"github.com/containerd/containerd/log"
	"github.com/opencontainers/go-digest"
)

// lostFor is how long a file without a row is kept.
const lostFor = 7 * 24 * time.Hour

// lostTime names the folders of lost/ by the moment of the start that found their files.
const lostTime = "20060102T150405Z"

// lost is the folder of files without a row. In a folder for each start that found some it has the
// paths that these had: blobs and ingests themselves, and for a snapshot, which stays with its
// snapshotter, an empty file.
type lost struct {
	content string // the folder of the content store
}

func (s *Store) lost() lost { return lost{s.folders.Content} }

func (l lost) folder() string { return filepath.Join(l.content, "lost") }

func blobPath(dgst digest.Digest) string {
	return filepath.Join("blobs", dgst.Algorithm().String(), dgst.Encoded())
}

func ingestPath(folder string) string { return filepath.Join("ingest", folder) }

func snapshotPath(snapshotter, key string) string {
	return filepath.Join("snapshots", snapshotter, key)
}

// take moves a file of the content store to lost/.
func (l lost) take(path string, at time.Time) error {
	to := filepath.Join(l.folder(), at.UTC().Format(lostTime), path)
	if err := os.MkdirAll(filepath.Dir(to), 0700); err != nil {
		return err
	}
	return os.Rename(filepath.Join(l.content, path), to)
}

// giveBack moves a file of lost/ to where it was. It returns false if it isn't there.
func (l lost) giveBack(path string) (bool, error) {
	found := l.find(path)
	if len(found) == 0 {
		return false, nil
	}
	to := filepath.Join(l.content, path)
	if err := os.MkdirAll(filepath.Dir(to), 0755); err != nil {
		return false, err
	}
	return true, os.Rename(found[0], to)
}

// mark notes a snapshot without a row, unless it was noted before.
func (l lost) mark(path string, at time.Time) error {
	if len(l.find(path)) > 0 {
		return nil
	}
	to := filepath.Join(l.folder(), at.UTC().Format(lostTime), path)
	if err := os.MkdirAll(filepath.Dir(to), 0700); err != nil {
		return err
	}
	return os.WriteFile(to, nil, 0600)
}

// unmark forgets a snapshot that has a row again.
func (l lost) unmark(path string) error {
	for _, found := range l.find(path) {
		if err := os.Remove(found); err != nil {
			return err
		}
	}
	return nil
}

// find returns where a path is in lost/, the oldest first.
func (l lost) find(path string) (found []string) {
	folders, _ := os.ReadDir(l.folder())
	for _, folder := range folders {
		at := filepath.Join(l.folder(), folder.Name(), path)
		if _, err := os.Lstat(at); err == nil {
			found = append(found, at)
		}
	}
	return found
}

// expire removes what has been in lost/ for long enough, or all of it if the store forgets. What
// can't be removed is told and stays until the next time.
func (l lost) expire(ctx context.Context, s *Store) {
	if l.content == "" {
		return
	}
	folders, err := os.ReadDir(l.folder())
	if err != nil && !errors.Is(err, os.ErrNotExist) {
		log.G(ctx).WithError(err).Warn("lost files can't be listed")
	}
	var expired []string
	for _, folder := range folders {
		since, err := time.Parse(lostTime, folder.Name())
		if err != nil || !s.forget && s.moment().Sub(since) < lostFor {
			continue
		}
		expired = append(expired, filepath.Join(l.folder(), folder.Name()))
	}
	refused := l.removeSnapshots(ctx, s, expired)
	for _, path := range expired {
		if err := refused[path]; err != nil {
			log.G(ctx).WithError(err).Warnf("lost snapshots of %s aren't removed", path)
			continue
		}
		if err := os.RemoveAll(path); err != nil {
			log.G(ctx).WithError(err).Warnf("lost files of %s aren't removed", path)
			continue
		}
		log.G(ctx).Infof("lost files of %s removed", path)
	}
}

// removeSnapshots removes the snapshots that folders of lost/ name, children before their parents:
// a parent is refused while it has a child, which another folder may name, and is tried again. It
// returns the folders that still name a snapshot, each with a refusal.
func (l lost) removeSnapshots(ctx context.Context, s *Store, folders []string) map[string]error {
	for {
		refused, removed := map[string]error{}, false
		for _, folder := range folders {
			some, err := l.tryEach(ctx, s, folder)
			removed = removed || some
			if err != nil {
				refused[folder] = err
			}
		}
		if !removed {
			return refused
		}
		s.cleanUp(ctx)
	}
}

// tryEach tries once to remove each snapshot that a folder of lost/ names. It returns whether one
// is removed, and the last refusal.
func (l lost) tryEach(ctx context.Context, s *Store, folder string) (removed bool, refusal error) {
	for _, path := range notes(folder) {
		sn, ok := s.snapshotters[filepath.Base(filepath.Dir(path))]
		if !ok {
			refusal = errors.New("their snapshotter isn't there")
			continue
		}
		err := sn.Snapshotter.Remove(ctx, filepath.Base(path))
		if err == nil || errdefs.IsNotFound(err) {
			err = os.Remove(path)
		}
		if err != nil {
			refusal = err
			continue
		}
		removed = true
	}
	return removed, refusal
}

// notes returns the files that name snapshots in a folder of lost/.
func notes(folder string) (paths []string) {
	snapshotters := filepath.Join(folder, "snapshots")
	names, _ := os.ReadDir(snapshotters)
	for _, name := range names {
		keys, _ := os.ReadDir(filepath.Join(snapshotters, name.Name()))
		for _, key := range keys {
			paths = append(paths, filepath.Join(snapshotters, name.Name(), key.Name()))
		}
	}
	return paths
}
