package store

import (
	"context"
	"crypto/rand"
	"encoding/hex"
	"errors"
	"fmt"
	"os"
	"path/filepath"
	"strings"

	"github.com/containerd/containerd/content"
	"github.com/containerd/containerd/errdefs"
	"github.com/containerd/containerd/snapshots"

	"metad/metad"
)

// Folders are where the files of a store are.
type Folders struct {
	// Content is the folder of containerd's content store. The store keeps its witness and lost/ in
	// it.
	Content string
	// Snapshotters has the folders of those snapshotters that have one, by name.
	Snapshotters map[string]string
}

// identityFile has, in each folder, the identity of the store whose files are there.
const identityFile = "metad.id"

// Traces names something that a store has left: the identity in a folder, a blob, an ingest or a
// snapshot. It returns "" if there is nothing, as before the first start.
func Traces(ctx context.Context, folders Folders, cs content.Store,
	ss map[string]snapshots.Snapshotter) (string, error) {
	for _, folder := range folders.all() {
		path := filepath.Join(folder, identityFile)
		if _, err := os.Lstat(path); err == nil {
			return path, nil
		} else if !errors.Is(err, os.ErrNotExist) {
			return "", err
		}
	}
	f, err := findFiles(ctx, folders, cs, ss)
	if err != nil {
		return "", err
	}
	if len(f.blobs)+len(f.ingests) > 0 {
		return folders.Content, nil
	}
	for name, keys := range f.snapshots {
		if len(keys) > 0 {
			return "snapshotter " + name, nil
		}
	}
	return "", nil
}

// all returns the folders, that of content first.
func (f Folders) all() []string {
	all := []string{f.Content}
	for _, folder := range f.Snapshotters {
		all = append(all, folder)
	}
	return all
}

// ownership is whose the files are, as a start finds it.
type ownership struct {
	id         string // the store's identity, none if it is new
	form       string // how its rows are
	hasContent bool   // whether the folder of content has the identity
}

// checkIdentity refuses a folder that has files and not the store's identity, and one without files
// of which the store has objects: that isn't mounted. A crash behind the store's first line leaves
// folders that have neither. It changes no file.
func (s *Store) checkIdentity(own *ownership, back metad.Objects, f *files) error {
	if s.folders.Content == "" {
		return nil
	}
	isEmpty := map[string]bool{s.folders.Content: len(f.blobs)+len(f.ingests) == 0}
	objects := map[string]int{s.folders.Content: len(back.Blobs)}
	for name, folder := range s.folders.Snapshotters {
		isEmpty[folder] = len(f.snapshots[name]) == 0
		for _, of := range back.Snapshots {
			if of.Snapshotter == name {
				objects[folder]++
			}
		}
	}
	for folder := range isEmpty {
		text, err := identityOf(folder)
		if err != nil {
			return err
		}
		if text != "" && text == own.id {
			own.hasContent = own.hasContent || folder == s.folders.Content
			continue
		}
		var refused string
		switch {
		case isEmpty[folder] && objects[folder] == 0:
			if folder == s.folders.Content {
				refused = s.unnamedFiles(f)
			}
		case isEmpty[folder]:
			refused = "has no file, and the store has rows of it: is it mounted?"
		case text == "":
			refused = "has files that aren't of this store"
		case own.id == "":
			refused = "has files of store " + text + ", and this store is new"
		default:
			refused = "has files of store " + text + ", and this is store " + own.id
		}
		if refused != "" {
			return fmt.Errorf("%s %s: %w", folder, refused, errdefs.ErrFailedPrecondition)
		}
	}
	return nil
}

// unnamedFiles refuses the folder of content if a snapshotter whose folder nobody knows has
// snapshots: the identity in the folder of content counts for that one.
func (s *Store) unnamedFiles(f *files) string {
	for name, keys := range f.snapshots {
		if s.folders.Snapshotters[name] == "" && len(keys) > 0 {
			return "isn't of this store, and snapshotter " + name + " has snapshots"
		}
	}
	return ""
}

// identityOf returns the identity in a folder, none if it has none.
func identityOf(folder string) (string, error) {
	text, err := os.ReadFile(filepath.Join(folder, identityFile))
	if errors.Is(err, os.ErrNotExist) {
		return "", nil
	}
	return strings.TrimSpace(string(text)), err
}

// takeFolders gives each folder the store's identity, which a new store gets first, and rows their
// form. No folder may be refused any more.
func (s *Store) takeFolders(ctx context.Context, own ownership) (err error) {
	if s.folders.Content == "" {
		return nil
	}
	if own.id == "" {
		if own.id, err = s.newIdentity(ctx); err != nil {
			return err
		}
	}
	if own.form != asData {
		if err := s.convert(ctx); err != nil {
			return err
		}
	}
	for _, folder := range s.folders.all() {
		if err := writeSynced(filepath.Join(folder, identityFile), own.id+"\n"); err != nil {
			return err
		}
	}
	return nil
}

func (s *Store) newIdentity(ctx context.Context) (string, error) {
	var b [16]byte
	if _, err := rand.Read(b[:]); err != nil {
		return "", err
	}
	id := hex.EncodeToString(b[:])
	_, err := s.addOne(ctx, ownNamespace, metad.Line{"op": "lease.add", "ns": ownNamespace,
		"id": "store"}.WithLabels(map[string]string{"id": id, formLabel: asData}))
	return id, err
}

// writeSynced writes a file that a crash leaves as it was or whole.
func writeSynced(path, text string) error {
	if has, err := os.ReadFile(path); err == nil && string(has) == text {
		return nil
	}
	f, err := os.CreateTemp(filepath.Dir(path), filepath.Base(path)+".")
	if err != nil {
		return err
	}
	defer os.Remove(f.Name())
	_, err = f.WriteString(text)
	if err == nil {
		err = f.Sync()
	}
	if closeErr := f.Close(); err == nil {
		err = closeErr
	}
	if err == nil {
		err = os.Rename(f.Name(), path)
	}
	if err != nil {
		return err
	}
	return syncFolder(filepath.Dir(path))
}

func syncFolder(path string) error {
	d, err := os.Open(path)
	if err != nil {
		return err
	}
	defer d.Close()
	return d.Sync()
}
