// Package store gives containerd's stores over metad: rows and collections are metad's, files are
// those of containerd's own content store and snapshotters, named by metad's digests and numbers.
//
// Files follow rows, and never the other way. Each step has an order, so a crash between its two
// halves loses nothing that was answered:
//
//	step                   first                then      a crash between
//	commit of content      the file, synced     the row   a start moves the file to lost/
//	new ingest, snapshot   the row, its number  the file  a start removes the snapshot's row
//	commit of a snapshot   the row              the file  a start commits the file
//	removal by a client    the row              the file  the next collection removes the file
//	collection             the rows             the files a start moves the files to lost/
package store

import (
	"context"
	"fmt"
	"sync"
	"time"

	"github.com/containerd/containerd/content"
	"github.com/containerd/containerd/errdefs"
	"github.com/containerd/containerd/leases"
	"github.com/containerd/containerd/namespaces"
	"github.com/containerd/containerd/snapshots"

	"metad/metad"
)

// Store is a metadata store, as containerd's metadata.DB is one.
type Store struct {
	client       *metad.Client
	content      *contentStore
	snapshotters map[string]*snapshotter

	folders  Folders
	forget   bool
	isolated bool
	moment   func() time.Time
	witness  witness

	// collectL is held by a collection until its last removal.
	collectL sync.Mutex
	// filesL is held for reading while a file and its row are made, and for writing while metad
	// collects: so a collection sees both or neither.
	filesL   sync.RWMutex
	removals removals

	rowLocks rowLocks
	known    knownNamespaces

	callbacksL sync.RWMutex
	callbacks  []func(bool)
}

// Option is an option of Open.
type Option func(*Store)

// WithPolicyIsolated has a client send the bytes of a blob in each namespace.
func WithPolicyIsolated(s *Store) { s.isolated = true }

// WithFolders has the store and its files know each other, and names where files without a row go.
func WithFolders(folders Folders) Option {
	return func(s *Store) { s.folders = folders }
}

// WithForget removes at once what was moved to lost/.
func WithForget(s *Store) { s.forget = true }

// Open returns a store whose rows are behind client, and whose files are in cs and ss. It compares
// both first, and fails if the files are another store's. Without folders nothing tells that, and
// files without a row stay where they are.
func Open(ctx context.Context, client *metad.Client, cs content.Store,
	ss map[string]snapshots.Snapshotter, options ...Option) (*Store, error) {
	s := &Store{client: client, snapshotters: map[string]*snapshotter{}, moment: time.Now}
	for _, option := range options {
		option(s)
	}
	if cs != nil {
		s.content = &contentStore{Store: cs, s: s}
	}
	for name, sn := range ss {
		s.snapshotters[name] = &snapshotter{Snapshotter: sn, name: name, s: s}
	}
	if err := s.compare(ctx); err != nil {
		s.witness.close()
		return nil, err
	}
	return s, nil
}

// Close ends what the store has open. The client isn't closed.
func (s *Store) Close() error { return s.witness.close() }

// ContentStore returns the store of blobs and ingests.
func (s *Store) ContentStore() content.Store {
	if s.content == nil {
		return nil
	}
	return s.content
}

// files returns containerd's own content store, nil if there is none.
func (s *Store) files() content.Store {
	if s.content == nil {
		return nil
	}
	return s.content.Store
}

// backends returns containerd's own snapshotters.
func (s *Store) backends() map[string]snapshots.Snapshotter {
	all := map[string]snapshots.Snapshotter{}
	for name, sn := range s.snapshotters {
		all[name] = sn.Snapshotter
	}
	return all
}

// Snapshotter returns the snapshotter of that name, nil if there is none.
func (s *Store) Snapshotter(name string) snapshots.Snapshotter {
	if sn, ok := s.snapshotters[name]; ok {
		return sn
	}
	return nil
}

// Snapshotters returns all snapshotters.
func (s *Store) Snapshotters() map[string]snapshots.Snapshotter {
	all := map[string]snapshots.Snapshotter{}
	for name, sn := range s.snapshotters {
		all[name] = sn
	}
	return all
}

// RegisterMutationCallback registers a function that is called after each change, with whether
// something was removed.
func (s *Store) RegisterMutationCallback(fn func(bool)) {
	s.callbacksL.Lock()
	defer s.callbacksL.Unlock()
	s.callbacks = append(s.callbacks, fn)
}

func (s *Store) changed(removed bool) {
	s.callbacksL.RLock()
	defer s.callbacksL.RUnlock()
	for _, fn := range s.callbacks {
		fn(removed)
	}
}

func (s *Store) now() string { return s.moment().UTC().Format(timeForm) }

// requested returns the namespace of a request, and its lease if it has one.
func requested(ctx context.Context) (ns, lease string, err error) {
	ns, err = namespaces.NamespaceRequired(ctx)
	if err == nil && ns == ownNamespace {
		err = errOwnNamespace
	}
	lease, _ = leases.FromContext(ctx)
	return ns, lease, err
}

// detached is a context that doesn't end when its client leaves, for the second half of a step: the
// first half is done.
type detached struct {
	context.Context
}

func (detached) Deadline() (deadline time.Time, ok bool) { return time.Time{}, false }
func (detached) Done() <-chan struct{}                   { return nil }
func (detached) Err() error                              { return nil }

// knownNamespaces are those that were seen. Containerd makes a namespace with its first object, and
// metad wants it made before.
type knownNamespaces struct {
	mu    sync.Mutex
	names map[string]bool
}

func (k *knownNamespaces) see(name string) (before bool) {
	k.mu.Lock()
	defer k.mu.Unlock()
	before = k.names[name]
	if k.names == nil {
		k.names = map[string]bool{}
	}
	k.names[name] = true
	return before
}

// add sends lines of which the first may make the first object of a namespace. The namespace is
// made too if it isn't there.
func (s *Store) add(ctx context.Context, ns string, lines ...metad.Line) ([]metad.Reply, error) {
	if s.known.see(ns) {
		replies, err := s.client.Do(ctx, lines...)
		if err != nil || replies[0].Fault != metad.NotFound {
			return replies, err
		}
	}
	lines = append([]metad.Line{{"op": "ns.add", "ns": ns}}, lines...)
	replies, err := s.client.Do(ctx, lines...)
	if err != nil {
		return nil, err
	}
	return replies[1:], nil
}

// addOne is add for one line. A refusal is an error.
func (s *Store) addOne(ctx context.Context, ns string, line metad.Line) (metad.Reply, error) {
	replies, err := s.add(ctx, ns, line)
	if err != nil {
		return metad.Reply{}, err
	}
	return replies[0], replies[0].Err()
}

// change sends lines that change one row, and returns the first refusal.
func (s *Store) change(ctx context.Context, lines ...metad.Line) error {
	replies, err := s.client.Do(ctx, lines...)
	if err != nil {
		return err
	}
	return firstRefusal(replies)
}

func firstRefusal(replies []metad.Reply) error {
	for _, r := range replies {
		if err := r.Err(); err != nil {
			return err
		}
	}
	return nil
}

// list returns the names of a listing, none if the namespace isn't there.
func (s *Store) list(ctx context.Context, line metad.Line) ([]string, error) {
	r, err := s.client.Call(ctx, line)
	if err != nil && r.Fault != metad.NotFound {
		return nil, err
	}
	return r.Names, nil
}

// rowsOf returns the rows of a listing, none if the namespace isn't there.
func (s *Store) rowsOf(ctx context.Context, list metad.Line) ([]metad.Row, error) {
	list["answer"] = "rows"
	r, err := s.client.Call(ctx, list)
	if err != nil && r.Fault != metad.NotFound {
		return nil, err
	}
	return r.Rows, nil
}

// rows calls fn for each row of a listing.
func (s *Store) rows(ctx context.Context, list metad.Line, fn func(row metad.Row) error) error {
	all, err := s.rowsOf(ctx, list)
	if err != nil {
		return err
	}
	for _, row := range all {
		if err := fn(row); err != nil {
			return err
		}
	}
	return nil
}

// backend returns all objects of the backend: those of rows, and those that the next collection
// removes.
func (s *Store) backend(ctx context.Context) (metad.Objects, error) {
	r, err := s.client.Call(ctx, metad.Line{"op": "back.list"})
	if err != nil {
		return metad.Objects{}, err
	}
	return r.Backend, nil
}

// backendAndOwnership returns what a start compares to the files, in one trip.
func (s *Store) backendAndOwnership(ctx context.Context) (metad.Objects, ownership, error) {
	replies, err := s.client.Do(ctx, metad.Line{"op": "back.list"},
		metad.Line{"op": "lease.get", "ns": ownNamespace, "id": "store"})
	if err != nil {
		return metad.Objects{}, ownership{}, err
	}
	if replies[0].Fault == metad.BadLine {
		return metad.Objects{}, ownership{}, fmt.Errorf(
			"metad is older than this daemon, and has no op back.list: %w", errdefs.ErrFailedPrecondition)
	}
	if err := replies[0].Err(); err != nil {
		return metad.Objects{}, ownership{}, err
	}
	own := ownership{form: asData}
	if row := replies[1].Row; replies[1].OK {
		own = ownership{id: row.Labels["id"], form: row.Labels[formLabel]}
	} else if replies[1].Fault != metad.NotFound {
		err = replies[1].Err()
	}
	return replies[0].Backend, own, err
}
