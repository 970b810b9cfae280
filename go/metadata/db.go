// Package metadata is built in place of containerd's package of this name: a containerd that is
// built with it keeps its metadata in metad. It has the names that containerd's other packages use.
package metadata

import (
	"context"
	"fmt"
	"net"
	"os"
	"path/filepath"
	"syscall"

	"github.com/containerd/containerd/containers"
	"github.com/containerd/containerd/content"
	"github.com/containerd/containerd/images"
	"github.com/containerd/containerd/leases"
	"github.com/containerd/containerd/log"
	"github.com/containerd/containerd/namespaces"
	"github.com/containerd/containerd/snapshots"
	bolt "go.etcd.io/bbolt"

	"metad/metad"
	"metad/store"
)

// DB is a metadata store. Containerd makes one, and closes it at its end.
type DB struct {
	*store.Store

	root    string // containerd's folder
	cs      content.Store
	ss      map[string]snapshots.Snapshotter
	options []DBOpt

	client    *metad.Client
	questions net.Listener
	closing   chan struct{}
}

// DBOpt is an option of NewDB.
type DBOpt = store.Option

// WithPolicyIsolated has a client send the bytes of a blob in each namespace.
var WithPolicyIsolated = store.WithPolicyIsolated

// opened is the store of this process: containerd makes stores of namespaces of bolt's
// transactions.
var opened *DB

// NewDB returns a store that isn't open yet. The bolt database tells where containerd's folder is,
// and stays empty.
func NewDB(db *bolt.DB, cs content.Store, ss map[string]snapshots.Snapshotter,
	options ...DBOpt) *DB {
	opened = &DB{
		root:    filepath.Dir(filepath.Dir(db.Path())),
		cs:      cs,
		ss:      ss,
		options: options,
		closing: make(chan struct{}),
	}
	return opened
}

// Init starts metad and opens the store. Containerd would go on without metadata if it returned an
// error, so it ends the process instead, which ends too when metad does.
func (db *DB) Init(ctx context.Context) error {
	if err := db.open(ctx); err != nil {
		log.G(ctx).WithError(err).Fatal("the metadata store isn't opened")
	}
	go func() {
		<-db.client.Done()
		select {
		case <-db.closing:
		default:
			log.L.Fatal("metad has ended")
		}
	}()
	return nil
}

// open decides each refusal before it changes anything, so it has the socket first. Nobody is
// answered there until the store is open.
func (db *DB) open(ctx context.Context) (err error) {
	if db.questions, err = listen(Settings.socket(db.root)); err != nil {
		return err
	}
	folders := db.folders()
	if db.client, err = Settings.start(ctx, db.root, func() (string, error) {
		return store.Traces(ctx, folders, db.cs, db.ss)
	}); err != nil {
		db.questions.Close()
		return err
	}
	options := append(db.options, store.WithFolders(folders))
	if Settings.Forget {
		options = append(options, store.WithForget)
	}
	if db.Store, err = store.Open(ctx, db.client, db.cs, db.ss, options...); err != nil {
		db.questions.Close()
		db.client.Close()
		return err
	}
	go db.client.ServeQuestions(db.questions)
	return nil
}

// folders returns the folders that containerd gives its content store and snapshotters, if they are
// there: a snapshotter may be configured to have another.
func (db *DB) folders() store.Folders {
	folders := store.Folders{
		Content:      filepath.Join(db.root, "io.containerd.content.v1.content"),
		Snapshotters: map[string]string{},
	}
	for name := range db.ss {
		folder := filepath.Join(db.root, "io.containerd.snapshotter.v1."+name)
		if _, err := os.Stat(folder); err == nil {
			folders.Snapshotters[name] = folder
		}
	}
	return folders
}

// listen makes a socket that is its owner's alone, in place of one that a crash left.
func listen(path string) (net.Listener, error) {
	if info, err := os.Lstat(path); err == nil && info.Mode()&os.ModeSocket == 0 {
		return nil, fmt.Errorf("%s is there, and is no socket", path)
	}
	if err := os.Remove(path); err != nil && !os.IsNotExist(err) {
		return nil, err
	}
	// A mode that is set behind bind comes too late: a client may have connected. Linux gives the
	// file the mode that the socket has before.
	config := net.ListenConfig{Control: func(_, _ string, conn syscall.RawConn) (err error) {
		controlErr := conn.Control(func(fd uintptr) { err = syscall.Fchmod(int(fd), 0600) })
		if err == nil {
			err = controlErr
		}
		return err
	}}
	return config.Listen(context.Background(), "unix", path)
}

// Close ends metad's input, and waits until it has answered and ended.
func (db *DB) Close() error {
	close(db.closing)
	db.questions.Close()
	trips, lines := db.client.Trips()
	log.L.Infof("%d lines were sent to metad, in %d groups", lines, trips)
	err := db.client.Close()
	if closeErr := db.Store.Close(); err == nil {
		err = closeErr
	}
	return err
}

// Update calls fn, whose requests are done one by one: there is no transaction.
func (db *DB) Update(fn func(*bolt.Tx) error) error { return fn(nil) }

// View calls fn.
func (db *DB) View(fn func(*bolt.Tx) error) error { return fn(nil) }

// WithTransactionContext returns ctx.
func WithTransactionContext(ctx context.Context, _ *bolt.Tx) context.Context { return ctx }

// NewImageStore returns the images of a store.
func NewImageStore(db *DB) images.Store { return store.NewImageStore(db.Store) }

// NewContainerStore returns the containers of a store.
func NewContainerStore(db *DB) containers.Store { return store.NewContainerStore(db.Store) }

// NewLeaseManager returns the leases of a store.
func NewLeaseManager(db *DB) leases.Manager { return store.NewLeaseManager(db.Store) }

// NewNamespaceStore returns the namespaces of the store of this process.
func NewNamespaceStore(*bolt.Tx) namespaces.Store { return store.NewNamespaceStore(opened.Store) }
