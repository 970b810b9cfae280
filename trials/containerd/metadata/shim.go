// Package metadata has the names that the tests of containerd's package metadata use, over the
// store of containerd-metad. METAD names the program that keeps each test's store.
package metadata

import (
	"context"
	"fmt"
	"os"
	"os/exec"

	"github.com/containerd/containerd/containers"
	"github.com/containerd/containerd/content"
	"github.com/containerd/containerd/errdefs"
	"github.com/containerd/containerd/filters"
	"github.com/containerd/containerd/gc"
	"github.com/containerd/containerd/images"
	"github.com/containerd/containerd/leases"
	"github.com/containerd/containerd/namespaces"
	"github.com/containerd/containerd/snapshots"
	digest "github.com/opencontainers/go-digest"
	bolt "go.etcd.io/bbolt"

	"metad/metad"
	"metad/store"
)

const (
	ResourceUnknown gc.ResourceType = iota
	ResourceContent
	ResourceSnapshot
	ResourceContainer
	ResourceTask
	ResourceLease
	ResourceIngest
)

const (
	labelSnapshotRef      = "containerd.io/snapshot.ref"
	inheritedLabelsPrefix = "containerd.io/snapshot/"
)

type DB struct {
	*store.Store
}

type DBOpt = store.Option

var WithPolicyIsolated = store.WithPolicyIsolated

// last is the store of the test that runs: tests make stores of namespaces from transactions.
var last *DB

func NewDB(_ *bolt.DB, cs content.Store, ss map[string]snapshots.Snapshotter, opts ...DBOpt) *DB {
	folder, err := os.MkdirTemp("", "metad-test-")
	if err != nil {
		panic(err)
	}
	program := os.Getenv("METAD")
	exec.Command(program, "serve", "--new", "--dir",
		folder).Run() // a program that makes no store by itself
	client, err := metad.Start(program, "serve", "--dir", folder)
	if err != nil {
		panic(err)
	}
	s, err := store.Open(context.Background(), client, cs, ss, opts...)
	if err != nil {
		panic(err)
	}
	last = &DB{s}
	return last
}

func (db *DB) Init(context.Context) error           { return nil }
func (db *DB) Update(fn func(*bolt.Tx) error) error { return fn(nil) }
func (db *DB) View(fn func(*bolt.Tx) error) error   { return fn(nil) }

func WithTransactionContext(ctx context.Context, _ *bolt.Tx) context.Context { return ctx }

func NewImageStore(db *DB) images.Store              { return store.NewImageStore(db.Store) }
func NewContainerStore(db *DB) containers.Store      { return store.NewContainerStore(db.Store) }
func NewLeaseManager(db *DB) leases.Manager          { return store.NewLeaseManager(db.Store) }
func NewNamespaceStore(*bolt.Tx) namespaces.Store    { return store.NewNamespaceStore(last.Store) }
func adaptSnapshot(i snapshots.Info) filters.Adaptor { return store.AdaptSnapshot(i) }

func adaptImage(i images.Image) filters.Adaptor             { return store.AdaptImage(i) }
func adaptContainer(c containers.Container) filters.Adaptor { return store.AdaptContainer(c) }

func leased(ctx context.Context, typ, id string) error {
	lease, _ := leases.FromContext(ctx)
	rs, err := NewLeaseManager(last).ListResources(ctx, leases.Lease{ID: lease})
	for _, r := range rs {
		if r.Type == typ && r.ID == id {
			return nil
		}
	}
	if err == nil {
		err = fmt.Errorf("not leased: %w", errdefs.ErrNotFound)
	}
	return err
}

func checkContentLeased(ctx context.Context, _ *DB, dgst digest.Digest) error {
	return leased(ctx, "content", dgst.String())
}

func checkIngestLeased(ctx context.Context, _ *DB, ref string) error {
	return leased(ctx, "ingests", ref)
}

// scanAll calls fn for each row that a collection may remove.
func scanAll(ctx context.Context, _ *bolt.Tx, fn func(context.Context, gc.Node) error) error {
	names, err := NewNamespaceStore(nil).List(ctx)
	if err != nil {
		return err
	}
	for _, ns := range names {
		ctx := namespaces.WithNamespace(ctx, ns)
		node := func(t gc.ResourceType, key string) error {
			return fn(ctx, gc.Node{Type: t, Namespace: ns, Key: key})
		}
		ll, err := NewLeaseManager(last).List(ctx)
		if err != nil {
			return err
		}
		for _, l := range ll {
			if err := node(ResourceLease, l.ID); err != nil {
				return err
			}
		}
		for name, sn := range last.Snapshotters() {
			if err := sn.Walk(ctx, func(_ context.Context, i snapshots.Info) error {
				return node(ResourceSnapshot, name+"/"+i.Name)
			}); err != nil {
				return err
			}
		}
		if err := last.ContentStore().Walk(ctx, func(i content.Info) error {
			return node(ResourceContent, i.Digest.String())
		}); err != nil {
			return err
		}
	}
	return nil
}

func labelmap(kv ...string) map[string]string {
	if len(kv)%2 != 0 {
		panic("labels are pairs")
	}
	m := map[string]string{}
	for i := 0; i < len(kv); i += 2 {
		m[kv[i]] = kv[i+1]
	}
	return m
}

func checkNodesEqual(t interface {
	Helper()
	Fatalf(string, ...any)
}, actual, expected []gc.Node) {
	t.Helper()
	seen := map[gc.Node]int{}
	for _, n := range actual {
		seen[n]++
	}
	for _, n := range expected {
		seen[n]--
	}
	for n, count := range seen {
		if count != 0 {
			t.Fatalf("%v: %+d", n, count)
		}
	}
}
