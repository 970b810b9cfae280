package main

import (
	"bytes"
	"context"
	"crypto/sha512"
	"encoding/hex"
	"fmt"
	"strings"
	"time"

	"github.com/containerd/containerd/containers"
	"github.com/containerd/containerd/content"
	"github.com/containerd/containerd/images"
	"github.com/containerd/containerd/leases"
	"github.com/containerd/containerd/namespaces"
	"github.com/gogo/protobuf/types"
	digest "github.com/opencontainers/go-digest"
	ocispec "github.com/opencontainers/image-spec/specs-go/v1"
	bolt "go.etcd.io/bbolt"
)

// odd makes a store in which each thing stands that metad's script can't say as it is
func (r *root) odd() time.Time {
	now := time.Date(2024, 3, 1, 0, 0, 0, 0, time.UTC)
	setClock(now)
	ctx := namespaces.WithNamespace(context.Background(), "default")
	l := &life{root: r, ns: "default", now: now}
	keep := func(name string, d digest.Digest, labels map[string]string) {
		_, err := r.is.Create(ctx, images.Image{Name: name, Target: ocispec.Descriptor{MediaType: "m", Digest: d, Size: 1}, Labels: labels})
		check(err)
	}
	// a manifest with more labels than 256, all references
	many := map[string]string{}
	for i := 0; i < 260; i++ {
		many[fmt.Sprintf("containerd.io/gc.ref.content.l.%d", i)] = string(l.put(ctx, []byte(fmt.Sprintf("layer %d", i)), nil))
	}
	keep("many", l.put(ctx, []byte("many"), many), nil)
	// references of a row that are longer than a line, and labels that no collection reads, of which there are too many
	wide := map[string]string{}
	for i := 0; i < 17; i++ {
		wide["containerd.io/gc.ref.content."+fmt.Sprint(i)+strings.Repeat("k", 3950)] = string(l.put(ctx, []byte(fmt.Sprintf("below wide %d", i)), nil))
	}
	for i := 0; i < 260; i++ {
		wide[fmt.Sprintf("unread.%d", i)] = "u"
	}
	keep("wide", l.put(ctx, []byte("wide"), wide), nil)
	// names: longer than 1,024 bytes, with a control byte, not UTF-8
	for i, n := range []string{strings.Repeat("n", 2000), "line\nfeed", "not utf-8 \xff\xfe"} {
		keep(n, l.put(ctx, []byte(fmt.Sprintf("named %d", i)), nil), nil)
		sn := r.db.Snapshotter("native")
		_, err := sn.Prepare(ctx, "k"+n, "")
		if err == nil && i < 2 {
			_, err = r.cts.Create(ctx, containers.Container{ID: fmt.Sprintf("c%d", i), Snapshotter: "native", SnapshotKey: "k" + n,
				Runtime: containers.RuntimeInfo{Name: "r"}, Spec: &types.Any{}})
			check(err)
		}
	}
	// sha384
	d384 := digest.NewDigestFromEncoded(digest.SHA384, hex.EncodeToString(func() []byte { s := sha512.Sum384([]byte("x")); return s[:] }()))
	check(r.bolt.Update(func(tx *bolt.Tx) error {
		b := tx.Bucket([]byte("v1")).Bucket([]byte("default")).Bucket([]byte("content")).Bucket([]byte("blob"))
		_, err := b.CreateBucket([]byte(d384))
		return err
	}))
	keep("sha384", d384, nil)
	// a chain whose parent's row is gone
	native := r.db.Snapshotter("native")
	for _, x := range [][]string{{"low", ""}, {"high", "low"}} {
		_, err := native.Prepare(ctx, x[0]+"-key", x[1])
		check(err)
		check(native.Commit(ctx, x[0], x[0]+"-key"))
	}
	_, err := native.View(ctx, "look", "high")
	check(err)
	check(r.bolt.Update(func(tx *bolt.Tx) error {
		return tx.Bucket([]byte("v1")).Bucket([]byte("default")).Bucket([]byte("snapshots")).Bucket([]byte("native")).DeleteBucket([]byte("low"))
	}))
	_, err = r.cts.Create(ctx, containers.Container{ID: "looks", Snapshotter: "native", SnapshotKey: "look", Runtime: containers.RuntimeInfo{Name: "r"}, Spec: &types.Any{}})
	check(err)
	// leases: a label over 4,096 bytes; expiries that Go's parser reads and the script's doesn't; the year 9999; a label with control bytes
	check(func() error {
		_, err := r.lm.Create(ctx, leases.WithID("wide"), leases.WithLabels(map[string]string{"note": strings.Repeat("w", 9000)}))
		return err
	}())
	// a flat lease by a long label, over content whose reference it doesn't follow; one whose long expiry can't be read
	below := l.put(ctx, []byte("below flat"), nil)
	flat := l.put(ctx, []byte("flat"), map[string]string{"containerd.io/gc.ref.content": string(below)})
	long := strings.Repeat("long", 300)
	odd := map[string]map[string]string{"flat": {"containerd.io/gc.flat": strings.Repeat("f", 5000)}, "never": {"containerd.io/gc.expire": strings.Repeat("e", 5000)}, long: {}}
	for _, id := range []string{"flat", "never", long} {
		_, err := r.lm.Create(ctx, leases.WithID(id), leases.WithLabels(odd[id]))
		check(err)
		check(r.lm.AddResource(ctx, leases.Lease{ID: id}, leases.Resource{Type: "content", ID: string(flat)}))
		flat = l.put(ctx, []byte("held after "+id), nil)
	}
	for i, e := range []string{"2024-03-01T5:00:00Z", "2024-03-01T05:00:00,5Z", "9999-12-31T23:59:59Z", "2024-03-01T05:00:00+24:00", "2024-03-01T05:00:00.0000000001Z", "2024-03-01T05:00:00+99:99"} {
		_, err := r.lm.Create(ctx, leases.WithID(fmt.Sprintf("e%d", i)), leases.WithLabels(map[string]string{"containerd.io/gc.expire": e}))
		check(err)
		check(r.lm.AddResource(ctx, leases.Lease{ID: fmt.Sprintf("e%d", i)}, leases.Resource{Type: "content", ID: string(l.put(ctx, []byte("held "+e), nil))}))
	}
	// an ingest under a lease that is gone
	_, err = r.lm.Create(ctx, leases.WithID("gone"))
	check(err)
	w, err := r.cs.Writer(leases.WithLease(ctx, "gone"), content.WithRef("orphan"))
	check(err)
	w.Close()
	check(r.lm.Delete(ctx, leases.Lease{ID: "gone"}))
	// a container with a snapshotter and no key
	_, err = r.cts.Create(ctx, containers.Container{ID: "nokey", Snapshotter: "native", Runtime: containers.RuntimeInfo{Name: "r"}, Spec: &types.Any{}})
	check(err)
	// an ingest of another namespace that waits for a blob which is shared (its content goes here)
	blob := bytes.Repeat([]byte("s"), 77)
	shared := l.put(ctx, blob, nil)
	other := namespaces.WithNamespace(context.Background(), "other")
	w, err = r.cs.Writer(other, content.WithRef("waits"), content.WithDescriptor(ocispec.Descriptor{Digest: shared, Size: int64(len(blob))}))
	check(err)
	w.Close()
	// buckets and labels that this version doesn't know
	check(r.bolt.Update(func(tx *bolt.Tx) error {
		n := tx.Bucket([]byte("v1")).Bucket([]byte("default"))
		b, err := n.CreateBucketIfNotExists([]byte("sandboxes"))
		check(err)
		_, err = b.CreateBucket([]byte("s1"))
		return err
	}))
	l.put(ctx, []byte("later"), map[string]string{"containerd.io/gc.ref.image": "many"})
	l.put(ctx, []byte("back"), map[string]string{"containerd.io/gc.bref.content": string(shared)})
	return now.Add(7 * time.Hour)
}
