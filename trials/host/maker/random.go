package main

import (
	"bytes"
	"context"
	"math/rand"
	"os"
	"path/filepath"
	"time"

	"github.com/containerd/containerd/containers"
	"github.com/containerd/containerd/content"
	"github.com/containerd/containerd/images"
	"github.com/containerd/containerd/leases"
	"github.com/containerd/containerd/metadata"
	"github.com/containerd/containerd/snapshots"
	"github.com/gogo/protobuf/types"
	digest "github.com/opencontainers/go-digest"
	ocispec "github.com/opencontainers/image-spec/specs-go/v1"
	bolt "go.etcd.io/bbolt"
)

// random lets clients of some namespaces do so many things, and answers the moment of the collection
func (r *root) random(rng *rand.Rand, ops int) time.Time {
	l := &life{root: r, rng: rng, now: time.Date(2024, 3, 1, 0, 0, 0, 0, time.UTC), open: map[string]content.Writer{}}
	setClock(l.now)
	for i := 0; i < 24; i++ {
		l.pool = append(l.pool, bytes.Repeat([]byte{byte('A' + i)}, 1+rng.Intn(5000)))
	}
	spaces := []string{"default", "k8s.io", "moby"}[:1+rng.Intn(3)]
	for _, n := range spaces {
		check(r.db.Update(func(tx *bolt.Tx) error {
			return metadata.NewNamespaceStore(tx).Create(context.Background(), n, map[string]string{"containerd.io/defaults/snapshotter": "native"})
		}))
	}
	for i := 0; i < ops; i++ {
		l.tick()
		l.ns = spaces[rng.Intn(len(spaces))]
		ctx := l.ctx()
		switch rng.Intn(20) {
		case 0, 1, 2, 3, 4:
			l.pull()
		case 5, 6:
			s := l.any("snapshots")
			if s == nil {
				continue
			}
			key := l.name("run-")
			if m, err := r.db.Snapshotter(s[1]).Prepare(ctx, key, s[2]); err == nil {
				os.WriteFile(filepath.Join(m[0].Source, "g"), []byte("container"), 0644)
			}
			k, v := l.oddLabel()
			r.cts.Create(ctx, containers.Container{ID: key, Snapshotter: s[1], SnapshotKey: key, Labels: map[string]string{k: v}, Image: "registry.example/library/a:latest",
				Runtime: containers.RuntimeInfo{Name: "io.containerd.runc.v2"}, Spec: &types.Any{TypeUrl: "spec", Value: []byte("{}")}})
		case 7:
			if c := l.any("containers"); c != nil {
				r.cts.Delete(ctx, c[1])
			}
		case 8, 9:
			for i := 0; i < 2; i++ {
				if c := l.any("images"); c != nil {
					r.is.Delete(ctx, c[1])
				}
			}
		case 10:
			if c := l.any("content"); c != nil {
				k, v := l.oddLabel()
				r.cs.Update(ctx, content.Info{Digest: digest.Digest(c[1]), Labels: map[string]string{k: v}}, "labels."+k)
			}
		case 11:
			if c := l.any("snapshots"); c != nil {
				k, v := l.oddLabel()
				r.db.Snapshotter(c[1]).Update(ctx, snapshots.Info{Name: c[2], Labels: map[string]string{k: v}}, "labels."+k)
			}
		case 12:
			if c := l.any("images"); c != nil {
				k, v := l.oddLabel()
				r.is.Update(ctx, images.Image{Name: c[1], Labels: map[string]string{k: v}}, "labels."+k)
			}
		case 13:
			id := l.name("lease-")
			r.lm.Create(ctx, leases.WithID(id), leases.WithLabels(l.leaseLabels()))
			for j := 0; j < 3; j++ {
				if c := l.any("content"); c != nil && l.roll(2) {
					r.lm.AddResource(ctx, leases.Lease{ID: id}, leases.Resource{ID: c[1], Type: "content"})
				}
				if c := l.any("snapshots"); c != nil && l.roll(2) {
					r.lm.AddResource(ctx, leases.Lease{ID: id}, leases.Resource{ID: c[2], Type: "snapshots/" + c[1]})
				}
				if c := l.any("ingests"); c != nil && l.roll(3) {
					r.lm.AddResource(ctx, leases.Lease{ID: id}, leases.Resource{ID: c[1], Type: "ingests"})
				}
			}
		case 14:
			if c := l.any("leases"); c != nil {
				r.lm.Delete(ctx, leases.Lease{ID: c[1]})
			}
		case 15, 16:
			ref := l.name("up-")
			if c := l.any("leases"); c != nil && l.roll(2) {
				ctx = leases.WithLease(ctx, c[1])
			}
			var desc ocispec.Descriptor
			if l.roll(2) {
				desc.Digest = digest.FromBytes(l.pool[rng.Intn(len(l.pool))])
			}
			if w, err := r.cs.Writer(ctx, content.WithRef(ref), content.WithDescriptor(desc)); err == nil {
				if desc.Digest == "" {
					w.Write([]byte("part"))
				}
				w.Close()
				l.moment = append(l.moment, l.now.Add(24*time.Hour))
			}
		case 17:
			if c := l.any("content"); c != nil && l.roll(3) {
				r.cs.Delete(ctx, digest.Digest(c[1]))
			} else if c := l.any("ingests"); c != nil && l.roll(2) {
				r.cs.Abort(ctx, c[1])
			}
		case 18:
			if c := l.any("snapshots"); c != nil && l.roll(2) {
				r.db.Snapshotter(c[1]).Remove(ctx, c[2])
			}
		case 19:
			if l.roll(3) {
				r.db.GarbageCollect(context.Background())
			} else if l.roll(2) {
				r.start()
			}
		}
	}
	at := l.now.Add(time.Duration(rng.Intn(40)) * time.Hour)
	if len(l.moment) > 0 && l.roll(2) {
		at = l.moment[rng.Intn(len(l.moment))].Add(time.Duration(rng.Intn(2)))
	}
	return at
}
