package main

import (
	"context"
	"fmt"
	"math/rand"
	"os"
	"path/filepath"
	"strconv"
	"strings"
	"time"

	"github.com/containerd/containerd/content"
	"github.com/containerd/containerd/images"
	"github.com/containerd/containerd/leases"
	"github.com/containerd/containerd/namespaces"
	digest "github.com/opencontainers/go-digest"
	ocispec "github.com/opencontainers/image-spec/specs-go/v1"
)

// life is a client of the daemon that does things at random
type life struct {
	*root
	rng    *rand.Rand
	now    time.Time
	ns     string
	pool   [][]byte
	n      int
	open   map[string]content.Writer
	moment []time.Time // moments at which something ends
}

func (l *life) ctx() context.Context { return namespaces.WithNamespace(context.Background(), l.ns) }

func (l *life) roll(n int) bool { return l.rng.Intn(n) == 0 }

func (l *life) name(p string) string { l.n++; return fmt.Sprintf("%s%d", p, l.n) }

func (l *life) tick() {
	l.now = l.now.Add(time.Duration(l.rng.Intn(1800)) * time.Second)
	setClock(l.now)
}

// any picks a row of a kind in the namespace at hand
func (l *life) any(kind string) []string {
	var in [][]string
	for _, r := range l.inventory().rows[kind] {
		if r[0] == l.ns {
			in = append(in, r)
		}
	}
	if in == nil {
		return nil
	}
	return in[l.rng.Intn(len(in))]
}

func (l *life) leaseLabels() map[string]string {
	m := map[string]string{}
	if !l.roll(4) {
		e := l.now.Add(time.Duration(l.rng.Intn(48)-4) * time.Hour)
		l.moment = append(l.moment, e)
		switch l.rng.Intn(8) {
		case 0:
			m["containerd.io/gc.expire"] = e.In(time.FixedZone("", 5400)).Format(time.RFC3339)
		case 1:
			m["containerd.io/gc.expire"] = "tomorrow"
		case 2:
			m["containerd.io/gc.expire"] = e.Format("2006-01-02T15:04:05.000000001Z")
		default:
			m["containerd.io/gc.expire"] = e.Format(time.RFC3339)
		}
	}
	if l.roll(5) {
		m["containerd.io/gc.flat"] = "true"
	}
	return m
}

func (l *life) put(ctx context.Context, data []byte, labels map[string]string) digest.Digest {
	d := digest.FromBytes(data)
	w, err := l.cs.Writer(ctx, content.WithRef("put-"+d.String()), content.WithDescriptor(ocispec.Descriptor{Digest: d, Size: int64(len(data))}))
	if err != nil {
		return d
	}
	defer w.Close()
	if st, err := w.Status(); err == nil && st.Offset == 0 {
		if _, err := w.Write(data); err != nil {
			return d
		}
	}
	w.Commit(ctx, int64(len(data)), d, content.WithLabels(labels))
	return d
}

// pull does what a client does: a lease, blobs with reference labels, snapshots, the image
func (l *life) pull() {
	ctx := l.ctx()
	lease := l.name("pull-")
	l.lm.Create(ctx, leases.WithID(lease), leases.WithLabels(l.leaseLabels()))
	ctx = leases.WithLease(ctx, lease)
	ss := snapshotters[l.rng.Intn(2)]
	var parent string
	man := map[string]string{}
	start := l.rng.Intn(len(l.pool))
	for i := 0; i < 1+l.rng.Intn(4); i++ {
		d := l.put(ctx, l.pool[(start+i)%len(l.pool)], map[string]string{"containerd.io/uncompressed": "x"})
		man[fmt.Sprintf("containerd.io/gc.ref.content.l.%d", i)] = string(d)
		name := "sha256:" + digest.FromString(parent+string(d)).Encoded()
		if l.roll(12) {
			break // the client died
		}
		key := "extract-" + l.name("") + " " + name
		sn := l.db.Snapshotter(ss)
		if m, err := sn.Prepare(ctx, key, parent); err == nil {
			os.WriteFile(filepath.Join(m[0].Source, "f"), l.pool[(start+i)%len(l.pool)], 0644)
			sn.Commit(ctx, name, key)
		}
		parent = name
	}
	conf := l.put(ctx, []byte(`{"config":`+strconv.Itoa(l.rng.Intn(30))+`}`), map[string]string{"containerd.io/gc.ref.snapshot." + ss: parent})
	man["containerd.io/gc.ref.content.config"] = string(conf)
	top := l.put(ctx, []byte(`{"manifest":`+strconv.Itoa(l.rng.Intn(300))+`}`), man)
	if !l.roll(8) {
		name := "registry.example/library/" + string(rune('a'+l.rng.Intn(12))) + ":latest"
		_, err := l.is.Create(ctx, images.Image{Name: name, Target: ocispec.Descriptor{MediaType: "m", Digest: top, Size: 10}})
		if err != nil {
			l.is.Update(ctx, images.Image{Name: name, Target: ocispec.Descriptor{MediaType: "m", Digest: top, Size: 10}}, "target")
		}
	}
	if !l.roll(3) {
		l.lm.Delete(l.ctx(), leases.Lease{ID: lease})
	}
}

var oddKeys = []string{"containerd.io/gc.root", "containerd.io/gc.ref.content", "containerd.io/gc.ref.content.", "containerd.io/gc.ref.content/x", "containerd.io/gc.ref.contents",
	"containerd.io/gc.ref.snapshot.overlayfs", "containerd.io/gc.ref.snapshot.native/a", "containerd.io/gc.ref.snapshot.", "other", "containerd.io/gc.flat", "containerd.io/gc.expire"}

func (l *life) oddLabel() (string, string) {
	k := oddKeys[l.rng.Intn(len(oddKeys))]
	v := "x"
	if strings.Contains(k, "content") {
		if r := l.any("content"); r != nil && !l.roll(6) {
			v = r[1]
		}
	} else if strings.Contains(k, "snapshot") {
		if r := l.any("snapshots"); r != nil && !l.roll(6) {
			v = r[2]
		}
	}
	return k, v
}
