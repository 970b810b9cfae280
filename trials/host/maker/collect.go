package main

import (
	"context"
	"encoding/hex"
	"fmt"
	"os"
	"path/filepath"
	"sort"
	"strings"
	"time"

	"github.com/containerd/containerd/content"
	"github.com/containerd/containerd/leases"
	"github.com/containerd/containerd/namespaces"
	"github.com/containerd/containerd/snapshots"
	bolt "go.etcd.io/bbolt"
)

// inventory is what meta.db and the backends hold at one time
type inventory struct {
	rows  map[string][][]string
	blobs map[string]int64            // bytes
	ings  map[string]int64            // bytes
	snaps map[string]map[string]int64 // bytes that were recorded at the commit, 0 for others
}

// inventory reads all rows through bbolt, and all objects through the backends
func (r *root) inventory() *inventory {
	v := &inventory{map[string][][]string{}, map[string]int64{}, map[string]int64{}, map[string]map[string]int64{}}
	check(r.bolt.View(func(tx *bolt.Tx) error {
		b := tx.Bucket([]byte("v1"))
		return b.ForEach(func(ns, val []byte) error {
			if val != nil {
				return nil
			}
			n := b.Bucket(ns)
			v.rows["namespaces"] = append(v.rows["namespaces"], []string{string(ns)})
			list := func(kind string, path ...string) {
				x := n
				for _, p := range path {
					if x = x.Bucket([]byte(p)); x == nil {
						return
					}
				}
				x.ForEach(func(k, val []byte) error {
					if val == nil {
						row := []string{string(ns), string(k)}
						if kind == "snapshots" {
							row = []string{string(ns), path[1], string(k)}
						}
						v.rows[kind] = append(v.rows[kind], row)
					}
					return nil
				})
			}
			list("images", "images")
			list("containers", "containers")
			list("leases", "leases")
			list("content", "content", "blob")
			list("ingests", "content", "ingests")
			for _, s := range snapshotters {
				list("snapshots", "snapshots", s)
			}
			return nil
		})
	}))
	r.blob.Walk(context.Background(), func(i content.Info) error { v.blobs[string(i.Digest)] = i.Size; return nil })
	l, err := r.blob.ListStatuses(context.Background())
	check(err)
	for _, s := range l {
		v.ings[s.Ref] = s.Offset
	}
	for n, s := range r.snap {
		v.snaps[n] = map[string]int64{}
		s.Walk(context.Background(), func(_ context.Context, i snapshots.Info) error { v.snaps[n][i.Name] = 0; return nil })
		for name := range v.snaps[n] {
			info, err := s.Stat(context.Background(), name)
			check(err)
			if info.Kind == snapshots.KindCommitted {
				u, err := s.Usage(context.Background(), name)
				check(err)
				v.snaps[n][name] = u.Size
			}
		}
	}
	return v
}

// sorted sorts rows, text by text
func sorted(l [][]string) [][]string {
	sort.Slice(l, func(i, j int) bool {
		for k := range l[i] {
			if l[i][k] != l[j][k] {
				return l[i][k] < l[j][k]
			}
		}
		return false
	})
	return l
}

// copyTo copies meta.db to a file of the root
func (r *root) copyTo(name string) {
	f, err := os.Create(filepath.Join(r.dir, name))
	check(err)
	check(r.bolt.View(func(tx *bolt.Tx) error { _, err := tx.WriteTo(f); return err }))
	check(f.Close())
}

// keepBefore copies meta.db to before.db, and the files of the snapshotters, and lists what the
// content store holds
func (r *root) keepBefore(a *inventory) {
	r.copyTo("before.db")
	for _, n := range snapshotters {
		raw, err := os.ReadFile(filepath.Join(r.dir, "io.containerd.snapshotter.v1."+n, "metadata.db"))
		if os.IsNotExist(err) {
			continue // nothing was ever asked of this one
		}
		check(err)
		check(os.WriteFile(filepath.Join(r.dir, "before-"+n+".db"), raw, 0644))
	}
	var list []string
	for d, n := range a.blobs {
		list = append(list, fmt.Sprintf("blob %d %s", n, d))
	}
	for i, n := range a.ings {
		list = append(list, fmt.Sprintf("ingest %d %s", n, hex.EncodeToString([]byte(i))))
	}
	sort.Strings(list)
	check(os.WriteFile(filepath.Join(r.dir, "before-stored"), []byte(strings.Join(list, "\n")+"\n"), 0644))
}

// kinds are those of rows that the facts tell
var kinds = []string{"containers", "content", "images", "ingests", "leases", "namespaces",
	"snapshots"}

// hexed are rows as the facts have them: names that are no UTF-8 wouldn't come through JSON, so all
// texts are hexadecimal
func hexed(rows [][]string) [][]string {
	out := [][]string{}
	for _, row := range sorted(rows) {
		x := []string{}
		for _, t := range row {
			x = append(x, hex.EncodeToString([]byte(t)))
		}
		out = append(out, x)
	}
	return out
}

// collect copies meta.db to before.db, collects at the moment, and tells what went
func (r *root) collect(at time.Time) map[string]interface{} {
	a := r.inventory()
	r.keepBefore(a)
	gone := r.removeOne()
	if gone != nil {
		a = r.inventory()
	}
	setClock(at)
	_, err := r.db.GarbageCollect(context.Background())
	check(err)
	r.copyTo("after.db")
	b := r.inventory()
	removed, kept := map[string][][]string{}, map[string]int{}
	for _, k := range kinds {
		still := map[string]bool{}
		for _, x := range b.rows[k] {
			still[strings.Join(x, "\x00")] = true
		}
		gone := [][]string{}
		for _, x := range a.rows[k] {
			if !still[strings.Join(x, "\x00")] {
				gone = append(gone, x)
			}
		}
		removed[k], kept[k] = hexed(gone), len(b.rows[k])
	}
	blobs, ings, snaps := []string{}, []string{}, [][]string{}
	var freed int64
	for d, n := range a.blobs {
		if _, ok := b.blobs[d]; !ok {
			blobs = append(blobs, d)
			freed += n
		}
	}
	for i, n := range a.ings {
		if _, ok := b.ings[i]; !ok {
			ings = append(ings, hex.EncodeToString([]byte(i)))
			freed += n
		}
	}
	for n, m := range a.snaps {
		for k, size := range m {
			if _, ok := b.snaps[n][k]; !ok {
				snaps = append(snaps, []string{n, hex.EncodeToString([]byte(k))})
				freed += size
			}
		}
	}
	sort.Strings(blobs)
	sort.Strings(ings)
	return map[string]interface{}{"without": gone, "at": at.Format(time.RFC3339Nano), "removed": removed, "kept": kept, "freed_bytes": freed,
		"backend": map[string]interface{}{"blobs": blobs, "ingests": ings, "snapshots": sorted(snaps)}}
}

// removeOne removes an image, a container or a lease by hand, and says which
func (r *root) removeOne() []string {
	if r.less == nil {
		return nil
	}
	kind := []string{"images", "containers", "leases"}[r.less.Intn(3)]
	rows := r.inventory().rows[kind]
	if len(rows) == 0 {
		return nil
	}
	x := rows[r.less.Intn(len(rows))]
	ctx := namespaces.WithNamespace(context.Background(), x[0])
	switch kind {
	case "images":
		check(r.is.Delete(ctx, x[1]))
	case "containers":
		check(r.cts.Delete(ctx, x[1]))
	case "leases":
		check(r.lm.Delete(ctx, leases.Lease{ID: x[1]}))
	}
	return []string{kind[:len(kind)-1], x[0], x[1]}
}
