package main

import (
	"context"
	"strings"
	"time"

	"github.com/containerd/containerd/snapshots"
	bolt "go.etcd.io/bbolt"
)

// rules is a second reader of version 4, the metadata of containerd 2, which says what a collection
// removes. It is written from the schema's description, over bbolt alone.
type rules struct {
	v1    *bolt.Bucket
	at    time.Time
	backs map[node][]node
	seen  map[node]bool
	left  []node
	gone  map[string][][]string
	kept  map[string]int
}

// node is a row that may be reached; a snapshot's kind has its snapshotter
type node struct{ ns, kind, name string }

const flatMark = "flat "

// collection answers the rows that go at a moment, and how many stay, each by its kind
func collection(tx *bolt.Tx, at time.Time) (map[string][][]string, map[string]int) {
	r := &rules{
		v1:    tx.Bucket([]byte("v1")),
		at:    at,
		backs: map[node][]node{},
		seen:  map[node]bool{},
		gone:  map[string][][]string{},
		kept:  map[string]int{},
	}
	r.namespaces(r.readBacks)
	r.namespaces(r.roots)
	for len(r.left) > 0 {
		n := r.left[len(r.left)-1]
		r.left = r.left[:len(r.left)-1]
		r.follow(n)
	}
	r.namespaces(r.sweep)
	return r.gone, r.kept
}

// inside is the bucket below others by their names, nil where there is none
func inside(b *bolt.Bucket, names ...string) *bolt.Bucket {
	for _, n := range names {
		if b == nil {
			return nil
		}
		b = b.Bucket([]byte(n))
	}
	return b
}

// rows calls f for each bucket in one that may not be there
func rows(b *bolt.Bucket, f func(name string, row *bolt.Bucket)) {
	if b != nil {
		b.ForEach(func(k, v []byte) error {
			if v == nil {
				f(string(k), b.Bucket(k))
			}
			return nil
		})
	}
}

// values calls f for each value in a bucket that may not be there
func values(b *bolt.Bucket, f func(key, value string)) {
	if b != nil {
		b.ForEach(func(k, v []byte) error {
			if v != nil {
				f(string(k), string(v))
			}
			return nil
		})
	}
}

// label is a label of a row, and whether it is there
func label(row *bolt.Bucket, key string) (string, bool) {
	l := inside(row, "labels")
	if l == nil {
		return "", false
	}
	v := l.Get([]byte("containerd.io/gc." + key))
	return string(v), v != nil
}

// ended tells whether a row has an expiry that is over
func (r *rules) ended(row *bolt.Bucket) bool {
	v, ok := label(row, "expire")
	if !ok {
		return false
	}
	e, err := time.Parse(time.RFC3339, v)
	return err == nil && r.at.After(e)
}

func (r *rules) namespaces(f func(ns string, space *bolt.Bucket)) { rows(r.v1, f) }

func (r *rules) reach(n node) {
	if !r.seen[n] {
		r.seen[n] = true
		r.left = append(r.left, n)
	}
}

// reference is the row that a label of this kind names, whose key goes on with a name of its own
func reference(ns, prefix, key, value string) (node, bool) {
	rest := strings.TrimPrefix(key, prefix)
	if rest == key {
		return node{}, false
	}
	if s := strings.TrimPrefix(rest, "snapshot."); s != rest {
		return node{ns, "snapshot " + strings.Split(s, "/")[0], value}, true
	}
	for _, kind := range []string{"content", "image", "container"} {
		if s := strings.TrimPrefix(rest, kind); s != rest && (s == "" || s[0] == '.' || s[0] == '/') {
			return node{ns, kind, value}, true
		}
	}
	return node{}, false
}

// each calls f for each row that back references may stand on or name
func (r *rules) each(ns string, space *bolt.Bucket, f func(n node, row *bolt.Bucket)) {
	rows(inside(space, "images"), func(name string, row *bolt.Bucket) {
		f(node{ns, "image", name}, row)
	})
	rows(inside(space, "content", "blob"), func(name string, row *bolt.Bucket) {
		f(node{ns, "content", name}, row)
	})
	rows(inside(space, "snapshots"), func(s string, in *bolt.Bucket) {
		rows(in, func(name string, row *bolt.Bucket) { f(node{ns, "snapshot " + s, name}, row) })
	})
}

// readBacks keeps who names a row in a back reference: the row goes on to those
func (r *rules) readBacks(ns string, space *bolt.Bucket) {
	r.each(ns, space, func(n node, row *bolt.Bucket) {
		values(inside(row, "labels"), func(k, v string) {
			if by, ok := reference(ns, "containerd.io/gc.bref.", k, v); ok {
				r.backs[by] = append(r.backs[by], n)
			}
		})
	})
}

// roots reaches what stays by itself
func (r *rules) roots(ns string, space *bolt.Bucket) {
	rows(inside(space, "leases"), func(name string, row *bolt.Bucket) {
		if r.ended(row) {
			return
		}
		mark := ""
		if _, flat := label(row, "flat"); flat {
			mark = flatMark
		}
		values(inside(row, "content"), func(k, _ string) { r.reach(node{ns, mark + "content", k}) })
		values(inside(row, "images"), func(k, _ string) { r.reach(node{ns, mark + "image", k}) })
		values(inside(row, "ingests"), func(k, _ string) { r.reach(node{ns, "ingest", k}) })
		rows(inside(row, "snapshots"), func(s string, held *bolt.Bucket) {
			values(held, func(k, _ string) { r.reach(node{ns, mark + "snapshot " + s, k}) })
		})
	})
	r.each(ns, space, func(n node, row *bolt.Bucket) {
		_, root := label(row, "root")
		if n.kind == "image" && !r.ended(row) || n.kind != "image" && root {
			r.reach(n)
		}
	})
	rows(inside(space, "content", "ingests"), func(name string, row *bolt.Bucket) {
		var end time.Time
		v := row.Get([]byte("expireat"))
		if v != nil && end.UnmarshalBinary(v) == nil && !r.at.After(end) {
			r.reach(node{ns, "ingest", name})
		}
	})
	rows(inside(space, "containers"), func(name string, row *bolt.Bucket) {
		r.reach(node{ns, "container", name})
		if s := row.Get([]byte("snapshotter")); len(s) > 0 {
			r.reach(node{ns, "snapshot " + string(s), string(row.Get([]byte("snapshotKey")))})
		}
	})
	rows(inside(space, "sandboxes"), func(_ string, row *bolt.Bucket) { r.labels(ns, row) })
}

// labels reaches what the labels of a row reference
func (r *rules) labels(ns string, row *bolt.Bucket) {
	values(inside(row, "labels"), func(k, v string) {
		if n, ok := reference(ns, "containerd.io/gc.ref.", k, v); ok && n.kind != "container" {
			r.reach(n)
		}
	})
}

// follow reaches what a row leads on to; a row of a flat lease leads to no label's row
func (r *rules) follow(n node) {
	space, kind, mark := inside(r.v1, n.ns), strings.TrimPrefix(n.kind, flatMark), ""
	if kind != n.kind {
		mark = flatMark
	}
	var row *bolt.Bucket
	switch {
	case kind == "content":
		row = inside(space, "content", "blob", n.name)
	case kind == "image":
		row = inside(space, "images", n.name)
		if t := inside(row, "target"); t != nil {
			r.reach(node{n.ns, mark + "content", string(t.Get([]byte("digest")))})
		}
	case kind == "container":
		row = inside(space, "containers", n.name)
	case kind == "ingest":
		if row = inside(space, "content", "ingests", n.name); row != nil {
			r.reach(node{n.ns, "content", string(row.Get([]byte("expected")))})
		}
		return
	default:
		if row = inside(space, "snapshots", strings.TrimPrefix(kind, "snapshot "), n.name); row != nil {
			r.reach(node{n.ns, mark + kind, string(row.Get([]byte("parent")))})
		}
	}
	if row == nil || mark != "" {
		return
	}
	r.labels(n.ns, row)
	for _, to := range r.backs[n] {
		r.reach(to)
	}
}

// sweep tells what of a namespace goes
func (r *rules) sweep(ns string, space *bolt.Bucket) {
	is := func(kind string, stays bool, row ...string) {
		if stays {
			r.kept[kind]++
		} else {
			r.gone[kind] = append(r.gone[kind], append([]string{ns}, row...))
		}
	}
	reached := func(n node) bool { return r.seen[n] || r.seen[node{n.ns, flatMark + n.kind, n.name}] }
	r.kept["namespaces"]++
	r.each(ns, space, func(n node, row *bolt.Bucket) {
		switch n.kind {
		case "image":
			is("images", reached(n), n.name)
		case "content":
			is("content", reached(n), n.name)
		default:
			is("snapshots", reached(n), strings.TrimPrefix(n.kind, "snapshot "), n.name)
		}
	})
	rows(inside(space, "leases"), func(name string, row *bolt.Bucket) {
		is("leases", !r.ended(row), name)
	})
	rows(inside(space, "content", "ingests"), func(name string, row *bolt.Bucket) {
		is("ingests", r.seen[node{ns, "ingest", name}], name)
	})
	rows(inside(space, "containers"), func(name string, row *bolt.Bucket) {
		is("containers", true, name)
	})
}

// objects are those of the backends that rows own
type objects struct {
	blobs, ings map[string]bool
	snaps       map[string]map[string]bool // by their snapshotter
}

// owned are the objects of the rows that stay
func owned(tx *bolt.Tx, gone map[string][][]string) objects {
	away := map[string]bool{}
	for kind, list := range gone {
		for _, row := range list {
			away[kind+"\x00"+strings.Join(row, "\x00")] = true
		}
	}
	own := objects{map[string]bool{}, map[string]bool{}, map[string]map[string]bool{}}
	rows(tx.Bucket([]byte("v1")), func(ns string, space *bolt.Bucket) {
		stays := func(kind string, row ...string) bool {
			return !away[kind+"\x00"+ns+"\x00"+strings.Join(row, "\x00")]
		}
		rows(inside(space, "content", "blob"), func(name string, _ *bolt.Bucket) {
			if stays("content", name) {
				own.blobs[name] = true
			}
		})
		rows(inside(space, "content", "ingests"), func(name string, row *bolt.Bucket) {
			if stays("ingests", name) {
				own.ings[string(row.Get([]byte("ref")))] = true
				own.blobs[string(row.Get([]byte("expected")))] = true
			}
		})
		rows(inside(space, "snapshots"), func(s string, in *bolt.Bucket) {
			rows(in, func(name string, row *bolt.Bucket) {
				if stays("snapshots", s, name) {
					if own.snaps[s] == nil {
						own.snaps[s] = map[string]bool{}
					}
					own.snaps[s][string(row.Get([]byte("name")))] = true
				}
			})
		})
	})
	return own
}

// lone are the snapshots of a backend that no row owns, but for those that are below one that stays
func lone(s snapshots.Snapshotter, own map[string]bool) []string {
	parents, stays := map[string]string{}, map[string]bool{}
	// a snapshotter that was never asked for anything has no rows to walk, which is an error
	s.Walk(context.Background(), func(_ context.Context, i snapshots.Info) error {
		parents[i.Name] = i.Parent
		return nil
	})
	for name := range parents {
		for n := name; own[name] && n != ""; n = parents[n] {
			stays[n] = true
		}
	}
	var found []string
	for name := range parents {
		if !stays[name] {
			found = append(found, name)
		}
	}
	return found
}
