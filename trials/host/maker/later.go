package main

import (
	"encoding/hex"
	"fmt"
	"math/rand"
	"sort"
	"time"

	bolt "go.etcd.io/bbolt"
)

// later makes the metadata of containerd 1.6 that of containerd 2
type later struct {
	rng    *rand.Rand
	at     time.Time
	plain  bool // nothing that a script can't say
	moment []time.Time
}

// toVersion4 changes meta.db, and answers a moment for its collection
func (r *root) toVersion4(rng *rand.Rand, at time.Time, plain bool) time.Time {
	l := &later{rng, at, plain, []time.Time{at}}
	check(r.bolt.Update(func(tx *bolt.Tx) error {
		v1 := tx.Bucket([]byte("v1"))
		check(v1.Put([]byte("version"), []byte{8}))
		for _, ns := range names(v1) {
			l.namespace(v1.Bucket([]byte(ns)))
			if l.roll(4) {
				l.sandbox(made(made(tx, ns), "sandboxes"), "of-1.7", l.things(v1.Bucket([]byte(ns))))
			}
		}
		return nil
	}))
	return l.moment[rng.Intn(len(l.moment))]
}

// names are the buckets in a bucket, which may change then
func names(b *bolt.Bucket) []string {
	var found []string
	rows(b, func(name string, _ *bolt.Bucket) { found = append(found, name) })
	return found
}

// parent has buckets
type parent interface {
	CreateBucketIfNotExists([]byte) (*bolt.Bucket, error)
}

// made is the bucket of this name, which is made where it isn't there
func made(in parent, name string) *bolt.Bucket {
	b, err := in.CreateBucketIfNotExists([]byte(name))
	check(err)
	return b
}

func (l *later) roll(n int) bool { return l.rng.Intn(n) == 0 }

// put gives a row a label
func put(row *bolt.Bucket, key, value string) {
	check(made(row, "labels").Put([]byte("containerd.io/gc."+key), []byte(value)))
}

// things are the names of a namespace's rows, by the kind that a back reference says
func (l *later) things(space *bolt.Bucket) map[string][]string {
	found := map[string][]string{
		"image":     names(inside(space, "images")),
		"container": names(inside(space, "containers")),
		"content":   names(inside(space, "content", "blob")),
	}
	for _, s := range names(inside(space, "snapshots")) {
		found["snapshot."+s] = names(inside(space, "snapshots", s))
	}
	return found
}

// any is one of some names, now and then one that nothing has
func (l *later) any(of []string) string {
	if len(of) == 0 || l.roll(12) {
		return "missing"
	}
	return of[l.rng.Intn(len(of))]
}

// expiry is a moment about that of the collection, or a text that is none
func (l *later) expiry() string {
	e := l.at.Add(time.Duration(l.rng.Intn(97)-48) * time.Hour)
	if l.roll(4) {
		e = l.at
	}
	l.moment = append(l.moment, e, e.Add(1))
	switch l.rng.Intn(8) {
	case 0:
		return "tomorrow"
	case 1:
		return e.In(time.FixedZone("", -5400)).Format(time.RFC3339Nano)
	}
	return e.Format(time.RFC3339Nano)
}

// namespace changes a namespace
func (l *later) namespace(space *bolt.Bucket) {
	of := l.things(space)
	expires := map[string]bool{}
	for i, name := range of["image"] {
		if i%2 == 0 { // as an image has that was imported
			notes := made(inside(space, "images", name), "annotations")
			check(notes.Put([]byte("org.opencontainers.image.ref.name"), []byte("latest")))
		}
		if l.roll(2) {
			put(inside(space, "images", name), "expire", l.expiry())
			expires[name] = true
		}
	}
	l.leases(space, of["image"])
	l.references(space, of, expires)
	for i := l.rng.Intn(4); i > 0; i-- {
		name := fmt.Sprintf("sandbox-%d", i)
		if c := of["container"]; len(c) > 0 && l.roll(2) {
			name = l.any(c)
		}
		l.sandbox(made(space, "sandboxes"), name, of)
	}
}

// leases gives images to leases, of which some are new
func (l *later) leases(space *bolt.Bucket, images []string) {
	in := made(space, "leases")
	for i := l.rng.Intn(3); i > 0; i-- {
		row := made(in, fmt.Sprintf("holds-%d", i))
		if !l.roll(3) {
			put(row, "expire", l.expiry())
		}
		if !l.plain && l.roll(6) {
			put(row, "flat", "y")
		}
	}
	for _, name := range names(in) {
		row := inside(in, name)
		if _, flat := label(row, "flat"); l.plain && flat {
			continue
		}
		for i := l.rng.Intn(3); i > 0; i-- {
			check(made(row, "images").Put([]byte(l.any(images)), nil))
		}
	}
}

// references gives rows back references, and references to images
func (l *later) references(space *bolt.Bucket, of map[string][]string, expires map[string]bool) {
	var by []string
	for kind := range of {
		by = append(by, kind)
	}
	sort.Strings(by)
	label := func(row *bolt.Bucket) {
		if l.roll(5) {
			kind := by[l.rng.Intn(len(by))]
			put(row, "bref."+kind+[]string{"", "/a", "/b"}[l.rng.Intn(3)], l.any(of[kind]))
		}
		if image := l.any(of["image"]); l.roll(8) && !(l.plain && expires[image]) {
			put(row, "ref.image"+[]string{"", ".a", "/b"}[l.rng.Intn(3)], image)
		}
	}
	for _, name := range of["content"] {
		label(inside(space, "content", "blob", name))
	}
	for _, s := range names(inside(space, "snapshots")) {
		for _, name := range names(inside(space, "snapshots", s)) {
			label(inside(space, "snapshots", s, name))
		}
	}
	for _, name := range of["image"] {
		if !(l.plain && expires[name]) && l.roll(3) {
			label(inside(space, "images", name))
		}
	}
}

// sandbox makes a sandbox whose labels reference
func (l *later) sandbox(in *bolt.Bucket, name string, of map[string][]string) {
	row := made(in, name)
	now, err := l.at.MarshalBinary()
	check(err)
	for _, k := range []string{"createdat", "updatedat"} {
		check(row.Put([]byte(k), now))
	}
	check(row.Put([]byte("spec"), []byte("{}")))
	check(row.Put([]byte("sandboxer"), []byte("podsandbox")))
	check(made(row, "runtime").Put([]byte("name"), []byte("io.containerd.runc.v2")))
	made(row, "extensions")
	for i := l.rng.Intn(3); i > 0; i-- {
		if l.roll(2) {
			put(row, fmt.Sprintf("ref.content.%d", i), l.any(of["content"]))
		} else {
			s := snapshotters[l.rng.Intn(len(snapshotters))]
			put(row, "ref.snapshot."+s, l.any(of["snapshot."+s]))
		}
	}
}

// laterFacts keeps the store as it is, and tells what a collection at the moment removes
func (r *root) laterFacts(at time.Time) map[string]interface{} {
	a := r.inventory()
	r.keepBefore(a)
	without := r.removeOne()
	removed, kept := map[string][][]string{}, map[string]int{}
	blobs, ings, snaps := []string{}, []string{}, [][]string{}
	var freed int64
	check(r.bolt.View(func(tx *bolt.Tx) error {
		gone, stays := collection(tx, at)
		for _, k := range kinds {
			removed[k], kept[k] = hexed(gone[k]), stays[k]
		}
		own := owned(tx, gone)
		for d, n := range a.blobs {
			if !own.blobs[d] {
				blobs = append(blobs, d)
				freed += n
			}
		}
		for i, n := range a.ings {
			if !own.ings[i] {
				ings = append(ings, hex.EncodeToString([]byte(i)))
				freed += n
			}
		}
		for n, m := range a.snaps {
			for _, k := range lone(r.snap[n], own.snaps[n]) {
				snaps = append(snaps, []string{n, hex.EncodeToString([]byte(k))})
				freed += m[k]
			}
		}
		return nil
	}))
	sort.Strings(blobs)
	sort.Strings(ings)
	backend := map[string]interface{}{"blobs": blobs, "ingests": ings, "snapshots": sorted(snaps)}
	return map[string]interface{}{"without": without, "at": at.Format(time.RFC3339Nano),
		"removed": removed, "kept": kept, "freed_bytes": freed, "backend": backend}
}
