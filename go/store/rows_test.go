package store

import (
	"bytes"
	"context"
	"fmt"
	"math/rand"
	"reflect"
	"strings"
	"testing"
	"time"

	"github.com/containerd/containerd/containers"
	"github.com/containerd/containerd/content"
	"github.com/containerd/containerd/errdefs"
	"github.com/containerd/containerd/images"
	"github.com/containerd/containerd/leases"
	"github.com/containerd/containerd/snapshots"
	"github.com/gogo/protobuf/types"
	"github.com/opencontainers/go-digest"
	ocispec "github.com/opencontainers/image-spec/specs-go/v1"

	"metad/metad"
)

func TestLabelsThatNoClientMaySetAreRefused(t *testing.T) {
	for name, ls := range map[string]map[string]string{
		"the store's own": {updatedLabel: "v"},
		"too long":        {"k": string(bytes.Repeat([]byte{'v'}, 4096))},
	} {
		if err := checkLabels(ls); !errdefs.IsInvalidArgument(err) {
			t.Errorf("%s: %v, want an invalid argument", name, err)
		}
	}
}

func TestPathsOfLabelsBecomeMembers(t *testing.T) {
	now := time.Date(2024, 3, 1, 0, 0, 0, 0, time.UTC)
	s := &Store{moment: func() time.Time { return now }}
	want := map[string]string{"a": "1", "b": "2"}
	for paths, line := range map[string]metad.Line{
		"labels":          {"labels": map[string]string{"a": "1", "b": "2", updatedLabel: s.now()}},
		"labels.a labels": {"labels": map[string]string{"a": "1", "b": "2", updatedLabel: s.now()}},
		"labels.a target": {"put": map[string]string{"a": "1", updatedLabel: s.now()}},
		"labels.c target": {"put": map[string]string{"c": "", updatedLabel: s.now()}},
		"target":          {"put": map[string]string{updatedLabel: s.now()}},
	} {
		has := metad.Line{}
		others, err := s.relabel(has, want, strings.Fields(paths))
		if err != nil || !reflect.DeepEqual(has, line) ||
			(len(others) == 1) != strings.HasSuffix(paths, "target") {
			t.Errorf("%s: %v, %v, other paths %v, want %v", paths, err, has, others, line)
		}
	}
	for _, path := range []string{"labels." + updatedLabel, "labels"} {
		if _, err := s.relabel(metad.Line{}, map[string]string{updatedLabel: ""},
			[]string{path}); !errdefs.IsInvalidArgument(err) {
			t.Errorf("%s: %v, want an invalid argument", path, err)
		}
	}
}

func (w *world) image(name string, ls map[string]string) images.Image {
	return images.Image{Name: name, Labels: ls, Target: ocispec.Descriptor{
		MediaType: ocispec.MediaTypeImageManifest, Digest: digest.FromString("target"), Size: 7}}
}

func newContainer(id string) containers.Container {
	return containers.Container{ID: id, Runtime: containers.RuntimeInfo{Name: "runtime"},
		Spec: &types.Any{TypeUrl: "spec", Value: []byte("1")}}
}

// The number of lines, and of trips, is what a client waits for.
func TestEachCallIsFewLines(t *testing.T) {
	w := newWorld(t)
	is, cs, sn := NewImageStore(w.s), w.s.ContentStore(), w.s.Snapshotter("native")
	ctx := w.lease("holder")
	text, dgst := "text", digest.FromString("text")
	var writer content.Writer
	label := map[string]string{"a": "1"}
	for _, c := range []struct {
		is           string
		lines, trips uint64
		call         func() error
	}{
		{"an image is made", 1, 1, func() (err error) {
			_, err = is.Create(ctx, w.image("app", nil))
			return err
		}},
		{"is labelled", 1, 1, func() (err error) {
			_, err = is.Update(ctx, w.image("app", label), "labels.a")
			return err
		}},
		{"has another target", 2, 2, func() (err error) {
			_, err = is.Update(ctx, w.image("app", label))
			return err
		}},
		{"images are listed", 1, 1, func() (err error) {
			_, err = is.List(ctx)
			return err
		}},
		{"content is begun", 1, 1, func() (err error) {
			writer, err = content.OpenWriter(ctx, cs, content.WithRef("r"),
				content.WithDescriptor(ocispec.Descriptor{Digest: dgst, Size: 4}))
			return err
		}},
		{"is written and committed", 1, 1, func() error {
			writer.Write([]byte(text))
			return writer.Commit(ctx, 4, dgst)
		}},
		{"is labelled", 1, 1, func() (err error) {
			_, err = cs.Update(ctx, content.Info{Digest: dgst, Labels: label}, "labels.a")
			return err
		}},
		{"is listed", 1, 1, func() error {
			return cs.Walk(ctx, func(content.Info) error { return nil })
		}},
		{"ingests are listed", 1, 1, func() (err error) {
			_, err = cs.ListStatuses(ctx)
			return err
		}},
		{"a snapshot is made", 2, 1, func() (err error) {
			_, err = sn.Prepare(ctx, "work", "", snapshots.WithLabels(
				map[string]string{labelSnapshotRef: "base"}))
			return err
		}},
		{"is committed", 1, 1, func() error { return sn.Commit(ctx, "base", "work") }},
		{"has a child", 1, 1, func() (err error) {
			_, err = sn.Prepare(ctx, "child", "base")
			return err
		}},
		{"is labelled", 1, 1, func() (err error) {
			_, err = sn.Update(ctx, snapshots.Info{Name: "base", Labels: label}, "labels.a")
			return err
		}},
		{"its child is removed", 1, 1, func() error { return sn.Remove(ctx, "child") }},
		{"content is removed", 1, 1, func() error { return cs.Delete(ctx, dgst) }},
		{"a collection", 1, 1, func() (err error) {
			_, err = w.s.GarbageCollect(ctx)
			return err
		}},
		{"a start compares", 5, 3, func() error { w.reopen(); return nil }},
	} {
		trips, lines := w.client.Trips()
		client := w.client
		if err := c.call(); err != nil {
			t.Fatalf("%s: %v", c.is, err)
		}
		if client != w.client {
			trips, lines = 0, 0
		}
		newTrips, newLines := w.client.Trips()
		if newLines-lines != c.lines || newTrips-trips != c.trips {
			t.Errorf("%s: %d lines in %d trips, want %d in %d", c.is, newLines-lines, newTrips-trips,
				c.lines, c.trips)
		}
	}
}

func TestAnUpdateKeepsWhatItDoesntName(t *testing.T) {
	w := newWorld(t)
	is := NewImageStore(w.s)
	made, err := is.Create(w.ctx, w.image("app", map[string]string{"a": "1", "b": "1"}))
	w.must(err)
	w.now = w.now.Add(time.Minute)
	for _, c := range []struct {
		paths  []string
		labels map[string]string
		is     map[string]string
	}{
		{[]string{"labels.a"}, map[string]string{"a": "2"}, map[string]string{"a": "2", "b": "1"}},
		{[]string{"labels.a"}, nil, map[string]string{"b": "1"}},
		{[]string{"target"}, map[string]string{"c": "1"}, map[string]string{"b": "1"}},
		{[]string{"labels"}, map[string]string{"c": "1"}, map[string]string{"c": "1"}},
		{nil, map[string]string{"d": "1"}, map[string]string{"d": "1"}},
		{[]string{"labels"}, nil, nil},
	} {
		updated, err := is.Update(w.ctx, w.image("app", c.labels), c.paths...)
		w.must(err)
		has, err := is.Get(w.ctx, "app")
		w.must(err)
		if !reflect.DeepEqual(has, updated) || !reflect.DeepEqual(has.Labels, c.is) ||
			!reflect.DeepEqual(has.Target, made.Target) || !has.CreatedAt.Equal(made.CreatedAt) ||
			!has.UpdatedAt.Equal(w.now) {
			t.Errorf("%v: %+v, told %+v, want labels %v", c.paths, has, updated, c.is)
		}
	}
	for _, path := range []string{"name", "labels." + updatedLabel} {
		if _, err := is.Update(w.ctx, w.image("app", nil), path); !errdefs.IsInvalidArgument(err) {
			t.Errorf("%s: %v, want an invalid argument", path, err)
		}
	}
}

// A row's snapshot can't be taken away by a line, so the row names one that nobody has.
func TestAContainerLosesAndGetsASnapshot(t *testing.T) {
	w := newWorld(t)
	cs := NewContainerStore(w.s)
	c := newContainer("web")
	c.Snapshotter, c.SnapshotKey = "native", "work"
	_, err := w.s.Snapshotter("native").Prepare(w.ctx, "work", "")
	w.must(err)
	_, err = cs.Create(w.ctx, c)
	w.must(err)
	w.collect()
	w.snapshotRow(true, "work")

	c.SnapshotKey = ""
	for i := 0; i < 2; i++ {
		updated, err := cs.Update(w.ctx, c, "snapshotkey")
		w.must(err)
		has, err := cs.Get(w.ctx, "web")
		w.must(err)
		if !reflect.DeepEqual(has, updated) || has.SnapshotKey != "" || has.Snapshotter != "native" {
			t.Fatalf("%+v, told %+v, want no snapshot", has, updated)
		}
	}
	w.collect()
	w.snapshotRow(false, "work")

	c.SnapshotKey = "another"
	updated, err := cs.Update(w.ctx, c, "snapshotkey")
	w.must(err)
	if updated.SnapshotKey != "another" {
		t.Fatalf("%+v, want another snapshot", updated)
	}
}

// What is too long for a row is packed, and refused only if that doesn't help.
func TestALongSpecIsPacked(t *testing.T) {
	w := newWorld(t)
	cs := NewContainerStore(w.s)
	for _, size := range []int{1000, 36000, 37000, 400000} {
		c := newContainer(fmt.Sprint("web-", size))
		c.Spec.Value = []byte(strings.Repeat(`{"destination":"/proc","type":"proc"},`, size/38))
		_, err := cs.Create(w.ctx, c)
		w.must(err)
		has, err := cs.Get(w.ctx, c.ID)
		if err != nil || !bytes.Equal(has.Spec.Value, c.Spec.Value) {
			t.Fatalf("%v, a spec of %d bytes, want %d", err, len(has.Spec.Value), len(c.Spec.Value))
		}
	}
	c := newContainer("random")
	c.Spec.Value = make([]byte, 50000)
	rand.New(rand.NewSource(1)).Read(c.Spec.Value)
	if _, err := cs.Create(w.ctx, c); !errdefs.IsInvalidArgument(err) {
		t.Fatalf("%v, want an invalid argument", err)
	}
}

// filled returns so many labels, each with so long a value.
func filled(labels, length int) map[string]string {
	ls := map[string]string{}
	for i := 0; i < labels; i++ {
		ls[fmt.Sprint("label-", i)] = strings.Repeat("v", length)
	}
	return ls
}

// What containerd takes, and a client notices here: docs/CONTAINERD.md has each with its reason.
func TestWhatContainerdTakesAndMetadRefuses(t *testing.T) {
	w := newWorld(t)
	is, cs, sn := NewImageStore(w.s), NewContainerStore(w.s), w.s.Snapshotter("native")
	made := func(image images.Image) error {
		_, err := is.Create(w.ctx, image)
		return err
	}
	annotated := w.image("annotated", nil)
	annotated.Target.Annotations = filled(50, 1000)
	long := newContainer("long")
	long.Spec.Value = make([]byte, 60_000)
	rand.New(rand.NewSource(1)).Read(long.Spec.Value) // isn't shorter when it is deflated
	for name, call := range map[string]func() error{
		"a name of 1,025 bytes": func() error {
			return made(w.image(strings.Repeat("n", 1025), nil))
		},
		"a name with a control character": func() error { return made(w.image("a\x1fb", nil)) },
		"a key of 1,025 bytes": func() error {
			_, err := sn.Prepare(w.ctx, strings.Repeat("k", 1025), "")
			return err
		},
		"a ref with a line feed": func() error {
			_, err := w.s.ContentStore().Writer(w.ctx, content.WithRef("a\nb"))
			return err
		},
		"256 labels":        func() error { return made(w.image("labels", filled(256, 1))) },
		"labels of 68 KB":   func() error { return made(w.image("labels", filled(17, 4000))) },
		"50 KB annotations": func() error { return made(annotated) },
		"a spec of 60 KB": func() error {
			_, err := cs.Create(w.ctx, long)
			return err
		},
		"a target by sha384": func() error {
			image := w.image("sha384", nil)
			image.Target.Digest = digest.SHA384.FromString("text")
			return made(image)
		},
	} {
		if err := call(); !errdefs.IsInvalidArgument(err) {
			t.Errorf("%s: %v, want an invalid argument", name, err)
		}
	}

	// what is a little less is taken, and can be changed
	w.must(made(w.image(strings.Repeat("n", 1024), filled(255, 1))))
	_, err := is.Update(w.ctx, w.image(strings.Repeat("n", 1024), filled(1, 2)), "labels.label-0")
	w.must(err)
	w.must(made(w.image("labels", filled(14, 4000))))
	annotated.Target.Annotations = filled(38, 1000)
	w.must(made(annotated))
	long.Spec.Value = long.Spec.Value[:35_000]
	_, err = cs.Create(w.ctx, long)
	w.must(err)
}

func TestAnExpiryThatOnlyGoReadsNeverComes(t *testing.T) {
	w := newWorld(t)
	lm := NewLeaseManager(w.s)
	for id, expiry := range map[string]string{"go": "2020-01-01T5:00:00Z",
		"comma": "2020-01-01T05:00:00,5Z", "standard": "2020-01-01T05:00:00Z"} {
		if _, err := time.Parse(time.RFC3339, expiry); err != nil {
			t.Fatal(err)
		}
		_, err := lm.Create(w.ctx, leases.WithID(id),
			leases.WithLabels(map[string]string{"containerd.io/gc.expire": expiry}))
		w.must(err)
	}
	w.collect()
	for id, there := range map[string]bool{"go": true, "comma": true, "standard": false} {
		w.row(there, metad.Line{"op": "lease.get", "ns": "one", "id": id})
	}
}

// A lease holds what is there when its ingest or its key would make it, and no longer the ingest or
// the key.
func TestALeaseHoldsWhatACommitMade(t *testing.T) {
	w := newWorld(t)
	cs, sn := w.s.ContentStore(), w.s.Snapshotter("native")
	dgst := digest.FromString("text")
	for _, id := range []string{"first", "second"} {
		ctx := w.lease(id)
		cw, err := content.OpenWriter(ctx, cs, content.WithRef(id))
		w.must(err)
		cw.Write([]byte("text"))
		_, err = sn.Prepare(ctx, "work on "+id, "")
		w.must(err)
		isThere := func(err error) bool {
			return err == nil && id == "first" ||
				errdefs.IsAlreadyExists(err) && id == "second"
		}
		if err := cw.Commit(ctx, 4, dgst); !isThere(err) {
			t.Fatalf("%s: %v", id, err)
		}
		if err := sn.Commit(ctx, "base", "work on "+id); !isThere(err) {
			t.Fatalf("%s: %v", id, err)
		}
		if _, err := cs.Status(ctx, id); !errdefs.IsNotFound(err) {
			t.Fatalf("%v, want no ingest", err)
		}
		if id == "second" {
			w.must(sn.Remove(ctx, "work on "+id))
		}
		held, err := NewLeaseManager(w.s).ListResources(ctx, leases.Lease{ID: id})
		w.must(err)
		if !reflect.DeepEqual(held, []leases.Resource{{ID: dgst.String(), Type: "content"},
			{ID: "base", Type: "snapshots/native"}}) {
			t.Fatalf("%s holds %v", id, held)
		}
	}
	w.do(metad.Line{"op": "lease.remove", "ns": "one", "id": "first"})
	w.collect()
	w.contentRow(true, dgst)
	w.hasBlob(true, dgst)
	w.snapshotRow(true, "base")
}

func TestAWriterThatComesAgainRenewsItsDay(t *testing.T) {
	w := newWorld(t)
	for i := 0; i < 3; i++ {
		cw, err := content.OpenWriter(w.ctx, w.s.ContentStore(), content.WithRef("r"))
		w.must(err)
		if _, err := cw.Write([]byte("x")); err != nil {
			t.Fatal(err)
		}
		w.must(cw.Close())
		w.now = w.now.Add(20 * time.Hour)
		w.collect()
	}
	status, err := w.s.ContentStore().Status(w.ctx, "r")
	if err != nil || status.Offset != 3 {
		t.Fatalf("%v, offset %d, want 3", err, status.Offset)
	}
	w.now = w.now.Add(5 * time.Hour)
	w.collect()
	if _, err := w.s.ContentStore().Status(w.ctx, "r"); !errdefs.IsNotFound(err) {
		t.Fatalf("%v, want no ingest", err)
	}
}

// A target that is there leaves neither a row nor a snapshot of the key.
func TestATargetThatIsThereLeavesNoKey(t *testing.T) {
	w := newWorld(t)
	w.snapshot("base", "")
	ref := snapshots.WithLabels(map[string]string{labelSnapshotRef: "base"})
	for _, ctx := range []context.Context{w.ctx, w.lease("second")} {
		_, err := w.s.Snapshotter("native").Prepare(ctx, "work", "", ref)
		if !errdefs.IsAlreadyExists(err) {
			t.Fatalf("%v, want already exists", err)
		}
		w.snapshotRow(false, "work")
	}
	held, err := NewLeaseManager(w.s).ListResources(w.ctx, leases.Lease{ID: "second"})
	if err != nil || !reflect.DeepEqual(held, []leases.Resource{{ID: "base",
		Type: "snapshots/native"}}) {
		t.Fatalf("%v, holds %v, want base alone", err, held)
	}
}

func TestLabelsOfANamespaceAreReplacedWithIt(t *testing.T) {
	w := newWorld(t)
	nss := NewNamespaceStore(w.s)
	w.must(nss.Create(w.ctx, "two", map[string]string{"a": "1"}))
	w.must(nss.SetLabel(w.ctx, "two", "b", "2"))
	w.do(metad.Line{"op": "ns.remove", "ns": "two"}) // and a crash leaves its labels
	w.must(nss.Create(w.ctx, "two", map[string]string{"c": "3"}))
	ls, err := nss.Labels(w.ctx, "two")
	if err != nil || !reflect.DeepEqual(ls, map[string]string{"c": "3"}) {
		t.Fatalf("%v, labels %v, want c=3", err, ls)
	}
}
