package store

import (
	"encoding/base64"
	"fmt"
	"testing"
	"time"

	api "github.com/containerd/containerd/api/services/containers/v1"
	"github.com/containerd/containerd/leases"
	"github.com/gogo/protobuf/types"
	"github.com/opencontainers/go-digest"

	"metad/metad"
)

// inLabels returns labels with data as the first stores had it.
func inLabels(data string) map[string]string {
	text := base64.StdEncoding.EncodeToString([]byte(data))
	all := map[string]string{"a": "1"}
	for i := 0; len(text) > 0; i++ {
		n := len(text)
		if n > 4000 {
			n = 4000
		}
		all[fmt.Sprintf("%s%02d", dataLabel, i)], text = text[:n], text[n:]
	}
	return all
}

func TestStartMovesDataOfRowsOnce(t *testing.T) {
	w := newWorld(t)
	created := time.Date(2024, 3, 1, 12, 0, 0, 5, time.UTC)
	updated := created.Add(time.Hour)
	times := `"created":"` + created.Format(timeForm) + `","updated":"` +
		updated.Format(timeForm) + `"`
	spec := make([]byte, 39000) // whose base64 is too long for data
	pb, err := (&api.Container{Image: "app", Runtime: &api.Container_Runtime{Name: "runtime"},
		Spec: &types.Any{TypeUrl: "spec", Value: spec}, CreatedAt: created,
		UpdatedAt: updated}).Marshal()
	w.must(err)
	dgst := digest.FromString("text")
	w.write("text")
	number := w.snapshot("base", "")
	w.do(
		metad.Line{"op": "content.set", "ns": "one", "digest": dgst, "data": "",
			"labels": inLabels(`{` + times + `,"size":4}`)},
		metad.Line{"op": "snap.set", "ns": "one", "snapshotter": "native", "key": "base", "data": "",
			"labels": inLabels(`{` + times + `}`)},
		metad.Line{"op": "lease.set", "ns": "one", "id": "holder", "data": "",
			"labels": inLabels(`{` + times + `}`)},
		metad.Line{"op": "image.add", "ns": "one", "name": "app", "target": dgst,
			"labels": inLabels(`{` + times + `,"mediaType":"m","size":7}`)},
		metad.Line{"op": "container.add", "ns": "one", "name": "web", "labels": inLabels(string(pb))},
		metad.Line{"op": "container.add", "ns": "one", "name": "web" + spare,
			"labels": inLabels(string(pb))},
		metad.Line{"op": "container.add", "ns": "one", "name": "db" + spare, "snapshotter": "native",
			"key": "base", "labels": inLabels(string(pb))},
		metad.Line{"op": "lease.set", "ns": ownNamespace, "id": "store",
			"put": map[string]string{formLabel: ""}})
	for i := 0; i < 2; i++ {
		w.reopen()
		image, err := NewImageStore(w.s).Get(w.ctx, "app")
		if err != nil || image.Target.Size != 7 || !image.UpdatedAt.Equal(updated) ||
			!image.CreatedAt.Equal(created) || image.Labels["a"] != "1" || len(image.Labels) != 1 {
			t.Fatalf("%v, %+v", err, image)
		}
		info, err := w.s.ContentStore().Info(w.ctx, dgst)
		if err != nil || info.Size != 4 || !info.UpdatedAt.Equal(updated) {
			t.Fatalf("%v, %+v", err, info)
		}
		base, err := w.s.Snapshotter("native").Stat(w.ctx, "base")
		if err != nil || !base.Created.Equal(created) || base.Labels["a"] != "1" {
			t.Fatalf("%v, %+v", err, base)
		}
		cs, err := NewContainerStore(w.s).List(w.ctx)
		if err != nil || len(cs) != 2 || len(cs[1].Spec.Value) != len(spec) ||
			cs[0].SnapshotKey != "base" || cs[0].ID != "db" || !cs[1].UpdatedAt.Equal(updated) {
			t.Fatalf("%v, %+v", err, cs)
		}
		ls, err := NewLeaseManager(w.s).List(w.ctx)
		if err != nil || len(ls) != 1 || !ls[0].CreatedAt.Equal(created) {
			t.Fatalf("%v, %+v", err, ls)
		}
		held, err := NewLeaseManager(w.s).ListResources(w.ctx, leases.Lease{ID: "holder"})
		if err != nil || len(held) != 2 {
			t.Fatalf("%v, %v", err, held)
		}
	}
	w.hasSnapshot(true, backendKey(number, "committed"))
	if _, lines := w.client.Trips(); lines > 20 {
		t.Fatalf("%d lines: the second start moved data again", lines)
	}
}
