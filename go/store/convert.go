package store

import (
	"context"
	"encoding/base64"
	"encoding/json"
	"fmt"
	"strings"
	"time"

	api "github.com/containerd/containerd/api/services/containers/v1"
	"github.com/containerd/containerd/errdefs"
	"github.com/containerd/containerd/log"

	"metad/metad"
)

// The first stores had a row's data in labels, and while a container was replaced, a row that stood
// in for it. A start moves the data to its place once, and then notes that in the store's lease. A
// crash between leaves rows of both forms, which the next start goes on with.

const (
	// formLabel, of the store's lease, tells how rows are: asData.
	formLabel = "form"
	asData    = "data"
	// dataLabel begins the keys of the labels that had the data, in base64, in parts.
	dataLabel = ownLabels + "data."
	// spare ends the name of a row that stood in for its container.
	spare = "~"
)

// convert moves the data of all rows.
func (s *Store) convert(ctx context.Context) error {
	names, err := s.names(ctx)
	if err != nil {
		return err
	}
	for _, ns := range names {
		r, err := s.client.Call(ctx, metad.Line{"op": "snap.snapshotters", "ns": ns})
		if err != nil {
			return err
		}
		lists := []metad.Line{{"op": "image.list"}, {"op": "container.list"}, {"op": "content.list"},
			{"op": "lease.list"}}
		for _, name := range r.Names {
			lists = append(lists, metad.Line{"op": "snap.list", "snapshotter": name})
		}
		for _, list := range lists {
			list["ns"] = ns
			if err := s.convertRows(ctx, list); err != nil {
				return err
			}
		}
	}
	return s.change(ctx, metad.Line{"op": "lease.set", "ns": ownNamespace, "id": "store",
		"put": map[string]string{formLabel: asData}})
}

// convertRows moves the data of the rows of a listing.
func (s *Store) convertRows(ctx context.Context, list metad.Line) error {
	set := strings.TrimSuffix(list["op"].(string), "list") + "set"
	return s.rows(ctx, list, func(row metad.Row) error {
		line := metad.Line{"op": set, "ns": list["ns"]}.With("name", row.Name).
			With("digest", row.Digest).With("id", row.ID).With("key", row.Key)
		if snapshotter, ok := list["snapshotter"]; ok {
			line["snapshotter"] = snapshotter
		}
		moved, err := moveData(line, row)
		if err != nil {
			log.G(ctx).WithError(err).Errorf("data of %s isn't moved", row.Name+row.Digest+row.ID+row.Key)
			return nil
		}
		if name := strings.TrimSuffix(row.Name, spare); set == "container.set" && name != row.Name {
			return s.endReplacing(ctx, line, name, row)
		}
		if !moved {
			return nil
		}
		err = s.change(ctx, line)
		if errdefs.IsInvalidArgument(err) { // what labels could hold may be too long for data
			log.G(ctx).WithError(err).Errorf("data of %s isn't moved", row.Name+row.Digest+row.ID+row.Key)
			return nil
		}
		return err
	})
}

// moveData gives a line a row's labels and its data, if they are to be parted.
func moveData(line metad.Line, row metad.Row) (bool, error) {
	text, ls := "", map[string]string{}
	for i := 0; ; i++ {
		part, ok := row.Labels[fmt.Sprintf("%s%02d", dataLabel, i)]
		if !ok {
			break
		}
		text += part
	}
	for k, v := range row.Labels {
		if !strings.HasPrefix(k, dataLabel) {
			ls[k] = v
		}
	}
	if text == "" {
		return false, nil
	}
	data, err := base64.StdEncoding.DecodeString(text)
	if err != nil {
		return false, err
	}
	var updated time.Time
	if line["op"] == "container.set" {
		var pb api.Container
		err = pb.Unmarshal(data)
		updated, text = pb.UpdatedAt, packed(data)
	} else {
		var times struct{ Updated time.Time }
		err = json.Unmarshal(data, &times)
		updated, text = times.Updated, string(data)
	}
	ls[updatedLabel] = updated.Format(timeForm)
	line["labels"], line["data"] = ls, text
	return true, err
}

// endReplacing makes a container of the row that stood in for it, unless it is there.
func (s *Store) endReplacing(ctx context.Context, line metad.Line, name string,
	row metad.Row) error {
	line["op"], line["name"] = "container.add", name
	if row.Snapshot != nil {
		line["snapshotter"], line["key"] = row.Snapshot[0], row.Snapshot[1]
	}
	if err := s.change(ctx, line); err != nil && !errdefs.IsAlreadyExists(err) {
		return err
	}
	return s.change(ctx, metad.Line{"op": "container.remove", "ns": line["ns"], "name": row.Name})
}
