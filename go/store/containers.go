package store

import (
	"bytes"
	"compress/flate"
	"context"
	"encoding/base64"
	"fmt"
	"io"
	"strings"

	api "github.com/containerd/containerd/api/services/containers/v1"
	"github.com/containerd/containerd/containers"
	"github.com/containerd/containerd/errdefs"
	"github.com/containerd/containerd/identifiers"
	"github.com/gogo/protobuf/types"

	"metad/metad"
)

type containerStore struct {
	s *Store
}

// NewContainerStore returns the containers of a store.
func NewContainerStore(s *Store) containers.Store { return &containerStore{s} }

// noSnapshot is in the row of a container that had a snapshot and has none any more: a snapshot can
// be replaced, but not taken away. No snapshotter has this name.
var noSnapshot = [2]string{"containerd-metad", "none"}

var containerKind = kind[containers.Container]{containerOf, AdaptContainer}

func containerOf(row metad.Row) (containers.Container, error) {
	c, err := containerOfData(row)
	if err != nil {
		err = fmt.Errorf("container %q: %w", row.Name, err)
	}
	return c, err
}

func containerOfData(row metad.Row) (containers.Container, error) {
	data, err := unpacked(row.Data)
	if err != nil {
		return containers.Container{}, err
	}
	var pb api.Container
	if err := pb.Unmarshal(data); err != nil {
		return containers.Container{}, err
	}
	ls, updated, err := clientLabels(row, pb.CreatedAt)
	if err != nil {
		return containers.Container{}, err
	}
	c := containers.Container{
		ID:          row.Name,
		Labels:      ls,
		Image:       pb.Image,
		Spec:        pb.Spec,
		Snapshotter: pb.Snapshotter,
		CreatedAt:   pb.CreatedAt,
		UpdatedAt:   updated,
		Extensions:  pb.Extensions,
	}
	if pb.Runtime != nil {
		c.Runtime = containers.RuntimeInfo{Name: pb.Runtime.Name, Options: pb.Runtime.Options}
	}
	if row.Snapshot != nil && *row.Snapshot != noSnapshot {
		c.Snapshotter, c.SnapshotKey = row.Snapshot[0], row.Snapshot[1]
	}
	return c, nil
}

// setContainer gives a line a container's snapshot and data.
func setContainer(line metad.Line, c containers.Container) error {
	if err := identifiers.Validate(c.ID); err != nil {
		return fmt.Errorf("container id: %w", err)
	}
	if _, ok := c.Extensions[""]; ok {
		return fmt.Errorf("extension without a name: %w", errdefs.ErrInvalidArgument)
	}
	if c.Runtime.Name == "" || c.Spec == nil || c.SnapshotKey != "" && c.Snapshotter == "" {
		return fmt.Errorf("container %q needs a runtime, a spec, and a snapshotter of its snapshot: %w",
			c.ID, errdefs.ErrInvalidArgument)
	}
	data, err := (&api.Container{
		Image:       c.Image,
		Runtime:     &api.Container_Runtime{Name: c.Runtime.Name, Options: c.Runtime.Options},
		Spec:        c.Spec,
		Snapshotter: c.Snapshotter,
		CreatedAt:   c.CreatedAt,
		Extensions:  c.Extensions,
	}).Marshal()
	if err != nil {
		return err
	}
	line["data"] = packed(data)
	if c.SnapshotKey != "" {
		line["snapshotter"], line["key"] = c.Snapshotter, c.SnapshotKey
	}
	return nil
}

// dataMost is how long the data of a row may be. Longer data is deflated, and begins with a word
// that no base64 has.
const (
	dataMost = 49152
	deflated = "deflate:"
)

// packed returns bytes as the data of a row, shorter if it would be too long.
func packed(data []byte) string {
	text := base64.StdEncoding.EncodeToString(data)
	if len(text) <= dataMost {
		return text
	}
	var b bytes.Buffer
	w, _ := flate.NewWriter(&b, flate.DefaultCompression) // the level is one
	w.Write(data)                                         // a buffer takes all
	w.Close()
	return deflated + base64.StdEncoding.EncodeToString(b.Bytes())
}

// unpacked returns the bytes that were packed.
func unpacked(text string) ([]byte, error) {
	rest := strings.TrimPrefix(text, deflated)
	data, err := base64.StdEncoding.DecodeString(rest)
	if err != nil || rest == text {
		return data, err
	}
	return io.ReadAll(flate.NewReader(bytes.NewReader(data)))
}

func getContainer(id string) metad.Line {
	return metad.Line{"op": "container.get"}.With("name", id)
}

func (cs *containerStore) Get(ctx context.Context, id string) (containers.Container, error) {
	return containerKind.get(ctx, cs.s, getContainer(id))
}

func (cs *containerStore) List(ctx context.Context, fs ...string) ([]containers.Container, error) {
	return containerKind.list(ctx, cs.s, metad.Line{"op": "container.list"}, fs)
}

func (cs *containerStore) Create(ctx context.Context, c containers.Container) (containers.Container,
	error) {
	c.CreatedAt = cs.s.moment().UTC()
	c.UpdatedAt = c.CreatedAt
	line := metad.Line{"op": "container.add", "name": c.ID}
	if err := setContainer(line, c); err != nil {
		return containers.Container{}, err
	}
	if err := cs.s.create(ctx, line, c.Labels); err != nil {
		return containers.Container{}, err
	}
	return c, nil
}

func (cs *containerStore) Update(ctx context.Context, c containers.Container,
	paths ...string) (containers.Container, error) {
	isWhole := len(paths) == 0
	if isWhole {
		paths = []string{"labels", "spec", "extensions", "image", "snapshotkey"}
	}
	line := metad.Line{"op": "container.set", "name": c.ID}
	row, err := cs.s.update(ctx, line, c.Labels, paths, func(others []string) error {
		updated, err := cs.Get(ctx, c.ID)
		if err != nil {
			return err
		}
		if isWhole && (updated.Snapshotter != c.Snapshotter || updated.Runtime.Name != c.Runtime.Name) {
			return fmt.Errorf("snapshotter and runtime of container %q stay: %w", c.ID,
				errdefs.ErrInvalidArgument)
		}
		if updated.SnapshotKey != "" {
			line["snapshotter"], line["key"] = noSnapshot[0], noSnapshot[1]
		}
		if err := maskContainer(&updated, c, others); err != nil {
			return err
		}
		return setContainer(line, updated)
	})
	if err != nil {
		return containers.Container{}, err
	}
	return containerOf(row)
}

// maskContainer applies the field paths of a container that aren't of labels.
func maskContainer(have *containers.Container, want containers.Container, paths []string) error {
	for _, path := range paths {
		extension := strings.TrimPrefix(path, "extensions.")
		switch {
		case path == "spec":
			have.Spec = want.Spec
		case path == "extensions":
			have.Extensions = want.Extensions
		case path == "image":
			have.Image = want.Image
		case path == "snapshotkey":
			have.SnapshotKey = want.SnapshotKey
		case extension != path:
			if have.Extensions == nil {
				have.Extensions = map[string]types.Any{}
			}
			have.Extensions[extension] = want.Extensions[extension]
		default:
			return cannotUpdate("container", want.ID, path)
		}
	}
	return nil
}

func (cs *containerStore) Delete(ctx context.Context, id string) error {
	return cs.s.delete(ctx, metad.Line{"op": "container.remove"}.With("name", id))
}
