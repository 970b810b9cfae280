package store

import (
	"context"
	"fmt"
	"strings"

	"github.com/containerd/containerd/errdefs"
	"github.com/containerd/containerd/images"
	"github.com/opencontainers/go-digest"
	ocispec "github.com/opencontainers/image-spec/specs-go/v1"

	"metad/metad"
)

type imageStore struct {
	s *Store
}

// NewImageStore returns the images of a store.
func NewImageStore(s *Store) images.Store { return &imageStore{s} }

var imageKind = kind[images.Image]{imageOf, AdaptImage}

func imageOf(row metad.Row) (images.Image, error) {
	data, err := decodeData(row.Data)
	if err != nil {
		return images.Image{}, fmt.Errorf("image %q: %w", row.Name, err)
	}
	ls, updated, err := clientLabels(row, data.Created)
	if err != nil {
		return images.Image{}, fmt.Errorf("image %q: %w", row.Name, err)
	}
	return images.Image{
		Name:   row.Name,
		Labels: ls,
		Target: ocispec.Descriptor{
			MediaType:   data.MediaType,
			Digest:      digest.Digest(row.Target),
			Size:        data.Size,
			Annotations: data.Annotations,
		},
		CreatedAt: data.Created,
		UpdatedAt: updated,
	}, nil
}

// setTarget gives a line an image's target and data.
func setTarget(line metad.Line, image images.Image) error {
	target := image.Target
	if err := target.Digest.Validate(); err != nil {
		return fmt.Errorf("target %q: %v: %w", target.Digest, err, errdefs.ErrInvalidArgument)
	}
	if target.Size <= 0 || target.MediaType == "" {
		return fmt.Errorf("target without size or media type: %w", errdefs.ErrInvalidArgument)
	}
	data, err := rowData{
		Created:     image.CreatedAt,
		MediaType:   target.MediaType,
		Size:        target.Size,
		Annotations: target.Annotations,
	}.encode()
	line["target"], line["data"] = target.Digest, data
	return err
}

func (is *imageStore) Get(ctx context.Context, name string) (images.Image, error) {
	return imageKind.get(ctx, is.s, metad.Line{"op": "image.get"}.With("name", name))
}

func (is *imageStore) List(ctx context.Context, fs ...string) ([]images.Image, error) {
	return imageKind.list(ctx, is.s, metad.Line{"op": "image.list"}, fs)
}

func (is *imageStore) Create(ctx context.Context, image images.Image) (images.Image, error) {
	image.CreatedAt = is.s.moment().UTC()
	image.UpdatedAt = image.CreatedAt
	line := metad.Line{"op": "image.add"}.With("name", image.Name)
	if err := setTarget(line, image); err != nil {
		return images.Image{}, err
	}
	if err := is.s.create(ctx, line, image.Labels); err != nil {
		return images.Image{}, err
	}
	return image, nil
}

func (is *imageStore) Update(ctx context.Context, image images.Image,
	paths ...string) (images.Image, error) {
	if len(paths) == 0 {
		paths = []string{"labels", "target"}
	}
	line := metad.Line{"op": "image.set", "name": image.Name}
	row, err := is.s.update(ctx, line, image.Labels, paths, func(others []string) error {
		updated, err := is.Get(ctx, image.Name)
		if err != nil {
			return err
		}
		if err := maskTarget(&updated, image, others); err != nil {
			return err
		}
		return setTarget(line, updated)
	})
	if err != nil {
		return images.Image{}, err
	}
	return imageOf(row)
}

// maskTarget applies the field paths of an image's target.
func maskTarget(have *images.Image, want images.Image, paths []string) error {
	for _, path := range paths {
		key := strings.TrimPrefix(path, "annotations.")
		switch {
		case path == "target":
			have.Target = want.Target
		case path == "annotations":
			have.Target.Annotations = want.Target.Annotations
		case key != path:
			if have.Target.Annotations == nil {
				have.Target.Annotations = map[string]string{}
			}
			have.Target.Annotations[key] = want.Target.Annotations[key]
		default:
			return cannotUpdate("image", want.Name, path)
		}
	}
	return nil
}

func (is *imageStore) Delete(ctx context.Context, name string, _ ...images.DeleteOpt) error {
	return is.s.delete(ctx, metad.Line{"op": "image.remove"}.With("name", name))
}
