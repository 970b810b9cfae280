package store

import (
	"strings"

	"github.com/containerd/containerd/containers"
	"github.com/containerd/containerd/filters"
	"github.com/containerd/containerd/images"
	"github.com/containerd/containerd/leases"
	"github.com/containerd/containerd/snapshots"
)

// text is the answer to a question of a filter about a field that is there if it isn't empty.
func text(v string) (string, bool) { return v, v != "" }

// entry is the answer about an entry of a map, by the rest of a path.
func entry(m map[string]string, path []string) (string, bool) {
	v, ok := m[strings.Join(path[1:], ".")]
	return v, ok
}

// adapt answers the questions of a filter: entries of maps by field, and all else by its path.
func adapt(labels, annotations map[string]string,
	field func(path string) (string, bool)) filters.Adaptor {
	return filters.AdapterFunc(func(path []string) (string, bool) {
		switch {
		case len(path) == 0:
			return "", false
		case path[0] == "labels":
			return entry(labels, path)
		case path[0] == "annotations":
			return entry(annotations, path)
		}
		return field(strings.Join(path, "."))
	})
}

// AdaptImage answers the questions of a filter about an image.
func AdaptImage(i images.Image) filters.Adaptor {
	return adapt(i.Labels, i.Target.Annotations, func(path string) (string, bool) {
		switch path {
		case "name":
			return text(i.Name)
		case "target.digest":
			return text(i.Target.Digest.String())
		case "target.mediatype":
			return text(i.Target.MediaType)
		}
		return "", false
	})
}

// AdaptContainer answers the questions of a filter about a container.
func AdaptContainer(c containers.Container) filters.Adaptor {
	return adapt(c.Labels, nil, func(path string) (string, bool) {
		switch path {
		case "id":
			return text(c.ID)
		case "runtime.name":
			return text(c.Runtime.Name)
		case "image":
			return text(c.Image)
		}
		return "", false
	})
}

func adaptLease(l leases.Lease) filters.Adaptor {
	return adapt(l.Labels, nil, func(path string) (string, bool) {
		if path == "id" {
			return text(l.ID)
		}
		return "", false
	})
}

func adaptRef(ref string) filters.Adaptor {
	return adapt(nil, nil, func(path string) (string, bool) {
		if path == "ref" {
			return text(ref)
		}
		return "", false
	})
}

// AdaptSnapshot answers the questions of a filter about a snapshot.
func AdaptSnapshot(i snapshots.Info) filters.Adaptor {
	return adapt(i.Labels, nil, func(path string) (string, bool) {
		switch path {
		case "kind":
			return text(strings.ToLower(i.Kind.String()))
		case "name":
			return text(i.Name)
		case "parent":
			return i.Parent, true // an empty parent can be asked for
		}
		return "", false
	})
}
