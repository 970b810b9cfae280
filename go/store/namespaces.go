package store

import (
	"context"
	"fmt"
	"sort"
	"strings"

	"github.com/containerd/containerd/errdefs"
	"github.com/containerd/containerd/identifiers"
	"github.com/containerd/containerd/labels"
	"github.com/containerd/containerd/namespaces"

	"metad/metad"
)

// ownNamespace has a lease with the store's identity, and for each namespace that has labels a
// container with these: metad has no place for them. No client sees it.
const ownNamespace = "containerd-metad"

var errOwnNamespace = fmt.Errorf("namespace %q is the store's own: %w", ownNamespace,
	errdefs.ErrInvalidArgument)

type namespaceStore struct {
	s *Store
}

// NewNamespaceStore returns the namespaces of a store.
func NewNamespaceStore(s *Store) namespaces.Store { return &namespaceStore{s} }

// names returns all namespaces but the store's own.
func (s *Store) names(ctx context.Context) ([]string, error) {
	all, err := s.list(ctx, metad.Line{"op": "ns.list"})
	var names []string
	for _, name := range all {
		if name != ownNamespace {
			names = append(names, name)
		}
	}
	return names, err
}

func checkNamespace(namespace string) error {
	if err := identifiers.Validate(namespace); err != nil {
		return err
	}
	if namespace == ownNamespace {
		return errOwnNamespace
	}
	return nil
}

func (n *namespaceStore) Create(ctx context.Context, namespace string, ls map[string]string) error {
	if err := checkNamespace(namespace); err != nil {
		return err
	}
	for k, v := range ls {
		if err := labels.Validate(k, v); err != nil {
			return err
		}
	}
	if _, err := n.s.client.Call(ctx, metad.Line{"op": "ns.add", "ns": namespace}); err != nil {
		return err
	}
	// A crash may have left labels of an earlier namespace of this name.
	if err := n.setLabels(ctx, namespace, "labels", ls); err != nil {
		return err
	}
	n.s.changed(false)
	return nil
}

func (n *namespaceStore) Labels(ctx context.Context, namespace string) (map[string]string, error) {
	r, err := n.s.client.Call(ctx, getContainer(namespace).With("ns", ownNamespace))
	if r.Fault == metad.NotFound {
		return map[string]string{}, nil
	}
	return r.Row.Labels, err
}

func (n *namespaceStore) SetLabel(ctx context.Context, namespace, key, value string) error {
	if err := checkNamespace(namespace); err != nil {
		return err
	}
	if err := labels.Validate(key, value); err != nil {
		return err
	}
	if err := n.setLabels(ctx, namespace, "put", map[string]string{key: value}); err != nil {
		return err
	}
	n.s.changed(false)
	return nil
}

// setLabels replaces all labels of a namespace, or puts some.
func (n *namespaceStore) setLabels(ctx context.Context, namespace, member string,
	ls map[string]string) error {
	if ls == nil {
		ls = map[string]string{}
	}
	r, err := n.s.client.Call(ctx, metad.Line{"op": "container.set", "ns": ownNamespace,
		"name": namespace, member: ls})
	if r.Fault != metad.NotFound || len(ls) == 0 {
		if r.Fault == metad.NotFound {
			err = nil
		}
		return err
	}
	_, err = n.s.addOne(ctx, ownNamespace, metad.Line{"op": "container.add", "ns": ownNamespace,
		"name": namespace}.WithLabels(ls))
	return err
}

func (n *namespaceStore) List(ctx context.Context) ([]string, error) { return n.s.names(ctx) }

func (n *namespaceStore) Delete(ctx context.Context, namespace string,
	opts ...namespaces.DeleteOpts) error {
	i := &namespaces.DeleteInfo{Name: namespace}
	for _, o := range opts {
		if err := o(ctx, i); err != nil {
			return err
		}
	}
	if namespace == ownNamespace {
		return errOwnNamespace
	}
	if err := n.remove(ctx, namespace); err != nil {
		return err
	}
	if err := n.removeLabels(ctx, namespace); err != nil {
		return err
	}
	n.s.changed(true)
	return nil
}

// remove removes a namespace, and with it leases and ingests: containerd doesn't count them as its
// objects. An object that is made meanwhile has metad refuse the last line.
func (n *namespaceStore) remove(ctx context.Context, ns string) error {
	n.s.filesL.Lock()
	defer n.s.filesL.Unlock()

	remove := metad.Line{"op": "ns.remove", "ns": ns}
	r, err := n.s.client.Call(ctx, remove)
	if r.Fault != metad.FailedPrecondition {
		return err
	}
	replies, err := n.s.client.Do(ctx,
		metad.Line{"op": "image.list", "ns": ns}, metad.Line{"op": "content.list", "ns": ns},
		metad.Line{"op": "container.list", "ns": ns}, metad.Line{"op": "snap.snapshotters", "ns": ns},
		metad.Line{"op": "lease.list", "ns": ns}, metad.Line{"op": "ingest.list", "ns": ns})
	if err == nil {
		err = firstRefusal(replies)
	}
	if err != nil {
		return err
	}
	var has []string
	for i, kind := range []string{"images", "blobs", "containers"} {
		if len(replies[i].Names) > 0 {
			has = append(has, kind)
		}
	}
	for _, name := range replies[3].Names {
		has = append(has, fmt.Sprintf("snapshots on %q snapshotter", name))
	}
	if len(has) > 0 {
		sort.Strings(has)
		return fmt.Errorf("namespace %q must be empty, but it still has %s: %w", ns,
			strings.Join(has, ", "),
			errdefs.ErrFailedPrecondition)
	}
	var lines []metad.Line
	for _, id := range replies[4].Names {
		lines = append(lines, metad.Line{"op": "lease.remove", "ns": ns, "id": id})
	}
	for _, ref := range replies[5].Names {
		lines = append(lines, abortIngest(ns, "", ref))
	}
	return n.s.change(ctx, append(lines, remove)...)
}

func (n *namespaceStore) removeLabels(ctx context.Context, namespace string) error {
	_, err := n.s.client.Call(ctx, metad.Line{"op": "container.remove", "ns": ownNamespace,
		"name": namespace})
	if errdefs.IsNotFound(err) {
		return nil
	}
	return err
}
