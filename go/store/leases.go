package store

import (
	"context"
	"fmt"
	"strings"

	"github.com/containerd/containerd/errdefs"
	"github.com/containerd/containerd/leases"

	"metad/metad"
)

type leaseManager struct {
	s *Store
}

// NewLeaseManager returns the leases of a store.
func NewLeaseManager(s *Store) leases.Manager { return &leaseManager{s} }

var leaseKind = kind[leases.Lease]{leaseOf, adaptLease}

func leaseOf(row metad.Row) (leases.Lease, error) {
	data, err := decodeData(row.Data)
	if err != nil {
		return leases.Lease{}, fmt.Errorf("lease %q: %w", row.ID, err)
	}
	ls, _, err := clientLabels(row, data.Created)
	if err != nil {
		return leases.Lease{}, fmt.Errorf("lease %q: %w", row.ID, err)
	}
	return leases.Lease{ID: row.ID, CreatedAt: data.Created, Labels: ls}, nil
}

func (lm *leaseManager) Create(ctx context.Context, opts ...leases.Opt) (leases.Lease, error) {
	var l leases.Lease
	for _, opt := range opts {
		if err := opt(&l); err != nil {
			return leases.Lease{}, err
		}
	}
	if l.ID == "" {
		return leases.Lease{}, fmt.Errorf("a lease needs an id: %w", errdefs.ErrInvalidArgument)
	}
	l.CreatedAt = lm.s.moment().UTC()
	data, err := rowData{Created: l.CreatedAt}.encode()
	if err != nil {
		return leases.Lease{}, err
	}
	line := metad.Line{"op": "lease.add", "id": l.ID}.WithData(data)
	if err := lm.s.create(ctx, line, l.Labels); err != nil {
		return leases.Lease{}, err
	}
	return l, nil
}

func (lm *leaseManager) Delete(ctx context.Context, lease leases.Lease,
	_ ...leases.DeleteOpt) error {
	return lm.s.delete(ctx, metad.Line{"op": "lease.remove"}.With("id", lease.ID))
}

func (lm *leaseManager) List(ctx context.Context, fs ...string) ([]leases.Lease, error) {
	return leaseKind.list(ctx, lm.s, metad.Line{"op": "lease.list"}, fs)
}

func (lm *leaseManager) AddResource(ctx context.Context, lease leases.Lease,
	r leases.Resource) error {
	if err := checkType(r.Type); err != nil {
		return err
	}
	if _, err := lm.s.ask(ctx, resourceLine("lease.hold", lease.ID, r)); err != nil {
		return err
	}
	lm.s.changed(false)
	return nil
}

// DeleteResource succeeds too if the lease hasn't the resource.
func (lm *leaseManager) DeleteResource(ctx context.Context, lease leases.Lease,
	r leases.Resource) error {
	ns, _, err := requested(ctx)
	if err != nil {
		return err
	}
	if err := checkType(r.Type); err != nil {
		return err
	}
	replies, err := lm.s.client.Do(ctx,
		metad.Line{"op": "lease.get", "ns": ns}.With("id", lease.ID),
		resourceLine("lease.drop", lease.ID, r).With("ns", ns))
	if err != nil {
		return err
	}
	if err := replies[0].Err(); err != nil {
		return err
	}
	if err := replies[1].Err(); err != nil && !errdefs.IsNotFound(err) {
		return err
	}
	lm.s.changed(true)
	return nil
}

func (lm *leaseManager) ListResources(ctx context.Context, lease leases.Lease) ([]leases.Resource,
	error) {
	r, err := lm.s.ask(ctx, metad.Line{"op": "lease.resources"}.With("id", lease.ID))
	if err != nil {
		return nil, err
	}
	var all []leases.Resource
	for _, pair := range r.Resources {
		all = append(all, leases.Resource{Type: pair[0], ID: pair[1]})
	}
	return all, nil
}

// checkType tells types that no lease can hold from those that are badly named, which metad
// refuses.
func checkType(typ string) error {
	switch strings.SplitN(typ, "/", 2)[0] {
	case "content", "ingests", "snapshots":
		return nil
	}
	return fmt.Errorf("resource type %q: %w", typ, errdefs.ErrNotImplemented)
}

func resourceLine(op, lease string, r leases.Resource) metad.Line {
	return metad.Line{"op": op, "type": r.Type}.With("id", lease).With("resource", r.ID)
}

// hold gives a resource to the lease of a request, if it has one.
func (s *Store) hold(ctx context.Context, ns, lease string, r leases.Resource) error {
	if lease == "" {
		return nil
	}
	_, err := s.client.Call(ctx, resourceLine("lease.hold", lease, r).With("ns", ns))
	return err
}
