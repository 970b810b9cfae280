package store

import (
	"context"
	"fmt"

	"github.com/containerd/containerd/errdefs"
	"github.com/containerd/containerd/filters"
	"github.com/containerd/containerd/log"

	"metad/metad"
)

// ask sends a line in the namespace of a request. A refusal is an error.
func (s *Store) ask(ctx context.Context, line metad.Line) (metad.Reply, error) {
	ns, _, err := requested(ctx)
	if err != nil {
		return metad.Reply{}, err
	}
	line["ns"] = ns
	return s.client.Call(ctx, line)
}

// create makes a row with these labels in the namespace of a request.
func (s *Store) create(ctx context.Context, line metad.Line, ls map[string]string) error {
	ns, _, err := requested(ctx)
	if err != nil {
		return err
	}
	if err := checkLabels(ls); err != nil {
		return err
	}
	line["ns"] = ns
	if _, err := s.addOne(ctx, ns, line.WithLabels(ls)); err != nil {
		return err
	}
	s.changed(false)
	return nil
}

// update sends the line of a *.set, which replaces what the paths name, and returns the row as it
// is then. Labels alone are one line. If other paths are named, others gives the line what stays of
// the row and what they replace: no other update of the row comes between.
func (s *Store) update(ctx context.Context, line metad.Line, ls map[string]string, paths []string,
	others func(paths []string) error) (metad.Row, error) {
	ns, _, err := requested(ctx)
	if err != nil {
		return metad.Row{}, err
	}
	line["ns"] = ns
	rest, err := s.relabel(line.AskingForRow(), ls, paths)
	if err != nil {
		return metad.Row{}, err
	}
	if len(rest) > 0 {
		defer s.rowLocks.lock(fmt.Sprint(line["op"]), ns, fmt.Sprint(line["name"]))()
		if err := others(rest); err != nil {
			return metad.Row{}, err
		}
	}
	r, err := s.client.Call(ctx, line)
	if err != nil {
		return metad.Row{}, err
	}
	s.changed(false)
	return r.Row, nil
}

// cannotUpdate refuses what a path of an object names.
func cannotUpdate(kind, name, path string) error {
	return fmt.Errorf("cannot update %q of %s %q: %w", path, kind, name, errdefs.ErrInvalidArgument)
}

// onlyLabels is the others of objects that nothing else can be updated of.
func onlyLabels(kind, name string) func(paths []string) error {
	return func(paths []string) error { return cannotUpdate(kind, name, paths[0]) }
}

// delete removes a row of the namespace of a request.
func (s *Store) delete(ctx context.Context, line metad.Line) error {
	if _, err := s.ask(ctx, line); err != nil {
		return err
	}
	s.changed(true)
	return nil
}

// A kind is one of rows that containerd has as values of its own.
type kind[T any] struct {
	valueOf func(metad.Row) (T, error)
	adapt   func(T) filters.Adaptor
}

// get returns the value of the row that a line asks for.
func (k kind[T]) get(ctx context.Context, s *Store, line metad.Line) (T, error) {
	r, err := s.ask(ctx, line)
	if err != nil {
		var none T
		return none, err
	}
	return k.valueOf(r.Row)
}

// walk calls fn for each value of a listing that the filters match.
func (k kind[T]) walk(ctx context.Context, s *Store, line metad.Line, fs []string,
	fn func(T) error) error {
	rows, filter, err := s.listing(ctx, line, fs)
	if err != nil {
		return err
	}
	return k.each(ctx, rows, filter, fn)
}

// list returns the values that walk walks.
func (k kind[T]) list(ctx context.Context, s *Store, line metad.Line, fs []string) ([]T, error) {
	rows, filter, err := s.listing(ctx, line, fs)
	if err != nil {
		return nil, err
	}
	var all []T
	if len(fs) == 0 {
		all = make([]T, 0, len(rows))
	}
	err = k.each(ctx, rows, filter, func(value T) error {
		all = append(all, value)
		return nil
	})
	return all, err
}

// each calls fn for each value that the filter matches, nil for all. A row whose data can't be read
// is told and left out: the others are there all the same.
func (k kind[T]) each(ctx context.Context, rows []metad.Row, filter filters.Filter,
	fn func(T) error) error {
	for _, row := range rows {
		value, err := k.valueOf(row)
		if err != nil {
			log.G(ctx).WithError(err).Error("a row can't be read")
			continue
		}
		if filter != nil && !filter.Match(k.adapt(value)) {
			continue
		}
		if err := fn(value); err != nil {
			return err
		}
	}
	return nil
}

// listing returns the rows of a listing in the namespace of a request, and what the filters match:
// nil if there are none, so no value is adapted to be matched.
func (s *Store) listing(ctx context.Context, line metad.Line, fs []string) ([]metad.Row,
	filters.Filter, error) {
	ns, _, err := requested(ctx)
	if err != nil {
		return nil, nil, err
	}
	var filter filters.Filter
	if len(fs) > 0 {
		if filter, err = filters.ParseAll(fs...); err != nil {
			return nil, nil, err
		}
	}
	line["ns"] = ns
	rows, err := s.rowsOf(ctx, line)
	return rows, filter, err
}
