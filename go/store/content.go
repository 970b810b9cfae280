package store

import (
	"context"
	"errors"
	"fmt"
	"os"
	"strconv"

	"github.com/containerd/containerd/content"
	"github.com/containerd/containerd/errdefs"
	"github.com/containerd/containerd/filters"
	"github.com/containerd/containerd/leases"
	"github.com/opencontainers/go-digest"
	ocispec "github.com/opencontainers/image-spec/specs-go/v1"

	"metad/metad"
)

// contentStore has the rows of content and ingests. The store that it embeds has the files: blobs
// by their digests, ingests by their numbers.
type contentStore struct {
	content.Store
	s *Store
}

// mostTries is how often an ingest is opened that other clients end meanwhile.
const mostTries = 5

// ingestRef names an ingest's file.
func ingestRef(number uint32) string { return strconv.FormatUint(uint64(number), 10) }

var contentKind = kind[content.Info]{contentInfo, content.AdaptInfo}

func contentInfo(row metad.Row) (content.Info, error) {
	data, err := decodeData(row.Data)
	if err != nil {
		return content.Info{}, fmt.Errorf("content %s: %w", row.Digest, err)
	}
	ls, updated, err := clientLabels(row, data.Created)
	if err != nil {
		return content.Info{}, fmt.Errorf("content %s: %w", row.Digest, err)
	}
	return content.Info{
		Digest:    digest.Digest(row.Digest),
		Size:      data.Size,
		CreatedAt: data.Created,
		UpdatedAt: updated,
		Labels:    ls,
	}, nil
}

func getContent(dgst digest.Digest) metad.Line {
	return metad.Line{"op": "content.get"}.With("digest", dgst.String())
}

func getIngest(ref string) metad.Line {
	return metad.Line{"op": "ingest.get"}.With("ref", ref)
}

// abortIngest removes an ingest, which its lease then doesn't hold any more.
func abortIngest(ns, lease, ref string) metad.Line {
	return metad.Line{"op": "ingest.abort", "ns": ns}.With("ref", ref).With("drop", lease)
}

func (cs *contentStore) Info(ctx context.Context, dgst digest.Digest) (content.Info, error) {
	return contentKind.get(ctx, cs.s, getContent(dgst))
}

func (cs *contentStore) Update(ctx context.Context, info content.Info,
	paths ...string) (content.Info, error) {
	if len(paths) == 0 {
		paths = []string{"labels"}
	}
	line := metad.Line{"op": "content.set", "digest": info.Digest}
	row, err := cs.s.update(ctx, line, info.Labels, paths,
		onlyLabels("content", info.Digest.String()))
	if err != nil {
		return content.Info{}, err
	}
	return contentInfo(row)
}

func (cs *contentStore) Walk(ctx context.Context, fn content.WalkFunc, fs ...string) error {
	return contentKind.walk(ctx, cs.s, metad.Line{"op": "content.list"}, fs, fn)
}

// Delete removes the row. A collection removes the blob if no namespace has a row of it.
func (cs *contentStore) Delete(ctx context.Context, dgst digest.Digest) error {
	lease, _ := leases.FromContext(ctx)
	return cs.s.delete(ctx, metad.Line{"op": "content.remove"}.With("digest", dgst.String()).
		With("drop", lease))
}

func (cs *contentStore) ListStatuses(ctx context.Context, fs ...string) ([]content.Status, error) {
	ns, _, err := requested(ctx)
	if err != nil {
		return nil, err
	}
	filter, err := filters.ParseAll(fs...)
	if err != nil {
		return nil, err
	}
	var all []content.Status
	err = cs.s.rows(ctx, metad.Line{"op": "ingest.list", "ns": ns}, func(row metad.Row) error {
		status, err := cs.Store.Status(ctx, ingestRef(row.Number))
		if errdefs.IsNotFound(err) {
			return nil
		}
		if err != nil {
			return err
		}
		status.Ref = row.Ref
		if filter.Match(adaptRef(row.Ref)) {
			all = append(all, status)
		}
		return nil
	})
	return all, err
}

func (cs *contentStore) Status(ctx context.Context, ref string) (content.Status, error) {
	r, err := cs.s.ask(ctx, getIngest(ref))
	if err != nil {
		return content.Status{}, err
	}
	status, err := cs.Store.Status(ctx, ingestRef(r.Row.Number))
	status.Ref = ref
	return status, err
}

// Abort removes the row, and then the file. A crash between leaves the object in the backend, so the
// next collection removes the file.
func (cs *contentStore) Abort(ctx context.Context, ref string) error {
	ns, lease, err := requested(ctx)
	if err != nil {
		return err
	}
	cs.s.filesL.RLock()
	defer cs.s.filesL.RUnlock()

	replies, err := cs.s.client.Do(ctx, getIngest(ref).With("ns", ns),
		abortIngest(ns, lease, ref))
	if err != nil {
		return err
	}
	if err := replies[1].Err(); err != nil {
		return err
	}
	cs.s.changed(true)
	cs.s.removeIngest(detached{ctx}, replies[0].Row.Number)
	return nil
}

// Writer begins an ingest, or goes on with it. If another namespace has the blob its bytes are
// copied, so a client needn't send them.
func (cs *contentStore) Writer(ctx context.Context, opts ...content.WriterOpt) (content.Writer,
	error) {
	var wOpts content.WriterOpts
	for _, opt := range opts {
		if err := opt(&wOpts); err != nil {
			return nil, err
		}
	}
	if wOpts.Ref == "" {
		return nil, fmt.Errorf("ref must not be empty: %w", errdefs.ErrInvalidArgument)
	}
	ns, lease, err := requested(ctx)
	if err != nil {
		return nil, err
	}
	if err := cs.refuseThere(ctx, ns, lease, wOpts.Desc.Digest); err != nil {
		return nil, err
	}
	w, err := cs.begin(ctx, ns, lease, wOpts)
	if err != nil {
		return nil, err
	}
	cs.s.changed(false)
	if err := cs.share(ctx, w, wOpts.Desc); err != nil {
		w.Close()
		return nil, err
	}
	return w, nil
}

// refuseThere refuses to write content that is there, and has the lease hold it. Content whose blob
// is lost may be written again: its row stays as it is. So metad isn't asked if there is no blob.
func (cs *contentStore) refuseThere(ctx context.Context, ns, lease string,
	dgst digest.Digest) error {
	if dgst == "" {
		return nil
	}
	// No collection comes between the row and the lease that holds it.
	cs.s.filesL.RLock()
	defer cs.s.filesL.RUnlock()

	if _, err := cs.Store.Info(ctx, dgst); errdefs.IsNotFound(err) {
		return nil
	}
	r, err := cs.s.client.Call(ctx, getContent(dgst).With("ns", ns))
	if r.Fault == metad.NotFound {
		return nil
	}
	if err != nil {
		return err
	}
	if err := cs.s.hold(ctx, ns, lease, leases.Resource{Type: "content", ID: dgst.String()}); err != nil {
		return err
	}
	return fmt.Errorf("content %v: %w", dgst, errdefs.ErrAlreadyExists)
}

// begin opens an ingest. Another client may end the ingest, and remove its file, while it is being
// opened: then it is opened anew, a few times.
func (cs *contentStore) begin(ctx context.Context, ns, lease string,
	wOpts content.WriterOpts) (*writer, error) {
	for tries := 1; ; tries++ {
		w, err := cs.open(ctx, ns, lease, wOpts)
		if tries == mostTries || !errors.Is(err, os.ErrNotExist) {
			return w, err
		}
	}
}

// open makes the row of an ingest, whose number names the file, and then the file. A crash between
// leaves a row without a file: a later Writer makes the file.
func (cs *contentStore) open(ctx context.Context, ns, lease string,
	wOpts content.WriterOpts) (*writer, error) {
	cs.s.filesL.RLock()
	defer cs.s.filesL.RUnlock()

	r, err := cs.s.addOne(ctx, ns, metad.Line{"op": "ingest.open", "ns": ns, "ref": wOpts.Ref,
		"at": cs.s.now()}.With("lease", lease).AskingForRow())
	if err != nil {
		return nil, err
	}
	number := r.Row.Number
	if err := cs.s.witness.see(number); err != nil {
		return nil, err
	}
	// Which digest is expected is asked of the rows: a blob of other namespaces isn't in this one.
	desc := wOpts.Desc
	desc.Digest = ""
	w, err := cs.Store.Writer(ctx, content.WithRef(ingestRef(number)), content.WithDescriptor(desc))
	if err != nil {
		return nil, err
	}
	return &writer{Writer: w, cs: cs, ns: ns, lease: lease, ref: wOpts.Ref}, nil
}

// share copies a blob of another namespace into an ingest that has nothing yet.
func (cs *contentStore) share(ctx context.Context, w *writer, desc ocispec.Descriptor) error {
	if desc.Digest == "" || cs.s.isolated {
		return nil
	}
	status, err := w.Writer.Status()
	if err != nil || status.Offset > 0 {
		return err
	}
	blob, err := cs.Store.ReaderAt(ctx, ocispec.Descriptor{Digest: desc.Digest})
	if errdefs.IsNotFound(err) {
		return nil
	}
	if err != nil {
		return err
	}
	defer blob.Close()
	if desc.Size != 0 && desc.Size != blob.Size() {
		return nil
	}
	w.total = blob.Size()
	return content.CopyReaderAt(w.Writer, blob, blob.Size())
}

// writer writes an ingest's file, and commits it with its row.
type writer struct {
	content.Writer
	cs             *contentStore
	ns, lease, ref string
	total          int64 // if a blob was copied
}

func (w *writer) Status() (content.Status, error) {
	status, err := w.Writer.Status()
	status.Ref = w.ref
	if status.Total == 0 {
		status.Total = w.total
	}
	return status, err
}

// Commit makes the blob, synced, and then its row, so a row has its blob at each moment. A crash
// between leaves a blob without a row, which a start moves to lost/. If metad refuses the row, the
// blob goes at the next collection unless a row of another namespace owns it.
func (w *writer) Commit(ctx context.Context, size int64, expected digest.Digest,
	opts ...content.Opt) error {
	line, err := w.commitLine(opts)
	if err != nil {
		w.Close()
		return err
	}
	s, dgst := w.cs.s, w.Digest().String()

	if err := s.lockForBlob(ctx, dgst); err != nil {
		w.Close()
		return err
	}
	defer s.filesL.RUnlock()

	ctx = detached{ctx}
	if err := w.Writer.Commit(ctx, size, expected); err != nil && !errdefs.IsAlreadyExists(err) {
		return err
	}
	r, err := s.client.Call(ctx, line.With("digest", dgst))
	if r.There || r.Fault == metad.AlreadyExists {
		if err := s.change(ctx, abortIngest(w.ns, w.lease, w.ref)); err != nil {
			return err
		}
		err = fmt.Errorf("content %v: %w", dgst, errdefs.ErrAlreadyExists)
	} else if err != nil {
		s.removals.doubt(dgst)
		return err
	}
	s.changed(false)
	return err
}

// commitLine returns the line that commits the row, but for the digest.
func (w *writer) commitLine(opts []content.Opt) (metad.Line, error) {
	var base content.Info
	for _, opt := range opts {
		if err := opt(&base); err != nil {
			return nil, err
		}
	}
	status, err := w.Writer.Status()
	if err != nil {
		return nil, err
	}
	if err := checkLabels(base.Labels); err != nil {
		return nil, err
	}
	data, err := rowData{Created: w.cs.s.moment().UTC(), Size: status.Offset}.encode()
	if err != nil {
		return nil, err
	}
	return metad.Line{"op": "ingest.commit", "ns": w.ns, "ref": w.ref}.WithLabels(base.Labels).
		WithData(data).WithLease(w.lease).With("drop", w.lease), nil
}

func (cs *contentStore) ReaderAt(ctx context.Context, desc ocispec.Descriptor) (content.ReaderAt,
	error) {
	if _, err := cs.Info(ctx, desc.Digest); err != nil {
		return nil, err
	}
	return cs.Store.ReaderAt(ctx, desc)
}
