package store

import (
	"context"
	"sync"
	"time"

	"github.com/containerd/containerd/errdefs"
	"github.com/containerd/containerd/gc"
	"github.com/containerd/containerd/log"
	"github.com/opencontainers/go-digest"

	"metad/metad"
)

// Stats tells what a collection removed, and how long it took.
type Stats struct {
	Blobs, Ingests, Snapshots int
	// Waited is how long no client could commit. Removed is how long the removals of files took.
	Waited, Removed time.Duration
}

// Elapsed is how long clients waited.
func (s Stats) Elapsed() time.Duration { return s.Waited }

// removals are the files that collections decided to remove, and what became unsure meanwhile.
type removals struct {
	mu sync.Mutex
	// going has the blobs that the last report names and whose files aren't removed yet, each with
	// what is closed then.
	going map[string]chan struct{}
	// doubtful has blobs of which a row was refused, or whose removal failed. A later commit may have
	// given one a row again, so the next collection asks for rows first.
	doubtful map[string]bool
	// snapshots and ingests have those whose removal failed, children before their parents. Numbers
	// never come again, so no row can own one again.
	snapshots []metad.SnapshotNumber
	ingests   []uint32
	collected bool
}

// lockForBlob locks the files for reading once the blob isn't going: the file that a report names
// is removed before a commit makes the blob's next row.
func (s *Store) lockForBlob(ctx context.Context, dgst string) error {
	for {
		s.filesL.RLock()
		gone := s.removals.wait(dgst)
		if gone == nil {
			return nil
		}
		s.filesL.RUnlock()
		select {
		case <-gone:
		case <-ctx.Done():
			return ctx.Err()
		}
	}
}

// wait returns what is closed when the blob's file is removed, nil if it isn't going.
func (r *removals) wait(dgst string) <-chan struct{} {
	r.mu.Lock()
	defer r.mu.Unlock()
	if gone, ok := r.going[dgst]; ok {
		return gone
	}
	return nil
}

// doubt has the next collection ask whether a row owns this blob, and remove it if none does.
func (r *removals) doubt(dgst string) {
	r.mu.Lock()
	defer r.mu.Unlock()
	if r.doubtful == nil {
		r.doubtful = map[string]bool{}
	}
	r.doubtful[dgst] = true
}

// begin notes blobs as going. No client holds the files' lock meanwhile.
func (r *removals) begin(blobs []string) {
	r.mu.Lock()
	defer r.mu.Unlock()
	r.going = map[string]chan struct{}{}
	for _, dgst := range blobs {
		r.going[dgst] = make(chan struct{})
		delete(r.doubtful, dgst)
	}
}

// end lets commits of a blob pass again.
func (r *removals) end(dgst string) {
	r.mu.Lock()
	defer r.mu.Unlock()
	close(r.going[dgst])
	delete(r.going, dgst)
}

// failed returns the removals that are to be tried again, and forgets them.
func (r *removals) failed() (snapshots []metad.SnapshotNumber, ingests []uint32) {
	r.mu.Lock()
	defer r.mu.Unlock()
	snapshots, ingests = r.snapshots, r.ingests
	r.snapshots, r.ingests = nil, nil
	return snapshots, ingests
}

// isFirst says whether no collection has ended before.
func (r *removals) isFirst() bool {
	r.mu.Lock()
	defer r.mu.Unlock()
	first := !r.collected
	r.collected = true
	return first
}

// GarbageCollect has metad collect, and removes the files that its report names. It returns when
// all are removed or their removal has failed, which is told and tried again at the next
// collection. Clients wait while metad collects; behind that only a commit of a blob that goes
// waits for it.
func (s *Store) GarbageCollect(ctx context.Context) (gc.Stats, error) {
	s.collectL.Lock()
	defer s.collectL.Unlock()

	began := time.Now()
	report, err := s.collect(ctx)
	first := s.removals.isFirst()
	if err != nil {
		if first {
			// Containerd's scheduler fails for good if its first collection does.
			log.G(ctx).WithError(err).Error("the first collection failed")
			return Stats{}, nil
		}
		return nil, err
	}
	collected := time.Now()
	s.remove(ctx, report)
	s.lost().expire(ctx, s)
	stats := Stats{
		Blobs:     len(report.Backend.Blobs),
		Ingests:   len(report.Backend.Ingests),
		Snapshots: len(report.Backend.Snapshots),
		Waited:    collected.Sub(began),
		Removed:   time.Since(collected),
	}
	log.G(ctx).Infof("collected %d blobs, %d ingests, %d snapshots", stats.Blobs, stats.Ingests,
		stats.Snapshots)
	return stats, nil
}

// collect returns what metad reports, with the doubtful blobs that no row owns. It notes all blobs
// of that report as going before a client may commit again.
func (s *Store) collect(ctx context.Context) (metad.Report, error) {
	s.filesL.Lock()
	defer s.filesL.Unlock()

	r, err := s.client.Call(ctx, metad.Line{"op": "gc.run", "at": s.now()})
	if err != nil {
		return metad.Report{}, err
	}
	report := r.Report
	unowned, err := s.unowned(ctx, report.Backend.Blobs)
	if err != nil {
		log.G(ctx).WithError(err).Warn("blobs that may have no row stay until the next collection")
	}
	report.Backend.Blobs = append(report.Backend.Blobs, unowned...)
	s.removals.begin(report.Backend.Blobs)
	return report, nil
}

// unowned returns the doubtful blobs that no row owns and no report names. One that a row owns
// isn't doubtful any more. The collection has left no blob in the backend that no row owns.
func (s *Store) unowned(ctx context.Context, reported []string) ([]string, error) {
	s.removals.mu.Lock()
	defer s.removals.mu.Unlock()
	if len(s.removals.doubtful) == 0 {
		return nil, nil
	}
	back, err := s.backend(ctx)
	if err != nil {
		return nil, err
	}
	for _, dgst := range back.Blobs {
		delete(s.removals.doubtful, dgst)
	}
	named := map[string]bool{}
	for _, dgst := range reported {
		named[dgst] = true
	}
	var unowned []string
	for dgst := range s.removals.doubtful {
		if !named[dgst] {
			unowned = append(unowned, dgst)
		}
	}
	return unowned, nil
}

// remove removes the files of a report, and those whose removal failed before. The rows are gone: a
// crash leaves files without rows, which a start moves to lost/.
func (s *Store) remove(ctx context.Context, report metad.Report) {
	snapshots, ingests := s.removals.failed()
	for _, sn := range append(snapshots, report.Backend.Snapshots...) {
		s.removeSnapshot(ctx, sn)
	}
	s.cleanUp(ctx)
	for _, dgst := range report.Backend.Blobs {
		s.removeBlob(ctx, dgst)
		s.removals.end(dgst)
	}
	for _, number := range append(ingests, report.Backend.Ingests...) {
		s.removeIngest(ctx, number)
	}
}

// cleanUp has each snapshotter remove what its removals left for later: overlayfs its folders.
func (s *Store) cleanUp(ctx context.Context) {
	for name, sn := range s.snapshotters {
		if err := sn.cleanup(ctx); err != nil {
			log.G(ctx).WithError(err).WithField("snapshotter", name).Warn("clean-up failed")
		}
	}
}

func (s *Store) removeBlob(ctx context.Context, dgst string) {
	l := log.G(ctx).WithField("digest", dgst)
	if s.content == nil {
		return
	}
	if err := s.content.Store.Delete(ctx, digest.Digest(dgst)); err != nil &&
		!errdefs.IsNotFound(err) {
		l.WithError(err).Warn("a blob isn't removed; the next collection tries again")
		s.removals.doubt(dgst)
		return
	}
	l.Debug("blob removed")
}

func (s *Store) removeIngest(ctx context.Context, number uint32) {
	if s.content == nil {
		return
	}
	err := s.content.Store.Abort(ctx, ingestRef(number))
	if err == nil || errdefs.IsNotFound(err) {
		return
	}
	log.G(ctx).WithError(err).WithField("number", number).
		Warn("an ingest's file isn't removed; the next collection tries again")
	s.removals.mu.Lock()
	defer s.removals.mu.Unlock()
	s.removals.ingests = append(s.removals.ingests, number)
}

func (s *Store) removeSnapshot(ctx context.Context, of metad.SnapshotNumber) {
	sn, ok := s.snapshotters[of.Snapshotter]
	if !ok {
		return // this daemon hasn't the snapshotter; one that has it finds a file without a row
	}
	l := log.G(ctx).WithField("number", of.Number).WithField("snapshotter", of.Snapshotter)
	if err := sn.remove(ctx, of.Number); err != nil && !errdefs.IsNotFound(err) {
		l.WithError(err).Warn("a snapshot isn't removed; the next collection tries again")
		s.removals.mu.Lock()
		defer s.removals.mu.Unlock()
		s.removals.snapshots = append(s.removals.snapshots, of)
		return
	}
	l.Debug("snapshot removed")
}
