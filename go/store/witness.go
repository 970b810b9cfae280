package store

import (
	"context"
	"errors"
	"fmt"
	"os"
	"path/filepath"
	"strconv"
	"strings"
	"sync"

	"github.com/containerd/containerd/errdefs"
	"github.com/containerd/containerd/log"

	"metad/metad"
)

// witnessFile has, in the folder of content, the greatest number that files of it were made for.
const witnessFile = "metad.number"

// witness remembers the greatest number that the store has given. Each file is made for a number, a
// blob for that of its ingest, and no number is given twice: so a store that would give a number
// again is older than its files, and would have rows for few of them.
type witness struct {
	mu   sync.Mutex
	file *os.File
	last uint32
	// unsure says that the start couldn't tell whether the store is older: the next number will.
	unsure bool
}

// readWitness returns the greatest number, 0 in a new folder.
func readWitness(path string) (uint32, error) {
	text, err := os.ReadFile(path)
	if errors.Is(err, os.ErrNotExist) {
		return 0, nil
	}
	var last uint64
	if err == nil {
		last, err = strconv.ParseUint(strings.TrimSpace(string(text)), 10, 32)
	}
	if err != nil {
		return 0, fmt.Errorf("%s can't be read: %w", path, err)
	}
	return uint32(last), nil
}

func witnessText(number uint32) string { return fmt.Sprintf("%010d\n", number) }

// begin has the witness remember from now on, beginning with a number.
func (w *witness) begin(path string, last uint32, unsure bool) error {
	if err := writeSynced(path, witnessText(last)); err != nil {
		return err
	}
	file, err := os.OpenFile(path, os.O_WRONLY, 0)
	if err != nil {
		return err
	}
	w.mu.Lock()
	defer w.mu.Unlock()
	w.file, w.last, w.unsure = file, last, unsure
	return nil
}

// see notes a number before a file is made for it. The store has the number synced already, so what
// a power cut takes back here is only less than what could be told.
func (w *witness) see(number uint32) error {
	w.mu.Lock()
	defer w.mu.Unlock()
	if w.file == nil || number <= w.last && !w.unsure {
		return nil
	}
	if number <= w.last {
		return olderStore(w.file.Name(), number, w.last)
	}
	if _, err := w.file.WriteAt([]byte(witnessText(number)), 0); err != nil {
		return err
	}
	w.last, w.unsure = number, false
	return nil
}

func (w *witness) close() error {
	w.mu.Lock()
	defer w.mu.Unlock()
	if w.file == nil {
		return nil
	}
	err := w.file.Close()
	w.file = nil
	return err
}

func olderStore(path string, number, last uint32) error {
	return fmt.Errorf("the store is older than its files: it gives %d, and %s has seen %d: %w", number,
		path, last, errdefs.ErrFailedPrecondition)
}

// age is how old a start finds the store.
type age struct {
	last  uint32 // what the witness has from now on
	known bool   // whether the store isn't older than its files for sure
}

// checkAge refuses a store that is older than its files. It leaves its mark in the store, and else
// changes nothing. Of a store that takes no mark only its objects can tell that it isn't older.
// What the witness of another store has seen doesn't count: that one has no file there.
func (s *Store) checkAge(ctx context.Context, own ownership, back metad.Objects) (age, error) {
	if s.folders.Content == "" {
		return age{known: true}, nil
	}
	path := filepath.Join(s.folders.Content, witnessFile)
	last, err := readWitness(path)
	if err != nil {
		return age{}, err
	}
	if !own.hasContent {
		last = 0
	}
	number, err := s.mark(ctx)
	given := greatest(back)
	switch {
	case errdefs.IsUnavailable(err) && given >= last:
		return age{given, true}, nil
	case errdefs.IsUnavailable(err):
		log.G(ctx).WithError(err).Warn(
			"the store takes no addition: whether it is older isn't known, and no file is moved")
		return age{last, false}, nil
	case err != nil:
		return age{}, err
	case number <= last:
		return age{}, olderStore(path, number, last)
	}
	return age{number, true}, nil
}

// greatest returns the greatest number of the backend's objects.
func greatest(back metad.Objects) (number uint32) {
	for _, of := range back.Ingests {
		if of > number {
			number = of
		}
	}
	for _, of := range back.Snapshots {
		if of.Number > number {
			number = of.Number
		}
	}
	return number
}

// startRef names the mark of a start, an ingest of the store's own namespace.
const startRef = "start"

// mark returns the number that the store gives next, as the number of an ingest that stays in the
// store: a start that is refused, or cut, would else use numbers up, until an older store gave one
// that is new. So the next start finds the mark, and uses up none.
func (s *Store) mark(ctx context.Context) (uint32, error) {
	r, err := s.addOne(ctx, ownNamespace, metad.Line{"op": "ingest.begin", "ns": ownNamespace,
		"ref": startRef, "at": s.now()}.AskingForRow())
	if err != nil {
		found, findErr := s.client.Call(ctx, getIngest(startRef).With("ns", ownNamespace))
		if findErr == nil {
			r, err = found, nil
		}
	}
	return r.Row.Number, err
}

// takeAge removes the mark, and only then has the witness see its number: if the witness had seen a
// number that the store still gives, the next start would be refused.
func (s *Store) takeAge(ctx context.Context, a age) error {
	if s.folders.Content == "" {
		return nil
	}
	_, err := s.client.Call(ctx, abortIngest(ownNamespace, "", startRef))
	if err != nil && !errdefs.IsNotFound(err) {
		return err
	}
	return s.witness.begin(filepath.Join(s.folders.Content, witnessFile), a.last, !a.known)
}
