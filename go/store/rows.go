package store

import (
	"encoding/json"
	"fmt"
	"hash/fnv"
	"strings"
	"sync"
	"time"

	"github.com/containerd/containerd/errdefs"
	"github.com/containerd/containerd/labels"

	"metad/internal/scan"
	"metad/metad"
)

// ownLabels begins the keys of the store's own labels. Clients don't see them.
const ownLabels = "containerd-metad/"

// updatedLabel is when a row was last updated, so an update needn't read the row's data before. A
// row that never was has none.
const updatedLabel = ownLabels + "updated"

// timeForm is the form of moments in lines.
const timeForm = time.RFC3339Nano

// mostLabels is how many labels a client may give an object. Metad takes one more, which is the
// store's own: without room for it the object could never be updated.
const mostLabels = 255

// checkLabels refuses labels that containerd refuses, the store's own, and too many.
func checkLabels(ls map[string]string) error {
	if len(ls) > mostLabels {
		return fmt.Errorf("%d labels, and an object may have %d: %w", len(ls), mostLabels,
			errdefs.ErrInvalidArgument)
	}
	for k, v := range ls {
		if err := labels.Validate(k, v); err != nil {
			return err
		}
		if strings.HasPrefix(k, ownLabels) {
			return fmt.Errorf("label %q is the store's own: %w", k, errdefs.ErrInvalidArgument)
		}
	}
	return nil
}

// clientLabels returns the labels of a row that clients see, and when it was last updated: when it
// was made if it never was.
func clientLabels(row metad.Row, created time.Time) (map[string]string, time.Time, error) {
	updated := created
	if text, ok := row.Labels[updatedLabel]; ok {
		var err error
		if updated, err = time.Parse(timeForm, text); err != nil {
			return nil, updated, err
		}
		delete(row.Labels, updatedLabel)
	}
	if len(row.Labels) == 0 {
		return nil, updated, nil
	}
	return row.Labels, updated, nil
}

// relabel has the line of a *.set replace what the paths of labels name, and note the moment. It
// returns the other paths.
func (s *Store) relabel(line metad.Line, want map[string]string, paths []string) ([]string, error) {
	var others []string
	member, put := "put", map[string]string{}
	for _, path := range paths {
		key := strings.TrimPrefix(path, "labels.")
		switch {
		case path == "labels":
			member = "labels"
		case key == path:
			others = append(others, path)
		default:
			put[key] = want[key]
		}
	}
	if member == "labels" {
		put = map[string]string{}
		for k, v := range want {
			put[k] = v
		}
	}
	if err := checkLabels(put); err != nil {
		return nil, err
	}
	put[updatedLabel] = s.now()
	line[member] = put
	return others, nil
}

// rowData is what containerd keeps of a row and metad has no member for. It has the members of its
// kind.
type rowData struct {
	Created     time.Time         `json:"created"`
	MediaType   string            `json:"mediaType,omitempty"`
	Size        int64             `json:"size,omitempty"`
	Annotations map[string]string `json:"annotations,omitempty"`
}

// encode returns the text of a row's data.
func (d rowData) encode() (string, error) {
	text, err := json.Marshal(d)
	return string(text), err
}

// decodeData reads the data of a row.
func decodeData(text string) (d rowData, err error) {
	s := scan.Of(text)
	s.Object(func(name string) {
		switch name {
		case "created":
			if d.Created, err = time.Parse(timeForm, s.String()); err != nil {
				s.Fail()
			}
		case "mediaType":
			d.MediaType = s.String()
		case "size":
			d.Size = int64(s.Number())
		case "annotations":
			d.Annotations = s.Texts()
		default:
			s.Fail()
		}
	})
	if s.Done() {
		return d, nil
	}
	d = rowData{}
	return d, json.Unmarshal([]byte(text), &d)
}

// rowLocks orders the changes of one row that take several lines: the row is read, and written from
// what was read.
type rowLocks [64]sync.Mutex

// lock locks a row by its kind and names, and returns what unlocks it.
func (l *rowLocks) lock(names ...string) (unlock func()) {
	h := fnv.New32a()
	for _, name := range names {
		h.Write([]byte(name))
		h.Write([]byte{0})
	}
	mu := &l[h.Sum32()%uint32(len(l))]
	mu.Lock()
	return mu.Unlock
}
