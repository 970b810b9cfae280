package metad

import (
	"encoding/json"
	"fmt"

	"github.com/containerd/containerd/errdefs"
)

// Reply is a reply line. It has the members of its kind.
type Reply struct {
	OK        bool        `json:"ok"`
	Fault     Fault       `json:"fault"`
	There     bool        `json:"there"` // what the line makes was there, and its lease holds it
	Names     []string    `json:"names"`
	Row       Row         `json:"row"`
	Rows      []Row       `json:"rows"`
	Resources [][2]string `json:"resources"`
	Report    Report      `json:"report"`
	Kept      bool        `json:"kept"`
	Path      []Step      `json:"path"`
	Impact    Report      `json:"impact"`
	Backend   Objects     `json:"backend"`

	line Line
}

// Row is the row of an object. It has the members of its kind, and its name in one of the first.
type Row struct {
	Name   string `json:"name"`
	Digest string `json:"digest"`
	Ref    string `json:"ref"`
	ID     string `json:"id"`
	Key    string `json:"key"`

	Labels       map[string]string `json:"labels"`
	Data         string            `json:"data"`
	Target       string            `json:"target"`
	Snapshot     *[2]string        `json:"snapshot"`
	Number       uint32            `json:"number"`
	Kind         string            `json:"kind"`
	Parent       string            `json:"parent"`
	ParentNumber uint32            `json:"parent_number"`
}

// Step is a thing of the path that keeps a row.
type Step struct {
	By     string `json:"by"`
	Expire string `json:"expire"`
	Label  string `json:"label"`
	Mode   string `json:"mode"`
	Name   string `json:"name"`
	Type   string `json:"type"`
}

// Report tells which backend objects a collection removed, children before their parents.
type Report struct {
	Backend Objects `json:"backend"`
}

// Objects are backend objects.
type Objects struct {
	Blobs     []string         `json:"blobs"`
	Ingests   []uint32         `json:"ingests"`
	Snapshots []SnapshotNumber `json:"snapshots"`
}

// SnapshotNumber names a backend snapshot.
type SnapshotNumber struct {
	Snapshotter string
	Number      uint32
}

// UnmarshalJSON reads a pair of snapshotter and number.
func (s *SnapshotNumber) UnmarshalJSON(b []byte) error {
	return json.Unmarshal(b, &[]any{&s.Snapshotter, &s.Number})
}

// Fault is the number of a refusal, 0 if there is none.
type Fault int

// The faults that callers tell apart.
const (
	NotFound           Fault = 2
	AlreadyExists      Fault = 3
	FailedPrecondition Fault = 4
	BadLine            Fault = 5
)

// kinds has the faults as the errors that containerd's clients know.
var kinds = map[Fault]error{
	1: errdefs.ErrInvalidArgument,    // InvalidArgument
	2: errdefs.ErrNotFound,           // NotFound
	3: errdefs.ErrAlreadyExists,      // AlreadyExists
	4: errdefs.ErrFailedPrecondition, // FailedPrecondition
	5: errdefs.ErrInvalidArgument,    // BadLine: a member that containerd leaves empty isn't sent
	6: errdefs.ErrInvalidArgument,    // TooLong
	7: errdefs.ErrUnavailable,        // OutOfMemory: the line may be sent again
	8: errdefs.ErrUnavailable,        // NoWorker: the line may be sent again
}

// Err is nil unless the line was refused. It names the op and what it was asked of.
func (r Reply) Err() error {
	if r.Fault == 0 {
		return nil
	}
	kind, ok := kinds[r.Fault]
	if !ok {
		kind = errdefs.ErrUnknown
	}
	for _, member := range []string{"name", "key", "digest", "ref", "id", "resource", "ns"} {
		if v, ok := r.line[member]; ok {
			return fmt.Errorf("%v %q: %w", r.line["op"], v, kind)
		}
	}
	return fmt.Errorf("%v: %w", r.line["op"], kind)
}
