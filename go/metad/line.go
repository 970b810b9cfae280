package metad

import (
	"bytes"
	"encoding/json"
	"fmt"
	"unicode/utf8"

	"github.com/containerd/containerd/errdefs"
)

// Line is a request by its members: texts, and labels as a map of texts.
type Line map[string]any

// With returns the line with one more member, which is left out if it is empty.
func (l Line) With(member, value string) Line {
	if value != "" {
		l[member] = value
	}
	return l
}

// WithLabels returns the line with labels, which are left out if there are none.
func (l Line) WithLabels(labels map[string]string) Line {
	if len(labels) > 0 {
		l["labels"] = labels
	}
	return l
}

// WithData returns the line with the data of its row.
func (l Line) WithData(data string) Line {
	l["data"] = data
	return l
}

// WithLease returns the line with a lease, if there is one, that holds what the line makes, or what
// is there in its place.
func (l Line) WithLease(lease string) Line {
	if lease != "" {
		l["lease"], l["there"] = lease, "hold"
	}
	return l
}

// AskingForRow returns the line, whose reply has the row as it is then.
func (l Line) AskingForRow() Line {
	l["answer"] = "row"
	return l
}

// encode appends the line with its line feed. A text that isn't UTF-8 is refused: JSON would
// replace its bytes, and two names would become one.
func (l Line) encode(to *bytes.Buffer) error {
	for member, value := range l {
		switch v := value.(type) {
		case map[string]string:
			for key, value := range v {
				if !utf8.ValidString(key) || !utf8.ValidString(value) {
					return fmt.Errorf("label %q isn't UTF-8: %w", key, errdefs.ErrInvalidArgument)
				}
			}
		default:
			if s := fmt.Sprint(v); !utf8.ValidString(s) {
				return fmt.Errorf("%s %q isn't UTF-8: %w", member, s, errdefs.ErrInvalidArgument)
			}
		}
	}
	e := json.NewEncoder(to)
	e.SetEscapeHTML(false)
	return e.Encode(map[string]any(l))
}
