package serve

import (
	"strings"
	"time"
)

// takesMoment has the ops that want a member `at`. A removal's `sync` isn't one that could be left
// out: without it nothing is collected.
var takesMoment = map[string]bool{
	"gc.run": true, "gc.plan": true, "gc.explain": true, "gc.impact": true, "ingest.begin": true,
	"ingest.open": true,
}

// momentForm is the form of the front's moments. All have as many bytes, so a line has room for its
// moment before that is known.
const momentForm = "2006-01-02T15:04:05.000000000Z"

// noMoment stands for a moment until the line is handed on. It is none.
var noMoment = strings.Repeat("-", len(momentForm))

// withRoom appends to text a line that was read as asked, with room for a moment as its last member
// where it wants one and has none. It returns where that room is, or -1. A line that would be too
// long with it stays as it is.
func withRoom(text, line []byte, asked request) (longer []byte, at int) {
	const member = `,"at":"`
	size := len(line) + len(member) + len(momentForm) + 1
	if asked.end == 0 || asked.hasMoment || !takesMoment[string(asked.op)] || size > lineMost {
		return append(text, line...), -1
	}
	text = append(append(text, line[:asked.end]...), member...)
	at = len(text)
	text = append(append(text, noMoment...), '"')
	return append(text, line[asked.end:]...), at
}

// putMoment writes a moment in its room, which begins the text.
func putMoment(text []byte, now time.Time) {
	copy(text[:len(momentForm)], now.UTC().Format(momentForm))
}
