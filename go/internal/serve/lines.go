package serve

import "bytes"

const (
	// lineMost is the bytes of the longest line. Of a longer one so many and one more are handed
	// on, so that it is too long for the service as well.
	lineMost = 1 << 16
	// turnBytes and turnLines are what a client may hand on in a turn, but for a longer line.
	turnBytes = 1 << 13
	turnLines = 256
	// partKept is how much room for the beginning of a line is kept once that is whole.
	partKept = 1 << 10
)

// A run is lines that are handed on together.
type run struct {
	size     int   // bytes, each line with its line feed
	lines    int   // as many as get a reply
	weight   int64 // the bytes that the replies may have
	collects bool  // it is one line, which collects
}

// alone tells whether it is one line whose reply may be long.
func (r run) alone() bool { return r.weight >= unbounded }

// A cutter cuts what a client sends into lines.
type cutter struct {
	part    []byte // the beginning of a line whose line feed hasn't arrived
	moments bool   // a line that wants a moment and has none gets room for one
}

// cutLines are whole lines, their runs, and where in the text there is room for moments.
type cutLines struct {
	text    []byte
	runs    []run
	moments []int
}

// clear takes the lines out, and keeps their room.
func (l *cutLines) clear() { l.text, l.runs, l.moments = l.text[:0], l.runs[:0], l.moments[:0] }

// add adds a line, with room for a moment if it may get one.
func (l *cutLines) add(line []byte, moments bool) {
	asked, start, at := requestOf(line), len(l.text), -1
	if moments {
		l.text, at = withRoom(l.text, line, asked)
	} else {
		l.text = append(l.text, line...)
	}
	if at >= 0 {
		l.moments = append(l.moments, at)
	}
	l.text = append(l.text, '\n')
	l.runs = withLine(l.runs, len(l.text)-start, asked)
}

// cut adds the whole lines to others. An empty line has no reply, so it is passed over.
func (c *cutter) cut(block []byte, to *cutLines) {
	for len(block) > 0 {
		end := bytes.IndexByte(block, '\n')
		if end < 0 {
			c.keep(block)
			break
		}
		line := block[:end]
		block = block[end+1:]
		if len(c.part) > 0 {
			c.keep(line)
			line = c.part
		}
		if len(line) > lineMost {
			line = line[:lineMost+1]
		}
		if len(line) > 0 {
			to.add(line, c.moments)
		}
		if c.part = c.part[:0]; cap(c.part) > partKept {
			c.part = nil
		}
	}
}

// keep adds to the line that has begun, as much as is handed on of it.
func (c *cutter) keep(part []byte) {
	if room := lineMost + 1 - len(c.part); len(part) > room {
		part = part[:room]
	}
	c.part = append(c.part, part...)
}

// withLine adds a line to the last run, or begins another.
func withLine(runs []run, size int, asked request) []run {
	one := run{size, 1, asked.weight, asked.collects}
	if last := len(runs) - 1; last >= 0 && runs[last].takes(one) {
		runs[last].add(one)
		return runs
	}
	return append(runs, one)
}

// takes tells whether both are handed on together.
func (r run) takes(more run) bool {
	return !r.alone() && !more.alone() && r.lines+more.lines <= turnLines &&
		r.size+more.size <= turnBytes && r.weight+more.weight <= unreadMost
}

func (r *run) add(more run) {
	r.size += more.size
	r.lines += more.lines
	r.weight += more.weight
}
