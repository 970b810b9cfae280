package serve

import "bytes"

const (
	// shortReply is the longest reply that a line may get which adds, changes or removes and asks
	// for no row, and of each refusal.
	shortReply = 64
	// dataMost is the longest data of a row, as a reply has it.
	dataMost = 49152
	// ingestRow is the longest row of an ingest: its data, a name of 1,024 bytes, each of them
	// escaped, a digest and a number.
	ingestRow = dataMost + 4096
	// unbounded is of a listing, a report or a question, whose length the store decides, and of
	// rows with labels: 256 of 4,096 bytes each take 6 MiB where each byte is escaped.
	unbounded = 1 << 40
)

// longest has the ops whose replies are bounded, and by how much. Any other may get a long one.
var longest = map[string]int64{
	"ns.add": shortReply, "ns.remove": shortReply,
	"image.add": shortReply, "image.target": shortReply, "image.label": shortReply,
	"image.set": shortReply, "image.remove": shortReply,
	"container.add": shortReply, "container.label": shortReply, "container.set": shortReply,
	"container.remove": shortReply,
	"content.add":      shortReply, "content.label": shortReply, "content.set": shortReply,
	"content.remove": shortReply,
	"ingest.begin":   shortReply, "ingest.open": shortReply, "ingest.commit": shortReply,
	"ingest.abort": shortReply, "ingest.get": ingestRow,
	"snap.prepare": shortReply, "snap.view": shortReply, "snap.commit": shortReply,
	"snap.label": shortReply, "snap.set": shortReply, "snap.remove": shortReply,
	"lease.add": shortReply, "lease.label": shortReply, "lease.set": shortReply,
	"lease.hold": shortReply, "lease.drop": shortReply, "lease.remove": shortReply,
	"profile": shortReply,
}

// A request is what the front reads of a line.
type request struct {
	weight    int64 // the bytes that its reply may have
	collects  bool
	op        []byte
	end       int  // where the object ends, if the line is one
	hasMoment bool // it has a member `at`, or one whose name this doesn't read
}

// requestOf reads a line without its line feed. What it can't read counts as the longest.
func requestOf(line []byte) request {
	if len(line) > lineMost {
		return request{weight: shortReply} // it is too long, whatever it holds
	}
	at := skipSpace(line, 0)
	if at == len(line) || line[at] != '{' {
		return request{weight: shortReply} // it is no object, so it is no request
	}
	var op []byte
	var more, collects, hasMoment bool // the first two: of members that make the reply longer
	at++
	for {
		at = skipSpace(line, at)
		if at < len(line) && line[at] == ',' {
			at = skipSpace(line, at+1)
		}
		if at == len(line) || line[at] != '"' {
			break
		}
		name, next := textAt(line, at)
		at = skipSpace(line, next)
		if at == len(line) || line[at] != ':' {
			break
		}
		at = skipSpace(line, at+1)
		start := at
		at = skipValue(line, at)
		switch {
		case bytes.IndexByte(name, '\\') >= 0, string(name) == "answer":
			more = true
			hasMoment = hasMoment || string(name) != "answer"
		case string(name) == "at":
			hasMoment = true
		case string(name) == "sync":
			more, collects = true, true
		case string(name) == "op" && start < at && line[start] == '"':
			op, _ = textAt(line, start)
		}
	}
	whole := at < len(line) && line[at] == '}' && skipSpace(line, at+1) == len(line)
	weight, bounded := longest[string(op)]
	if more || !whole || !bounded {
		weight = unbounded
	}
	asked := request{weight: weight, collects: collects || string(op) == "gc.run", op: op}
	if asked.hasMoment = hasMoment; whole {
		asked.end = at
	}
	return asked
}

// skipSpace returns the place of the first byte from at on that JSON doesn't take as white space.
func skipSpace(line []byte, at int) int {
	for at < len(line) && (line[at] == ' ' || line[at] == '\t' || line[at] == '\r') {
		at++
	}
	return at
}

// textAt returns what stands between the quotes of a text that begins at this place, and the place
// behind it.
func textAt(line []byte, at int) (text []byte, next int) {
	start := at + 1
	for from := start; ; {
		found := bytes.IndexByte(line[from:], '"')
		if found < 0 {
			return line[start:], len(line)
		}
		end := from + found
		slash := end
		for slash > start && line[slash-1] == '\\' {
			slash--
		}
		if (end-slash)%2 == 0 {
			return line[start:end], end + 1
		}
		from = end + 1
	}
}

// skipValue returns the place behind a value that begins at this place.
func skipValue(line []byte, at int) int {
	depth := 0
	for at < len(line) {
		switch line[at] {
		case '"':
			_, at = textAt(line, at)
			if depth == 0 {
				return at
			}
			continue
		case '{', '[':
			depth++
		case '}', ']':
			if depth == 0 {
				return at
			}
			if depth--; depth == 0 {
				return at + 1
			}
		case ',':
			if depth == 0 {
				return at
			}
		}
		at++
	}
	return at
}
