// Package scan reads JSON of known members fast, for what there may be much of: rows, and their
// data. What it doesn't know is left to encoding/json.
package scan

import "strings"

// Scanner reads compact JSON. What it doesn't know makes it fail.
type Scanner struct {
	text   string
	at     int
	failed bool
}

// Of returns a scanner of a text.
func Of(text string) *Scanner { return &Scanner{text: text} }

// Fail has the whole text be one that isn't known.
func (s *Scanner) Fail() { s.failed = true }

// Done says whether all of the text was read.
func (s *Scanner) Done() bool { return !s.failed && s.at == len(s.text) }

// is passes over a byte if it is the next one.
func (s *Scanner) is(b byte) bool {
	if s.at < len(s.text) && s.text[s.at] == b {
		s.at++
		return true
	}
	return false
}

// Wants passes over a byte, which has to be the next one.
func (s *Scanner) Wants(b byte) {
	if !s.is(b) {
		s.failed = true
	}
}

// Word passes over a literal if it is next.
func (s *Scanner) Word(literal string) bool {
	if strings.HasPrefix(s.text[s.at:], literal) {
		s.at += len(literal)
		return true
	}
	return false
}

// String reads a text.
func (s *Scanner) String() string {
	s.Wants('"')
	start, isEscaped := s.at, false
	for ; s.at < len(s.text) && !s.failed; s.at++ {
		switch b := s.text[s.at]; {
		case b == '"':
			text := s.text[start:s.at]
			s.at++
			if isEscaped {
				return s.unescaped(text)
			}
			return text
		case b == '\\':
			isEscaped = true
			s.at++
		case b < 0x20:
			s.failed = true
		}
	}
	s.failed = true
	return ""
}

// escapes has what stands behind a backslash, and what it means. Bytes that are escaped by their
// numbers are left to encoding/json.
var escapes = [256]byte{'"': '"', '\\': '\\', '/': '/', 'b': '\b', 'f': '\f', 'n': '\n', 'r': '\r',
	't': '\t'}

func (s *Scanner) unescaped(text string) string {
	var b strings.Builder
	b.Grow(len(text))
	for {
		at := strings.IndexByte(text, '\\')
		if at < 0 {
			b.WriteString(text)
			return b.String()
		}
		b.WriteString(text[:at])
		meant := escapes[text[at+1]]
		if meant == 0 {
			s.failed = true
		}
		b.WriteByte(meant)
		text = text[at+2:]
	}
}

// Number reads a whole number.
func (s *Scanner) Number() uint64 {
	var n uint64
	start := s.at
	for ; s.at < len(s.text) && '0' <= s.text[s.at] && s.text[s.at] <= '9'; s.at++ {
		n = n*10 + uint64(s.text[s.at]-'0')
	}
	if digits := s.at - start; digits == 0 || digits > 18 {
		s.failed = true
	}
	return n
}

// Object calls member for each member of an object, which has it read the value.
func (s *Scanner) Object(member func(name string)) {
	s.Wants('{')
	if s.is('}') {
		return
	}
	for !s.failed {
		name := s.String()
		s.Wants(':')
		if s.failed {
			return
		}
		member(name)
		if !s.is(',') {
			s.Wants('}')
			return
		}
	}
}

// Array calls element for each element of an array, which has it read one.
func (s *Scanner) Array(element func()) {
	s.Wants('[')
	if s.is(']') {
		return
	}
	for !s.failed {
		element()
		if !s.is(',') {
			s.Wants(']')
			return
		}
	}
}

// Texts reads an object whose values are texts.
func (s *Scanner) Texts() map[string]string {
	all := map[string]string{}
	s.Object(func(name string) { all[name] = s.String() })
	return all
}

// Nullable reads a text, or null as an empty one.
func (s *Scanner) Nullable() string {
	if s.Word("null") {
		return ""
	}
	return s.String()
}
