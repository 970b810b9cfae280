package serve

import (
	"bytes"
	"errors"
	"fmt"
	"time"
)

var (
	errNobodys  = errors.New("a reply came that no line asked for")
	errNoNumber = errors.New("a reply doesn't begin with its line's number")
)

// faultOf is how the reply to a refused line begins; its number follows.
const faultOf = `{"fault":`

// faultsMost is how many numbers of faults are counted apart.
const faultsMost = 16

// A replyCutter reads where replies begin and end in the service's output.
type replyCutter struct {
	numbered bool   // each reply begins with its line's number and a space
	next     uint64 // the number of the line whose reply comes next, or has begun
	inNumber bool   // a part of the number has come
	number   uint64 // that part
	inside   bool   // the number has come whole, or a part of a reply without one
	head     [len(faultOf) + 2]byte
	count    int // bytes of head that have come
}

// piece is the next part of the output: of one reply, to its end or as far as it has come. from and
// to are where the client's own bytes of it stand.
type piece struct {
	from, to int
	next     int // where the next piece begins
	ends     bool
	fault    int // its fault, where it ends and is one
}

// cut reads a piece of a block.
func (r *replyCutter) cut(block []byte, from int) (piece, error) {
	at := from
	if r.numbered && !r.inside {
		var err error
		if at, err = r.readNumber(block, at); err != nil || !r.inside {
			return piece{from: at, to: at, next: at}, err
		}
	}
	r.inside = true
	end := bytes.IndexByte(block[at:], '\n')
	it := piece{from: at, to: len(block), next: len(block)}
	if end >= 0 {
		it.to = at + end + 1
		it.next, it.ends = it.to, true
	}
	if r.count < len(r.head) {
		r.count += copy(r.head[r.count:], block[it.from:it.to])
	}
	if it.ends {
		it.fault = faultIn(r.head[:r.count])
		r.next++
		r.inside, r.count = false, 0
	}
	return it, nil
}

// readNumber reads the number before a reply, or a part of it, and returns the place behind.
func (r *replyCutter) readNumber(block []byte, at int) (int, error) {
	for ; at < len(block); at++ {
		digit := block[at]
		if digit == ' ' && r.inNumber {
			if r.number != r.next {
				return at, fmt.Errorf("the reply to line %d came where that to line %d was due",
					r.number, r.next)
			}
			r.inNumber, r.number, r.inside = false, 0, true
			return at + 1, nil
		}
		if digit < '0' || digit > '9' || r.number > r.next {
			return at, errNoNumber
		}
		r.inNumber = true
		r.number = r.number*10 + uint64(digit-'0')
	}
	return at, nil
}

// faultIn returns the number of the fault whose reply begins so, or 0.
func faultIn(head []byte) int {
	if !bytes.HasPrefix(head, []byte(faultOf)) {
		return 0
	}
	fault := 0
	for _, digit := range head[len(faultOf):] {
		if digit < '0' || digit > '9' {
			break
		}
		fault = fault*10 + int(digit-'0')
	}
	return fault
}

// route finds whose each part of a block is, and returns the clients that have one, which keep
// where it stands.
func (f *Front) route(block []byte) ([]*client, error) {
	f.mu.Lock()
	defer f.mu.Unlock()
	var touched []*client
	for at := 0; at < len(block); {
		if f.owners.len() == 0 {
			return nil, errNobodys
		}
		one := f.owners.first()
		it, err := f.replies.cut(block, at)
		if err != nil {
			return nil, err
		}
		at = it.next
		if c := one.client; c != nil && it.from < it.to {
			if len(c.spans) == 0 {
				touched = append(touched, c)
			}
			c.spans = withSpan(c.spans, it)
		}
		if it.ends {
			f.replyEnds(one, it.fault)
		}
	}
	return touched, nil
}

// withSpan adds a piece to the last span, where they meet, or as another.
func withSpan(spans []span, it piece) []span {
	if at := len(spans) - 1; at >= 0 && spans[at].to == it.from {
		spans[at].to = it.to
		return spans
	}
	return append(spans, span{it.from, it.to})
}

// replyEnds counts a reply that has come whole.
func (f *Front) replyEnds(one *owner, fault int) {
	if one.client == nil {
		f.isReady = true
		close(f.ready)
		f.owners.pop()
		return
	}
	if fault > 0 && fault < faultsMost {
		f.counters.faults[fault]++
	}
	if one.collects && fault == 0 {
		f.counters.collections++
		f.counters.collecting += time.Since(one.since)
	}
	f.counters.answered++
	one.lines--
	if one.lines > 0 {
		one.client.answered(1, 0)
		return
	}
	one.client.answered(1, one.weight)
	f.owners.pop()
}
