package serve

import (
	"os"
	"sync"
	"syscall"
)

const (
	// unreadMost is the bytes of replies that may wait for a client, or that it may be owed,
	// before its next line is handed on; one line whose reply may be long goes alone beside them.
	unreadMost = 1 << 20
	// pendingMost is the bytes of lines that aren't handed on past which a client isn't read.
	pendingMost = 1 << 16
	// owedMost is how many lines of a client may be handed on that aren't answered.
	owedMost = 512
	// textKept is how much room for lines a client keeps that has none.
	textKept = 1 << 12
)

// A client is a connection: its lines until they are handed on, and its replies until it takes
// them. What isn't its reading goroutine's own is under the front's lock.
type client struct {
	front *Front
	file  *os.File
	raw   syscall.RawConn

	cutter cutter // of the goroutine that reads
	got    readResult
	try    func(uintptr) bool // tryRead, made once

	sends writeResult // of the goroutine that takes replies
	put   func(uintptr) bool

	text    []byte     // whole lines that aren't handed on
	from    int        // where the first of them begins
	runs    queue[run] // of these lines
	handed  int        // bytes of lines that are handed on
	moments queue[int] // behind how many bytes of all its lines there is room for a moment
	owed    int        // lines that are handed on and not answered
	weight  int64      // the bytes that their replies may have
	isAlone bool       // the one that is handed on may have a long reply
	queued  bool       // it waits for its turn
	ended   bool       // it sends no more
	gone    bool       // its connection is closed
	room    *sync.Cond // its reading goroutine waits for this
	waits   bool       // whether it does

	spans   []span // what the part of the replies that is being routed has for it
	unread  unread
	writing bool   // a goroutine writes what is unread
	moved   uint64 // counts each read and write
	seen    uint64 // moved, as it was looked at last
	looks   int    // how often in turn it was the same
}

// A span is a part of a block.
type span struct{ from, to int }

// readResult is what came of a read.
type readResult struct {
	buffers *buffers
	count   int
	err     error
}

// writeResult is what is to be written at once, and what came of it.
type writeResult struct {
	replies []byte
	count   int
	err     error
}

// buffers are what a read and its lines are put into: only while a client has something to read.
type buffers struct {
	block [1 << 16]byte
	lines cutLines
}

var bufferPool = sync.Pool{New: func() any { return new(buffers) }}

func newClient(front *Front, file *os.File, raw syscall.RawConn) *client {
	c := &client{front: front, file: file, raw: raw}
	c.cutter.moments = front.options.Clock != nil
	c.room = sync.NewCond(&front.mu)
	c.try, c.put = c.tryRead, c.tryPut
	return c
}

// serve reads lines until no more come.
func (c *client) serve() {
	defer c.front.guard()
	for c.waitForRoom() {
		if err := c.raw.Read(c.try); err != nil || c.got.count <= 0 {
			c.ends(c.got.err == nil)
			return
		}
		bufs := c.got.buffers
		bufs.lines.clear()
		c.cutter.cut(bufs.block[:c.got.count], &bufs.lines)
		c.takes(bufs.lines)
		bufferPool.Put(bufs)
	}
}

// tryRead reads what is there; false if there is nothing yet. So a client that is quiet holds no
// buffer.
func (c *client) tryRead(descriptor uintptr) bool {
	bufs := bufferPool.Get().(*buffers)
	for {
		count, err := syscall.Read(int(descriptor), bufs.block[:])
		if err == syscall.EINTR {
			continue
		}
		if err == syscall.EAGAIN {
			bufferPool.Put(bufs)
			return false
		}
		if count <= 0 {
			bufferPool.Put(bufs)
			bufs = nil
		}
		c.got = readResult{bufs, count, err}
		return true
	}
}

// waitForRoom waits until the client may be read; false if it is closed.
func (c *client) waitForRoom() bool {
	c.front.mu.Lock()
	defer c.front.mu.Unlock()
	for !c.gone && (len(c.text)-c.from > pendingMost || c.unread.size > unreadMost) {
		c.waits = true
		c.room.Wait()
	}
	return !c.gone
}

// takes adds lines to those that aren't handed on.
func (c *client) takes(lines cutLines) {
	front := c.front
	front.mu.Lock()
	defer front.mu.Unlock()
	c.moved++
	if c.gone || front.over {
		return
	}
	before := c.handed + len(c.text) - c.from
	for _, at := range lines.moments {
		c.moments.push(before + at)
	}
	c.text = append(c.text, lines.text...)
	c.runs.push(lines.runs...)
	front.wantsTurn(c)
}

// ends is called once no more lines come. Replies to those that came are sent, if they can be.
func (c *client) ends(well bool) {
	c.front.mu.Lock()
	defer c.front.mu.Unlock()
	c.ended = true
	if !well {
		c.close()
	}
	c.goesOn()
}

// mayHandOn tells whether its next run may go to the service.
func (c *client) mayHandOn() bool {
	if c.gone || c.runs.len() == 0 || c.isAlone || c.unread.size > unreadMost {
		return false
	}
	next := c.runs.first()
	if next.alone() {
		return c.owed == 0
	}
	return c.mayBeOwed(*next)
}

// mayBeOwed tells whether the replies of a run keep the client's bounds.
func (c *client) mayBeOwed(more run) bool {
	return c.owed+more.lines <= owedMost && c.weight+more.weight+c.unread.size <= unreadMost
}

// handOn appends the lines of its turn to those for the service.
func (c *client) handOn(batch []byte) ([]byte, run) {
	turn := c.runs.pop()
	for c.runs.len() > 0 && turn.takes(*c.runs.first()) {
		longer := turn
		if longer.add(*c.runs.first()); !c.mayBeOwed(longer) {
			break
		}
		turn = longer
		c.runs.pop()
	}
	batch = append(batch, c.text[c.from:c.from+turn.size]...)
	c.putMoments(batch[len(batch)-turn.size:])
	if c.from += turn.size; c.from == len(c.text) {
		if c.text, c.from = c.text[:0], 0; cap(c.text) > textKept {
			c.text = nil
		}
	}
	c.handed += turn.size
	c.owed += turn.lines
	c.weight += turn.weight
	c.isAlone = turn.alone()
	return batch, turn
}

// putMoments writes the moment of now where lines that are handed on have room for it: they may
// have waited, and with --clock the service refuses moments that are long ago.
func (c *client) putMoments(lines []byte) {
	if c.moments.len() == 0 {
		return
	}
	now := c.front.options.Clock()
	for c.moments.len() > 0 && *c.moments.first() < c.handed+len(lines) {
		putMoment(lines[c.moments.pop()-c.handed:], now)
	}
}

// answered takes lines off what it is owed, and the weight of a run once that is answered.
func (c *client) answered(lines int, weight int64) {
	c.owed -= lines
	c.weight -= weight
	if c.owed == 0 {
		c.isAlone = false
	}
}

// goesOn looks what is next, after a reply or a change of what may be read.
func (c *client) goesOn() {
	if c.gone {
		return
	}
	c.front.wantsTurn(c)
	if c.waits && len(c.text)-c.from <= pendingMost && c.unread.size <= unreadMost {
		c.waits = false
		c.room.Signal()
	}
	if c.ended && c.runs.len() == 0 && c.owed == 0 && c.unread.size == 0 && !c.writing {
		c.close()
	}
}

// deliver sends it replies. What it doesn't take at once waits, and another goroutine writes it.
func (c *client) deliver(replies []byte) {
	front := c.front
	front.mu.Lock()
	defer front.mu.Unlock()
	if !c.gone && !c.writing {
		front.mu.Unlock()
		count, err := c.tryWrite(replies)
		front.mu.Lock()
		c.moved++
		if replies = replies[count:]; err != nil {
			c.close()
		}
	}
	if !c.gone && len(replies) > 0 {
		c.unread.add(replies)
		if !c.writing {
			c.writing = true
			go c.drain()
		}
	}
	c.goesOn()
}

// tryWrite writes as much as the client's socket takes now.
func (c *client) tryWrite(replies []byte) (count int, err error) {
	c.sends = writeResult{replies: replies}
	if err := c.raw.Write(c.put); err != nil {
		return 0, err
	}
	if c.sends.err == syscall.EAGAIN {
		return c.sends.count, nil
	}
	return c.sends.count, c.sends.err
}

func (c *client) tryPut(descriptor uintptr) bool {
	c.sends.count, c.sends.err = writeSome(int(descriptor), c.sends.replies)
	c.sends.replies = nil
	return true
}

// writeSome writes what a socket takes at once.
func writeSome(descriptor int, text []byte) (int, error) {
	for {
		count, err := syscall.Write(descriptor, text)
		if err == syscall.EINTR {
			continue
		}
		if count < 0 {
			count = 0
		}
		return count, err
	}
}

// drain writes what is unread, as fast as the client reads.
func (c *client) drain() {
	front := c.front
	defer front.guard()
	front.mu.Lock()
	defer front.mu.Unlock()
	for !c.gone && c.unread.size > 0 {
		part := c.unread.first()
		front.mu.Unlock()
		var count int
		var err error
		lost := c.raw.Write(func(descriptor uintptr) bool {
			count, err = writeSome(int(descriptor), part)
			return err != syscall.EAGAIN
		})
		front.mu.Lock()
		if err != nil || lost != nil {
			c.close()
		}
		if c.gone {
			break
		}
		c.moved++
		c.unread.drop(count)
		c.goesOn()
	}
	c.writing = false
	c.goesOn()
}

// stopReading has its reading end once what it has sent so far is read: what it sends later fails.
func (c *client) stopReading() {
	_ = c.raw.Control(func(descriptor uintptr) {
		_ = syscall.Shutdown(int(descriptor), syscall.SHUT_RD)
	})
}

// close ends the connection. Lines that are handed on are answered all the same, for nobody.
func (c *client) close() {
	if c.gone {
		return
	}
	c.gone = true
	c.runs.clear()
	c.moments.clear()
	c.text, c.from = nil, 0
	c.unread.clear()
	_ = c.file.Close()
	c.room.Signal()
	c.front.leaves(c)
}

// isQuiet tells whether for so many looks in turn it has neither sent nor taken anything.
func (c *client) isQuiet(looks int) bool {
	if c.moved != c.seen {
		c.seen, c.looks = c.moved, 0
		return false
	}
	c.looks++
	return c.looks >= looks
}
