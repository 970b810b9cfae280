package serve

import (
	"fmt"
	"io"
	"os"
	"runtime"
	"sync"
	"syscall"
	"time"
)

const (
	// ClientsMost is how many clients are served at once.
	ClientsMost = 1024
	// batchMost is the bytes of lines past which they are written to the service.
	batchMost = 1 << 16
	// again is how long no connections are taken where the system refused one.
	again = time.Second
	// look is the time between looks at what clients take, once the front ends; one that takes
	// nothing for looksMost of them is cut off.
	look      = time.Second
	looksMost = 5
	// last is the time in which clients get what the service wrote before it ended.
	last = 5 * time.Second
	// heldMost is how long a start is tried again where the folder is in use: a front that was
	// killed may have left a service which hasn't ended yet.
	heldMost  = 5 * time.Second
	heldAgain = 100 * time.Millisecond
	// idleLooks is how many looks there are in the time after which a quiet client is cut off.
	idleLooks = 4
)

// Statuses of the front, beside those of the service.
const (
	Done      = 0   // it was asked to end, and all that was sent is answered
	Failed    = 1   // the front itself failed
	Words     = 2   // the words can't be followed
	Served    = 4   // another process serves the socket, or has the folder
	signalled = 128 // and the signal's number: what ended the service
)

// tooMany is what a client over the limit gets, before its connection is closed. None of its lines
// is read.
const tooMany = `{"fault":100,"name":"TooManyClients"}` + "\n"

// Front has the clients, the order of their lines, and the service that answers them.
type Front struct {
	options   Options
	listeners []*listener
	service   *service

	mu       sync.Mutex
	clients  map[*client]bool
	taken    int
	turns    queue[*client] // who has lines that may be handed on, in turn
	awake    *sync.Cond     // there are turns, or no more will come
	owners   queue[owner]   // of the lines that are handed on, in their order
	replies  replyCutter
	asked    bool // a signal asked the front to end
	over     bool // the service has ended
	failed   bool
	isReady  bool
	counters counters

	ready chan struct{} // closed once the service has answered its first line
	ended chan struct{} // closed once the service's output has ended
}

// An owner has lines whose replies come next, as they were handed on.
type owner struct {
	client   *client // nil: the front's own line, by which it sees that the service answers
	lines    int
	weight   int64
	collects bool
	since    time.Time // when it was handed on, of a line that collects
}

// newFront returns a front that nothing has come to yet.
func newFront(options Options, listeners []*listener) *Front {
	f := &Front{options: options, listeners: listeners, clients: map[*client]bool{}}
	f.awake = sync.NewCond(&f.mu)
	return f
}

// serve serves until the service has ended, and returns the front's status.
func (f *Front) serve(signals <-chan os.Signal) int {
	go f.heed(signals)
	for _, l := range f.listeners {
		go f.accept(l)
	}
	if f.options.Idle > 0 {
		go f.lookForIdle(f.options.Idle)
	}
	status, started := f.start()
	if started {
		go f.handOn()
		f.tellReady()
		<-f.ended
		status = f.cutOff()
	} else {
		f.cutOff()
	}
	f.mu.Lock()
	defer f.mu.Unlock()
	if f.failed {
		return Failed
	}
	if f.service != nil && (status != Done || !f.asked) {
		tell("%s has ended with status %d", f.options.Command[0], status)
	}
	return status
}

// start starts the service, and waits until it has answered a line of the front's own, which
// changes nothing. It returns its status where it ends before.
func (f *Front) start() (status int, started bool) {
	for until := time.Now().Add(heldMost); ; time.Sleep(heldAgain) {
		service, err := startService(f.options.Command)
		if err != nil {
			tell("%s can't be started: %v", f.options.Command[0], err)
			return Words, false
		}
		f.mu.Lock()
		f.service = service
		f.ready, f.ended = make(chan struct{}), make(chan struct{})
		f.owners.clear()
		f.owners.push(owner{lines: 1})
		f.replies = replyCutter{numbered: f.options.Numbered, next: 1}
		f.mu.Unlock()
		go f.takeReplies(service, f.ended)
		_, _ = service.lines.Write([]byte("?\n"))
		select {
		case <-f.ready:
			return 0, true
		case <-f.ended:
		}
		if f.wasReady() {
			return 0, true
		}
		service.end()
		status = service.wait()
		if status != Served || time.Now().After(until) || f.isAsked() {
			return status, false
		}
	}
}

// tellReady tells that clients are served.
func (f *Front) tellReady() {
	for _, l := range f.listeners {
		tell("%s is served", l.name)
	}
	notify("READY=1")
}

// guard has the front end where one of its goroutines fails.
func (f *Front) guard() {
	if fault := recover(); fault != nil {
		f.fails(fmt.Errorf("%v", fault))
	}
}

// fails ends all of it, as no reply may go to another client: the service ends, and each client is
// cut off without another byte.
func (f *Front) fails(fault error) {
	tell("%v", fault)
	f.mu.Lock()
	defer f.mu.Unlock()
	f.failed, f.over = true, true
	if f.service != nil {
		f.service.end() // a command of many processes ends when its input does
		f.service.terminate()
	}
	for c := range f.clients {
		c.close()
	}
	f.awake.Signal()
}

// cutOff is called once the service has ended: each client gets what that wrote, and goes. It
// returns the service's status.
func (f *Front) cutOff() int {
	f.mu.Lock()
	f.over = true
	for c := range f.clients {
		c.runs.clear()
		c.owed, c.ended = 0, true
		c.stopReading()
		c.goesOn()
	}
	f.awake.Signal()
	f.mu.Unlock()
	f.closeListeners()
	status := Words
	if f.service != nil {
		f.service.end()
		status = f.service.wait()
	}
	for until := time.Now().Add(last); f.count() > 0 && time.Now().Before(until); {
		time.Sleep(last / 100)
	}
	f.mu.Lock()
	defer f.mu.Unlock()
	for c := range f.clients {
		c.close()
	}
	return status
}

func (f *Front) count() int {
	f.mu.Lock()
	defer f.mu.Unlock()
	return len(f.clients)
}

func (f *Front) isAsked() bool {
	f.mu.Lock()
	defer f.mu.Unlock()
	return f.asked
}

func (f *Front) wasReady() bool {
	f.mu.Lock()
	defer f.mu.Unlock()
	return f.isReady
}

func (f *Front) closeListeners() {
	for _, l := range f.listeners {
		l.close()
	}
}

// ---- connections

// accept takes connections until the listener is closed.
func (f *Front) accept(l *listener) {
	defer f.guard()
	for {
		err := l.accept(f.comes)
		if err == nil {
			continue
		}
		if l.isClosed() {
			return
		}
		time.Sleep(again)
	}
}

// comes makes a client of a connection; one over the limit is told so.
func (f *Front) comes(descriptor int) {
	file := os.NewFile(uintptr(descriptor), "client")
	raw, err := file.SyscallConn()
	if err != nil {
		_ = file.Close()
		return
	}
	f.mu.Lock()
	defer f.mu.Unlock()
	if f.over {
		_ = file.Close()
		return
	}
	if f.taken >= f.options.Clients {
		f.counters.refused++
		_, _ = syscall.Write(descriptor, []byte(tooMany))
		_ = file.Close()
		return
	}
	c := newClient(f, file, raw)
	f.taken++
	f.clients[c] = true
	if f.asked {
		c.stopReading()
	}
	go c.serve()
}

// leaves is called of a client whose connection is closed.
func (f *Front) leaves(c *client) {
	delete(f.clients, c)
	f.taken--
	f.endsIfDone()
}

// lookForIdle cuts off who has sent and taken nothing for this time, and waits for no reply.
func (f *Front) lookForIdle(idle time.Duration) {
	defer f.guard()
	for {
		time.Sleep(idle / idleLooks)
		f.mu.Lock()
		if f.asked || f.over {
			f.mu.Unlock()
			return
		}
		for c := range f.clients {
			if c.owed > 0 {
				c.moved++
			}
			if c.isQuiet(idleLooks) {
				c.close()
			}
		}
		f.mu.Unlock()
	}
}

// ---- lines and replies

// wantsTurn puts a client in the turn that has lines which may be handed on.
func (f *Front) wantsTurn(c *client) {
	if !c.queued && c.mayHandOn() {
		c.queued = true
		f.turns.push(c)
		f.awake.Signal()
	}
}

// handOn writes lines to the service, as fast as it takes them.
func (f *Front) handOn() {
	defer f.guard()
	var batch []byte
	for {
		f.mu.Lock()
		for f.turns.len() == 0 && !f.isDone() {
			f.awake.Wait()
		}
		if f.turns.len() == 0 || f.over {
			f.mu.Unlock()
			f.service.end()
			return
		}
		f.mu.Unlock()
		runtime.Gosched() // what has come at this moment is read before
		f.mu.Lock()
		batch = f.takeTurns(batch[:0])
		f.mu.Unlock()
		if _, err := f.service.lines.Write(batch); err != nil {
			return // it takes no lines any more; its output tells when it ends
		}
	}
}

// isDone tells whether no more lines will be handed on.
func (f *Front) isDone() bool { return f.over || f.asked && f.taken == 0 }

// takeTurns appends lines of the clients, in turn.
func (f *Front) takeTurns(batch []byte) []byte {
	for f.turns.len() > 0 && len(batch) < batchMost {
		c := f.turns.pop()
		c.queued = false
		if !c.mayHandOn() {
			continue
		}
		var turn run
		batch, turn = c.handOn(batch)
		one := owner{c, turn.lines, turn.weight, turn.collects, time.Time{}}
		if turn.collects {
			one.since = time.Now()
		}
		f.owners.push(one)
		f.counters.lines += uint64(turn.lines)
		c.goesOn()
	}
	return batch
}

// takeReplies hands each client what the service answers, until that writes no more.
func (f *Front) takeReplies(service *service, ended chan<- struct{}) {
	defer close(ended)
	defer f.guard()
	block := make([]byte, 1<<17)
	var joined []byte
	for {
		count, err := service.replies.Read(block)
		if count > 0 {
			touched, fault := f.route(block[:count])
			if fault != nil {
				f.fails(fault)
				_, _ = io.Copy(io.Discard, service.replies)
				return
			}
			for _, c := range touched {
				replies := block[c.spans[0].from:c.spans[0].to]
				if len(c.spans) > 1 {
					joined = joined[:0]
					for _, at := range c.spans {
						joined = append(joined, block[at.from:at.to]...)
					}
					replies = joined
				}
				c.spans = c.spans[:0]
				c.deliver(replies)
			}
		}
		if err != nil {
			return
		}
	}
}

// ---- the end

// heed ends the front at a signal, and the service at a second one.
func (f *Front) heed(signals <-chan os.Signal) {
	defer f.guard()
	for range signals {
		f.stop()
	}
}

// stop has what was sent answered, and the front end then. A second call ends it now.
func (f *Front) stop() {
	f.mu.Lock()
	again := f.asked
	f.asked = true
	if again && f.service != nil {
		f.service.terminate()
	}
	f.mu.Unlock()
	if again {
		return
	}
	notify("STOPPING=1")
	for _, l := range f.listeners {
		l.acceptWaiting(f.comes)
		l.close()
	}
	f.mu.Lock()
	for c := range f.clients {
		c.stopReading()
	}
	f.endsIfDone()
	f.mu.Unlock()
	go f.lookForStuck()
}

// lookForStuck cuts off who takes no replies, so that the end comes.
func (f *Front) lookForStuck() {
	defer f.guard()
	for {
		time.Sleep(look)
		f.mu.Lock()
		for c := range f.clients {
			if c.unread.size == 0 {
				c.moved++
			}
			if c.isQuiet(looksMost) {
				c.close()
			}
		}
		f.mu.Unlock()
	}
}

// endsIfDone has the service's input end once no client is left.
func (f *Front) endsIfDone() {
	if f.isDone() {
		f.awake.Signal()
	}
}
