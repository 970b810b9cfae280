package serve

import "sync"

// chunkSize is how many bytes of what waits for a client are kept together.
const chunkSize = 1 << 14

type chunk [chunkSize]byte

var chunks = sync.Pool{New: func() any { return new(chunk) }}

// unread is what waits until a client takes it.
type unread struct {
	size int64
	kept queue[*chunk]
	from int // where in the first chunk it begins
	end  int // where in the last chunk it ends
}

// add copies this behind the rest.
func (u *unread) add(text []byte) {
	u.size += int64(len(text))
	for len(text) > 0 {
		if u.kept.len() == 0 || u.end == chunkSize {
			u.kept.push(chunks.Get().(*chunk))
			u.end = 0
		}
		last := u.kept.items[len(u.kept.items)-1]
		count := copy(last[u.end:], text)
		u.end += count
		text = text[count:]
	}
}

// first is the first part of it; there must be one.
func (u *unread) first() []byte {
	end := chunkSize
	if u.kept.len() == 1 {
		end = u.end
	}
	return (*u.kept.first())[u.from:end]
}

// drop takes off the first bytes, which are in the first part.
func (u *unread) drop(count int) {
	u.size -= int64(count)
	u.from += count
	if u.from == chunkSize || u.size == 0 {
		chunks.Put(u.kept.pop())
		u.from = 0
	}
}

// clear drops all of it.
func (u *unread) clear() {
	u.size, u.from, u.end = 0, 0, 0
	u.kept.clear()
}
