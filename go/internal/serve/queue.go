package serve

// A queue hands out first what was put in first.
type queue[T any] struct {
	items []T
	head  int
}

func (q *queue[T]) len() int { return len(q.items) - q.head }

func (q *queue[T]) push(items ...T) {
	if q.head > 64 && q.head > len(q.items)/2 {
		var none T
		rest := copy(q.items, q.items[q.head:])
		for at := rest; at < len(q.items); at++ {
			q.items[at] = none
		}
		q.items, q.head = q.items[:rest], 0
	}
	q.items = append(q.items, items...)
}

// first is what is handed out next; there must be one.
func (q *queue[T]) first() *T { return &q.items[q.head] }

func (q *queue[T]) pop() T {
	var none T
	item := q.items[q.head]
	q.items[q.head] = none
	if q.head++; q.head == len(q.items) {
		q.items, q.head = q.items[:0], 0
	}
	return item
}

// clear takes all of it out, and gives back its room.
func (q *queue[T]) clear() { *q = queue[T]{} }
