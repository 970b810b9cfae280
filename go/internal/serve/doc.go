// Package serve is a front for metad: lines of many clients on Unix sockets, answered by one
// process. It keeps no row and no reply, and orders the lines of all clients.
//
// Each client has a goroutine that reads its lines and cuts them into runs (client.go, lines.go).
// One goroutine hands runs on, of each client some in turn; one takes the replies, and finds by
// the order of the lines which client each is for (front.go, replies.go). How much a client may
// have waiting is bounded by the longest reply that each of its lines may get (weights.go).
package serve
