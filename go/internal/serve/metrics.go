package serve

import (
	"fmt"
	"net"
	"net/http"
	"os"
	"path/filepath"
	"strings"
	"time"
)

// counters are what the front counts.
type counters struct {
	lines       uint64 // handed on
	answered    uint64
	refused     uint64 // clients over the limit
	faults      [faultsMost]uint64
	collections uint64
	collecting  time.Duration
}

// journals are the files in which a store stands.
var journals = []string{"metad.journal", "metad.journal-wal"}

// listenForMetrics listens on an address of this machine alone.
func listenForMetrics(address string) (net.Listener, error) {
	host, _, err := net.SplitHostPort(address)
	if err != nil {
		return nil, refused("--metrics %s: %v", address, err)
	}
	if ip := net.ParseIP(host); host != "localhost" && (ip == nil || !ip.IsLoopback()) {
		return nil, refused("--metrics %s: only loopback is served, as nothing is encrypted", address)
	}
	l, err := net.Listen("tcp", address)
	if err != nil {
		return nil, refused("--metrics %s: %v", address, reasonOf(err))
	}
	return l, nil
}

// serveMetrics answers each GET of /metrics.
func (f *Front) serveMetrics(l net.Listener) {
	defer f.guard()
	pages := http.NewServeMux()
	pages.HandleFunc("/metrics", func(to http.ResponseWriter, _ *http.Request) {
		to.Header().Set("Content-Type", "text/plain; version=0.0.4; charset=utf-8")
		_, _ = to.Write([]byte(f.metrics()))
	})
	server := http.Server{Handler: pages, ReadTimeout: last, WriteTimeout: last, IdleTimeout: last}
	_ = server.Serve(l)
}

// metrics is the page, in Prometheus' text.
func (f *Front) metrics() string {
	f.mu.Lock()
	now := f.counters
	clients, unread := len(f.clients), int64(0)
	for c := range f.clients {
		unread += c.unread.size
	}
	ready := 0
	if f.isReady && !f.over {
		ready = 1
	}
	f.mu.Unlock()
	var page strings.Builder
	add := func(name, kind, help string, values ...any) {
		fmt.Fprintf(&page, "# HELP %s %s\n# TYPE %s %s\n", name, help, name, kind)
		for at := 0; at+1 < len(values); at += 2 {
			fmt.Fprintf(&page, "%s%s %v\n", name, values[at], values[at+1])
		}
	}
	add("metad_ready", "gauge", "1 while the service answers.", "", ready)
	add("metad_clients", "gauge", "Clients that are connected.", "", clients)
	add("metad_clients_refused_total", "counter", "Clients over the limit.", "", now.refused)
	add("metad_lines_total", "counter", "Lines handed on to the service.", "", now.lines)
	add("metad_replies_total", "counter", "Replies of the service.", "", now.answered)
	add("metad_replies_waiting", "gauge", "Lines handed on that aren't answered.",
		"", now.lines-now.answered)
	add("metad_unread_bytes", "gauge", "Bytes of replies that clients haven't taken.", "", unread)
	var faults []any
	for fault := 1; fault < faultsMost; fault++ {
		if now.faults[fault] > 0 {
			faults = append(faults, fmt.Sprintf("{fault=%q}", fmt.Sprint(fault)), now.faults[fault])
		}
	}
	add("metad_faults_total", "counter", "Replies that refuse their line.", faults...)
	add("metad_collections_total", "counter", "Collections that were done.", "", now.collections)
	add("metad_collection_seconds_total", "counter",
		"Seconds from a collection's line to the end of its reply, waiting included.",
		"", now.collecting.Seconds())
	var sizes []any
	for _, name := range journals {
		if f.options.Folder == "" {
			break
		}
		if info, err := os.Stat(filepath.Join(f.options.Folder, name)); err == nil {
			sizes = append(sizes, fmt.Sprintf("{file=%q}", name), info.Size())
		}
	}
	add("metad_journal_bytes", "gauge", "Bytes of the store's files.", sizes...)
	return page.String()
}
