package serve

import (
	"fmt"
	"net"
	"os"
)

// tell writes a line to standard error, if anyone reads it.
func tell(format string, more ...any) {
	_, _ = fmt.Fprintf(os.Stderr, "metad-serve: "+format+"\n", more...)
}

// notify tells systemd the state of this process, where it asks for that.
func notify(state string) {
	path := os.Getenv("NOTIFY_SOCKET")
	if path == "" {
		return
	}
	to, err := net.DialUnix("unixgram", nil, &net.UnixAddr{Name: path, Net: "unixgram"})
	if err != nil {
		return
	}
	defer func() { _ = to.Close() }()
	_, _ = to.Write([]byte(state))
}
