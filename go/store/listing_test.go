package store

import (
	"bufio"
	"context"
	"fmt"
	"net"
	"path/filepath"
	"strings"
	"testing"
	"time"

	"github.com/containerd/containerd/namespaces"

	"metad/metad"
)

// BenchmarkImagesListed lists 2,000 images of a socket that has the reply ready: what it takes is the
// client's and the store's alone.
func BenchmarkImagesListed(b *testing.B) {
	var rows []string
	for i := 0; i < 2000; i++ {
		rows = append(rows, fmt.Sprintf(`{"data":"{\"created\":\"2026-11-29T01:00:00.123456789Z\",`+
			`\"mediaType\":\"application/vnd.docker.distribution.manifest.v2+json\",\"size\":1}",`+
			`"labels":{"n":"%d"},"name":"image-%06d","target":"sha256:%064d"}`, i, i, i))
	}
	reply := `{"ok":true,"rows":[` + strings.Join(rows, ",") + "]}\n"
	path := filepath.Join(b.TempDir(), "socket")
	l, err := net.Listen("unix", path)
	if err != nil {
		b.Fatal(err)
	}
	defer l.Close()
	go func() {
		conn, err := l.Accept()
		if err != nil {
			return
		}
		defer conn.Close()
		for lines := bufio.NewScanner(conn); lines.Scan(); {
			fmt.Fprint(conn, reply)
		}
	}()
	client, err := metad.Dial(path)
	if err != nil {
		b.Fatal(err)
	}
	defer client.Close()
	images := NewImageStore(&Store{client: client, moment: time.Now})
	ctx := namespaces.WithNamespace(context.Background(), "one")
	b.ReportAllocs()
	b.ResetTimer()
	for i := 0; i < b.N; i++ {
		all, err := images.List(ctx)
		if err != nil || len(all) != 2000 {
			b.Fatal(err, len(all))
		}
	}
}
