// Open collects while a write is open: open SOCKET. What a daemon answers is printed, to be
// compared.
package main

import (
	"bytes"
	"context"
	"fmt"
	"os"

	"github.com/containerd/containerd"
	"github.com/containerd/containerd/content"
	"github.com/containerd/containerd/errdefs"
	"github.com/containerd/containerd/leases"
	"github.com/containerd/containerd/namespaces"
	"github.com/opencontainers/go-digest"
	ocispec "github.com/opencontainers/image-spec/specs-go/v1"
)

func kind(err error) string {
	switch {
	case err == nil:
		return "ok"
	case errdefs.IsNotFound(err):
		return "not found"
	case errdefs.IsAlreadyExists(err):
		return "already exists"
	case errdefs.IsFailedPrecondition(err):
		return "failed precondition"
	case errdefs.IsUnavailable(err):
		return "unavailable"
	}
	return "another error"
}

func main() {
	client, err := containerd.New(os.Args[1])
	if err != nil {
		fmt.Println(err)
		os.Exit(1)
	}
	var (
		ctx   = namespaces.WithNamespace(context.Background(), "open")
		other = namespaces.WithNamespace(context.Background(), "open-too")
		cs    = client.ContentStore()
		lm    = client.LeasesService()
	)
	lease := func(ctx context.Context, id string) context.Context {
		lm.Create(ctx, leases.WithID(id))
		return leases.WithLease(ctx, id)
	}
	collect := func() {
		lm.Create(ctx, leases.WithID("gc"))
		lm.Delete(ctx, leases.Lease{ID: "gc"}, leases.SynchronousDelete)
	}
	write := func(name string, ctx context.Context, between func()) {
		text := []byte("hello, " + name)
		dgst := digest.FromBytes(text)
		w, err := cs.Writer(ctx, content.WithRef(name),
			content.WithDescriptor(ocispec.Descriptor{Digest: dgst, Size: int64(len(text))}))
		fmt.Println(name, "open:", kind(err))
		if err != nil {
			return
		}
		_, err = w.Write(text[:5])
		fmt.Println(name, "first write:", kind(err))
		between()
		_, err = w.Write(text[5:])
		fmt.Println(name, "second write:", kind(err))
		err = w.Commit(ctx, int64(len(text)), dgst)
		fmt.Println(name, "commit:", kind(err))
		w.Close()
		_, err = cs.Info(ctx, dgst)
		fmt.Println(name, "info:", kind(err))
		_, err = content.ReadBlob(ctx, cs, ocispec.Descriptor{Digest: dgst, Size: int64(len(text))})
		fmt.Println(name, "read:", kind(err))
	}
	write("no lease, a collection between", ctx, collect)
	write("a lease, a collection between", lease(ctx, "l1"), collect)
	write("a lease that is removed between", lease(ctx, "l2"), func() {
		lm.Delete(ctx, leases.Lease{ID: "l2"}, leases.SynchronousDelete)
	})
	write("aborted between", lease(ctx, "l3"), func() {
		fmt.Println("abort:",
			kind(cs.Abort(ctx, "aborted between")))
	})

	// a blob that another namespace has, and loses while it is expected here
	text := []byte("shared by two")
	desc := ocispec.Descriptor{Digest: digest.FromBytes(text), Size: int64(len(text))}
	octx := lease(other, "l4")
	fmt.Println("there:", kind(content.WriteBlob(octx, cs, "there", bytes.NewReader(text), desc)))
	lctx := lease(ctx, "l5")
	w, err := cs.Writer(lctx, content.WithRef("here"), content.WithDescriptor(desc))
	fmt.Println("here, open:", kind(err))
	st, err := w.Status()
	fmt.Println("here, status:", st.Offset, st.Total, kind(err))
	fmt.Println("there, deleted:", kind(cs.Delete(octx, desc.Digest)))
	collect()
	fmt.Println("here, commit:", kind(w.Commit(lctx, desc.Size, desc.Digest)))
	w.Close()
	_, err = content.ReadBlob(lctx, cs, desc)
	fmt.Println("here, read:", kind(err))
	for _, id := range []string{"l1", "l3", "l5"} {
		lm.Delete(ctx, leases.Lease{ID: id})
	}
	lm.Delete(other, leases.Lease{ID: "l4"})
	collect()
	_, err = cs.Info(ctx, desc.Digest)
	fmt.Println("after all:", kind(err))
}
