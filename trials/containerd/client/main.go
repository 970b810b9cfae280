// Client drives a daemon by containerd's Go client: client SOCKET IMAGE SNAPSHOTTER COUNT. It
// makes, lists, labels and deletes so many images, and prints how long each step takes.
package main

import (
	"context"
	"fmt"
	"os"
	"strconv"
	"time"

	"github.com/containerd/containerd"
	"github.com/containerd/containerd/images"
	"github.com/containerd/containerd/leases"
	"github.com/containerd/containerd/namespaces"
	"github.com/containerd/containerd/oci"
	"github.com/containerd/containerd/remotes/docker"
	"github.com/opencontainers/go-digest"
	ocispec "github.com/opencontainers/image-spec/specs-go/v1"
)

func main() {
	n, err := strconv.Atoi(os.Args[4])
	if err == nil {
		err = run(os.Args[1], os.Args[2], os.Args[3], n)
	}
	if err != nil {
		fmt.Println("FAIL", err)
		os.Exit(1)
	}
}

func run(socket, ref, snapshotter string, n int) error {
	ctx := namespaces.WithNamespace(context.Background(), "client")
	client, err := containerd.New(socket)
	if err != nil {
		return err
	}
	defer client.Close()

	subscribed, unsubscribe := context.WithCancel(ctx)
	defer unsubscribe()
	events, failed := client.Subscribe(subscribed)
	seen, counted := map[string]int{}, make(chan struct{})
	go func() {
		defer close(counted)
		for {
			select {
			case e := <-events:
				seen[e.Topic]++
			case <-failed: // unsubscribed, or the daemon has ended
				return
			}
		}
	}()
	step := time.Now()
	told := func(what string) {
		fmt.Printf("%-40s %6d ms\n", what, time.Since(step).Milliseconds())
		step = time.Now()
	}

	image, err := client.Pull(ctx, ref, containerd.WithPullUnpack,
		containerd.WithPullSnapshotter(snapshotter),
		containerd.WithResolver(docker.NewResolver(docker.ResolverOptions{PlainHTTP: true})))
	if err != nil {
		return err
	}
	told("pull")
	size, err := image.Size(ctx)
	if err != nil {
		return err
	}
	usage, err := image.Usage(ctx, containerd.WithUsageManifestLimit(1),
		containerd.WithSnapshotUsage())
	if err != nil {
		return err
	}
	told(fmt.Sprintf("size %d, usage %d", size, usage))

	c, err := client.NewContainer(ctx, "web", containerd.WithImage(image),
		containerd.WithSnapshotter(snapshotter),
		containerd.WithNewSnapshot("web", image), containerd.WithNewSpec(oci.WithImageConfig(image)))
	if err != nil {
		return err
	}
	if _, err := c.SetLabels(ctx, map[string]string{"team": "shop"}); err != nil {
		return err
	}
	if err := c.Update(ctx,
		containerd.UpdateContainerOpts(containerd.WithContainerLabels(
			map[string]string{"x": "y"}))); err != nil {
		return err
	}
	if err := c.Delete(ctx, containerd.WithSnapshotCleanup); err != nil {
		return err
	}
	told("a container made, changed, deleted")

	lctx, done, err := client.WithLease(ctx)
	if err != nil {
		return err
	}
	if err := done(lctx); err != nil {
		return err
	}
	is := client.ImageService()
	for i := 0; i < n; i++ {
		if _, err := is.Create(ctx, images.Image{Name: fmt.Sprintf("image-%06d", i),
			Labels: map[string]string{"n": fmt.Sprint(i)},
			Target: ocispec.Descriptor{MediaType: images.MediaTypeDockerSchema2Manifest,
				Digest: digest.FromString(fmt.Sprint(i)), Size: 1}}); err != nil {
			return err
		}
	}
	told(fmt.Sprintf("%d images made", n))
	list, err := is.List(ctx)
	if err != nil {
		return err
	}
	told(fmt.Sprintf("%d images listed", len(list)))
	list, err = is.List(ctx, "labels.n==7")
	if err != nil {
		return err
	}
	told(fmt.Sprintf("%d of them by a label", len(list)))
	for i := 0; i < n; i++ {
		if _, err := is.Update(ctx, images.Image{Name: fmt.Sprintf("image-%06d", i),
			Labels: map[string]string{"m": "1"}}, "labels.m"); err != nil {
			return err
		}
	}
	told("a label for each")
	for i := 0; i < n; i++ {
		if err := is.Delete(ctx, fmt.Sprintf("image-%06d", i)); err != nil {
			return err
		}
	}
	told("all deleted")
	lm := client.LeasesService()
	l, err := lm.Create(ctx, leases.WithID("gc"))
	if err != nil {
		return err
	}
	if err := lm.Delete(ctx, l, leases.SynchronousDelete); err != nil {
		return err
	}
	told("a collection")
	if err := is.Delete(ctx, ref, images.SynchronousDelete()); err != nil {
		return err
	}
	told("the pulled image deleted, collected")
	time.Sleep(200 * time.Millisecond) // the last events come
	unsubscribe()
	<-counted
	fmt.Println("events", seen)
	return nil
}
