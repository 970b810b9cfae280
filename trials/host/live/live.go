// live leads a random life in a running containerd (1.6 to 2.2), through its own gRPC services.
//
//	live SOCKET SEED STEPS [plain|expire|image|back]
//	live SOCKET collect
//	live SOCKET remove NAMESPACE IMAGE
//
// The first asks for no collection, nor does the third, which removes an image's row. With expire it also makes what only containerd 2 reads: images
// that expire and leases that hold images; with image also labels gc.ref.image; with back also
// labels gc.bref. The second asks for one collection and waits for it.
package main

import (
	"bytes"
	"context"
	"fmt"
	"math/rand"
	"os"
	"strconv"
	"time"

	"github.com/containerd/containerd"
	"github.com/containerd/containerd/containers"
	"github.com/containerd/containerd/content"
	"github.com/containerd/containerd/errdefs"
	"github.com/containerd/containerd/images"
	"github.com/containerd/containerd/leases"
	"github.com/containerd/containerd/namespaces"
	"github.com/containerd/containerd/snapshots"
	"github.com/gogo/protobuf/types"
	digest "github.com/opencontainers/go-digest"
	ocispec "github.com/opencontainers/image-spec/specs-go/v1"
)

const gc = "containerd.io/gc."

// check ends the life at a fault that a random step can't explain.
func check(err error) {
	if err != nil && !errdefs.IsAlreadyExists(err) && !errdefs.IsNotFound(err) && !errdefs.IsFailedPrecondition(err) {
		fmt.Fprintln(os.Stderr, err)
		os.Exit(1)
	}
}

// space is what a namespace has so far.
type space struct {
	digests                    []digest.Digest
	images, leases, containers []string
	committed                  map[string][]string
	active                     []string
}

// life is the random life of one daemon.
type life struct {
	client *containerd.Client
	rng    *rand.Rand
	seed   int64
	count  int
	// expire, image and back tell which labels are made
	expire, image, back bool
	spaces              map[string]*space
}

func (l *life) roll(n int) bool { return l.rng.Intn(n) == 0 }

func (l *life) name(kind string) string {
	l.count++
	return fmt.Sprintf("%s-%d-%d", kind, l.seed, l.count)
}

func (l *life) one(names []string) string { return names[l.rng.Intn(len(names))] }

// end is an expiry, perhaps one that can't be read.
func (l *life) end() string {
	now := time.Now()
	return l.one([]string{
		now.Add(time.Duration(l.rng.Intn(200)-100) * time.Hour).UTC().Format(time.RFC3339), "soon",
		now.Add(-time.Hour).Format(time.RFC3339), now.Add(5 * time.Hour).Format(time.RFC3339Nano),
	})
}

// labels are those of a row that may reference.
func (l *life) labels(s *space) map[string]string {
	m := map[string]string{}
	for k := l.rng.Intn(3); k > 0; k-- {
		if len(s.digests) > 0 && l.roll(2) {
			m[gc+fmt.Sprintf("ref.content.l.%d", k)] = s.digests[l.rng.Intn(len(s.digests))].String()
		}
		for _, name := range []string{"native", "overlayfs"} {
			if len(s.committed[name]) > 0 && l.roll(3) {
				m[gc+"ref.snapshot."+name+l.one([]string{"", "/x"})] = l.one(s.committed[name])
			}
		}
	}
	if l.image && l.roll(8) && len(s.images) > 0 {
		m[gc+"ref.image"] = l.one(s.images)
	}
	if l.back {
		l.backReferences(s, m)
	}
	if l.roll(10) {
		m[gc+"root"] = "yes"
	}
	return m
}

func (l *life) backReferences(s *space, m map[string]string) {
	if l.roll(3) && len(s.images) > 0 {
		m[gc+"bref.image"] = l.one(s.images)
	}
	if l.roll(4) && len(s.digests) > 0 {
		m[gc+"bref.content."+strconv.Itoa(l.count)] = s.digests[l.rng.Intn(len(s.digests))].String()
	}
	if l.roll(4) && len(s.containers) > 0 {
		m[gc+"bref.container"] = l.one(s.containers)
	}
	if l.roll(4) && len(s.committed["native"]) > 0 {
		m[gc+"bref.snapshot.native"] = l.one(s.committed["native"])
	}
}

// step does one thing in one of two namespaces, perhaps under a lease.
func (l *life) step() {
	ns := l.one([]string{"one", "two"})
	ctx := namespaces.WithNamespace(context.Background(), ns)
	s := l.spaces[ns]
	if s == nil {
		s = &space{committed: map[string][]string{}}
		l.spaces[ns] = s
		check(l.client.NamespaceService().Create(ctx, ns, nil))
	}
	if len(s.leases) > 0 && l.roll(4) {
		ctx = leases.WithLease(ctx, l.one(s.leases))
	}
	switch l.rng.Intn(13) {
	case 0, 1, 2:
		l.blob(ctx, s)
	case 3, 4, 5:
		l.snapshot(ctx, s)
	case 6, 7:
		l.addImage(ctx, s)
	case 8:
		l.lease(ctx, s)
	case 9:
		l.hold(ctx, s)
	case 10:
		l.container(ctx, s)
	case 11:
		w, err := l.client.ContentStore().Writer(ctx, content.WithRef(l.name("up")), content.WithDescriptor(ocispec.Descriptor{Size: 100}))
		check(err)
		if err == nil {
			_, err = w.Write([]byte("abc"))
			check(err)
		}
	case 12:
		if len(s.images) > 0 && l.roll(2) {
			check(l.client.ImageService().Delete(ctx, l.one(s.images)))
		} else if len(s.containers) > 0 {
			check(l.client.ContainerService().Delete(ctx, l.one(s.containers)))
		}
	}
}

func (l *life) blob(ctx context.Context, s *space) {
	data := []byte(l.name("data"))
	if l.roll(4) {
		data = []byte(fmt.Sprint("shared", l.rng.Intn(4)))
	}
	d := digest.FromBytes(data)
	about := ocispec.Descriptor{Digest: d, Size: int64(len(data))}
	check(content.WriteBlob(ctx, l.client.ContentStore(), l.name("w"), bytes.NewReader(data), about, content.WithLabels(l.labels(s))))
	s.digests = append(s.digests, d)
}

func (l *life) snapshot(ctx context.Context, s *space) {
	name := l.one([]string{"native", "overlayfs"})
	service := l.client.SnapshotService(name)
	parent := ""
	if len(s.committed[name]) > 0 && !l.roll(3) {
		parent = l.one(s.committed[name])
	}
	key := l.name("act")
	if l.roll(6) {
		_, err := service.View(ctx, key, parent, snapshots.WithLabels(l.labels(s)))
		check(err)
		return
	}
	_, err := service.Prepare(ctx, key, parent, snapshots.WithLabels(l.labels(s)))
	check(err)
	if err != nil || l.roll(3) {
		s.active = append(s.active, key)
		return
	}
	committed := l.name("com")
	check(service.Commit(ctx, committed, key, snapshots.WithLabels(l.labels(s))))
	s.committed[name] = append(s.committed[name], committed)
}

func (l *life) addImage(ctx context.Context, s *space) {
	if len(s.digests) == 0 {
		return
	}
	labels := l.labels(s)
	if l.roll(2) {
		labels[gc+"expire"] = l.end()
	}
	name := l.name("img")
	target := ocispec.Descriptor{MediaType: "x/y", Digest: s.digests[l.rng.Intn(len(s.digests))], Size: 5}
	_, err := l.client.ImageService().Create(ctx, images.Image{Name: name, Labels: labels, Target: target})
	check(err)
	s.images = append(s.images, name)
}

func (l *life) lease(ctx context.Context, s *space) {
	labels := map[string]string{}
	if !l.roll(4) {
		labels[gc+"expire"] = l.end()
	}
	if l.roll(4) {
		labels[gc+"flat"] = "x"
	}
	name := l.name("lease")
	_, err := l.client.LeasesService().Create(ctx, leases.WithID(name), leases.WithLabels(labels))
	check(err)
	s.leases = append(s.leases, name)
}

func (l *life) hold(ctx context.Context, s *space) {
	if len(s.leases) == 0 {
		return
	}
	lease := leases.Lease{ID: l.one(s.leases)}
	switch {
	case l.expire && l.roll(3) && len(s.images) > 0:
		check(l.client.LeasesService().AddResource(ctx, lease, leases.Resource{Type: "images", ID: l.one(s.images)}))
	case l.roll(2) && len(s.digests) > 0:
		held := s.digests[l.rng.Intn(len(s.digests))].String()
		check(l.client.LeasesService().AddResource(ctx, lease, leases.Resource{Type: "content", ID: held}))
	case len(s.committed["native"]) > 0:
		check(l.client.LeasesService().AddResource(ctx, lease, leases.Resource{Type: "snapshots/native", ID: l.one(s.committed["native"])}))
	}
}

func (l *life) container(ctx context.Context, s *space) {
	if len(s.active) == 0 {
		return
	}
	name := l.name("run")
	_, err := l.client.ContainerService().Create(ctx, containers.Container{
		ID: name, Labels: l.labels(s), Snapshotter: "native", SnapshotKey: l.one(s.active),
		Runtime: containers.RuntimeInfo{Name: "r"}, Spec: &types.Any{TypeUrl: "a", Value: []byte("{}")},
	})
	check(err)
	s.containers = append(s.containers, name)
}

func main() {
	if len(os.Args) < 3 {
		fmt.Fprintln(os.Stderr, "usage: live SOCKET SEED STEPS [plain|expire|image|back], or live SOCKET collect, or live SOCKET remove NAMESPACE IMAGE")
		os.Exit(2)
	}
	client, err := containerd.New(os.Args[1])
	check(err)
	if os.Args[2] == "collect" {
		ctx := namespaces.WithNamespace(context.Background(), "one")
		check(client.NamespaceService().Create(ctx, "one", nil))
		lease, err := client.LeasesService().Create(ctx, leases.WithRandomID())
		check(err)
		check(client.LeasesService().Delete(ctx, lease, leases.SynchronousDelete))
		return
	}
	if os.Args[2] == "remove" {
		ctx := namespaces.WithNamespace(context.Background(), os.Args[3])
		check(client.ImageService().Delete(ctx, os.Args[4]))
		return
	}
	seed, err := strconv.ParseInt(os.Args[2], 10, 64)
	check(err)
	steps, err := strconv.Atoi(os.Args[3])
	check(err)
	how := "plain"
	if len(os.Args) > 4 {
		how = os.Args[4]
	}
	l := &life{
		client: client, rng: rand.New(rand.NewSource(seed)), seed: seed, spaces: map[string]*space{},
		expire: how != "plain", image: how == "image" || how == "back", back: how == "back",
	}
	for ; steps > 0; steps-- {
		l.step()
	}
}
