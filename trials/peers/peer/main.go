// Command peer answers metad's lines by containerd's own metadata store, over a native snapshotter
// and a store of content in a folder of its own. The moment of a collection is the clock's. A
// request runs under the lease that its line names as `lease`, or as `drop`.
//
// What containerd has no call for is answered with {"error":"NoSuchCall"}; an error without a class
// of metad's with its name, as {"error":"NotImplemented"}. The imports are those of containerd 1.6;
// the script `record` has those of later versions.
package main

import (
	"bufio"
	"context"
	"crypto/sha256"
	_ "crypto/sha512" // as the daemon links it: digests by sha384 and sha512
	"encoding/json"
	"errors"
	"fmt"
	"os"
	"path/filepath"
	"sort"
	"strings"

	"github.com/containerd/containerd/containers"
	"github.com/containerd/containerd/content"
	"github.com/containerd/containerd/content/local"
	"github.com/containerd/containerd/errdefs"
	"github.com/containerd/containerd/images"
	"github.com/containerd/containerd/leases"
	"github.com/containerd/containerd/metadata"
	"github.com/containerd/containerd/namespaces"
	"github.com/containerd/containerd/snapshots"
	"github.com/containerd/containerd/snapshots/native"
	"github.com/gogo/protobuf/types"
	"github.com/opencontainers/go-digest"
	ocispec "github.com/opencontainers/image-spec/specs-go/v1"
	bolt "go.etcd.io/bbolt"
)

// snapshotter is the only one of a peer.
const snapshotter = "native"

// errNoCall is the error of what containerd has no call for.
var errNoCall = errors.New("no such call")

// request is a line; a member that isn't there is empty.
type request struct {
	Op, NS, Name, Target, Digest, Ref, Expected, Snapshotter, Key, Value, Parent, ID, Type string
	Resource, Lease, Drop                                                                  string
	Labels                                                                                 map[string]string
}

// peer is a metadata store, with what containerd makes of it.
type peer struct {
	db     *metadata.DB
	leases leases.Manager
	folder string
	// bytes of content by their digests
	texts map[string][]byte
	// what ingests expect, by namespace and ref
	expected map[string]string
}

func open(folder string) (*peer, error) {
	blobs, err := local.NewStore(filepath.Join(folder, "content"))
	if err != nil {
		return nil, err
	}
	files, err := native.NewSnapshotter(filepath.Join(folder, "snapshots"))
	if err != nil {
		return nil, err
	}
	bdb, err := bolt.Open(filepath.Join(folder, "meta.db"), 0o600, nil)
	if err != nil {
		return nil, err
	}
	db := metadata.NewDB(bdb, blobs, map[string]snapshots.Snapshotter{snapshotter: files})
	if err := db.Init(context.Background()); err != nil {
		return nil, err
	}
	p := &peer{
		db: db, leases: metadata.NewLeaseManager(db), folder: folder,
		texts: map[string][]byte{}, expected: map[string]string{},
	}
	for number := 0; number < 100; number++ {
		text := []byte(fmt.Sprintf("content %d", number))
		p.texts[fmt.Sprintf("sha256:%x", sha256.Sum256(text))] = text
	}
	return p, nil
}

// write puts the bytes of a digest into a writer, and commits it.
func (p *peer) write(ctx context.Context, w content.Writer, dgst string, labels map[string]string) error {
	defer w.Close()
	text, ok := p.texts[dgst]
	if !ok {
		text = []byte(dgst)
	}
	if err := w.Truncate(0); err != nil {
		return err
	}
	if _, err := w.Write(text); err != nil {
		return err
	}
	return w.Commit(ctx, 0, digest.Digest(dgst), content.WithLabels(labels))
}

// answer carries out a request, and returns the members of its reply beside ok.
func (p *peer) answer(r request) (map[string]interface{}, error) {
	ctx := context.Background()
	if r.NS != "" {
		ctx = namespaces.WithNamespace(ctx, r.NS)
	}
	if r.Lease == "" {
		r.Lease = r.Drop
	}
	if r.Lease != "" {
		ctx = leases.WithLease(ctx, r.Lease)
	}
	kind, op, _ := strings.Cut(r.Op, ".")
	switch kind {
	case "ns":
		return p.namespace(ctx, op, r)
	case "image":
		return p.image(ctx, op, r)
	case "container":
		return p.container(ctx, op, r)
	case "content":
		return p.content(ctx, op, r)
	case "ingest":
		return p.ingest(ctx, op, r)
	case "snap":
		return p.snapshot(ctx, op, r)
	case "lease":
		return p.lease(ctx, op, r)
	case "gc":
		if op == "run" {
			return p.collect()
		}
	case "back":
		return p.backend()
	}
	return nil, errNoCall
}

// backend tells which blobs the backends have, and how many ingests and snapshots, by their files.
func (p *peer) backend() (map[string]interface{}, error) {
	var found [3][]string
	for at, files := range []string{
		"content/blobs/*/*", "content/ingest/*/data", "snapshots/snapshots/*",
	} {
		var err error
		if found[at], err = filepath.Glob(filepath.Join(p.folder, files)); err != nil {
			return nil, err
		}
	}
	blobs, ingests, rows := []string{}, []int{}, [][]interface{}{}
	for _, path := range found[0] {
		blobs = append(blobs, filepath.Base(filepath.Dir(path))+":"+filepath.Base(path))
	}
	for number := range found[1] {
		ingests = append(ingests, number+1)
	}
	for number := range found[2] {
		rows = append(rows, []interface{}{snapshotter, number + 1})
	}
	backend := map[string]interface{}{"blobs": blobs, "ingests": ingests, "snapshots": rows}
	return map[string]interface{}{"backend": backend}, nil
}

// row is the reply to a request for one row; no labels are an empty object.
func row(labels map[string]string, members map[string]interface{}) map[string]interface{} {
	if labels == nil {
		labels = map[string]string{}
	}
	members["labels"] = labels
	return map[string]interface{}{"row": members}
}

func names(found []string) map[string]interface{} {
	sort.Strings(found)
	if found == nil {
		found = []string{}
	}
	return map[string]interface{}{"names": found}
}

func (p *peer) namespace(ctx context.Context, op string, r request) (map[string]interface{}, error) {
	switch op {
	case "add":
		return nil, p.db.Update(func(tx *bolt.Tx) error {
			return metadata.NewNamespaceStore(tx).Create(ctx, r.NS, r.Labels)
		})
	case "remove":
		return nil, p.db.Update(func(tx *bolt.Tx) error {
			return metadata.NewNamespaceStore(tx).Delete(ctx, r.NS)
		})
	case "list":
		found, err := p.spaces()
		return names(found), err
	}
	return nil, errNoCall
}

func (p *peer) spaces() (found []string, err error) {
	err = p.db.View(func(tx *bolt.Tx) error {
		found, err = metadata.NewNamespaceStore(tx).List(context.Background())
		return err
	})
	return found, err
}

func (p *peer) image(ctx context.Context, op string, r request) (map[string]interface{}, error) {
	store := metadata.NewImageStore(p.db)
	target := ocispec.Descriptor{
		MediaType: ocispec.MediaTypeImageManifest, Digest: digest.Digest(r.Target), Size: 9,
	}
	var err error
	switch op {
	case "add":
		_, err = store.Create(ctx, images.Image{Name: r.Name, Target: target, Labels: r.Labels})
	case "get":
		it, err := store.Get(ctx, r.Name)
		return row(it.Labels, map[string]interface{}{"name": it.Name, "target": it.Target.Digest}), err
	case "target":
		_, err = store.Update(ctx, images.Image{Name: r.Name, Target: target}, "target")
	case "label":
		labels := map[string]string{r.Key: r.Value}
		_, err = store.Update(ctx, images.Image{Name: r.Name, Labels: labels}, "labels."+r.Key)
	case "remove":
		err = store.Delete(ctx, r.Name)
	case "list":
		all, err := store.List(ctx)
		var found []string
		for _, it := range all {
			found = append(found, it.Name)
		}
		return names(found), err
	default:
		err = errNoCall
	}
	return nil, err
}

func (p *peer) container(ctx context.Context, op string, r request) (map[string]interface{}, error) {
	store := metadata.NewContainerStore(p.db)
	var err error
	switch op {
	case "add":
		_, err = store.Create(ctx, containers.Container{
			ID: r.Name, Snapshotter: r.Snapshotter, SnapshotKey: r.Key, Labels: r.Labels,
			Runtime: containers.RuntimeInfo{Name: "none"}, Spec: &types.Any{},
		})
	case "get":
		it, err := store.Get(ctx, r.Name)
		var of interface{}
		if it.SnapshotKey != "" {
			of = []string{it.Snapshotter, it.SnapshotKey}
		}
		return row(it.Labels, map[string]interface{}{"name": it.ID, "snapshot": of}), err
	case "set":
		it, err := store.Get(ctx, r.Name)
		if err != nil {
			return nil, err
		}
		it.Snapshotter, it.SnapshotKey = r.Snapshotter, r.Key
		_, err = store.Update(ctx, it)
		return nil, err
	case "remove":
		err = store.Delete(ctx, r.Name)
	case "list":
		all, err := store.List(ctx)
		var found []string
		for _, it := range all {
			found = append(found, it.ID)
		}
		return names(found), err
	default:
		err = errNoCall
	}
	return nil, err
}

func (p *peer) content(ctx context.Context, op string, r request) (map[string]interface{}, error) {
	store := p.db.ContentStore()
	dgst := digest.Digest(r.Digest)
	var err error
	switch op {
	case "add":
		w, err := store.Writer(ctx, content.WithRef("add "+r.Digest),
			content.WithDescriptor(ocispec.Descriptor{Digest: dgst}))
		if err != nil {
			return nil, err
		}
		return nil, p.write(ctx, w, r.Digest, r.Labels)
	case "get":
		it, err := store.Info(ctx, dgst)
		return row(it.Labels, map[string]interface{}{"digest": it.Digest}), err
	case "label":
		info := content.Info{Digest: dgst, Labels: map[string]string{r.Key: r.Value}}
		_, err = store.Update(ctx, info, "labels."+r.Key)
	case "remove":
		err = store.Delete(ctx, dgst)
	case "list":
		var found []string
		err = store.Walk(ctx, func(info content.Info) error {
			found = append(found, info.Digest.String())
			return nil
		})
		return names(found), err
	default:
		err = errNoCall
	}
	return nil, err
}

func (p *peer) ingest(ctx context.Context, op string, r request) (map[string]interface{}, error) {
	store := p.db.ContentStore()
	switch op {
	case "begin", "open":
		w, err := store.Writer(ctx, content.WithRef(r.Ref),
			content.WithDescriptor(ocispec.Descriptor{Digest: digest.Digest(r.Expected)}))
		if err != nil {
			return nil, err
		}
		p.expected[r.NS+"\n"+r.Ref] = r.Expected
		return nil, w.Close()
	case "commit":
		if _, err := store.Status(ctx, r.Ref); err != nil {
			expected := p.expected[r.NS+"\n"+r.Ref]
			if expected == "" {
				return nil, err
			}
			// what another namespace has is no file, so it has no status and wants no bytes
			w, err := store.Writer(ctx, content.WithRef(r.Ref),
				content.WithDescriptor(ocispec.Descriptor{Digest: digest.Digest(expected)}))
			if err != nil {
				return nil, err
			}
			defer w.Close()
			return nil, w.Commit(ctx, 0, digest.Digest(r.Digest), content.WithLabels(r.Labels))
		}
		w, err := store.Writer(ctx, content.WithRef(r.Ref))
		if err != nil {
			return nil, err
		}
		return nil, p.write(ctx, w, r.Digest, r.Labels)
	case "abort":
		return nil, store.Abort(ctx, r.Ref)
	case "list":
		all, err := store.ListStatuses(ctx)
		var found []string
		for _, it := range all {
			found = append(found, it.Ref)
		}
		return names(found), err
	}
	return nil, errNoCall
}

func (p *peer) snapshot(ctx context.Context, op string, r request) (map[string]interface{}, error) {
	store := p.db.Snapshotter(r.Snapshotter)
	if store == nil {
		return nil, errdefs.ErrInvalidArgument
	}
	labels := snapshots.WithLabels(r.Labels)
	var err error
	switch op {
	case "prepare":
		_, err = store.Prepare(ctx, r.Key, r.Parent, labels)
	case "view":
		_, err = store.View(ctx, r.Key, r.Parent, labels)
	case "commit":
		err = store.Commit(ctx, r.Name, r.Key, labels)
	case "get":
		it, err := store.Stat(ctx, r.Key)
		var parent interface{}
		if it.Parent != "" {
			parent = it.Parent
		}
		kind := strings.ToLower(it.Kind.String())
		return row(it.Labels, map[string]interface{}{"key": it.Name, "kind": kind, "parent": parent}), err
	case "label":
		info := snapshots.Info{Name: r.Name, Labels: map[string]string{r.Key: r.Value}}
		_, err = store.Update(ctx, info, "labels."+r.Key)
	case "remove":
		err = store.Remove(ctx, r.Key)
	case "list":
		var found []string
		err = store.Walk(ctx, func(_ context.Context, info snapshots.Info) error {
			found = append(found, info.Name)
			return nil
		})
		return names(found), err
	default:
		err = errNoCall
	}
	return nil, err
}

func (p *peer) lease(ctx context.Context, op string, r request) (map[string]interface{}, error) {
	lease := leases.Lease{ID: r.ID}
	resource := leases.Resource{ID: r.Resource, Type: r.Type}
	var err error
	switch op {
	case "add":
		_, err = p.leases.Create(ctx, leases.WithID(r.ID), leases.WithLabels(r.Labels))
	case "remove":
		err = p.leases.Delete(ctx, lease)
	case "hold":
		err = p.leases.AddResource(ctx, lease, resource)
	case "drop":
		err = p.leases.DeleteResource(ctx, lease, resource)
	case "list":
		all, err := p.leases.List(ctx)
		var found []string
		for _, it := range all {
			found = append(found, it.ID)
		}
		return names(found), err
	case "resources":
		all, err := p.leases.ListResources(ctx, lease)
		found := [][]string{}
		for _, it := range all {
			found = append(found, []string{it.Type, it.ID})
		}
		sort.Slice(found, func(i, j int) bool {
			return strings.Join(found[i], " ") < strings.Join(found[j], " ")
		})
		return map[string]interface{}{"resources": found}, err
	default:
		err = errNoCall
	}
	return nil, err
}

// rows lists all rows that a collection may remove, as a report names them.
func (p *peer) rows() (map[string][][]string, error) {
	found := map[string][][]string{}
	spaces, err := p.spaces()
	if err != nil {
		return nil, err
	}
	for _, ns := range spaces {
		for kind, op := range map[string]string{
			"content": "content.list", "images": "image.list", "ingests": "ingest.list",
			"leases": "lease.list", "snapshots": "snap.list",
		} {
			got, err := p.answer(request{Op: op, NS: ns, Snapshotter: snapshotter})
			if err != nil {
				return nil, err
			}
			for _, name := range got["names"].([]string) {
				row := []string{ns, name}
				if kind == "snapshots" {
					row = []string{ns, snapshotter, name}
				}
				found[kind] = append(found[kind], row)
			}
		}
	}
	return found, nil
}

// collect collects, and tells which rows went.
func (p *peer) collect() (map[string]interface{}, error) {
	before, err := p.rows()
	if err != nil {
		return nil, err
	}
	if _, err := p.db.GarbageCollect(context.Background()); err != nil {
		return nil, err
	}
	after, err := p.rows()
	if err != nil {
		return nil, err
	}
	removed := map[string]interface{}{}
	for _, kind := range []string{"content", "images", "ingests", "leases", "snapshots"} {
		stays := map[string]bool{}
		for _, row := range after[kind] {
			stays[strings.Join(row, "\n")] = true
		}
		went := [][]string{}
		for _, row := range before[kind] {
			if !stays[strings.Join(row, "\n")] {
				went = append(went, row)
			}
		}
		removed[kind] = went
	}
	return map[string]interface{}{"report": map[string]interface{}{"removed": removed}}, nil
}

// reply says what came of a request, in metad's words.
func reply(members map[string]interface{}, err error) map[string]interface{} {
	refused := func(number int, name string) map[string]interface{} {
		return map[string]interface{}{"fault": number, "name": name}
	}
	switch {
	case err == nil:
		if members == nil {
			members = map[string]interface{}{}
		}
		members["ok"] = true
		return members
	case errors.Is(err, errNoCall):
		return map[string]interface{}{"error": "NoSuchCall"}
	case errdefs.IsInvalidArgument(err):
		return refused(1, "InvalidArgument")
	case errdefs.IsNotFound(err):
		return refused(2, "NotFound")
	case errdefs.IsAlreadyExists(err):
		return refused(3, "AlreadyExists")
	case errdefs.IsFailedPrecondition(err):
		return refused(4, "FailedPrecondition")
	case errdefs.IsNotImplemented(err):
		return map[string]interface{}{"error": "NotImplemented"}
	}
	return map[string]interface{}{"error": "Unknown"}
}

func run() error {
	folder, err := os.MkdirTemp("", "peer-")
	if err != nil {
		return err
	}
	defer os.RemoveAll(folder)
	p, err := open(folder)
	if err != nil {
		return err
	}
	lines := bufio.NewScanner(os.Stdin)
	lines.Buffer(nil, 1<<20)
	for lines.Scan() {
		var r request
		if err := json.Unmarshal(lines.Bytes(), &r); err != nil {
			return err
		}
		text, err := json.Marshal(reply(p.answer(r)))
		if err != nil {
			return err
		}
		fmt.Println(string(text))
	}
	return lines.Err()
}

func main() {
	if err := run(); err != nil {
		fmt.Fprintln(os.Stderr, "peer:", err)
		os.Exit(1)
	}
}
