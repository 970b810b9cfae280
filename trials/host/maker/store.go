// Command containerd_store makes roots of containerd as its daemon keeps them (meta.db,
// content store, native snapshotters), by containerd's own code, and collects in them.
//
//	containerd_store make -seed N -ops K -dir ROOT -o FACTS    a random root; ROOT/before.db is its meta.db, then one collection; FACTS tells what went
//	    -remove: an image, a container or a lease is removed between the two
//	containerd_store odd -dir ROOT -o FACTS                    the same with one store in which each thing stands that a script can't say
//	containerd_store later -seed N -ops K -dir ROOT -o FACTS   a random root, its meta.db made one of version 4; FACTS tells what goes by rules.go
//	    -remove: as above; -plain: nothing that a script can't say
//	containerd_store hold FILE SECONDS                         holds FILE as a daemon does and writes to it all the time
//
// It is built with -tags faketime, so that time.Now() in containerd is the moment that is set.
package main

import (
	"context"
	_ "crypto/sha256"
	_ "crypto/sha512"
	"encoding/json"
	"flag"
	"fmt"
	"io"
	"math/rand"
	"os"
	"path/filepath"
	"syscall"
	"time"

	"github.com/containerd/containerd/containers"
	"github.com/containerd/containerd/content"
	"github.com/containerd/containerd/content/local"
	"github.com/containerd/containerd/images"
	"github.com/containerd/containerd/leases"
	"github.com/containerd/containerd/metadata"
	"github.com/containerd/containerd/snapshots"
	"github.com/containerd/containerd/snapshots/native"
	"github.com/sirupsen/logrus"
	bolt "go.etcd.io/bbolt"
)

// root is a daemon's folder, with containerd's own stores over it
type root struct {
	dir  string
	bolt *bolt.DB
	db   *metadata.DB
	blob content.Store
	snap map[string]snapshots.Snapshotter
	is   images.Store
	cts  containers.Store
	lm   leases.Manager
	cs   content.Store
	less *rand.Rand // something is removed before the collection
}

var snapshotters = []string{"overlayfs", "native"}

// check ends the program with an error; it writes to a copy of the handle, since the frozen clock stamps what goes through the runtime's own
func check(err error) {
	if err != nil {
		fd, _ := syscall.Dup(2)
		syscall.Write(fd, []byte("containerd_store: "+err.Error()+"\n"))
		os.Exit(1)
	}
}

func metaPath(dir string) string {
	return filepath.Join(dir, "io.containerd.metadata.v1.bolt", "meta.db")
}

// open opens the backends and the metadata of a folder, which may be empty
func open(dir string) *root {
	logrus.SetOutput(io.Discard)
	r := &root{dir: dir, snap: map[string]snapshots.Snapshotter{}}
	check(os.MkdirAll(filepath.Dir(metaPath(dir)), 0755))
	var err error
	r.bolt, err = bolt.Open(metaPath(dir), 0644, &bolt.Options{NoSync: true, FreelistType: bolt.FreelistMapType})
	check(err)
	r.bolt.NoSync = true
	r.blob, err = local.NewStore(filepath.Join(dir, "io.containerd.content.v1.content"))
	check(err)
	for _, n := range snapshotters {
		r.snap[n], err = native.NewSnapshotter(filepath.Join(dir, "io.containerd.snapshotter.v1."+n))
		check(err)
	}
	r.start()
	return r
}

// start is what a daemon does at its start: it forgets which backends have something to remove
func (r *root) start() {
	r.db = metadata.NewDB(r.bolt, r.blob, r.snap)
	check(r.db.Init(context.Background()))
	r.is, r.cts, r.lm, r.cs = metadata.NewImageStore(r.db), metadata.NewContainerStore(r.db), metadata.NewLeaseManager(r.db), r.db.ContentStore()
}

func main() {
	if len(os.Args) < 2 {
		check(fmt.Errorf("make, odd, later or hold"))
	}
	f := flag.NewFlagSet("containerd_store", flag.ExitOnError)
	seed := f.Int64("seed", 1, "")
	ops := f.Int("ops", 60, "")
	dir := f.String("dir", "", "")
	out := f.String("o", "", "")
	remove := f.Bool("remove", false, "")
	plain := f.Bool("plain", false, "")
	switch os.Args[1] {
	case "make", "odd", "later":
		check(f.Parse(os.Args[2:]))
		r := open(*dir)
		var at time.Time
		if os.Args[1] == "odd" {
			at = r.odd()
		} else {
			at = r.random(rand.New(rand.NewSource(*seed)), *ops)
		}
		if *remove {
			r.less = rand.New(rand.NewSource(*seed))
		}
		var facts map[string]interface{}
		if os.Args[1] == "later" {
			facts = r.laterFacts(r.toVersion4(rand.New(rand.NewSource(*seed)), at, *plain))
		} else {
			facts = r.collect(at)
		}
		b, err := json.Marshal(facts)
		check(err)
		check(os.WriteFile(*out, append(b, '\n'), 0644))
	case "hold":
		hold(os.Args[2], os.Args[3])
	}
}
