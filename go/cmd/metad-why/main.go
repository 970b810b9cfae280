// Metad-why asks a running containerd-metad why an object is still there, and what would go without
// it: metad-why [--address SOCKET] [--namespace NAME] IMAGE|DIGEST|SNAPSHOT. It only asks
// questions, and no client waits for them longer than for a listing.
package main

import (
	"context"
	"flag"
	"fmt"
	"io"
	"os"
	"strings"
	"time"

	"github.com/containerd/containerd/errdefs"

	"metad/metad"
)

func main() {
	var (
		address = flag.String("address", "/var/lib/containerd-metad/metad.sock",
			"socket of containerd-metad's questions")
		namespace = flag.String("namespace", "", "namespace, else all")
	)
	flag.Usage = func() {
		fmt.Fprintln(os.Stderr,
			"usage: metad-why [--address SOCKET] [--namespace NAME] IMAGE|DIGEST|SNAPSHOT")
		flag.PrintDefaults()
	}
	flag.Parse()
	if flag.NArg() != 1 {
		flag.Usage()
		os.Exit(2)
	}
	client, err := metad.Dial(*address)
	if err != nil {
		fail(err)
	}
	a := asker{client: client, at: time.Now().UTC().Format(time.RFC3339Nano), out: os.Stdout}
	found, err := a.explainAll(context.Background(), *namespace, flag.Arg(0))
	if err != nil {
		fail(err)
	}
	if !found {
		fmt.Fprintf(os.Stderr,
			"metad-why: %s: no image, content, snapshot, container, lease or ingest has this name\n",
			flag.Arg(0))
		os.Exit(1)
	}
}

func fail(err error) {
	fmt.Fprintln(os.Stderr, "metad-why:", err)
	os.Exit(1)
}

// asker asks about objects at one moment.
type asker struct {
	client *metad.Client
	at     string
	out    io.Writer
}

// explainAll writes about each object of this name, and returns whether there is one.
func (a asker) explainAll(ctx context.Context, namespace, name string) (bool, error) {
	names := []string{namespace}
	if namespace == "" {
		r, err := a.client.Call(ctx, metad.Line{"op": "ns.list"})
		if err != nil {
			return false, err
		}
		names = r.Names
	}
	found := false
	for _, ns := range names {
		types, err := a.types(ctx, ns, name)
		if err != nil {
			return found, err
		}
		for _, typ := range types {
			err := a.explain(ctx, ns, typ, name)
			if errdefs.IsNotFound(err) {
				continue
			}
			if err != nil {
				return found, err
			}
			found = true
		}
	}
	return found, nil
}

// types returns the types of objects of a namespace that may have this name.
func (a asker) types(ctx context.Context, ns, name string) ([]string, error) {
	types := []string{"images", "containers", "leases", "ingests"}
	r, err := a.client.Call(ctx, metad.Line{"op": "snap.snapshotters", "ns": ns})
	if err != nil && !errdefs.IsNotFound(err) {
		return nil, err
	}
	for _, snapshotter := range r.Names {
		types = append(types, "snapshots/"+snapshotter)
	}
	if strings.HasPrefix(name, "sha256:") || strings.HasPrefix(name, "sha512:") {
		types = append(types, "content")
	}
	return types, nil
}

// explain writes what keeps one object, and what would go without it.
func (a asker) explain(ctx context.Context, ns, typ, name string) error {
	question := func(op string) metad.Line {
		return metad.Line{"op": op, "ns": ns, "type": typ, "resource": name, "at": a.at}
	}
	why, err := a.client.Call(ctx, question("gc.explain"))
	if err != nil {
		return err
	}
	kept := "nothing keeps it: the next collection removes it"
	switch {
	case why.Kept && len(why.Path) == 1:
		kept = "it is a root"
	case why.Kept:
		kept = "kept by"
	case len(why.Path) > 0:
		kept = "nothing keeps it any more; it was kept by"
	}
	fmt.Fprintf(a.out, "%s %s of namespace %s: %s\n", kindOf(typ), name, ns, kept)
	if len(why.Path) > 1 || !why.Kept {
		for depth, step := range why.Path {
			fmt.Fprintf(a.out, "%s%s %s  [%s]\n", strings.Repeat("  ", depth+1), kindOf(step.Type),
				step.Name, reason(step))
		}
	}
	without, err := a.client.Call(ctx, question("gc.impact"))
	switch {
	case errdefs.IsFailedPrecondition(err):
		fmt.Fprintln(a.out, "  it can't be removed: it has children")
	case err != nil:
		return err
	default:
		goes := without.Impact.Backend
		fmt.Fprintf(a.out, "  without it a collection would remove %s, %s and %s\n",
			count(len(goes.Blobs), "blob"),
			count(len(goes.Snapshots), "snapshot"), count(len(goes.Ingests), "ingest"))
		for _, dgst := range goes.Blobs {
			fmt.Fprintf(a.out, "    blob %s\n", dgst)
		}
		for _, sn := range goes.Snapshots {
			fmt.Fprintf(a.out, "    snapshot %d of %s\n", sn.Number, sn.Snapshotter)
		}
	}
	return nil
}

// kindOf returns one object's kind, of a type as it stands in questions.
func kindOf(typ string) string {
	if snapshotter := strings.TrimPrefix(typ, "snapshots/"); snapshotter != typ {
		return snapshotter + " snapshot"
	}
	return strings.TrimSuffix(typ, "s")
}

func reason(step metad.Step) string {
	text := step.By
	if step.Label != "" {
		text += " " + step.Label
	}
	if step.Expire != "" {
		text += ", until " + step.Expire
	}
	return text
}

func count(n int, noun string) string {
	if n != 1 {
		noun += "s"
	}
	return fmt.Sprintf("%d %s", n, noun)
}
