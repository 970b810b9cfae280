package store

import (
	"context"
	"fmt"
	"path/filepath"
	"sync/atomic"
	"testing"

	"github.com/containerd/containerd/content"
	"github.com/containerd/containerd/content/local"
	contentsuite "github.com/containerd/containerd/content/testsuite"
	"github.com/containerd/containerd/namespaces"
	"github.com/containerd/containerd/snapshots"
	"github.com/containerd/containerd/snapshots/native"
	"github.com/containerd/containerd/snapshots/overlay"
	"github.com/containerd/containerd/snapshots/overlay/overlayutils"
	snapshotsuite "github.com/containerd/containerd/snapshots/testsuite"
)

// Containerd's own tests of a content store and of a snapshotter.

func contentStoreOf(t *testing.T) contentsuite.StoreInitFn {
	return func(ctx context.Context, root string) (context.Context, content.Store, func() error,
		error) {
		cs, err := local.NewStore(root)
		if err != nil {
			return nil, nil, nil, err
		}
		client := serve(t, t.TempDir())
		s, err := Open(ctx, client, cs, nil)
		if err != nil {
			return nil, nil, nil, err
		}
		var count uint64
		ctx = contentsuite.SetContextWrapper(ctx, func(ctx context.Context) (context.Context,
			func(context.Context) error, error) {
			ns := fmt.Sprintf("suite-%d", atomic.AddUint64(&count, 1))
			return namespaces.WithNamespace(ctx, ns), func(context.Context) error { return nil }, nil
		})
		return ctx, s.ContentStore(), client.Close, nil
	}
}

func TestContent(t *testing.T) {
	contentsuite.ContentSuite(t, "metad", contentStoreOf(t))
	contentsuite.ContentCrossNSSharedSuite(t, "metad", contentStoreOf(t))
}

func snapshotterOf(t *testing.T, name string,
	backend func(root string) (snapshots.Snapshotter, error)) func(context.Context,
	string) (snapshots.Snapshotter, func() error, error) {
	return func(ctx context.Context, root string) (snapshots.Snapshotter, func() error, error) {
		sn, err := backend(filepath.Join(root, name))
		if err != nil {
			return nil, nil, err
		}
		client := serve(t, t.TempDir())
		s, err := Open(ctx, client, nil, map[string]snapshots.Snapshotter{name: sn})
		if err != nil {
			return nil, nil, err
		}
		return s.Snapshotter(name), func() error {
			client.Close()
			return sn.Close()
		}, nil
	}
}

func TestSnapshotterNative(t *testing.T) {
	snapshotsuite.SnapshotterSuite(t, "native", snapshotterOf(t, "native", native.NewSnapshotter))
}

func TestSnapshotterOverlay(t *testing.T) {
	if err := overlayutils.Supported(t.TempDir()); err != nil {
		t.Skipf("overlayfs: %v", err)
	}
	snapshotsuite.SnapshotterSuite(t, "overlayfs",
		snapshotterOf(t, "overlayfs", func(root string) (snapshots.Snapshotter, error) {
			return overlay.NewSnapshotter(root)
		}))
}
