"""Drives a daemon by the real ctr, and looks at its files: the same checks of containerd-metad and
of containerd."""
import re

from daemons import Checks, Daemon, Registry

HELLO = 'sha256:2cf24dba5fb0a30e26e83b2ac5b9e29e1b161e5c1fa7425e73043362938b9824'


class Try:
    def __init__(self, daemon: Daemon, registry: Registry, snapshotter: str) -> None:
        self.d, self.sn, self.check = daemon, snapshotter, Checks()
        self.v1, self.v2 = registry.ref('v1'), registry.ref('v2')

    def ctr(self, *words: str, ok: bool = True, **more: object) -> str:
        status, text = self.d.ctr(*words, **more)  # type: ignore
        self.check((status == 0) == ok, 'ctr %s: %d %s' % (' '.join(words), status, text[-300:]))
        return text

    def snap(self, *words: str, **more: object) -> str:
        return self.ctr('snapshots', '--snapshotter', self.sn, *words, **more)  # type: ignore

    def pull(self, ref: str, **more: object) -> None:
        self.ctr('images', 'pull', '--plain-http', '--snapshotter', self.sn, ref,
                **more)  # type: ignore

    def run(self) -> Checks:
        self.namespaces()
        self.content()
        self.images()
        self.leases()
        self.labels()
        self.snapshots()
        self.containers()
        self.two_namespaces()
        return self.check

    def has(self, rows: int, snapshots: int, text: str, ns: str = 'default') -> None:
        """So many rows of content and of snapshots, and files for these and no other."""
        keys, files = self.d.keys(self.sn, ns), len(self.d.snapshots(self.sn))
        blobs, there = self.d.rows(ns), self.d.blobs()
        self.check(len(blobs) == rows and blobs == there and len(keys) == snapshots == files,
                   '%s: %d rows, %d blobs, %d keys, %d snapshots'
                   % (text, len(blobs), len(there), len(keys), files))

    def namespaces(self) -> None:
        self.ctr('ns', 'create', 'one', 'a=b', 'c=d')
        self.ctr('ns', 'label', 'one', 'a=', 'e=f')
        self.check('c=d,e=f' in self.ctr('ns', 'ls'), 'labels of a namespace')
        self.check('already exists' in self.ctr('ns', 'create', 'one', ok=False),
                'a namespace twice')
        self.check('must match' in self.ctr('ns', 'create', 'a b', ok=False), 'a bad namespace')
        self.ctr('leases', 'create', '--id', 'l', 'x=y', ns='one')
        self.check('x=y' in self.ctr('leases', 'ls', ns='one'), 'a lease with a label')
        self.check('already exists' in self.ctr('leases', 'create', '--id', 'l', ns='one',
                ok=False), 'a lease twice')
        self.ctr('ns', 'rm', 'one')
        self.check('one' not in self.ctr('ns', 'ls'), 'a namespace goes with its lease')

    def content(self) -> None:
        self.ctr('content', 'fetch', '--plain-http', self.v1)
        self.has(6, 0, 'a fetch')
        manifest = self.manifest()
        self.check('"schemaVersion":2' in self.ctr('content', 'get', manifest), 'a blob is read')
        self.ctr('content', 'label', manifest, 'team=shop')
        self.check(self.ctr('content', 'ls', '-q', 'labels.team==shop').split() == [manifest],
                'a filter finds one')
        self.ctr('content', 'ingest', 'part', stdin=b'hello')
        self.check(HELLO in self.d.rows() or HELLO not in self.d.blobs(),
                'content without a lease may go at once')
        self.d.ctr('content', 'ingest', 'part', stdin=b'hello')
        self.d.ctr('content', 'rm', HELLO)
        self.d.collect()
        self.has(6, 0, 'content is removed')

    def manifest(self) -> str:
        found = re.search(r'sha256:\w+', self.ctr('images', 'ls', 'name==' + self.v1))
        return found.group() if found else ''

    def images(self) -> None:
        self.ctr('images', 'tag', self.v1, 'tagged')
        self.ctr('images', 'label', 'tagged', 'k=v')
        self.check('tagged' in self.ctr('images', 'ls', '-q', 'labels.k==v'), 'a label of an image')
        self.ctr('images', 'rm', 'tagged')
        self.check('tagged' not in self.ctr('images', 'ls', '-q'), 'an image goes')
        self.pull(self.v1)
        self.has(6, 4, 'a pull')
        self.check(self.snap('usage').count('sha256:') == 4, 'usage')
        before = self.d.blobs(), self.d.snapshots(self.sn)
        self.pull(self.v1)
        self.check((self.d.blobs(), self.d.snapshots(self.sn)) == before,
                'a second pull changes no file')
        self.pull(self.v2)
        self.has(9, 5, 'an image that shares three layers')
        self.ctr('images', 'rm', '--sync', self.v1)
        self.has(6, 4, 'the shared layers stay')
        self.ctr('images', 'rm', '--sync', self.v2)
        self.has(0, 0, 'the last image takes all with it')

    def leases(self) -> None:
        self.pull(self.v1)
        self.ctr('leases', 'create', '--id', 'holder')
        top = self.snap('tree').split()[-1]
        self.ctr('images', 'tag', self.v1, 'again')
        self.ctr('images', 'rm', '--sync', self.v1)
        self.has(6, 4, 'another tag holds all')
        self.snap('view', 'look', top, env={'CONTAINERD_LEASE': 'holder'})
        self.ctr('images', 'rm', '--sync', 'again')
        self.ctr('leases', 'rm', '--sync', 'holder')
        self.d.collect()
        self.check(self.d.blobs() == self.d.rows(), 'files are rows')
        self.check(len(self.d.snapshots(self.sn)) == len(self.d.keys(self.sn)),
                'snapshots are rows')
        for key in reversed(self.d.keys(self.sn)):
            self.d.ctr('snapshots', '--snapshotter', self.sn, 'rm', key)
        self.d.collect()
        self.has(0, 0, 'all goes')

    def labels(self) -> None:
        self.pull(self.v1)
        manifest = self.manifest()
        config = [line.split()[0] for line in self.ctr('content',
                'ls').splitlines() if 'gc.ref.snapshot.' + self.sn in line]
        self.check(len(config) == 1, 'the config refers to the top snapshot')
        self.ctr('content', 'label', manifest, 'containerd.io/gc.root=yes')
        self.ctr('images', 'rm', '--sync', self.v1)
        self.has(6, 4, 'gc.root of the manifest holds all')
        self.ctr('content', 'label', config[0], 'containerd.io/gc.ref.snapshot.%s=' % self.sn)
        self.d.collect()
        self.has(6, 0, 'without its label the snapshots go')
        self.ctr('content', 'label', manifest, 'containerd.io/gc.ref.content.l.3=')
        self.d.collect()
        self.has(5, 0, 'without one label of the manifest that layer goes')
        self.ctr('content', 'label', manifest, 'containerd.io/gc.root=')
        self.d.collect()
        self.has(0, 0, 'without gc.root all goes')

    def snapshots(self) -> None:
        self.snap('prepare', 'work')
        self.d.collect()
        self.has(0, 1, 'a snapshot with gc.root stays')
        self.check('already exists' in self.snap('prepare', 'work', ok=False), 'a snapshot twice')
        self.snap('commit', 'done', 'work')
        self.snap('view', 'look', 'done')
        self.check('failed precondition' in self.snap('rm', 'done', ok=False),
                "a parent isn't removed")
        self.snap('label', 'look', 'a=b')
        self.check('"a": "b"' in self.snap('info', 'look'), 'a label of a snapshot')
        self.snap('rm', 'look')
        self.snap('rm', 'done')
        self.d.collect()
        self.has(0, 0, 'removed by name, gone with a collection')

    def containers(self) -> None:
        self.pull(self.v1)
        self.ctr('containers', 'create', '--snapshotter', self.sn, '--label', 'a=b', self.v1, 'web')
        info = self.ctr('containers', 'info', 'web')
        self.check('"a": "b"' in info and '"SnapshotKey": "web"' in info and '"ociVersion"' in info,
                'a container')
        self.ctr('containers', 'label', 'web', 'c=d')
        self.check('"c": "d"' in self.ctr('containers', 'info', 'web'), 'a label of a container')
        self.ctr('images', 'rm', '--sync', self.v1)
        self.has(0, 5, 'a container holds its snapshots, no content')
        self.ctr('containers', 'rm', 'web')
        self.d.collect()
        self.has(0, 0, 'without the container its snapshots go')

    def two_namespaces(self) -> None:
        self.pull(self.v1, ns='a')
        self.pull(self.v1, ns='b')
        self.check(len(self.d.blobs()) == 6 and len(self.d.snapshots(self.sn)) == 8,
                'blobs once, snapshots twice')
        self.ctr('images', 'rm', '--sync', self.v1, ns='a')
        self.check(self.d.rows('a') == set() and len(self.d.rows('b')) == 6,
                'rows of one namespace go')
        self.check(len(self.d.blobs()) == 6 and len(self.d.snapshots(self.sn)) == 4,
                'the other keeps its files')
        self.ctr('images', 'rm', '--sync', self.v1, ns='b')
        self.check(not self.d.blobs() and not self.d.snapshots(self.sn), 'with the last both go')
        self.d.collect()
        self.check(self.d.ingests() == [], 'no ingest is left')
