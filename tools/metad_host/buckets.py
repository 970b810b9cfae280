"""The rows of meta.db. Which bucket holds what: containerd's metadata/buckets.go.

A row is a bucket in the bucket of its kind; values there are passed over, as the daemon's collector
does. Versions 1 to 4 of the schema are read: containerd 1.6 and 1.7 write 3, containerd 2 writes 4,
with images of leases, and sandboxes beside the containers.
"""
from __future__ import annotations

from typing import Dict, Iterator, List, NamedTuple, Optional, Set, Tuple

from .faults import BadInput
from .numbers import binary_time, varint
from .pages import Bucket
from .remarks import Remarks
from .versions import chosen

NEWEST = 4  # of the versions of the schema
WITH_SANDBOXES = 4  # the version from which sandboxes and images of leases stand in a namespace
WITH_INGESTS = 2  # the version from which ingests stand where they are read here


class Image(NamedTuple):
    """A row of an image."""

    name: bytes
    target: bytes
    labels: Bucket
    made: Optional[int]


class Container(NamedTuple):
    """A row of a container; what it has none of is empty."""

    name: bytes
    snapshotter: bytes
    key: bytes
    labels: Bucket
    image: bytes
    made: Optional[int]


class Sandbox(NamedTuple):
    """A row of a sandbox: a root whose labels lead on."""

    name: bytes
    labels: Bucket


class Content(NamedTuple):
    """A row of content; its size is None where none was recorded."""

    digest: bytes
    size: Optional[int]
    labels: Bucket


class Ingest(NamedTuple):
    """A row of an ingest; its end is None where a lease holds it."""

    name: bytes
    backend: bytes
    expected: bytes
    end: Optional[int]


class Snapshot(NamedTuple):
    """A row of a snapshot."""

    name: bytes
    backend: bytes
    parent: bytes
    labels: Bucket


class Lease(NamedTuple):
    """A row of a lease with the names of what it holds."""

    name: bytes
    content: List[bytes]
    snapshots: List[Tuple[bytes, List[bytes]]]
    ingests: List[bytes]
    images: List[bytes]
    labels: Bucket
    made: Optional[int]


class Place(NamedTuple):
    """Where a row with labels stands in its namespace: a snapshot's `within` is its snapshotter."""

    kind: str
    within: bytes
    name: bytes


# Buckets and values of each kind that are read, and those that no collection depends on.
READ: Dict[str, Set[bytes]] = {
    "namespace": {b"images", b"containers", b"snapshots", b"content", b"leases", b"labels"},
    "content store": {b"blob", b"ingests"},
    "image": {b"target", b"labels", b"createdat", b"updatedat", b"annotations"},
    "container": {b"labels", b"createdat", b"updatedat", b"spec", b"image", b"snapshotter",
                  b"snapshotKey", b"runtime", b"extensions", b"sandboxid"},
    "sandbox": {b"labels", b"createdat", b"updatedat", b"spec", b"runtime", b"extensions",
                b"sandboxer"},
    "content": {b"labels", b"createdat", b"updatedat", b"size"},
    "ingest": {b"ref", b"expireat", b"expected", b"labels", b"createdat", b"updatedat"},
    "snapshot": {b"name", b"createdat", b"updatedat", b"parent", b"children", b"labels"},
    "lease": {b"createdat", b"updatedat", b"labels", b"snapshots", b"content", b"ingests"},
}
# what else stands in version 4
READ_LATER: Dict[str, Set[bytes]] = {"namespace": {b"sandboxes"}, "lease": {b"images"}}
NOT_CARRIED = {b"createdat": "times of rows", b"updatedat": "times of rows",
               b"annotations": "annotations of images",
               b"spec": "specs and runtimes of containers",
               b"runtime": "specs and runtimes of containers",
               b"extensions": "specs and runtimes of containers"}
# the buckets of rows whose labels may reference, by what a row there is called
LABELLED = (("image", b"images"), ("container", b"containers"), ("sandbox", b"sandboxes"))


def show(name: bytes) -> str:
    """Bytes of the file as a text for people."""
    return name.decode("utf-8", "backslashreplace")


def bucket(parent: Bucket, key: bytes, where: str) -> Bucket:
    """The bucket of this key, empty where there is none."""
    found = parent.get(key, {})
    if not isinstance(found, dict):
        raise BadInput("%s: %s is no bucket" % (where, show(key)))
    return found


def value(parent: Bucket, key: bytes, where: str) -> bytes:
    """The value of this key, empty where there is none."""
    found = parent.get(key, b"")
    if isinstance(found, dict):
        raise BadInput("%s: %s is a bucket" % (where, show(key)))
    return found


def buckets_in(parent: Bucket) -> List[Tuple[bytes, Bucket]]:
    """The buckets in a bucket with their names, by bytes; a leaf's keys ascend, and so do these."""
    return [(key, found) for key, found in parent.items() if isinstance(found, dict)]


def made(row: Bucket) -> Optional[int]:
    """When a row was made or last changed, in nanoseconds; None where it has no readable time."""
    found = []
    for key in (b"createdat", b"updatedat"):
        data = row.get(key)
        if isinstance(data, bytes):
            try:
                found.append(binary_time(data, "a time"))
            except BadInput:
                pass
    return max(found) if found else None


def sandboxes_alone(found: object) -> bool:
    """Whether this is a namespace of containerd 1.7's own sandboxes, which stands beside v1."""
    return isinstance(found, dict) and list(found) == [b"sandboxes"]


def version_of(top: object) -> int:
    """The version of the schema, as the bucket v1 has it."""
    if not isinstance(top, dict):
        raise BadInput("no metadata of containerd: it has no bucket v1")
    found = top.get(b"version")
    if not isinstance(found, bytes):
        raise BadInput("no metadata of containerd: it has no version (a snapshotter's metadata.db "
                       "has none, meta.db has one)")
    version = varint(found, "the version")
    if not 1 <= version <= NEWEST:
        raise BadInput("version %d of the metadata, where %d is the newest that is known"
                       % (version, NEWEST))
    return version


class Metadata:
    """The rows of the daemon, by namespace; what it meets and doesn't know goes to the remarks."""

    def __init__(self, root: Bucket, remarks: Remarks, told: Tuple[str, str] = ("", "")) -> None:
        """`told` is the version of containerd that collects, and who told it."""
        self.remarks = remarks
        self.version = version_of(root.get(b"v1"))
        self.choice = chosen(self.version, *told)
        self.rules = self.choice.rules
        self.images_expire = self.rules.images_expire
        if self.version < WITH_INGESTS:
            remarks.add("metadata of an old version, whose ingests aren't read",
                        "version %d" % self.version, plan=True)
        for key, found in root.items():
            if sandboxes_alone(found):
                remarks.add("sandboxes of containerd 1.7, where no collection looks", show(key))
            elif key != b"v1":
                remarks.add("unknown buckets", show(key), plan=True)
        self.namespaces = buckets_in(bucket(root, b"v1", "the file"))
        self.read = dict(READ)
        later = self.version >= WITH_SANDBOXES or self.rules.sandboxes
        for kind in READ_LATER if later else ():
            self.read[kind] = READ[kind] | READ_LATER[kind]

    def known(self, kind: str, row: Bucket, where: str) -> None:
        """Remarks what of a row is unknown, and what of it a script doesn't carry."""
        for key, found in row.items():
            if key not in self.read[kind]:
                is_bucket = isinstance(found, dict)
                self.remarks.add("unknown buckets" if is_bucket else "unknown values",
                                 "%s: %s" % (where, show(key)), plan=is_bucket)
            elif key in NOT_CARRIED:
                self.remarks.add("%s, not carried" % NOT_CARRIED[key], where)

    def each(self, kind: str, rows: Bucket, where: bytes) -> Iterator[Tuple[bytes, Bucket, str]]:
        """The rows of a kind: name, bucket, and what to call it."""
        for name, row in buckets_in(rows):
            called = "%s %s" % (kind, printed(where, name))
            self.known(kind, row, called)
            yield name, row, called

    def objects(self, namespace: bytes, space: Bucket, kind: bytes) -> Bucket:
        """The bucket of all objects of a kind in a namespace."""
        return bucket(space, kind, "namespace %s" % show(namespace))

    def namespace(self, namespace: bytes, space: Bucket) -> None:
        """Remarks on the namespace's own bucket."""
        self.known("namespace", space, "namespace %s" % show(namespace))
        if bucket(space, b"labels", "namespace %s" % show(namespace)):
            self.remarks.add("labels of namespaces, not carried", show(namespace))

    def images(self, namespace: bytes, space: Bucket) -> Iterator[Image]:
        """The images of a namespace."""
        found = self.objects(namespace, space, b"images")
        for name, row, called in self.each("image", found, namespace):
            target = value(bucket(row, b"target", called), b"digest", called)
            yield Image(name, target, bucket(row, b"labels", called), made(row))

    def containers(self, namespace: bytes, space: Bucket) -> Iterator[Container]:
        """The containers of a namespace."""
        found = self.objects(namespace, space, b"containers")
        for name, row, called in self.each("container", found, namespace):
            yield Container(name, value(row, b"snapshotter", called),
                            value(row, b"snapshotKey", called), bucket(row, b"labels", called),
                            value(row, b"image", called), made(row))

    def sandboxes(self, namespace: bytes, space: Bucket) -> Iterator[Sandbox]:
        """The sandboxes of a namespace; a daemon that doesn't read them has none."""
        if self.rules.sandboxes:
            found = self.objects(namespace, space, b"sandboxes")
            for name, row, called in self.each("sandbox", found, namespace):
                yield Sandbox(name, bucket(row, b"labels", called))

    def content(self, namespace: bytes, space: Bucket) -> Iterator[Content]:
        """The content of a namespace."""
        store = self.objects(namespace, space, b"content")
        self.known("content store", store, "content of %s" % show(namespace))
        found = bucket(store, b"blob", "content")
        for name, row, called in self.each("content", found, namespace):
            size = None
            if b"size" in row:
                size = varint(value(row, b"size", called), "the size of %s" % called)
            yield Content(name, size, bucket(row, b"labels", called))

    def ingests(self, namespace: bytes, space: Bucket) -> Iterator[Ingest]:
        """The ingests of a namespace."""
        store = self.objects(namespace, space, b"content")
        found = bucket(store, b"ingests", "content")
        for name, row, called in self.each("ingest", found, namespace):
            end = None
            if b"expireat" in row:
                end = binary_time(value(row, b"expireat", called), "the end of %s" % called)
            yield Ingest(name, value(row, b"ref", called), value(row, b"expected", called), end)

    def snapshots(self, namespace: bytes, space: Bucket
                  ) -> Iterator[Tuple[bytes, Dict[bytes, Snapshot]]]:
        """Each snapshotter with its snapshots by name."""
        for snapshotter, rows in buckets_in(self.objects(namespace, space, b"snapshots")):
            found = {}
            where = namespace + b" " + snapshotter
            for name, row, called in self.each("snapshot", rows, where):
                found[name] = Snapshot(name, value(row, b"name", called),
                                       value(row, b"parent", called),
                                       bucket(row, b"labels", called))
            yield snapshotter, found

    def leases(self, namespace: bytes, space: Bucket) -> Iterator[Lease]:
        """The leases of a namespace."""
        found = self.objects(namespace, space, b"leases")
        for name, row, called in self.each("lease", found, namespace):
            snapshots = [(snapshotter, list(held))
                         for snapshotter, held in buckets_in(bucket(row, b"snapshots", called))]
            images = list(bucket(row, b"images", called)) if self.rules.leases_hold_images else []
            yield Lease(name, list(bucket(row, b"content", called)), snapshots,
                        list(bucket(row, b"ingests", called)), images,
                        bucket(row, b"labels", called), made(row))

    def labelled(self, namespace: bytes, space: Bucket) -> Iterator[Tuple[Place, Bucket]]:
        """The labels of each row whose labels may reference, and no remark."""
        for kind, key in LABELLED:
            for name, row in buckets_in(self.objects(namespace, space, key)):
                yield Place(kind, b"", name), bucket(row, b"labels", kind)
        store = self.objects(namespace, space, b"content")
        for name, row in buckets_in(bucket(store, b"blob", "content")):
            yield Place("content", b"", name), bucket(row, b"labels", "content")
        for snapshotter, rows in buckets_in(self.objects(namespace, space, b"snapshots")):
            for name, row in buckets_in(rows):
                yield Place("snapshot", snapshotter, name), bucket(row, b"labels", "snapshot")


def printed(where: bytes, name: bytes) -> str:
    """A row's place and name as a text for people."""
    return "%s %s" % (show(where), show(name))
