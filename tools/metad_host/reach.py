"""How long the rows of a namespace are reached, in one pass over its references.

Roots come by their ends, the last one first, so that the first root that reaches a row is the one
that keeps it longest, and each row is looked at once. Only a namespace with references to images
that expire needs it.
"""
from __future__ import annotations

from typing import Callable, Dict, Iterator, List, NamedTuple, Optional, Set, Tuple

from .buckets import LABELLED, Place, bucket, buckets_in
from .numbers import binary_time, moment_text
from .pages import Bucket
from .texts import (CONTENT_REFERENCE, EXPIRE, FLAT, IMAGE_REFERENCE, PREFIX, SNAPSHOT_REFERENCE,
                    is_named)

ROOT = PREFIX + b"root"
NEVER = 1 << 100  # beyond each end
State = Tuple[Place, bool]  # a row, and whether its labels aren't followed
ROWS = {"image": b"images", "container": b"containers", "sandbox": b"sandboxes", "lease": b"leases"}


class Kept(NamedTuple):
    """What keeps an image longest: its end with the text of it, None without one, and by whom."""

    end: int
    expiry: Optional[bytes]
    by: Place


class Root(NamedTuple):
    """A root with its end."""

    place: Place
    end: int
    expiry: Optional[bytes]


def named(row: Bucket, key: bytes) -> Bucket:
    """A bucket of a row, empty where it has none."""
    return bucket(row, key, "a row")


def text(row: Bucket, key: bytes) -> bytes:
    """A value of a row, empty where it has none."""
    found = row.get(key, b"")
    return found if isinstance(found, bytes) else b""


class Reach:
    """The rows of a namespace with what each leads to."""

    def __init__(self, space: Bucket, end: Callable[[Optional[bytes]], Optional[int]],
                 added: Dict[Place, List[Place]]) -> None:
        """`end` reads an expiry; `added` are references that labels of the row don't say."""
        self.space, self.end, self.added = space, end, added
        store = named(space, b"content")
        self.blobs, self.ingests = named(store, b"blob"), named(store, b"ingests")
        self.snapshots = named(space, b"snapshots")

    def row(self, place: Place) -> Optional[Bucket]:
        """The row of a place, None where there is none."""
        if place.kind == "content":
            found = self.blobs.get(place.name)
        elif place.kind == "ingest":
            found = self.ingests.get(place.name)
        elif place.kind == "snapshot":
            found = named(self.snapshots, place.within).get(place.name)
        else:
            found = named(self.space, ROWS[place.kind]).get(place.name)
        return found if isinstance(found, dict) else None

    def references(self, place: Place, labels: Bucket) -> Iterator[Place]:
        """What the labels of a row lead to."""
        for key, value in labels.items():
            if not isinstance(value, bytes):
                continue
            if is_named(key, CONTENT_REFERENCE):
                yield Place("content", b"", value)
            elif key.startswith(SNAPSHOT_REFERENCE):
                yield Place("snapshot", key[len(SNAPSHOT_REFERENCE):].split(b"/")[0], value)
            elif is_named(key, IMAGE_REFERENCE):
                yield Place("image", b"", value)
        yield from self.added.get(place, ())

    def below(self, state: State, row: Bucket) -> Iterator[State]:
        """What a row leads to."""
        place, flat = state
        if place.kind == "lease":
            flat = FLAT in named(row, b"labels")
            for digest in named(row, b"content"):
                yield Place("content", b"", digest), flat
            for snapshotter, keys in buckets_in(named(row, b"snapshots")):
                for key in keys:
                    yield Place("snapshot", snapshotter, key), flat
            for ref in named(row, b"ingests"):
                yield Place("ingest", b"", ref), False
            for image in named(row, b"images"):
                yield Place("image", b"", image), False
            return
        if place.kind == "image":
            yield Place("content", b"", text(named(row, b"target"), b"digest")), False
        elif place.kind == "container" and text(row, b"snapshotKey"):
            yield Place("snapshot", text(row, b"snapshotter"), text(row, b"snapshotKey")), False
        elif place.kind == "snapshot" and text(row, b"parent"):
            yield Place("snapshot", place.within, text(row, b"parent")), flat
        elif place.kind == "ingest":
            yield Place("content", b"", text(row, b"expected")), False
        if not flat:
            for held in self.references(place, named(row, b"labels")):
                yield held, False

    def roots(self) -> Iterator[Root]:
        """Each root; one that ends has its expiry."""
        for kind, key in LABELLED + (("lease", b"leases"),):
            for name, row in buckets_in(named(self.space, key)):
                found = named(row, b"labels").get(EXPIRE) if kind in ("image", "lease") else None
                expiry = found if isinstance(found, bytes) else None
                yield self.root(Place(kind, b"", name), self.end(expiry), expiry)
        for name, row in buckets_in(self.ingests):
            data = text(row, b"expireat")
            if data:
                end = binary_time(data, "the end of an ingest")
                yield self.root(Place("ingest", b"", name), end, moment_text(end).encode())
        for name, row in buckets_in(self.blobs):
            if ROOT in named(row, b"labels"):
                yield self.root(Place("content", b"", name), None, None)
        for snapshotter, rows in buckets_in(self.snapshots):
            for name, row in buckets_in(rows):
                if ROOT in named(row, b"labels"):
                    yield self.root(Place("snapshot", snapshotter, name), None, None)

    @staticmethod
    def root(place: Place, end: Optional[int], expiry: Optional[bytes]) -> Root:
        """A root; one without a readable end never ends."""
        return Root(place, NEVER, None) if end is None else Root(place, end, expiry)

    def images(self) -> Dict[bytes, Kept]:
        """What keeps each image longest that another row leads to."""
        found: Dict[bytes, Kept] = {}
        seen: Set[State] = set()
        for root in sorted(self.roots(), key=lambda root: root.end, reverse=True):
            todo: List[State] = [(root.place, False)]
            if todo[0] in seen:
                continue
            seen.add(todo[0])
            while todo:
                state = todo.pop()
                row = self.row(state[0])
                for held in self.below(state, row) if row is not None else ():
                    if held in seen or (held[0], False) in seen:
                        continue
                    seen.add(held)
                    todo.append(held)
                    if held[0].kind == "image":
                        found[held[0].name] = Kept(root.end, root.expiry, state[0])
        return found
