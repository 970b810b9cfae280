"""What the backends of a daemon hold, read from its folder: blobs, ingests, snapshotters' files."""
from __future__ import annotations

import os
from typing import Dict, List, NamedTuple, Optional

from . import pages
from .buckets import bucket, buckets_in, show, value
from .faults import BadInput
from .numbers import go_moment, uvarint, varint
from .remarks import Remarks

METADATA = os.path.join("io.containerd.metadata.v1.bolt", "meta.db")
CONTENT = "io.containerd.content.v1.content"
SNAPSHOTTER = "io.containerd.snapshotter.v1."
VIEW, ACTIVE, COMMITTED = 1, 2, 3


class Stored(NamedTuple):
    """A snapshot of a snapshotter: its size in bytes and its folder, None where not recorded."""

    kind: int
    size: Optional[int]
    folder: Optional[int] = None


class Backends:
    """Blobs and ingests with their sizes, and each snapshotter's snapshots by their names there."""

    def __init__(self) -> None:
        self.blobs: Dict[str, int] = {}
        self.ingests: Dict[bytes, Optional[int]] = {}
        self.started: Dict[bytes, int] = {}  # when an ingest began, where its folder tells it
        self.snapshots: Dict[str, Dict[bytes, Stored]] = {}


def read(folder: str, remarks: Optional[Remarks] = None) -> Backends:
    """What a daemon's folder holds beside meta.db; what isn't there counts as empty."""
    found = Backends()
    read_blobs(os.path.join(folder, CONTENT, "blobs"), found.blobs)
    read_ingests(os.path.join(folder, CONTENT, "ingest"), found.ingests, found.started)
    for name in sorted(os.listdir(folder)):
        path = os.path.join(folder, name, "metadata.db")
        if name.startswith(SNAPSHOTTER) and os.path.exists(path):
            try:
                found.snapshots[name[len(SNAPSHOTTER):]] = read_snapshotter(path, remarks)
            except BadInput as bad:
                raise BadInput("%s: %s" % (path, bad))
    return found


def read_blobs(folder: str, into: Dict[str, int]) -> None:
    """The size of each blob; one that goes meanwhile is passed over."""
    for algorithm in listed(folder):
        for name in listed(os.path.join(folder, algorithm)):
            size = size_of(os.path.join(folder, algorithm, name))
            if size is not None:
                into["%s:%s" % (algorithm, name)] = size


def read_ingests(
    folder: str, into: Dict[bytes, Optional[int]], started: Dict[bytes, int]
) -> None:
    """The size of what each ingest has written, by the name that the content store gives it.

    `started` gets when each began.
    """
    for name in listed(folder):
        try:
            with open(os.path.join(folder, name, "ref"), "rb") as file:
                ref = file.read()
            into[ref] = size_of(os.path.join(folder, name, "data"))
            with open(os.path.join(folder, name, "startedat"), "rb") as file:
                moment = go_moment(file.read(100).decode("ascii", "replace").strip())
            if moment is not None:
                started[ref] = moment
        except OSError:
            pass


def read_snapshotter(path: str, remarks: Optional[Remarks] = None) -> Dict[bytes, Stored]:
    """The snapshots of a snapshotter's metadata.db, as containerd's storage package keeps them."""
    root = pages.read(path, remarks)
    found: Dict[bytes, Stored] = {}
    for name, row in buckets_in(bucket(bucket(root, b"v1", "the file"), b"snapshots", "the file")):
        size = None
        if b"size" in row:
            size = varint(value(row, b"size", show(name)), "the size of %s" % show(name))
        folder = None
        if b"id" in row:
            folder = uvarint(value(row, b"id", show(name)), "the number of %s" % show(name))
        kind = value(row, b"kind", show(name))
        found[name] = Stored(kind[0] if kind else ACTIVE, size, folder)
    return found


def listed(folder: str) -> List[str]:
    """What a folder holds, nothing where there is no such folder."""
    try:
        return sorted(os.listdir(folder))
    except (FileNotFoundError, NotADirectoryError):
        return []


def size_of(path: str) -> Optional[int]:
    """The bytes of a file, None where it isn't there."""
    try:
        return os.stat(path).st_size
    except FileNotFoundError:
        return None
