"""What is on the disk: the file system, the daemon's folder, and what in it no row has.

Folders are listed before the reading of the metadata and again after it: what was there both times,
is over ten minutes old and has no row is of nobody. A folder that the daemon makes meanwhile is
younger, and one that it removes is gone the second time.
"""
from __future__ import annotations

import hashlib
import os
import time
from typing import Any, Dict, List, NamedTuple, Optional, Tuple

from . import backends
from .script import Script

LOOKED_AT = ("native", "overlayfs")  # the snapshotters whose snapshots are folders of plain files
TEMPORARY = "tmpmounts"  # where the daemon mounts for a while
OLD = 600  # seconds
NEXT = "the daemon's next collection removes it"
REMOVER = {
    "native": "nothing removes it: the native snapshotter never looks for such folders",
    "overlayfs": "overlayfs removes it at the next collection that removes one of its rows",
    TEMPORARY: "nothing removes it while the daemon runs",
}
Names = Dict[str, List[str]]  # of folders, by the snapshotter or TEMPORARY


class Nobody(NamedTuple):
    """What no row has: its name, its bytes where they could be read, and who removes it."""

    name: str
    bytes: Optional[int]
    remover: str


class Disk(NamedTuple):
    """What is known of a daemon's disk; `folder` are the bytes below the daemon's folder."""

    total: int
    free: int
    inodes: int
    free_inodes: int
    folder: Optional[int]
    nobody: List[Nobody]
    not_looked_at: List[str]


def folder_of(root: str, kind: str) -> str:
    """Where the folders of a kind are."""
    if kind == TEMPORARY:
        return os.path.join(root, TEMPORARY)
    return os.path.join(root, backends.SNAPSHOTTER + kind, "snapshots")


def listing(root: str) -> Names:
    """The folders that are there now."""
    return {
        kind: backends.listed(folder_of(root, kind)) for kind in LOOKED_AT + (TEMPORARY,)
    }


def look(root: str, before: Names, script: Script) -> Disk:
    """What the folder holds beside the rows; `before` was listed before these were read."""
    about = os.statvfs(root)
    after = listing(root)
    limit = time.time() - OLD
    found: List[Nobody] = []
    for kind, names in before.items():
        there = set(after[kind])
        owned = owned_folders(script, kind)
        for name in names:
            path = os.path.join(folder_of(root, kind), name)
            if name in there and name not in owned and is_old(path, limit):
                if not os.path.ismount(path):
                    remover = NEXT if name in stored_folders(script, kind) else REMOVER[kind]
                    found.append(Nobody("%s/%s" % (kind, name), bytes_below(path), remover))
    found += lone_content(root, script, limit)
    others = [name for name in script.backends.snapshots if name not in LOOKED_AT]
    return Disk(
        about.f_blocks * about.f_frsize, about.f_bavail * about.f_frsize, about.f_files,
        about.f_favail, None, found, others,
    )


def owned_folders(script: Script, kind: str) -> Dict[str, bool]:
    """The folders of a snapshotter that a row has."""
    found: Dict[str, bool] = {}
    for name, stored in script.backends.snapshots.get(kind, {}).items():
        if stored.folder is not None and (kind, name) in script.snapshots:
            found[str(stored.folder)] = True
    return found


def stored_folders(script: Script, kind: str) -> Dict[str, bool]:
    """The folders that a snapshotter's own file has."""
    every = script.backends.snapshots.get(kind, {}).values()
    return {str(stored.folder): True for stored in every if stored.folder is not None}


def lone_content(root: str, script: Script, limit: float) -> List[Nobody]:
    """Blobs and ingests that no row has."""
    content = os.path.join(root, backends.CONTENT)
    found = []
    for digest, size in script.backends.blobs.items():
        path = os.path.join(content, "blobs", *digest.split(":", 1))
        if digest not in script.blobs and is_old(path, limit):
            found.append(Nobody(digest, size, NEXT))
    for ref, written in script.backends.ingests.items():
        path = os.path.join(content, "ingest", hashlib.sha256(ref).hexdigest())
        if ref not in script.ingests and is_old(path, limit):
            found.append(Nobody("ingest " + ref.decode("utf-8", "backslashreplace"), written, NEXT))
    return found


def is_old(path: str, limit: float) -> bool:
    """Whether something is there and was last changed before this moment."""
    try:
        return os.lstat(path).st_mtime < limit
    except OSError:
        return False


def bytes_below(folder: str) -> Optional[int]:
    """The bytes on the disk below a folder, a file once; None where it isn't there.

    What is mounted below it isn't counted.
    """
    if not os.path.isdir(folder):
        return None
    device = os.lstat(folder).st_dev
    total = 0
    seen = set()
    todo = [folder]
    while todo:
        try:
            entries = list(os.scandir(todo.pop()))
        except OSError:
            continue
        for entry in entries:
            try:
                about = entry.stat(follow_symlinks=False)
            except OSError:
                continue
            if about.st_dev != device:
                continue
            if entry.is_dir(follow_symlinks=False):
                todo.append(entry.path)
            elif about.st_nlink > 1:
                if about.st_ino in seen:
                    continue
                seen.add(about.st_ino)
            total += about.st_blocks * 512
    return total


def as_record(found: Disk) -> Dict[str, Any]:
    """What a copy keeps of a disk."""
    return dict(found._asdict(), nobody=[list(item) for item in found.nobody])


def of_record(found: Any) -> Optional[Disk]:
    """What a copy kept; None where it isn't one."""
    try:
        nobody = [Nobody(str(name), size, str(by)) for name, size, by in found["nobody"]]
        return Disk(**dict(found, nobody=nobody))
    except (TypeError, KeyError, ValueError):
        return None


def nobodys(found: Disk) -> Tuple[int, int]:
    """The bytes of what no row has, and how many things of unknown size are among it."""
    sizes = [item.bytes for item in found.nobody]
    return sum(size for size in sizes if size is not None), sum(size is None for size in sizes)
