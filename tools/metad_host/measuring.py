"""The bytes of writable snapshots, which the daemon records nowhere: their folders are measured.

`copy --measure` keeps them beside its copy, so that the copy's words have them.
"""
from __future__ import annotations

import os
from typing import Any, Dict, Optional

from . import backends, disk
from .faults import Missing
from .progress import Progress

WANTS = "--measure wants the daemon's folder, where the snapshots are"


def measure(root: str, sizes: Dict[str, Any], progress: Progress) -> Dict[str, int]:
    """Gives each snapshot of unknown size the bytes of its folder; answers them by the folders."""
    if not os.path.isdir(root):
        raise Missing(WANTS)
    unknown = [number for number, size in sizes["snapshots"].items() if size is None]
    found: Dict[str, int] = {}
    for place, number in enumerate(unknown, 1):
        folder = sizes["numbers"][number].get("folder")
        if folder is None:
            continue
        snapshotter, _, name = folder.partition("/")
        progress.say("measuring snapshots, %d of %d: %s" % (place, len(unknown), folder))
        path = os.path.join(root, backends.SNAPSHOTTER + snapshotter, "snapshots", name)
        size = disk.bytes_below(path)
        if size is not None:
            found[folder] = sizes["snapshots"][number] = size
    return found


def take_in(sizes: Dict[str, Any], measured: Any) -> None:
    """Gives the snapshots the bytes that a copy kept."""
    if not isinstance(measured, dict):
        return
    for number, size in sizes["snapshots"].items():
        folder = sizes["numbers"][number].get("folder")
        kept = measured.get(folder)
        if size is None and isinstance(kept, int):
            sizes["snapshots"][number] = kept


def whole(root: str, found: disk.Disk, progress: Progress) -> disk.Disk:
    """The disk with the bytes below the daemon's folder."""
    progress.say("measuring %s" % root)
    total: Optional[int] = disk.bytes_below(root)
    return found._replace(folder=total)
