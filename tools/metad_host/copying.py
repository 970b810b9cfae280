"""A copy of a store that is a state of it, whatever the daemon writes meanwhile."""
from __future__ import annotations

import os
import tempfile
from typing import Any, Dict, List

from . import daemon, disk, exporting, measuring, pages
from .faults import BadInput, Missing
from .printing import Printer
from .progress import Progress


def run(words: Any, progress: Progress) -> int:
    """Copies meta.db to FILE, each snapshotter's file to a name beside it, and what is known."""
    path, beside = exporting.files(words.root)
    refuse_inside(words.root, words.file)
    copied: List[Dict[str, Any]] = []
    for source, target in [(path, words.file)] + [
        (file, words.file + exporting.BESIDE + name) for name, file in beside
    ]:
        progress.say("copying %s" % source)
        copied.append({"file": target, "of": source, "bytes": copy(source, target)})
    for name in stale(words.file, [item["file"] for item in copied]):
        os.unlink(name)
    daemon.write_record(words.file, record(words, progress))
    out = Printer(words, progress)
    remarks = (
        ["the %d files are states of their own, which may be a transaction apart" % len(copied)]
        if len(copied) > 1
        else []
    )
    if words.json:
        out.object({"word": "copy", "remarks": remarks, "files": copied})
    else:
        out.lines(
            [
                "%12s  %s, a copy of %s" % (out.size(item["bytes"]), item["file"], item["of"])
                for item in copied
            ]
            + remarks
        )
    return 0


def record(words: Any, progress: Progress) -> Dict[str, Any]:
    """What is known of the daemon, and what was measured of its folder."""
    found = daemon.as_record(exporting.daemon_of(words.root))
    if words.measure:
        script, _ = exporting.script_of(words.root, None)
        looked = disk.look(words.root, script.listed, script)
        found["measured"] = measuring.measure(words.root, script.sizes, progress)
        found["disk"] = disk.as_record(measuring.whole(words.root, looked, progress))
    return found


def refuse_inside(root: str, target: str) -> None:
    """Nothing is written to a daemon's folder, nor over the file that is read."""
    root, target = os.path.realpath(root), os.path.realpath(target)
    inside = os.path.isdir(root) and os.path.commonpath([root, target]) == root
    if inside or root == target or os.path.isdir(target):
        raise Missing("the copy can't go to %s: name a file elsewhere" % target)


def copy(source: str, target: str) -> int:
    """Copies a file by way of another name, so that the target is whole; answers its bytes."""
    folder, name = os.path.split(target)
    handle, path = tempfile.mkstemp(prefix=name + ".", suffix=".part", dir=folder or ".")
    try:
        with open(handle, "wb") as into:
            pages.copy_whole(source, into)
            into.flush()
            size = into.seek(0, os.SEEK_END)
        os.replace(path, target)
        return size
    except BadInput as bad:
        raise BadInput("%s: %s" % (source, bad))
    finally:
        if os.path.exists(path):
            os.unlink(path)


def stale(target: str, copied: List[str]) -> List[str]:
    """Files of an earlier copy of this name, of snapshotters that aren't there any more."""
    return [path for _, path in exporting.files(target)[1] if path not in copied]
