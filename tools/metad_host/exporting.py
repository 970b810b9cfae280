"""The store of a daemon's folder, of a meta.db or of a copy, as a script with its sizes."""
from __future__ import annotations

import os
import sys
from typing import Any, List, Optional, Tuple

from . import backends, buckets, daemon, disk, pages, sizes, versions
from .daemon import Daemon
from .faults import BadInput
from .numbers import moment_text
from .progress import Progress
from .remarks import Remarks
from .script import Script

# between the name of a copy and that of a snapshotter, whose file stands beside it
BESIDE = ".snapshots."


def now() -> str:
    """This moment, in whole seconds."""
    import time

    return moment_text(int(time.time()) * 10**9)


def files(root: str) -> Tuple[str, List[Tuple[str, str]]]:
    """The meta.db of a daemon's folder or of a copy, and each snapshotter with its file."""
    if os.path.isdir(root):
        beside = []
        for name in sorted(os.listdir(root)):
            path = os.path.join(root, name, "metadata.db")
            if name.startswith(backends.SNAPSHOTTER) and os.path.exists(path):
                beside.append((name[len(backends.SNAPSHOTTER) :], path))
        return os.path.join(root, backends.METADATA), beside
    folder, own = os.path.split(root)
    start = own + BESIDE
    names = sorted(name for name in backends.listed(folder or ".") if name.startswith(start))
    return root, [(name[len(start) :], os.path.join(folder, name)) for name in names]


def stored(root: str, remarks: Remarks) -> Any:
    """What the backends hold, as far as the folder or the files beside a copy tell it."""
    if os.path.isdir(root):
        return backends.read(root, remarks)
    found = backends.Backends()
    for snapshotter, path in files(root)[1]:
        try:
            found.snapshots[snapshotter] = backends.read_snapshotter(path, remarks)
        except BadInput as bad:
            raise BadInput("%s: %s" % (path, bad))
    return found


def daemon_of(root: str) -> Daemon:
    """The daemon that has a store open, else what a copy's record tells of it."""
    path = files(root)[0]
    found = daemon.running(path)
    return found if found.by else daemon.recorded(path)


def told_version(named: Optional[str], of: Daemon) -> Tuple[str, str]:
    """The version that counts, and who told it."""
    return (named, versions.NAMED) if named else of.told()


def script_of(
    root: str, at: Optional[str], all_labels: bool = False, told: Tuple[str, str] = ("", ""),
    keep: bool = False,
) -> Tuple[Script, Remarks]:
    """The script of a store, which ends in a plan at the moment, and what it can't say.

    `told` is the version of its daemon, and who told it; `keep` keeps what each line says.
    """
    remarks = Remarks()
    listed = disk.listing(root) if os.path.isdir(root) else {}
    # before meta.db: an object is there before its row, so that none looks as if it had no row
    found = stored(root, remarks)
    path = files(root)[0]
    try:
        script = Script(
            buckets.Metadata(pages.read(path, remarks), remarks, told), found, remarks, all_labels,
            keep,
        )
        script.write(at or now())
        script.listed = listed
    except BadInput as bad:
        raise BadInput("%s: %s" % (path, bad))
    return script, remarks


def run(words: Any, progress: Progress) -> int:
    """Writes the script to standard output, whole or not at all."""
    progress.say("reading %s" % words.root)
    told = told_version(words.containerd, daemon_of(words.root))
    script, remarks = script_of(words.root, words.at, words.labels, told)
    if words.sizes:
        sizes.write(words.sizes, script.sizes)
    for text in remarks.texts():
        sys.stderr.write("%s: %s\n" % (progress.name, text))
    progress.end()
    for line in script.lines.written:
        sys.stdout.buffer.write(line + b"\n")
    sys.stdout.buffer.flush()
    return 3 if remarks.may_change_plan() else 0
