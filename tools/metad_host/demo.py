"""`--demo`: the recorded store of the repository or the pack, asked as a host is."""
from __future__ import annotations

import gzip
import os
import sys
import tempfile
from typing import Callable, List

from .faults import Missing

AT = "2024-03-02T03:26:39Z"
FILES = (("a_daemon.db.gz", "host.db"), ("a_daemon.native.gz", "host.db.snapshots.native"),
         ("a_daemon.overlayfs.gz", "host.db.snapshots.overlayfs"))
ASKED = (
    ("what fills the disk", ["usage", "--limit", "3", "host.db"]),
    ("what may go", ["prune", "host.db"]),
    ("which commands free 25 kB", ["free", "25kB", "host.db"]),
    ("why a folder is still there", ["why", "--limit", "1", "host.db", "native/9"]),
)


def run(name: str, word: Callable[[List[str]], int]) -> int:
    """Asks the recorded store some questions by the tool's own words; `word` runs one."""
    top = os.path.dirname(os.path.dirname(os.path.dirname(os.path.realpath(__file__))))
    data = os.path.join(top, "trials", "host", "data")
    if not os.path.isdir(data):
        raise Missing("the demo's store isn't there: %s" % data)
    came_from = os.getcwd()
    with tempfile.TemporaryDirectory() as folder:
        for source, target in FILES:
            with gzip.open(os.path.join(data, source)) as file:
                with open(os.path.join(folder, target), "wb") as out:
                    out.write(file.read())
        os.chdir(folder)
        try:
            status = 0
            for about, words in ASKED:
                if about != ASKED[0][0]:
                    sys.stdout.write("\n")
                sys.stdout.write("# %s\n$ %s %s\n" % (about, name, " ".join(words)))
                sys.stdout.flush()
                status = max(status, word(words[:1] + ["--at", AT] + words[1:]))
            return status
        finally:
            os.chdir(came_from)
