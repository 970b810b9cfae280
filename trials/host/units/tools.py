"""Finds the tool's modules, and makes small stores for the tests."""
import json
import os
import sys

TOP = os.path.dirname(os.path.dirname(os.path.dirname(os.path.dirname(os.path.abspath(__file__)))))
sys.path.insert(0, os.path.join(TOP, "tools"))


def rows(*requests):
    """The rows of a script of these requests."""
    from metad_host.rows import Rows
    return Rows([json.dumps(request).encode() for request in requests])


def store(requests, at="2024-03-01T00:00:00Z", daemon=None, **members):
    """A store of these requests, with sizes of these members; no program is asked."""
    import argparse
    import tempfile
    from metad_host import sizes, store as stores
    from metad_host.progress import Progress
    with tempfile.TemporaryDirectory() as folder:
        script, beside = os.path.join(folder, "script"), os.path.join(folder, "sizes")
        with open(script, "w", encoding="utf-8") as file:
            for request in list(requests) + [{"op": "gc.plan", "at": at}]:
                file.write(json.dumps(request) + "\n")
        sizes.write(beside, dict(sizes.empty(), **members))
        words = argparse.Namespace(root=script, at=at, metad=None, sizes=beside, containerd=None)
        found = stores.Store(words, Progress("metad-host"), program=False)
    if daemon:
        found.daemon = daemon
    return found


def measure(**members):
    """The sizes of a script, with these members."""
    from metad_host import sizes
    return sizes.Measure(dict(sizes.empty(), **members))


def report(**members):
    """A report that names what its members name, and nothing else."""
    found = {"removed": {kind: [] for kind in ("content", "ingests", "leases", "snapshots")},
             "backend": {kind: [] for kind in ("blobs", "ingests", "snapshots")}, "dry": True, "ignored": [],
             "kept": {"content": 0}}
    for part, kinds in members.items():
        found[part].update(kinds)
    return found
