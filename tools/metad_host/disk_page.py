"""The disk as lines of a page and as a JSON object: who has its bytes."""
from __future__ import annotations

from typing import Any, Dict, Iterator, Optional

from . import disk
from .printing import Printer, and_more
from .remarks import printable
from .store import Store

NOBODYS = 5  # of the things of nobody, how many have a line


def of_rows(store: Store) -> int:
    """The bytes of the objects that rows have, where they are known."""
    sizes, numbers = store.measure.sizes, store.measure.sizes["numbers"]
    owned = store.blob_owners()
    total = sum(size or 0 for digest, size in sizes["blobs"].items() if digest in owned)
    for kind in ("snapshots", "ingests"):
        for number, size in sizes[kind].items():
            total += (size or 0) if numbers[number]["row"] is not None else 0
    return total


def lines(store: Store, out: Printer) -> Iterator[str]:
    """What the disk has, and who has it."""
    found = store.disk
    if not found:
        return
    inodes = "; %d of %d inodes free" % (found.free_inodes, found.inodes) if found.inodes else ""
    yield "file system %s, %s free%s" % (out.size(found.total), out.size(found.free), inodes)
    nobody, unknown = disk.nobodys(found)
    whole = "unmeasured" if found.folder is None else out.size(found.folder)
    told = "this folder %s, of rows %s, of nobody %s%s"
    yield told % (whole, out.size(of_rows(store)), out.size(nobody), out.more_unknown(unknown))
    largest = sorted(found.nobody, key=lambda item: (-(item.bytes or 0), item.name))
    for item in largest[:NOBODYS]:
        yield "%14s  %s: %s" % (out.size(item.bytes), printable(item.name), item.remover)
    yield from and_more(len(largest), NOBODYS)
    for name in found.not_looked_at:
        yield "folders of %s: not looked at" % printable(name)
    yield ""


def as_object(store: Store) -> Optional[Dict[str, Any]]:
    """The disk as a JSON object, None where it isn't known."""
    found = store.disk
    if not found:
        return None
    nobody, unknown = disk.nobodys(found)
    return dict(
        found._asdict(),
        nobody=[item._asdict() for item in found.nobody],
        of_rows=of_rows(store),
        of_nobody=nobody,
        of_nobody_unknown=unknown,
    )


def folder_line(store: Store, out: Printer, folder: str) -> str:
    """A folder that no row has, and who removes it."""
    for item in store.disk.nobody if store.disk else ():
        if item.name == folder:
            size = "unknown" if item.bytes is None else out.size(item.bytes)
            return "%s (%s): no row has it; %s" % (folder, size, item.remover)
    return "%s belongs to no row: a collection that looks there removes it" % folder
