"""What fills the disk: by kind, by namespace, and the largest holders by what they keep."""
from __future__ import annotations

import json
from typing import Any, Container, Dict, Iterator, List, NamedTuple, Optional, Tuple

from . import disk_page
from .asking import Metad
from .freed import Freed, Later, awaited_by
from .lines import JSON
from .numbers import go_moment
from .printing import Printer, and_more, first
from .progress import Progress
from .remarks import printable
from .rows import ROOT, Group, Key, remove_line
from .sizes import Measure, known, unknown
from .store import Store
from .walks import Walks
from .without import freed_without

SHOWN = 10
FIRST_DAY = "0000-01-01T00:00:00Z"  # an ingest begun then is no root: its day is long over
KINDS = ("blobs", "committed", "writable", "ingests")
TITLES = {
    "blobs": "blobs",
    "committed": "snapshots, committed",
    "writable": "snapshots, writable",
    "ingests": "ingests",
}


class Holder(NamedTuple):
    """A group with what it would keep as the only root, and what goes without it."""

    group: Group
    kept: Freed
    own: Freed


def kinds(store: Store, goes: Freed) -> Dict[str, Dict[str, int]]:
    """Of each kind how many objects, their bytes, and the bytes that a collection frees now."""
    sizes, measure = store.measure.sizes, store.measure
    state = states(store)
    every: Dict[str, List[Optional[int]]] = {kind: [] for kind in KINDS}
    every["blobs"] = [
        size for digest, size in sizes["blobs"].items() if digest not in measure.between
    ]
    for number, size in sizes["snapshots"].items():
        every[state[number]].append(size)
    every["ingests"] = [
        size for number, size in sizes["ingests"].items() if int(number) not in measure.waiting
    ]
    freed: Dict[str, List[Optional[int]]] = {kind: [] for kind in KINDS}
    freed["blobs"] = [size for _, size in goes.blobs]
    for _, place, size in goes.snapshots:
        freed[state[str(place)]].append(size)
    freed["ingests"] = [size for _, size in goes.ingests]
    return {
        kind: {
            "objects": len(every[kind]),
            "bytes": known(every[kind]),
            "unknown": unknown(every[kind]),
            "reclaimable": known(freed[kind]),
            "reclaimable_unknown": unknown(freed[kind]),
        }
        for kind in KINDS
    }


def states(store: Store) -> Dict[str, str]:
    """Whether the snapshot of each number is committed or writable."""
    found = {number: "writable" for number in store.measure.sizes["snapshots"]}
    for key, number in store.snapshot_rows():
        if store.rows.rows[key].state == "committed":
            found[str(number)] = "committed"
    for number, about in store.measure.sizes["numbers"].items():
        if about.get("state") and number in found:
            found[number] = "committed" if about["state"] == "committed" else "writable"
    return found


def namespaces(store: Store) -> List[Dict[str, Any]]:
    """Of each namespace its bytes: blobs, blobs that others have too, snapshots, ingests."""
    sizes = store.measure.sizes
    found: Dict[str, Dict[str, Any]] = {}

    def of(ns: str) -> Dict[str, Any]:
        return found.setdefault(
            ns,
            {"ns": ns, "blobs": 0, "shared_blobs": 0, "snapshots": 0, "ingests": 0, "unknown": 0},
        )

    for kind, ns, _ in store.rows.rows:
        of(ns)
    for digest, owners in store.blob_owners().items():
        size = sizes["blobs"].get(digest)
        for ns in owners:
            of(ns)["unknown"] += size is None
            of(ns)["blobs" if len(owners) == 1 else "shared_blobs"] += size or 0
    for key, row in store.rows.rows.items():
        kind = "snapshots" if key[0].startswith("snapshots/") else key[0]
        if kind == "snapshots" or kind == "ingests" and row.number not in store.measure.waiting:
            size = sizes[kind].get(str(row.number))
            of(key[1])[kind] += size or 0
            of(key[1])["unknown"] += size is None
    return [found[ns] for ns in sorted(found)]


def ranked(store: Store, groups: List[Group], limit: int) -> Tuple[List[Group], int]:
    """The groups that keep most, by walks, and how many weren't walked."""
    at = go_moment(store.at)
    assert at is not None
    store.progress.say("looking for the largest of %d images, containers and leases" % len(groups))
    kept = Walks(store.rows, store.measure, groups, at).kept()
    order = sorted(
        range(len(groups)),
        key=lambda place: (-(kept[place] or 0), groups[place].ns, groups[place].keys[0][2]),
    )
    return [groups[place] for place in first(order, limit)], sum(size is None for size in kept)


def alone_lines(store: Store) -> List[bytes]:
    """The script without roots: images, containers, leases, root labels, days of ingests."""
    found: List[bytes] = []
    for line in store.lines[:-1]:
        if line.startswith((b'{"op":"image.', b'{"op":"container.', b'{"op":"lease.')):
            continue
        if ROOT.encode() in line or b'"lease"' in line or line.startswith(b'{"op":"ingest.'):
            asked = json.loads(line)
            if asked.get("key") == ROOT and asked["op"].endswith(".label"):
                continue
            asked.get("labels", {}).pop(ROOT, None)
            asked.pop("lease", None)
            if asked["op"] == "ingest.begin":
                asked["at"] = FIRST_DAY
            line = JSON(asked).encode()
        found.append(line)
    return found


def kept_alone(store: Store, gone: Container[Key], groups: List[Group]) -> Iterator[Freed]:
    """What each group keeps as the only root: what goes with its rows, one after the other."""
    awaited = awaited_by(store.measure)
    with Metad(store.program) as metad:
        metad.load(alone_lines(store))
        for place, group in enumerate(groups, 1):
            store.progress.say("asking what each keeps alone, %d of %d" % (place, len(groups)))
            held = [image for key in group.keys for image, _, _ in store.held.get(key, ())]
            keys = group.keys + [image for image in held if group.keys[0] not in gone]
            metad.load([line for key in keys for line in store.rows.rows[key].lines])
            impacts = []
            for key in keys:
                asked = {"ns": key[1], "type": key[0], "resource": key[2], "at": store.at}
                impacts.append(metad.ask("gc.impact", **asked)["impact"])
                metad.load([remove_line(key)])
            yield all_of(store.measure, awaited, impacts)


def all_of(measure: Measure, awaited: Dict[Key, List[str]], impacts: List[Dict[str, Any]]) -> Freed:
    """The objects of impacts that follow each other, with the blobs that ingests wait for."""
    blobs = {digest: True for impact in impacts for digest in impact["backend"]["blobs"]}
    for impact in impacts:
        for ns, name in impact["removed"]["ingests"]:
            blobs.update((digest, True) for digest in awaited.get(("ingests", ns, name), ()))
    sizes, found = measure.sizes["blobs"], Freed([], [], [])
    found.blobs.extend((digest, sizes.get(digest)) for digest in blobs if digest in sizes)
    for impact in impacts:
        without = {"removed": {"ingests": []}, "backend": dict(impact["backend"], blobs=[])}
        found.snapshots.extend(measure.snapshots(without))
        found.ingests.extend(measure.ingests(without))
    return found


def holders(store: Store, later: Later, metad: Metad, limit: int) -> Tuple[List[Holder], int]:
    """The largest holders by what they keep, and how many there are."""
    groups = store.rows.groups()
    shown, unwalked = ranked(store, groups, limit)
    if unwalked:
        store.notes.append(
            "%d images, containers and leases weren't ranked: the walks grew too long" % unwalked
        )
    own = freed_without(metad, later, store, shown)
    kept = list(kept_alone(store, later.gone, shown))
    found = [Holder(*item) for item in zip(shown, kept, own)]
    return sorted(
        found, key=lambda item: (-item.kept.bytes(), item.group.ns, item.group.keys[0][2])
    ), len(groups)


def run(words: Any, progress: Progress) -> int:
    """Prints the page, or its object."""
    limit = SHOWN if words.limit is None else words.limit
    store = Store(words, progress, look=True)
    store.remark_shared_holds()
    with store.metad() as metad:
        later = store.collected(metad)
        found, total = holders(store, later, metad, limit)
    by_kind, by_namespace = kinds(store, later.freed), namespaces(store)
    out = Printer(words, progress)
    if words.json:
        out.object(
            dict(
                store.head("usage"),
                disk=disk_page.as_object(store),
                kinds=by_kind,
                namespaces=by_namespace,
                holders_total=total,
                holders=[as_object(store, holder) for holder in found],
            )
        )
    else:
        out.lines(page(store, out, by_kind, by_namespace, found, total, limit))
    return store.status()


def as_object(store: Store, holder: Holder) -> Dict[str, Any]:
    """A holder as its JSON object."""
    group = holder.group
    return {
        "kind": store.kind(group.keys[0]),
        "ns": group.ns,
        "names": store.group_names(group),
        "kept": holder.kept.bytes(),
        "kept_unknown": holder.kept.unknown(),
        "own": holder.own.bytes(),
        "own_unknown": holder.own.unknown(),
    }


def page(
    store: Store,
    out: Printer,
    by_kind: Dict[str, Dict[str, int]],
    by_namespace: List[Dict[str, Any]],
    found: List[Holder],
    total: int,
    limit: int,
) -> Iterator[str]:
    """The lines of the page."""
    yield from disk_page.lines(store, out)
    form = "%-20s %8s %12s %12s%s"
    yield form % ("KIND", "OBJECTS", "SIZE", "RECLAIMABLE", "")
    for kind, of in by_kind.items():
        missing = "  (%d of unknown size)" % of["unknown"] if of["unknown"] else ""
        yield form % (
            TITLES[kind],
            of["objects"],
            out.size(of["bytes"]),
            out.size(of["reclaimable"]),
            missing,
        )
    whole = [
        sum(of[member] for of in by_kind.values()) for member in ("objects", "bytes", "reclaimable")
    ]
    yield form % ("all", whole[0], out.size(whole[1]), out.size(whole[2]), "")
    yield ""
    form = "%-20s %12s %12s %12s %12s%s"
    yield form % ("NAMESPACE", "BLOBS", "SHARED BLOBS", "SNAPSHOTS", "INGESTS", "")
    for space in by_namespace:
        missing = "  (%d of unknown size)" % space["unknown"] if space["unknown"] else ""
        parts = ("blobs", "shared_blobs", "snapshots", "ingests")
        sizes = tuple(out.size(space[part]) for part in parts)
        yield form % ((printable(space["ns"]),) + sizes + (missing,))
    if found:
        yield ""
        yield "%12s %12s  %-10s %s" % ("KEPT", "OWN", "HOLDER", "NAME")
    for item in found:
        name, kind = store.group_name(item.group), store.kind(item.group.keys[0])
        missing = out.more_unknown(item.kept.unknown())
        yield "%12s %12s  %-10s %s%s" % (
            out.size(item.kept.bytes()),
            out.size(item.own.bytes()),
            kind,
            name,
            missing,
        )
    yield from and_more(total, limit)
