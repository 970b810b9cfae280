"""What goes without each image, by its target, and without each container and lease."""
from __future__ import annotations

from typing import Any, Dict, Iterator, List, Tuple

from .faults import Missing
from .freed import Freed
from .numbers import go_moment
from .printing import Printer, and_more, first
from .progress import Progress
from .rows import Group
from .store import Store
from .walks import Walks
from .without import freed_without

SHOWN = 20
Without = Tuple[Group, Freed]


def run(words: Any, progress: Progress) -> int:
    """Prints a line for each, with the most bytes first."""
    limit = SHOWN if words.limit is None else words.limit
    if words.second:
        if words.sizes:
            raise Missing("two files of sizes: %s and %s" % (words.second, words.sizes))
        words.sizes = words.second
    store = Store(words, progress)
    store.remark_shared_holds()
    groups = store.rows.groups()
    with store.metad() as metad:
        later = store.collected(metad)
        shown = largest(store, groups, limit)
        found = list(zip(shown, freed_without(metad, later, store, shown)))
    found.sort(
        key=lambda item: (
            -item[1].bytes(),
            store.kind(item[0].keys[0]),
            item[0].ns,
            item[0].keys[0][2],
        )
    )
    out = Printer(words, progress)
    if words.json:
        out.object(
            dict(
                store.head("impact"),
                frees=later.freed.bytes(),
                frees_unknown=later.freed.unknown(),
                rows_total=len(groups),
                rows=[as_object(store, item) for item in found],
            )
        )
    else:
        out.lines(page(store, out, later.freed, found, len(groups), limit))
    return store.status()


def largest(store: Store, groups: List[Group], limit: int) -> List[Group]:
    """The groups that alone keep most, by walks, so that metad is asked for these only."""
    at = go_moment(store.at)
    assert at is not None
    store.progress.say("looking for the largest of %d images, containers and leases" % len(groups))
    alone = Walks(store.rows, store.measure, groups, at).alone()
    order = sorted(
        range(len(groups)),
        key=lambda place: (-alone[place], groups[place].ns, groups[place].keys[0][2]),
    )
    return [groups[place] for place in first(order, limit)]


def as_object(store: Store, item: Without) -> Dict[str, Any]:
    """A group as its JSON object."""
    group, freed = item
    return {
        "kind": store.kind(group.keys[0]),
        "ns": group.ns,
        "names": store.group_names(group),
        "frees": freed.bytes(),
        "frees_unknown": freed.unknown(),
        "blobs": len(freed.blobs),
        "snapshots": len(freed.snapshots),
    }


def page(
    store: Store, out: Printer, before: Freed, found: List[Without], total: int, limit: int
) -> Iterator[str]:
    """The lines of the page."""
    yield "%s go before any removal%s" % (
        out.size(before.bytes()),
        out.more_unknown(before.unknown()),
    )
    for group, freed in found:
        counts = (out.size(freed.bytes()), len(freed.blobs), len(freed.snapshots))
        name, kind = store.group_name(group), store.kind(group.keys[0])
        yield "%14s  %4d blobs  %4d snapshots  %-9s %s%s" % (
            counts + (kind, name, out.more_unknown(freed.unknown()))
        )
    yield from and_more(total, limit)
