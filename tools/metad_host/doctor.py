"""The plan under two versions' rules: which rows go, and which stay, after an update."""
from __future__ import annotations

import argparse
from typing import Any, Dict, Iterator, List, Set, Tuple

from . import why
from .compare import as_objects
from .faults import Missing
from .freed import gone_rows
from .printing import Printer, Whole, and_more, first
from .progress import Progress
from .remarks import printable
from .rows import Key
from .store import Store

SHOWN = 20


def planned(words: Any, progress: Progress, version: str) -> Tuple[Store, Set[Key]]:
    """A store by the rules of a version, and the rows that its next collection removes."""
    asked = dict(vars(words), containerd=version, sizes=None)
    store = Store(argparse.Namespace(**asked), progress)
    with store.metad() as metad:
        progress.say("asking what goes by the rules of %s" % (version or "its own version"))
        gone = gone_rows(metad.report("gc.plan", store.at))
    between = store.measure.between
    return store, {key for key in gone if key[2] not in between}


def run(words: Any, progress: Progress) -> int:
    """Prints what goes by one version's rules alone, and by the other's alone."""
    if not words.containerd:
        raise Missing("doctor wants --containerd VERSION: the version after the update")
    limit = SHOWN if words.limit is None else words.limit
    now, before = planned(words, progress, "")
    words.at = now.at  # both plans are of one moment
    then, after = planned(words, progress, words.containerd)
    own = "%s (%s)" % (now.told[0] or now.measure.sizes["containerd"][2], now.told[1] or "guessed")
    out = Printer(words, progress)
    lists = {"goes_then": sorted(after - before), "stays_then": sorted(before - after)}
    if words.json:
        out.object(dict(
            then.head("doctor"), now=own, then=words.containerd, goes_both=len(after & before),
            **{name + "_total": len(keys) for name, keys in lists.items()},
            **{name: as_objects(then, first(keys, limit)) for name, keys in lists.items()}
        ))
    else:
        out.lines(page(then, own, words.containerd, len(before), len(after), lists, limit))
    return max(now.status(), then.status())


def page(store: Store, own: str, version: str, before: int, after: int,
         lists: Dict[str, List[Key]], limit: int) -> Iterator[str]:
    """The lines of the page."""
    yield Whole("by the rules of %s %d rows go, by those of %s %d" % (own, before, version, after))
    for name, says in (
        ("goes_then", "go after the update alone"), ("stays_then", "stay after it, and go now")
    ):
        yield "%d rows %s" % (len(lists[name]), says)
        for key in first(lists[name], limit):
            yield "  %s %s" % (why.kind(store, key), printable(store.name(key)))
        yield from and_more(len(lists[name]), limit)
