"""Whether the daemon's collection removed too much or too little: copies before and after it."""
from __future__ import annotations

import argparse
from typing import Any, Dict, Iterator, List, Set

from . import exporting, why
from .freed import gone_rows
from .printing import Printer, Whole, and_more, first
from .progress import Progress
from .remarks import printable
from .rows import Key, Rows
from .store import Store

SHOWN = 20


def run(words: Any, progress: Progress) -> int:
    """Prints what differs; status 1 where a row went that the plan keeps."""
    asked = argparse.Namespace(
        root=words.before, at=words.at, metad=words.metad, sizes=None, containerd=words.containerd
    )
    store = Store(asked, progress)
    progress.say("reading %s" % words.after)
    told = exporting.told_version(words.containerd, store.daemon)
    script, remarks = exporting.script_of(words.after, store.at, told=told)
    after = real(store, Rows(script.lines.written).rows, set(script.sizes["between"]))
    store.remarks += [text for text in remarks.texts() if text.startswith("may change the plan")]
    with store.metad() as metad:
        progress.say("asking what goes")
        gone = gone_rows(metad.report("gc.plan", store.at))
    before = real(store, store.rows.rows, store.measure.between)
    planned = before - gone
    much, little = sorted(planned - after), sorted((before & gone) & after)
    new = len(after - before)
    limit = SHOWN if words.limit is None else words.limit
    out = Printer(words, progress)
    if words.json:
        out.object(
            dict(
                store.head("compare"),
                rows_before=len(before),
                rows_after=len(after),
                rows_planned=len(planned),
                new_rows=new,
                too_much_total=len(much),
                too_little_total=len(little),
                too_much=as_objects(store, first(much, limit)),
                too_little=as_objects(store, first(little, limit)),
            )
        )
    else:
        out.lines(page(store, len(before), len(planned), new, much, little, limit))
    status = store.status()
    return 1 if much else status


def real(store: Store, rows: Any, between: Set[str]) -> Set[Key]:
    """The rows of a store by the daemon's own names, without those that only carry references."""
    return {key for key in rows if key[2] not in between}


def as_objects(store: Store, keys: List[Key]) -> List[Dict[str, str]]:
    """Rows as JSON objects."""
    return [{"type": store.type(key), "ns": key[1], "name": store.text(key)} for key in keys]


def page(
    store: Store,
    before: int,
    planned: int,
    new: int,
    much: List[Key],
    little: List[Key],
    limit: int,
) -> Iterator[str]:
    """The lines of the page."""
    whole = "%d rows before, of which a collection at %s keeps %d"
    yield Whole(whole % (before, store.at, planned))
    if new:
        yield Whole("%d rows are new after it: something was pulled or started meanwhile" % new)
    for keys, says in (
        (much, "went that the plan keeps"),
        (little, "stayed that the plan removes"),
    ):
        yield "%d rows %s" % (len(keys), says)
        for key in first(keys, limit):
            yield "  %s %s" % (why.kind(store, key), printable(store.name(key)))
        yield from and_more(len(keys), limit)
    if not much and not little:
        yield "The collection removed exactly what the plan removes"
