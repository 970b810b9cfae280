"""The uploads that aren't done: how large, how old, until when, and under which lease."""
from __future__ import annotations

from typing import Any, Dict, Iterator, List, NamedTuple, Optional

from . import ages
from .numbers import moment_text
from .printing import Printer, and_more, first
from .progress import Progress
from .remarks import printable
from .rows import Key
from .store import Store

SHOWN = 20


class Ingest(NamedTuple):
    """An ingest; one of no row has no namespace, no age and no end."""

    ns: str
    name: str
    size: Optional[int]
    age: Optional[int]
    leases: List[str]
    end: Optional[str]


def ingests(store: Store) -> List[Ingest]:
    """All ingests, the largest first."""
    leases: Dict[Key, List[Key]] = {}
    for key, row in store.rows.rows.items():
        for held in dict.fromkeys(row.holds) if key[0] == "leases" else ():
            leases.setdefault(held, []).append(key)
    sizes, numbers = store.measure.sizes["ingests"], store.measure.sizes["numbers"]
    found = []
    for key, row in store.rows.rows.items():
        if key[0] == "ingests":
            holders = leases.get(key, [])
            names = [store.text(lease) for lease in holders]
            size = sizes.get(str(row.number))
            end = last_end(store, key, holders)
            found.append(
                Ingest(key[1], store.text(key), size, ages.age(store, key), names, end)
            )
    for number, size in sizes.items():
        if numbers[number]["row"] is None:
            found.append(Ingest("", numbers[number]["backend"], size, None, [], None))
    return sorted(found, key=lambda item: (-(item.size or 0), item.ns, item.name))


def last_end(store: Store, key: Key, leases: List[Key]) -> Optional[str]:
    """When an ingest ends: its own day, or its last lease's end; None where it never does."""
    own = [key] if store.rows.rows[key].begun is not None else []
    ends = [store.rows.end(one) for one in own + leases]
    known = [end for end in ends if end is not None]
    return moment_text(max(known)) if known and len(known) == len(ends) else None


def run(words: Any, progress: Progress) -> int:
    """Prints a line for each, or the object."""
    limit = SHOWN if words.limit is None else words.limit
    store = Store(words, progress, program=False)
    found = ingests(store)
    out = Printer(words, progress)
    if words.json:
        shown = first(found, limit)
        items = [as_object(item) for item in shown]
        out.object(dict(store.head("ingests"), ingests_total=len(found), ingests=items))
    else:
        out.lines(page(out, found, limit))
    return store.status()


def as_object(item: Ingest) -> Dict[str, Any]:
    """An ingest as its JSON object."""
    return {
        "ns": item.ns,
        "name": item.name,
        "bytes": item.size,
        "age_seconds": None if item.age is None else item.age // 10**9,
        "leases": item.leases,
        "until": item.end,
    }


def page(out: Printer, found: List[Ingest], limit: int) -> Iterator[str]:
    """The lines of the page."""
    yield "%12s  %-15s %-20s  %s" % ("SIZE", "AGE", "UNTIL", "INGEST")
    for item in first(found, limit):
        name = printable("%s/%s" % (item.ns, item.name) if item.ns else item.name + " (of no row)")
        lease = "  under lease " + ", ".join(printable(one) for one in item.leases)
        age = ages.told(item.age) if item.ns else ""
        end = item.end or ("for ever" if item.ns and item.leases else "")
        yield "%12s  %-15s %-20s  %s%s" % (
            out.size(item.size), age, end, name, lease if item.leases else ""
        )
    yield from and_more(len(found), limit)
