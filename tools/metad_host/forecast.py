"""What goes when, by itself: a collection at each end of a lease, an ingest or an image."""
from __future__ import annotations

from typing import Any, Dict, Iterator, List, NamedTuple, Tuple

from .freed import Freed
from .numbers import DAY, go_moment, moment_text
from .printing import Printer
from .progress import Progress
from .rows import Rows
from .store import Store

SHOWN = 50


class Moment(NamedTuple):
    """A collection: its moment, how many ends it takes in, what it frees, and how many rows go."""

    at: str
    ends: int
    freed: Freed
    rows: int


def ends(rows: Rows, after: int) -> List[int]:
    """The ends that come, in order, each once."""
    found = {rows.end(key) for key in rows.rows}
    return sorted(end for end in found if end is not None and end >= after)


def joined(moments: List[int], limit: int) -> List[Tuple[int, int]]:
    """At most so many moments, each with how many ends it takes in.

    The first are as they are; of later ones the last of each day stands for the day.
    """
    if not limit or len(moments) <= limit:
        return [(moment, 1) for moment in moments]
    exact, count = (
        len(moments),
        0,
    )  # from the last moment back: how many days are behind, with this one
    for place in range(len(moments) - 1, -1, -1):
        count += place == len(moments) - 1 or moments[place] // DAY != moments[place + 1] // DAY
        exact = place
        if place + count <= limit:
            break
    days: Dict[int, List[int]] = {}
    for moment in moments[exact:]:
        days.setdefault(moment // DAY, []).append(moment)
    found = [(moment, 1) for moment in moments[:exact]] + [
        (day[-1], len(day)) for day in days.values()
    ]
    if len(found) > limit:  # more days than lines: the last line takes in the rest
        rest = found[limit - 1 :]
        found = found[: limit - 1] + [(rest[-1][0], sum(count for _, count in rest))]
    return found


def run(words: Any, progress: Progress) -> int:
    """Prints a line for each moment, and what never goes."""
    limit = SHOWN if words.limit is None else words.limit
    store = Store(words, progress)
    now = go_moment(store.at)
    assert now is not None
    coming = joined(ends(store.rows, now), limit)
    with store.metad() as metad:
        later = store.collected(metad)
        found = [Moment(store.at, 0, later.freed, len(later.gone))]
        for place, (end, count) in enumerate(coming, 1):
            progress.say("asking what goes then, %d of %d" % (place, len(coming)))
            at = moment_text(end + 1)  # a lease stays at its end, and goes after it
            rows = len(later.gone)
            freed = later.advance(metad.report("gc.run", at))
            found.append(Moment(moment_text(end), count, freed, len(later.gone) - rows))
    stays = staying(store, found)
    out = Printer(words, progress)
    if words.json:
        out.object(
            dict(
                store.head("forecast"), moments=[as_object(moment) for moment in found], never=stays
            )
        )
    else:
        out.lines(page(out, found, stays))
    return store.status()


def staying(store: Store, found: List[Moment]) -> Dict[str, int]:
    """What is left after the last moment: bytes, objects of unknown size, and rows."""
    sizes, measure = store.measure.sizes, store.measure
    every = [size for digest, size in sizes["blobs"].items() if digest not in measure.between]
    every += list(sizes["snapshots"].values())
    every += [
        size for number, size in sizes["ingests"].items() if int(number) not in measure.waiting
    ]
    known = sum(size for size in every if size is not None) - sum(
        moment.freed.bytes() for moment in found
    )
    unknown = sum(size is None for size in every) - sum(moment.freed.unknown() for moment in found)
    return {
        "bytes": known,
        "unknown": unknown,
        "rows": len(store.rows.rows) - sum(moment.rows for moment in found),
    }


def as_object(moment: Moment) -> Dict[str, Any]:
    """A moment as its JSON object."""
    return {
        "at": moment.at,
        "ends": moment.ends,
        "bytes": moment.freed.bytes(),
        "unknown": moment.freed.unknown(),
        "rows": moment.rows,
    }


def page(out: Printer, found: List[Moment], stays: Dict[str, int]) -> Iterator[str]:
    """The lines of the page."""
    form = "%-32s %12s %8s %12s%s"
    yield form % ("AFTER", "GOES", "ROWS", "IN ALL", "")
    whole = 0
    for moment in found:
        whole += moment.freed.bytes()
        title = "now" if moment.ends == 0 else moment.at
        missing = out.more_unknown(moment.freed.unknown())
        more = "  (%d ends)" % moment.ends if moment.ends > 1 else ""
        yield form % (
            title,
            out.size(moment.freed.bytes()),
            moment.rows,
            out.size(whole),
            missing + more,
        )
    title = "never, unless something is removed"
    yield "%-32s %10s %8d%s" % (
        title,
        out.size(stays["bytes"]),
        stays["rows"],
        out.more_unknown(stays["unknown"]),
    )
