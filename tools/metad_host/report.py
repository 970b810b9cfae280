"""A report as a page for an operator: the last of metad's replies on standard input."""
from __future__ import annotations

import json
import sys
from typing import Any, Dict, Iterable, Iterator, List, Optional, Tuple

from . import sizes
from .faults import BadInput
from .printing import Printer, Whole, and_more, first
from .progress import Progress
from .remarks import printable
from .sizes import Measure, known, unknown

SHOWN = 10
KINDS = ("blob", "snapshot", "ingest")
Goes = Tuple[str, Optional[int], str]  # the kind of an object, its bytes, and what it is called


def last_report(lines: Iterable[bytes]) -> Dict[str, Any]:
    """The report of the last reply that has one; a refused line is refused, and so is none."""
    report: Optional[Dict[str, Any]] = None
    for number, line in enumerate(lines, 1):
        try:
            reply = json.loads(line.decode())
        except (ValueError, RecursionError):
            raise BadInput("reply %d isn't metad's" % number)
        if not isinstance(reply, dict) or reply.get("ok") is not True:
            told = line.decode("utf-8", "replace").strip()
            raise BadInput("reply %d is %s: `refused` tells why" % (number, told))
        report = reply.get("report", report)
    if report is None:
        raise BadInput("no reply has a report: the script ends in gc.plan or gc.run")
    return report


def run(words: Any, progress: Progress) -> int:
    """Prints the page."""
    report = last_report(sys.stdin.buffer)
    try:
        found = Page(
            report, Measure(sizes.read(words.sizes)), SHOWN if words.limit is None else words.limit
        )
        out = Printer(words, progress)
        if words.json:
            out.object(dict(found.as_object(), word="report"))
        else:
            out.lines(list(found.lines(out)))
    except BadInput as bad:
        raise BadInput("%s: %s" % (words.sizes, bad))
    except (KeyError, TypeError, ValueError, AttributeError):
        raise BadInput("%s: not the sizes of the script that was answered" % words.sizes)
    return 0


class Page:
    """What a report says of a store, at most so many lines of a kind."""

    def __init__(self, report: Dict[str, Any], measure: Measure, limit: int) -> None:
        self.report, self.measure, self.limit = report, measure, limit
        self.objects = goes(report, measure)
        self.removed = {kind: len(rows) for kind, rows in report["removed"].items()}
        self.removed["content"] = len(measure.content_rows(report))
        self.ended = [self.name(row) for row in report["removed"]["leases"]]
        self.images = [self.name(row) for row in report["removed"].get("images", ())]
        self.unread = [self.name(row) for row in report.get("ignored_images", ())]
        self.endless = endless(report, measure)

    def name(self, row: List[str]) -> str:
        """A namespace and the daemon's own name of a row in it."""
        return "%s/%s" % (row[0], self.measure.name(row[1]))

    def sizes(self, kind: str) -> List[Optional[int]]:
        """The bytes of each object of a kind."""
        return [size for of, size, _ in self.objects if of == kind]

    def lines(self, out: Printer) -> Iterator[str]:
        """The lines of the page."""
        told = ", ".join("%s of %ss" % (out.size(known(self.sizes(kind))), kind) for kind in KINDS)
        begin = "A collection would free" if self.report["dry"] else "The collection freed"
        total = known([size for _, size, _ in self.objects])
        yield Whole("%s %s: %s" % (begin, out.size(total), told))
        missing = [(unknown(self.sizes(kind)), kind) for kind in KINDS if unknown(self.sizes(kind))]
        if missing:
            texts = ["%d %s%s" % (number, kind, "s" * (number > 1)) for number, kind in missing]
            yield Whole("Not in it, since no one recorded their sizes: %s" % ", ".join(texts))
        yield Whole("Rows that go: %s" % counts(self.removed))
        yield Whole("Rows that stay: %s" % counts(self.measure.kept(self.report)))
        if self.objects:
            yield "The largest that go:"
        for kind, size, name in first(self.objects, self.limit):
            yield "%12s  %s %s" % (out.size(size), kind, printable(name))
        yield from and_more(len(self.objects), self.limit)
        yield from self.names("Leases that end", self.ended)
        yield from self.names("Leases that never end", ["%s (%s)" % one for one in self.endless])
        yield from self.names("Images that end", self.images)
        yield from self.names("Images that stay, since their expiry can't be read", self.unread)

    def names(self, title: str, names: List[str]) -> Iterator[str]:
        """A line with some names."""
        if names:
            more = (
                ", and %d more" % (len(names) - self.limit)
                if self.limit and len(names) > self.limit
                else ""
            )
            yield "%s: %s%s" % (
                title,
                ", ".join(printable(name) for name in first(names, self.limit)),
                more,
            )

    def as_object(self) -> Dict[str, Any]:
        """The page as the members of a JSON object."""
        return {
            "dry": self.report["dry"],
            "frees": {kind + "s": known(self.sizes(kind)) for kind in KINDS},
            "unknown": {kind + "s": unknown(self.sizes(kind)) for kind in KINDS},
            "rows_that_go": self.removed,
            "rows_that_stay": self.measure.kept(self.report),
            "objects_total": len(self.objects),
            "objects": [
                {"kind": kind, "bytes": size, "name": name}
                for kind, size, name in first(self.objects, self.limit)
            ],
            "images_that_end": self.images,
            "images_of_unreadable_expiry": self.unread,
            "leases_that_end": self.ended,
            "leases_that_never_end": [
                {"name": name, "reason": reason} for name, reason in self.endless
            ],
        }


def goes(report: Dict[str, Any], measure: Measure) -> List[Goes]:
    """Each object that goes, the largest first and those of unknown size last."""
    found: List[Goes] = [
        ("blob", size, measure.name(digest)) for digest, size in measure.blobs(report)
    ]
    for snapshotter, number, size in measure.snapshots(report):
        found.append(("snapshot", size, called(measure, number, snapshotter)))
    for number, size in measure.ingests(report):
        found.append(("ingest", size, called(measure, number)))
    return sorted(
        found, key=lambda item: (-1 if item[1] is None else item[1], item[0], item[2]), reverse=True
    )


def called(measure: Measure, number: int, *where: str) -> str:
    """What a number of the backend is: the row that owned it, or its name in the backend."""
    found = measure.sizes["numbers"][str(number)]
    if found["row"] is None:
        return " ".join(where + (found["backend"], "(of no row)"))
    return " ".join(where + (found["row"][0] + "/" + measure.name(found["row"][-1]),))


def counts(rows: Dict[str, int]) -> str:
    """How many rows of each kind."""
    return ", ".join("%s %d" % (kind, count) for kind, count in sorted(rows.items()))


def endless(report: Dict[str, Any], measure: Measure) -> List[Tuple[str, str]]:
    """The leases that never end, each with the reason."""
    found = [
        ("%s/%s" % (ns, measure.name(name)), "no expiry") for ns, name in measure.sizes["endless"]
    ]
    found += [
        ("%s/%s" % (ns, measure.name(name)), "its expiry can't be read")
        for ns, name in report["ignored"]
    ]
    return sorted(found)
