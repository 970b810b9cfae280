"""What a report frees, and what a later one frees beyond it."""
from __future__ import annotations

from typing import Any, Dict, List, NamedTuple, Optional, Set, Tuple

from .sizes import Measure, known, unknown

Key = Tuple[str, str, str]
Size = Optional[int]


class Freed(NamedTuple):
    """The objects of the backends that go, each with its bytes, None where they aren't known."""

    blobs: List[Tuple[str, Size]]
    snapshots: List[Tuple[str, int, Size]]
    ingests: List[Tuple[int, Size]]

    def sizes(self) -> List[Size]:
        """The bytes of each object."""
        found = [size for _, size in self.blobs]
        found += [size for _, _, size in self.snapshots]
        return found + [size for _, size in self.ingests]

    def bytes(self) -> int:
        """The sum of those that are known."""
        return int(known(self.sizes()))

    def unknown(self) -> int:
        """How many aren't known."""
        return int(unknown(self.sizes()))


NOTHING = Freed([], [], [])


def gone_rows(report: Dict[str, Any]) -> Set[Key]:
    """The rows that a report removes."""
    removed = report["removed"]
    found = {
        ("snapshots/" + snapshotter, ns, name) for ns, snapshotter, name in removed["snapshots"]
    }
    for kind in ("content", "ingests", "leases", "images"):
        found.update((kind, ns, name) for ns, name in removed.get(kind, ()))
    return found


def awaited_by(measure: Measure) -> Dict[Key, List[str]]:
    """The blobs that each ingest waits for."""
    found: Dict[Key, List[str]] = {}
    for digest, rows in measure.sizes["awaited"].items():
        for ns, name in rows:
            found.setdefault(("ingests", ns, name), []).append(digest)
    return found


class Later:
    """What a collection freed; of later reports of the same store only what they free beyond it.

    A blob for which an ingest waits stays with that ingest, though a report names it: it goes where
    the ingest does.
    """

    def __init__(self, measure: Measure, report: Dict[str, Any]) -> None:
        self.measure, self.report = measure, report
        self.gone: Set[Key] = set()
        self.held: List[str] = []  # blobs that a report named, and that an ingest still waits for
        self.freed = self.advance(report)

    def more(self, report: Dict[str, Any]) -> Freed:
        """What this report frees beyond the collections before it."""
        return self.split(report)[0]

    def advance(self, report: Dict[str, Any]) -> Freed:
        """Takes in a further collection, and answers what it freed beyond those before."""
        found, self.held = self.split(report)
        self.gone |= gone_rows(report)
        return found

    def split(self, report: Dict[str, Any]) -> Tuple[Freed, List[str]]:
        """What goes beyond the collections before, and the blobs that an ingest holds back."""
        awaited = self.measure.sizes["awaited"]
        ended = {("ingests", ns, name) for ns, name in report["removed"]["ingests"]}
        blobs, held = [], []
        for digest in self.held + report["backend"]["blobs"]:
            waiting = [("ingests", ns, name) for ns, name in awaited.get(digest, ())]
            if any(key not in self.gone and key not in ended for key in waiting):
                held.append(digest)
            elif digest not in self.measure.between:
                blobs.append((digest, self.measure.sizes["blobs"].get(digest)))
        return Freed(blobs, self.measure.snapshots(report), self.measure.ingests(report)), held
