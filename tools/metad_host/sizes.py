"""The file of sizes beside a script: what metad's report names, in bytes and the daemon's words.

A JSON object of these members:

- `form`: 1;
- `blobs`: bytes of each blob, by its digest;
- `snapshots`, `ingests`: bytes of each object of the backend by its number, null where no one
  recorded them;
- `numbers`: what each number is: the kind, the name in the backend, and the row, null where no row
  owns it; of a snapshot also its state, and its folder such as `overlayfs/4711`, null where that
  isn't known;
- `renamed`: the daemon's own text for each name or digest that the script has in its place;
- `between`: digests of rows that only carry references of others;
- `awaited`: ingests that wait for a blob, as `[ns, name]` by its digest: while one stays, so does
  the blob;
- `waiting`: numbers of ingests that have no object of their own, since they wait for a shared blob;
- `endless`: `[ns, id]` of leases without an expiry;
- `sandboxes`: `[ns, name]` of containers of the script that are sandboxes;
- `uses`: `[ns, container, image]` of containers that name their image;
- `held`: `[ns, lease, image, without, with]` of images that a lease keeps longer: their `gc.expire`
  without that lease, and the script's own, empty where it has none;
- `led`: `[ns, image, kind, name]` of images that the label of a row keeps longer;
- `leased`: `[ns, lease, image]` of images that a lease holds;
- `pinned`: `[ns, image]` of images that are pinned by their label;
- `people`: `[ns, container, text]`: what people call a container, by its labels;
- `owners`: `[type, ns, name, tool]` of images and containers of nerdctl, and of pods' sandboxes;
- `made`: `[type, ns, name, time]`: when an image, container, lease or ingest was made or changed;
- `guessed`: numbers of snapshots whose state was guessed;
- `containerd`: the version that was told and who told it, empty texts where it was guessed, and the
  line of versions whose rules counted.

A file of an older tool lacks those from `sandboxes` on.
"""
from __future__ import annotations

import json
from typing import Any, Dict, Iterable, List, Optional, Set, Tuple

from .faults import BadInput

FORM = 1
LISTS = ("between", "waiting", "endless")
# an older file has none of these
LATER_LISTS = (
    "sandboxes", "uses", "held", "led", "leased", "pinned", "people", "owners", "made",
    "guessed", "containerd",
)
OBJECTS = ("blobs", "snapshots", "ingests", "numbers", "renamed", "awaited")


def empty() -> Dict[str, Any]:
    """Sizes of nothing."""
    found: Dict[str, Any] = {"form": FORM}
    found.update((name, {}) for name in OBJECTS)
    found.update((name, []) for name in LISTS + LATER_LISTS)
    return found


def write(path: str, sizes: Dict[str, Any]) -> None:
    """Writes the file."""
    with open(path, "w", encoding="utf-8") as file:
        json.dump(sizes, file)
        file.write("\n")


def is_sizes(found: object) -> bool:
    """Whether a JSON value has the members of this form."""
    if not isinstance(found, dict) or found.get("form") != FORM:
        return False
    lists = LISTS + tuple(name for name in LATER_LISTS if name in found)
    return (all(isinstance(found.get(name), dict) for name in OBJECTS)
            and all(isinstance(found.get(name), list) for name in lists))


def read(path: str) -> Dict[str, Any]:
    """Reads the file, and refuses another one."""
    with open(path, "rb") as file:
        try:
            found = json.loads(file.read().decode())
        except (ValueError, RecursionError):
            raise BadInput("no file of sizes: it isn't JSON") from None
    if not is_sizes(found):
        raise BadInput("no file of sizes: `export --sizes` writes one")
    return dict(empty(), **found)


class Measure:
    """What the objects of a report are in bytes."""

    def __init__(self, sizes: Dict[str, Any]) -> None:
        self.sizes = sizes
        self.between: Set[str] = set(sizes["between"])
        self.waiting: Set[int] = set(sizes["waiting"])

    def blobs(self, report: Dict[str, Any]) -> List[Tuple[str, Optional[int]]]:
        """Each blob that goes, with its bytes, None where they aren't known.

        Not those that an ingest which stays waits for.
        """
        gone = {tuple(row) for row in report["removed"]["ingests"]}
        found = []
        for digest in report["backend"]["blobs"]:
            waiting = self.sizes["awaited"].get(digest, ())
            awaited = any(tuple(row) not in gone for row in waiting)
            if digest not in self.between and not awaited:
                found.append((digest, self.sizes["blobs"].get(digest)))
        return found

    def snapshots(self, report: Dict[str, Any]) -> List[Tuple[str, int, Optional[int]]]:
        """Each snapshot of the backend that goes: snapshotter, number, and bytes where known."""
        return [(snapshotter, number, self.sizes["snapshots"].get(str(number)))
                for snapshotter, number in report["backend"]["snapshots"]]

    def ingests(self, report: Dict[str, Any]) -> List[Tuple[int, Optional[int]]]:
        """Each ingest of the backend that goes, with its bytes where they are known.

        Not those without an object.
        """
        return [(number, self.sizes["ingests"].get(str(number)))
                for number in report["backend"]["ingests"] if number not in self.waiting]

    def content_rows(self, report: Dict[str, Any]) -> List[List[str]]:
        """The rows of content that go, those apart that only carry references."""
        return [row for row in report["removed"]["content"] if row[1] not in self.between]

    def kept(self, report: Dict[str, Any]) -> Dict[str, int]:
        """How many rows of each kind stay, those apart that only carry references.

        Sandboxes, which are containers of the script, are a kind of their own where there are any.
        """
        kept = dict(report["kept"])
        carriers = len(report["removed"]["content"]) - len(self.content_rows(report))
        kept["content"] -= len(self.between) - carriers
        sandboxes = len(self.sizes["sandboxes"])
        if sandboxes:
            kept["containers"] -= sandboxes
            kept["sandboxes"] = sandboxes
        return kept

    def name(self, text: str) -> str:
        """The daemon's own text for a name of the script."""
        return str(self.sizes["renamed"].get(text, text))


def known(sizes: Iterable[Optional[int]]) -> int:
    """The sum of the known among these sizes."""
    return sum(size for size in sizes if size is not None)


def unknown(sizes: Iterable[Optional[int]]) -> int:
    """How many of these sizes aren't known."""
    return sum(size is None for size in sizes)


def human(size: float) -> str:
    """Bytes in decimal units, one place after the point."""
    if size < 1000:
        return "%d B" % size
    unit = "kB"
    for unit in ("kB", "MB", "GB", "TB"):
        size /= 1000
        if size < 999.95:
            break
    return "%.1f %s" % (size, unit)
