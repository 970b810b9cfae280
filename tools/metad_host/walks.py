"""Which groups keep which rows, by walks over the references: they rank, and metad answers.

A walk is at a row in full, or flat, where the row's labels aren't followed.
"""
from __future__ import annotations

from typing import Dict, List, Optional, Sequence, Set, Tuple

from .freed import awaited_by
from .numbers import go_moment
from .rows import FLAT, ROOT, Group, Key, Rows
from .sizes import Measure

State = Tuple[Key, bool]  # a row, and whether flat
OWNERS = ("images", "containers", "leases")  # rows that own no object
OTHER = -1  # a root that is no group
MANY = -2  # more than one root
MOST_STEPS = 20000000  # of all walks from one group each


def is_root(rows: Rows, key: Key, at: int) -> bool:
    """Whether a row is a root at this moment in nanoseconds."""
    row = rows.rows[key]
    if key in rows.without:
        end = go_moment(rows.without[key]) if rows.without[key] else None
        return end is None or at <= end
    if key[0] in ("images", "leases"):
        end = rows.end(key)
        return end is None or at <= end
    if key[0] == "ingests":
        end = rows.end(key)
        return end is not None and at <= end
    return key[0] == "containers" or ROOT in row.labels


def below(rows: Rows, state: State) -> List[State]:
    """The states that the references of a state lead to; a row that isn't there is none."""
    key, flat = state
    row = rows.rows[key]
    if key[0] == "leases":
        flat = FLAT in row.labels
        found = [(held, flat and held[0] not in ("ingests", "images")) for held in row.holds]
    else:
        found = [(row.member, flat and key[0].startswith("snapshots/"))] if row.member else []
        if row.labels and not flat and key[0] != "ingests":
            found += [(held, False) for held in rows.references(key)]
    return [held for held in found if held[0] in rows.rows]


class Walks:
    """For each group the bytes of what it keeps, and of what it alone keeps."""

    def __init__(self, rows: Rows, measure: Measure, groups: List[Group], at: int) -> None:
        self.rows, self.measure = rows, measure
        self.awaited = awaited_by(measure)
        self.edges: Dict[State, List[State]] = {}
        self.roots = [[key for key in group.keys if is_root(rows, key, at)] for group in groups]
        self.others = [
            key
            for key, row in rows.rows.items()
            if (ROOT in row.labels or key[0] == "ingests")
            and key[0] not in OWNERS
            and is_root(rows, key, at)
        ]

    def next(self, state: State) -> Sequence[State]:
        """What a state leads to, found once; most rows are content that leads to nothing."""
        key = state[0]
        if key[0] == "content" and not self.rows.rows[key].labels:
            return ()
        found = self.edges.get(state)
        if found is None:
            found = self.edges[state] = below(self.rows, state)
        return found

    def alone(self) -> List[int]:
        """The bytes that each group alone keeps: no row of these is reached from another root."""
        rows = self.rows.rows
        full: Dict[Key, int] = {}
        flat: Dict[Key, int] = {}
        owners = (full, flat)  # of the rows that were reached, by whether they were reached flat
        todo: List[State] = []
        for number, keys in [(OTHER, self.others)] + list(enumerate(self.roots)):
            held: Sequence[State] = [(key, False) for key in keys]
            while True:
                for state in held:
                    key, is_flat = state
                    owner = owners[is_flat]
                    before = owner.get(key)
                    if before is None:
                        owner[key] = number
                    elif before == number or before == MANY:
                        continue
                    else:
                        owner[key] = MANY
                    if key[0] != "content" or rows[key].labels:
                        todo.append(state)
                if not todo:
                    break
                state = todo.pop()
                number = owners[state[1]][state[0]]
                held = self.next(state)
        of_row = full
        for key, number in flat.items():
            if of_row.setdefault(key, number) != number:
                of_row[key] = MANY
        found = [0] * len(self.roots)
        for size, number in self.objects(of_row):
            found[number] += size
        return found

    def objects(self, of_row: Dict[Key, int]) -> List[Tuple[int, int]]:
        """The bytes of each object that one group alone keeps, with that group's number."""
        found: List[Tuple[int, int]] = []
        blobs: Dict[str, int] = {}
        for key, number in of_row.items():
            if key[0] == "content":
                if blobs.setdefault(key[2], number) != number:
                    blobs[key[2]] = MANY
            elif number >= 0 and key[0] not in OWNERS:
                found.append((self.size(key), number))
        for digest, rows in self.measure.sizes["awaited"].items():
            for ns, name in rows:
                waits = of_row.get(("ingests", ns, name))
                if waits is not None and blobs.setdefault(digest, waits) != waits:
                    blobs[digest] = MANY
        return found + [(self.blob(it), number) for it, number in blobs.items() if number >= 0]

    def size(self, key: Key) -> int:
        """The bytes of a snapshot or an ingest, 0 where they aren't known."""
        kind, number = key[0], str(self.rows.rows[key].number)
        if kind == "ingests":
            waits = int(number) in self.measure.waiting
            return 0 if waits else self.measure.sizes["ingests"].get(number) or 0
        return (
            self.measure.sizes["snapshots"].get(number) or 0 if kind.startswith("snapshots/") else 0
        )

    def blob(self, digest: str) -> int:
        """The bytes of a blob, 0 where they aren't known, and of a row between."""
        return 0 if digest in self.measure.between else self.measure.sizes["blobs"].get(digest) or 0

    def kept(self) -> List[Optional[int]]:
        """The bytes that each group keeps as the only root; None where walks grew too long."""
        found: List[Optional[int]] = []
        steps = 0
        for keys in self.roots:
            if steps > MOST_STEPS:
                found.append(None)
                continue
            seen: Set[State] = {(key, False) for key in keys}
            todo = list(seen)
            while todo:
                for held in self.next(todo.pop()):
                    if held not in seen:
                        seen.add(held)
                        todo.append(held)
            steps += len(seen)
            found.append(self.sum({key for key, _ in seen}))
        return found

    def sum(self, keys: Set[Key]) -> int:
        """The bytes of what these rows own, a blob once, with the blobs that ingests wait for."""
        blobs = {key[2] for key in keys if key[0] == "content"}
        for key in keys:
            if key[0] == "ingests":
                blobs.update(self.awaited.get(key, ()))
        return sum(map(self.blob, blobs)) + sum(
            self.size(key) for key in keys if key[0] != "content"
        )
