"""The wrong bodies of the crates, as their files have them.

The file promises.edit of a crate has, for each body, a line '-- ITS_NAME', a line
'refused: PATH::OF::FUNCTION' (or several), and the lines 'file:', 'old:' and 'new:' of rt's
must-fail edits. It stands in the crate's must-fail/, where rt ci tries it whole, or in
trials/wrong_bodies/CRATE/. Each other file of these folders is one body of the file's name, or has
bodies as promises.edit has. What can't stand beside the bodies before it, as two in one function,
goes into a further check.
"""
from __future__ import annotations

import os
from typing import Dict, List, Optional, Set, Tuple

from checksums import TOP, crate_sum, proofs_of, read, rust_tokens, sum_of
from places import Function, around, own_name

HERE = os.path.dirname(os.path.realpath(__file__))
# texts of a crate by their files
Texts = Dict[str, str]
# functions, each with its file
Places = Set[Tuple[str, Function]]


class Body:
    """A wrong body: the functions that are refused, and what it changes: a file, a text that stands
    in it once, and another."""

    def __init__(self, crate: str, name: str) -> None:
        self.crate, self.name = crate, name
        # rt ci tries the file in which it stands
        self.is_in_gate = False
        self.functions: Set[str] = set()
        self.changes: List[Tuple[str, str, str]] = []

    def put_into(self, texts: Texts) -> Optional[str]:
        """Changes the texts, or returns why it can't."""
        changed = dict(texts)
        for path, old, new in self.changes:
            if path not in changed:
                with open(f"{TOP}/crates/{self.crate}/{path}", encoding="utf-8") as file:
                    changed[path] = file.read()
            count = changed[path].count(old)
            if count != 1:
                return f"a text is in {path} {count} times: {old}"
            changed[path] = changed[path].replace(old, new)
        texts.update(changed)
        return None

    def places(self) -> Optional[Places]:
        """The functions in which its texts stand, or None if one stands in none that it names."""
        names = {own_name(it) for it in self.functions}
        found: Places = set()
        for path, old, _ in self.changes:
            functions = around(f"crates/{self.crate}/{path}", old)
            if not names & {it.name for it in functions}:
                return None
            found |= {(path, it) for it in functions}
        return found

    def sum(self) -> str:
        """The checksum of all that its verdict rests on."""
        places = self.places()
        parts = [crate_sum(self.crate, places is None), *sorted(self.functions), ""]
        for path, function in sorted(places or set()):
            text = read(f"crates/{self.crate}/{path}")[function.begin:function.end + 1]
            parts += [path, " ".join(rust_tokens(text)), *proofs_of(self.crate, function.name)]
        changes = ["\n".join(part.strip() for part in change) for change in self.changes]
        return sum_of([*parts, "", *changes])


def bodies_of(crate: str, file: str) -> List[Body]:
    with open(file, encoding="utf-8") as opened:
        lines = opened.read().split("\n")
    has_names = any(it.startswith("-- ") for it in lines)
    alone = Body(crate, os.path.basename(file)[:-len(".edit")])
    bodies, path, old = ([] if has_names else [alone]), "", ""
    for line in lines:
        word, _, rest = line.partition(" ")
        if word == "--":
            bodies.append(Body(crate, rest.strip()))
        elif word == "refused:":
            bodies[-1].functions.add(rest.strip())
        elif word == "file:":
            path = rest.strip()
        elif word == "old:":
            old = rest
        elif word == "new:":
            bodies[-1].changes.append((path, old, rest))
    return bodies


def files_of(crate: str) -> List[str]:
    """The files of a crate's wrong bodies, promises.edit first."""
    folders = [f"{TOP}/crates/{crate}/must-fail", f"{HERE}/{crate}"]
    found = [
        f"{folder}/{name}"
        for folder in folders
        if os.path.isdir(folder)
        for name in os.listdir(folder)
        if name.endswith(".edit")
    ]
    return sorted(found, key=lambda it: (not it.endswith("/promises.edit"), it))


def bodies_in(crate: str) -> List[Body]:
    found = []
    for file in files_of(crate):
        for body in bodies_of(crate, file):
            body.is_in_gate = "/must-fail/" in file
            found.append(body)
    return found


class Check:
    """Bodies that are put into the crate at once, and the texts that they change."""

    def __init__(self) -> None:
        self.bodies: List[Body] = []
        self.texts: Texts = {}
        self.functions: Set[str] = set()
        self.places: Optional[Places] = set()

    def has_place(self, body: Body, places: Optional[Places]) -> bool:
        """Whether the check would tell of each of its functions by which body it is refused."""
        if not self.bodies:
            return True
        if self.places is None or places is None:
            return False
        return not (self.functions & body.functions or self.places & places)

    def take(self, body: Body, places: Optional[Places]) -> Optional[str]:
        """Adds a body, or returns why it can't."""
        why = body.put_into(self.texts)
        if not why:
            self.bodies.append(body)
            self.functions |= body.functions
            self.places = None if self.places is None or places is None else self.places | places
        return why


def next_check(
    bodies: List[Body], most: Optional[int] = None
) -> Tuple[Check, List[Body], List[str]]:
    """A check of as many of these bodies as have a place in it, of at most so many; the others; and
    why some have a place in none."""
    check, rest, failures = Check(), [], []
    for body in bodies:
        places = body.places()
        if not body.functions:
            failures.append(f"{body.name}: it names no function that is refused")
        elif len(check.bodies) == most or not check.has_place(body, places):
            rest.append(body)
        else:
            why = check.take(body, places)
            if why and check.bodies:
                rest.append(body)
            elif why:
                failures.append(f"{body.name}: {why}")
    return check, rest, failures


def in_checks(bodies: List[Body]) -> Tuple[List[Check], List[str]]:
    """The bodies in as few checks as they come, and why some have no place."""
    checks: List[Check] = []
    failures: List[str] = []
    while bodies:
        check, bodies, why = next_check(bodies)
        failures += why
        if check.bodies:
            checks.append(check)
    return checks, failures
