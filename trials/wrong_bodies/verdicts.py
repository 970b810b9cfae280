"""The last verdict on each wrong body, in verdicts/CRATE, and the number of landings, in landing.

A line of verdicts/CRATE is 'NAME SUM JUDGED MISSING VERDICT', sorted by name:
SUM      the checksum of what the verdict rests on (checksums.py), '-' where there never was one;
JUDGED   the number of the last landing when the body was judged;
MISSING  the number of the first landing whose text had no verdict on it, '-' where each has one;
VERDICT  'refused FUNCTION by GOAL,GOAL; FUNCTION by GOAL', '-' where there never was one.

The file landing has the number of the last landing, and the checksum of all bodies' sums in it.
'run --landing' raises it before a landing. So a clone without a history knows how long a body has
been without a verdict.

Two branches' lines are merged by taking both: of two lines of one body the one on today's text is
read, or else the one that was judged last.
"""
from __future__ import annotations

import os
import re
from typing import Dict, List, NamedTuple, Optional, Tuple

from bodies import HERE, Body, bodies_in, files_of
from checksums import listed, sum_of

FOLDER = f"{HERE}/verdicts"
LANDING = f"{HERE}/landing"
# at so many landings a body may have no verdict on its text
MOST_MISSING = 2
HEAD = "# NAME SUM JUDGED MISSING VERDICT (verdicts.py says what they are)"


class Verdict(NamedTuple):
    name: str
    sum: str
    judged: int
    missing: Optional[int]
    text: str

    def line(self) -> str:
        missing = "-" if self.missing is None else str(self.missing)
        return f"{self.name} {self.sum} {self.judged} {missing} {self.text}"

    def differs(self, other: "Verdict") -> bool:
        """Whether the two, of one text, name other functions, or for one of them no common goal."""
        here, there = goals_of(self.text), goals_of(other.text)
        return set(here) != set(there) or any(not here[it] & there[it] for it in here)


def goals_of(text: str) -> Dict[str, frozenset]:
    """The goals of each function that a verdict names."""
    parts = re.findall(r"([\w:+]+) by ([^;\s]+)", text)
    return {function: frozenset(goals.split(",")) for function, goals in parts}


def verdict_of(line: str) -> Verdict:
    name, checksum, judged, missing, text = line.split(" ", 4)
    return Verdict(name, checksum, int(judged), None if missing == "-" else int(missing), text)


def read_verdicts(crate: str, sums: Dict[str, str]) -> Dict[str, Verdict]:
    """The verdicts of a crate by their bodies' names, of bodies with these sums."""
    found: Dict[str, Verdict] = {}
    path = f"{FOLDER}/{crate}"
    if not os.path.exists(path):
        return found
    with open(path, encoding="utf-8") as file:
        for line in file.read().splitlines():
            if not line or line.startswith("#"):
                continue
            new = verdict_of(line)
            old = found.get(new.name)
            is_today = sums.get(new.name) == new.sum
            if old is None or (is_today, new.judged) > (sums.get(old.name) == old.sum, old.judged):
                found[new.name] = new
    return found


def write_verdicts(crate: str, verdicts: Dict[str, Verdict]) -> None:
    os.makedirs(FOLDER, exist_ok=True)
    lines = [HEAD] + [verdicts[name].line() for name in sorted(verdicts)]
    with open(f"{FOLDER}/{crate}", "w", encoding="utf-8") as file:
        file.write("\n".join(lines) + "\n")


def read_landing() -> Tuple[int, str]:
    """The number of the last landing, and the checksum of its bodies' sums."""
    if not os.path.exists(LANDING):
        return 0, "-"
    with open(LANDING, encoding="utf-8") as file:
        number, checksum = file.read().split()
    return int(number), checksum


class Crate:
    """The bodies of a crate, and their verdicts."""

    def __init__(self, name: str) -> None:
        self.name = name
        self.bodies: List[Body] = bodies_in(name)
        self.sums = {it.name: it.sum() for it in self.bodies}
        self.verdicts = read_verdicts(name, self.sums)

    def ever_had(self, name: str) -> bool:
        """Whether a body of this name was refused before, be it on another text."""
        return name in self.verdicts and self.verdicts[name].text != "-"

    def has_verdict(self, body: Body) -> bool:
        found = self.verdicts.get(body.name)
        return found is not None and found.sum == self.sums[body.name]

    def without(self) -> List[Body]:
        """The bodies without a verdict on today's text."""
        return [it for it in self.bodies if not self.has_verdict(it)]

    def last(self, body: Body) -> int:
        """When the body was judged last, on whatever text; -1 where it never was."""
        return self.verdicts[body.name].judged if self.ever_had(body.name) else -1

    def take(self, new: Verdict) -> None:
        self.verdicts[new.name] = new
        names = set(self.sums)
        write_verdicts(self.name, {it: of for it, of in self.verdicts.items() if it in names})


def all_crates() -> List[Crate]:
    """The crates with wrong bodies, lowest first."""
    return [Crate(it) for it in listed() if files_of(it)]


def sum_of_all(crates: List[Crate]) -> str:
    return sum_of([f"{it.name} {name} {of}" for it in crates for name, of in it.sums.items()])


def lasting(crate: Crate, number: int) -> List[Tuple[Body, int]]:
    """The bodies that had no verdict at landings up to this one, each with their count."""
    found = []
    for body in crate.without():
        missing = crate.verdicts[body.name].missing if body.name in crate.verdicts else None
        if missing is not None and missing <= number:
            found.append((body, number - missing + 1))
    return found


def look(crates: List[Crate], is_quiet: bool = False) -> bool:
    """Prints the bodies without a verdict on today's text, and returns whether none of them has had
    none for more landings than one may."""
    number, _ = read_landing()
    late, without = 0, 0
    for crate in crates:
        twice = len({it.name for it in crate.bodies}) < len(crate.bodies)
        if twice:
            print(f"{crate.name}: two wrong bodies have one name")
            late += 1
        missing = crate.without()
        without += len(missing)
        if missing and not is_quiet:
            names = " ".join(it.name for it in missing)
            print(f"{crate.name}: {len(missing)} of {len(crate.bodies)} without a verdict: {names}")
        for body, count in lasting(crate, number):
            if count > MOST_MISSING:
                late += 1
                print(f"{crate.name}: {body.name} has had no verdict at {count} landings")
    whole = sum(len(it.bodies) for it in crates)
    print(f"{whole - without} of {whole} wrong bodies have a verdict on today's text")
    return late == 0


def is_counted(crates: List[Crate]) -> bool:
    """Whether the last landing that was counted had today's text; or none was counted yet."""
    if not os.path.exists(LANDING) or read_landing()[1] == sum_of_all(crates):
        return True
    print("this landing isn't counted: trials/wrong_bodies/run --landing counts it")
    return False


def count_landing(crates: List[Crate]) -> bool:
    """Counts a landing of today's text: marks the bodies that have no verdict on it. Returns what
    look() then does."""
    number = read_landing()[0] + 1
    with open(LANDING, "w", encoding="utf-8") as file:
        file.write(f"{number} {sum_of_all(crates)}\n")
    for crate in crates:
        kept = {}
        for body in crate.bodies:
            old = crate.verdicts.get(body.name, Verdict(body.name, "-", 0, None, "-"))
            missing = None
            if not crate.has_verdict(body):
                missing = number if old.missing is None else old.missing
            kept[body.name] = old._replace(missing=missing)
        crate.verdicts = kept
        write_verdicts(crate.name, kept)
    print(f"landing {number}")
    return look(crates, is_quiet=True)


def take_lines(lines: List[str], crates: List[Crate]) -> None:
    """Puts the lines 'verdict CRATE LINE' of a run's output into the files, where they are of
    today's text."""
    by_name = {it.name: it for it in crates}
    taken = passed = 0
    for line in lines:
        found = re.match(r"verdict (\w+) (\S+ [0-9a-f]+ \d+ \S+ refused .*)$", line.rstrip())
        if not found:
            continue
        crate, new = by_name.get(found[1]), verdict_of(found[2])
        if crate and crate.sums.get(new.name) == new.sum:
            crate.take(new)
            taken += 1
        else:
            passed += 1
    print(f"{taken} verdicts are taken; {passed} are of another text")
