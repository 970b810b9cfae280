"""Which checks judge the wrong bodies, in which order, and what is told of them."""
from __future__ import annotations

import time
from typing import Dict, Iterator, List, NamedTuple, Optional, Tuple

from bodies import Body, next_check
from judging import Outcome, Workspace, judge
from verdicts import Crate, Verdict

# the bodies of the first check of a run that has an end, and of the last checks
FIRST, FEW = 32, 8


class Run(NamedTuple):
    """A run: the number of the last landing, the moment of its end, and whether the verdicts are
    written. In the gate only the named functions are checked, and what these call, since there the
    whole crate would be checked from nothing; and a body that was never refused doesn't fail."""

    number: int
    end: float
    is_kept: bool
    is_gate: bool


Turn = Tuple[Crate, List[Body]]


def in_order(crates: List[Crate], is_stale: bool) -> List[Turn]:
    """All bodies, or those without a verdict, crate by crate."""
    return [(it, it.without() if is_stale else it.bodies) for it in crates]


def oldest_first(crates: List[Crate], number: int) -> List[Turn]:
    """All bodies: first those without a verdict on today's text, of the crate first whose body was
    last judged the longest ago, on whatever text; then the others in the same order. Of equals
    those that rt ci doesn't try, and then another crate at each landing."""
    turns = []
    for at, crate in enumerate(crates):
        found: Dict[bool, List[Tuple[int, bool, Body]]] = {False: [], True: []}
        for body in crate.bodies:
            waiting = crate.last(body), body.is_in_gate, body
            found[crate.has_verdict(body)].append(waiting)
        for has_verdict, bodies in found.items():
            bodies.sort(key=lambda it: it[:2])
            if bodies:
                turn = (at - number) % len(crates)
                turns.append((has_verdict, *bodies[0][:2], turn, (crate, [it[2] for it in bodies])))
    return [it[-1] for it in sorted(turns, key=lambda it: it[:-1])]


class Pace:
    """How long bodies take in this run, so that no check is begun that is to be ended by the
    clock: of such a check nothing is known."""

    def __init__(self, end: float) -> None:
        self.end = end
        self.seconds, self.bodies = 0.0, 0

    def add(self, seconds: float, bodies: int) -> None:
        self.seconds, self.bodies = self.seconds + seconds, self.bodies + bodies

    def most(self) -> Optional[int]:
        """The bodies of the next check: as many as half of the time that is left is likely to be
        enough for, and a few at least; all if the run has no end."""
        left = self.end - time.time()
        if left > 1e6:
            return None
        return max(FEW, int(left / 2 * self.bodies / self.seconds)) if self.bodies else FIRST


def tell(crate: Crate, found: Outcome, run: Run) -> bool:
    """Prints what a check said of its bodies, writes it, and returns whether nothing is wrong."""
    is_right = True
    for bodies, text in found.failures:
        is_first = run.is_gate and not all(map(crate.ever_had, bodies))
        is_right = is_right and is_first
        how = "first verdict" if is_first else "FAILED"
        print(f"{crate.name}: {how}: {text}: {' '.join(bodies)}")
    for name, text in found.texts.items():
        new = Verdict(name, crate.sums[name], run.number, None, text)
        old = crate.verdicts.get(name)
        if old and old.sum == new.sum and old.differs(new):
            is_right = False
            print(f"{crate.name}: FAILED: {name}: the file says: {old.text}; now: {text}")
        print(f"verdict {crate.name} {new.line()}")
        if run.is_kept:
            crate.take(new)
    return is_right


def checks_of(work: Workspace, turn: Turn, run: Run, pace: Pace) -> Iterator[bool]:
    """Makes the checks of a crate's bodies, and says of each whether nothing is wrong."""
    crate, bodies = turn
    why = work.unproved(crate.name, run.end)
    if why:
        print(f"{crate.name}: FAILED: without a wrong body: {why}")
        yield False
    while bodies and not why and time.time() < run.end:
        check, bodies, _ = next_check(bodies, pace.most())
        if check.bodies:
            began = time.time()
            found = judge(work, crate.name, check, run.end, run.is_gate)
            seconds = time.time() - began
            pace.add(seconds, len(check.bodies))
            yield tell(crate, found, run)
            told = f"{len(found.texts)} of {len(check.bodies)} bodies have a verdict"
            ended = "" if found.has_time else ", ended by the clock"
            print(f"{crate.name}: {told} after {seconds:.0f} s{ended}", flush=True)


def make(turns: List[Turn], run: Run) -> List[str]:
    """Makes the checks in turn, prints the verdicts, and puts them into the files if they are to be
    kept. Returns the names of the crates in which something is wrong: in the gate these are only
    those where a body that was refused before isn't now."""
    failed: List[str] = []
    work, pace = Workspace(run.is_gate), Pace(run.end)
    try:
        for turn in turns:
            if turn[1] and time.time() < run.end:
                name = turn[0].name
                work.take_work(name)
                is_right = all(list(checks_of(work, turn, run, pace)))
                failed += [] if is_right or name in failed else [name]
                work.drop_work(name)
    finally:
        work.remove()
    return failed
