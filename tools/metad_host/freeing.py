"""Commands that together surely free so many bytes, with few bytes to pull again.

Images are tried in the order of what they cost to pull again for what goes with them, each step by
metad; then each that isn't needed is left out. Nothing counts on a lease: what one holds stays.
"""
from __future__ import annotations

from typing import Any, Iterator, List, NamedTuple, Optional, Tuple

from . import ages, orders
from .asking import Metad
from .commands import Commands
from .freed import Freed
from .numbers import go_moment
from .printing import Printer, Whole
from .progress import Progress
from .rows import CRI, Group
from .states import States
from .store import Store
from .walks import Walks

KUBELET = (
    "kubelet removes unused images by itself too; images that were loaded by hand don't come back"
)


class Plan(NamedTuple):
    """Images to remove, what goes with each in turn, and what has to be pulled again for them."""

    groups: List[Group]
    freed: List[Freed]

    def bytes(self) -> int:
        """What goes with all."""
        return sum(freed.bytes() for freed in self.freed)

    def pulls(self) -> int:
        """The bytes of blobs that go: who wants the images again pulls these."""
        return sum(size or 0 for freed in self.freed for _, size in freed.blobs)


def candidates(store: Store, older: Optional[int]) -> List[Group]:
    """The free images that have a command, are old enough, and cost least first."""
    groups = [group for group in store.rows.groups() if group.kind == "image"]
    commands = Commands(store)
    free = []
    for group, state in States(store, groups).all():
        age = ages.of_group(store, group)
        if state.counts() and commands.image(group).text:
            if older is None or age is not None and age >= older:
                free.append(group)
    at = go_moment(store.at)
    assert at is not None
    every = store.rows.groups()
    walks = Walks(store.rows, store.measure, every, at)
    alone = dict(zip((group.keys[0] for group in every), walks.alone()))
    kept = dict(zip((group.keys[0] for group in free), costs(store, free)))

    def order(group: Group) -> Tuple[float, int, str, str]:
        key = group.keys[0]
        return kept[key] / (alone[key] or 0.5), -alone[key], group.ns, key[2]

    return sorted(free, key=order)


def costs(store: Store, groups: List[Group]) -> Iterator[int]:
    """The bytes of the content of each image, which a pull brings again."""
    for group in groups:
        seen = {row.member for row in map(store.rows.rows.__getitem__, group.keys) if row.member}
        todo = list(seen)
        while todo:
            key = todo.pop()
            for held in store.rows.references(key) if key in store.rows.rows else ():
                if held[0] == "content" and held not in seen:
                    seen.add(held)
                    todo.append(held)
        sizes = store.measure.sizes["blobs"]
        yield sum(sizes.get(key[2]) or 0 for key in seen)


class Trial:
    """A run of metad in which images are removed and added again."""

    def __init__(self, store: Store, metad: Metad) -> None:
        self.store, self.metad = store, metad
        self.later = store.collected(metad)

    def in_turn(self, groups: List[Group], enough: int) -> Plan:
        """Removes images up to the first with which it is enough; they are gone then."""
        turn = orders.InTurn(self.store, self.later, self.metad)
        found = Plan([], [])
        for place, group in enumerate(groups, 1):
            self.store.progress.say("asking what goes in turn, %d of %d" % (place, len(groups)))
            found.groups.append(group)
            found.freed.append(turn.remove(group))
            if found.bytes() >= enough:
                break
        return found

    def again(self, group: Group) -> None:
        """Adds an image again."""
        keys = [key for key in group.keys if key not in self.later.gone]
        self.metad.load([line for key in keys for line in self.store.again(key, self.later.gone)])

    def can_stay(self, group: Group, enough: int) -> bool:
        """Whether enough goes without an image's removal; then it is there again."""
        self.again(group)
        if self.later.more(self.metad.report("gc.plan", self.store.at)).bytes() >= enough:
            return True
        keys = [key for key in group.keys if key not in self.later.gone]
        self.metad.load(
            [line for key in keys for line in self.store.removal(key, self.later.gone)]
        )
        return False


def least(store: Store, groups: List[Group], enough: int) -> Plan:
    """Images whose removal frees enough, none of which can be left out."""
    with store.metad() as metad:
        trial = Trial(store, metad)
        found = trial.in_turn(groups, enough)
        if found.bytes() < enough:
            return found
        cost = dict(zip((group.keys[0] for group in found.groups), costs(store, found.groups)))
        needed = list(found.groups)
        for group in sorted(found.groups, key=lambda group: -cost[group.keys[0]]):
            store.progress.say("asking which are needed, %d left" % len(needed))
            if trial.can_stay(group, enough):
                needed.remove(group)
        for group in needed:
            trial.again(group)
        return trial.in_turn(needed, enough)


def run(words: Any, progress: Progress) -> int:
    """Prints the commands, or how much can be freed."""
    store = Store(words, progress)
    store.remark_shared_holds()
    groups = candidates(store, words.older_than)
    found = least(store, groups, words.size) if groups else Plan([], [])
    commands = Commands(store)
    steps = [
        orders.Order(group.ns, store.group_names(group), ages.of_group(store, group),
                     commands.image(group), freed)
        for group, freed in zip(found.groups, found.freed)
    ]
    if any(group.ns == CRI for group in found.groups):
        store.notes.append(KUBELET)
    is_enough = found.bytes() >= words.size
    out = Printer(words, progress)
    if words.json:
        out.object(dict(
            store.head("free"), asked=words.size, frees=found.bytes(), is_enough=is_enough,
            pulls_again=found.pulls(), images=[orders.as_object(step) for step in steps]))
    else:
        out.lines(page(out, words.size, found, steps, is_enough))
    return store.status() or (0 if is_enough else 1)


def page(out: Printer, size: int, found: Plan, steps: List[orders.Order], is_enough: bool
         ) -> Iterator[str]:
    """The lines of the page."""
    if not is_enough:
        told = "# %s can't be freed: without all free images of this age %s go"
        yield Whole(told % (out.size(size), out.size(found.bytes())))
    else:
        told = "# with %d image%s %s go; to have them again %s are pulled"
        numbers = (len(steps), "s" * (len(steps) != 1))
        yield Whole(told % (numbers + (out.size(found.bytes()), out.size(found.pulls()))))
    yield from orders.lines(out, steps, False, "frees")
