"""The commands of `prune --commands` and `free`, as lines that may be pasted whole.

Only commands that remove free images stand there as they are. All others are comments: a container
has a writable layer, and a lease may be someone's.
"""
from __future__ import annotations

import os
import shlex
from typing import Any, Dict, Iterator, List, NamedTuple, Optional, Set

from . import ages
from .asking import Metad
from .commands import MOBY, NO_LEASES, Command, Commands
from .freed import Freed, Later
from .numbers import DAY, go_moment
from .printing import Printer, Whole
from .remarks import printable
from .rows import Group, Key
from .store import Store
from .walks import is_root
from .without import freed_without

TASKS = ("io.containerd.runtime.v2.task", "io.containerd.runtime.v1.linux")


class Order(NamedTuple):
    """A command, what it is for, how old that is, and what the command frees."""

    ns: str
    names: List[str]
    age: Optional[int]
    command: Command
    frees: Freed


class InTurn:
    """Removals one after the other, in a run of metad: what each frees beyond those before it."""

    def __init__(self, store: Store, later: Later, metad: Metad) -> None:
        self.store, self.later, self.metad = store, later, metad
        self.blobs: Set[str] = set()
        self.numbers: Set[int] = set()
        self.gone: Set[Key] = set(later.gone)

    def remove(self, group: Group) -> Freed:
        """Removes a group, and answers what goes with it now."""
        keys = [key for key in group.keys if key not in self.gone]
        self.metad.load([line for key in keys for line in self.store.removal(key, self.gone)])
        self.gone.update(keys)
        whole = self.later.more(self.metad.report("gc.plan", self.store.at))
        found = Freed(
            [item for item in whole.blobs if item[0] not in self.blobs],
            [item for item in whole.snapshots if item[1] not in self.numbers],
            [item for item in whole.ingests if item[0] not in self.numbers],
        )
        self.blobs.update(digest for digest, _ in found.blobs)
        self.numbers.update(number for _, number, _ in found.snapshots)
        self.numbers.update(number for number, _ in found.ingests)
        return found


def images(store: Store, turn: InTurn, commands: Commands, groups: List[Group]) -> List[Order]:
    """The commands that remove these images, one after the other."""
    found = []
    for place, group in enumerate(groups, 1):
        command = commands.image(group)
        store.progress.say("asking what goes in turn, %d of %d" % (place, len(groups)))
        frees = turn.remove(group) if command.text else Freed([], [], [])
        names, age = store.group_names(group), ages.of_group(store, group)
        found.append(Order(group.ns, names, age, command, frees))
    return found


def has_task(store: Store, key: Key) -> bool:
    """Whether a container has a task: a folder of the daemon's state."""
    state = store.daemon.state
    return any(os.path.isdir(os.path.join(state, tasks, key[1], key[2])) for tasks in TASKS)


def idle(store: Store) -> List[Key]:
    """The containers without a task; none where the daemon isn't known."""
    if not store.daemon.state:
        return []
    every = (key for key in store.rows.rows if key[0] == "containers")
    return [key for key in every if store.type(key) == "containers" and not has_task(store, key)]


def stopped(store: Store) -> List[Key]:
    """Docker's stopped containers: writable snapshots of 64 digits that no container's row has."""
    rows = store.rows.rows
    owned = {row.member for key, row in rows.items() if key[0] == "containers"}
    return [
        key for key, row in rows.items()
        if key[0].startswith("snapshots/") and key[1] == MOBY and row.state == "active"
        and key not in owned and len(key[2]) == 64 and not set(key[2]) - set("0123456789abcdef")
    ]


def containers(store: Store, later: Later, metad: Metad, commands: Commands) -> List[Order]:
    """The commands that remove containers without a task."""
    found = []
    keys = idle(store)
    groups = [Group("container", key[1], [key]) for key in keys]
    for key, frees in zip(keys, freed_without(metad, later, store, groups)):
        called = store.called(key).partition("/")[2]
        found.append(Order(key[1], [called], ages.age(store, key), commands.container(key), frees))
    for key in stopped(store):
        number = store.rows.rows[key].number
        size = store.measure.sizes["snapshots"].get(str(number))
        frees = Freed([], [(key[0].partition("/")[2], number, size)], [])
        found.append(Order(key[1], [key[2]], None, commands.container(key), frees))
    return sorted(found, key=lambda order: (-order.frees.bytes(), order.ns, order.names))


def leases(store: Store, later: Later, metad: Metad, commands: Commands) -> List[Order]:
    """The commands that remove leases, but for young ones, and those of Docker and of BuildKit."""
    at = go_moment(store.at)
    assert at is not None
    keys = []
    for key in store.rows.rows:
        age = ages.age(store, key)
        if key[0] == "leases" and key[1] not in NO_LEASES and is_root(store.rows, key, at):
            keys += [key] if age is not None and age > DAY else []
    groups = [Group("lease", key[1], [key]) for key in keys]
    found = [
        Order(key[1], [store.text(key)], ages.age(store, key), commands.lease(key), frees)
        for key, frees in zip(keys, freed_without(metad, later, store, groups))
    ]
    return sorted(found, key=lambda order: (-order.frees.bytes(), order.ns, order.names))


def as_object(order: Order) -> Dict[str, Any]:
    """A command as its JSON object."""
    return {
        "ns": order.ns,
        "names": order.names,
        "age_seconds": None if order.age is None else order.age // 10**9,
        "command": order.command.text,
        "why_not": order.command.why_not,
        "frees": order.frees.bytes(),
        "frees_unknown": order.frees.unknown(),
    }


def lines(out: Printer, orders: List[Order], are_comments: bool, frees: str) -> Iterator[str]:
    """The commands, each below a comment that says what it is for."""
    for order in orders:
        size = out.size(order.frees.bytes()) + out.more_unknown(order.frees.unknown())
        name = shlex.quote(printable("%s/%s" % (order.ns, order.names[0])))
        more = " and %d more" % (len(order.names) - 1) if len(order.names) > 1 else ""
        yield Whole("# %s %s: %s%s, %s" % (frees, size, name, more, ages.told(order.age)))
        if order.command.text is None:
            yield Whole("# no command: %s" % shlex.quote(order.command.why_not))
        else:
            yield Whole(("# " if are_comments else "") + order.command.text)
