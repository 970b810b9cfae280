"""The images that may go: what stands on each, what goes without it, and without all of them."""
from __future__ import annotations

from typing import Any, Dict, Iterator, List, NamedTuple, Tuple

from . import orders
from .asking import Metad
from .commands import Commands
from .freed import Freed, Later
from .numbers import go_moment
from .printing import Printer, Whole, and_more, first
from .progress import Progress
from .remarks import printable
from .rows import Group, Key
from .states import FREE, HELD, ORDER, USED, State, States
from .store import Store
from .walks import Walks
from .without import freed_without

SHOWN = 20
COUNTED = (USED, HELD, FREE)


class Image(NamedTuple):
    """An image, what stands on it, and what goes without it."""

    group: Group
    state: State
    alone: Freed


def rank(group: Group, state: State) -> Tuple[bool, int, str, str]:
    """The order of images: those that may go first, pinned ones last."""
    return state.pinned, ORDER.index(state.state), group.ns, group.keys[0][2]


def largest(store: Store, found: List[Tuple[Group, State]], limit: int
            ) -> List[Tuple[Group, State]]:
    """The images that alone keep most, by walks; those that may go first."""
    at = go_moment(store.at)
    assert at is not None
    store.progress.say("looking for the largest of %d images" % len(found))
    every = store.rows.groups()
    walks = Walks(store.rows, store.measure, every, at)
    alone = dict(zip((group.keys[0] for group in every), walks.alone()))

    def order(item: Tuple[Group, State]) -> Tuple[Any, ...]:
        pinned, state, ns, name = rank(*item)
        return pinned, state, -alone[item[0].keys[0]], ns, name

    return list(first(sorted(found, key=order), limit))


def together(store: Store, later: Later, metad: Metad, groups: List[Group]) -> Freed:
    """What goes beyond the collection without any of these groups; they are gone after it."""
    store.progress.say("asking what goes without %d images together" % len(groups))
    keys = [key for group in groups for key in group.keys if key not in later.gone]
    metad.load([line for key in keys for line in store.removal(key, later.gone)])
    return later.more(metad.report("gc.plan", store.at))


def run(words: Any, progress: Progress) -> int:
    """Prints the page, or its object."""
    limit = SHOWN if words.limit is None else words.limit
    store = Store(words, progress)
    store.remark_shared_holds()
    groups = [group for group in store.rows.groups() if group.kind == "image"]
    every = list(States(store, groups).all())
    free = [group for group, state in every if state.counts()]
    if words.commands:
        return as_commands(words, store, progress, largest(store, every, 0), limit)
    with store.metad() as metad:
        later = store.collected(metad)
        shown = largest(store, every, limit)
        alone = freed_without(metad, later, store, [group for group, _ in shown])
        images = [Image(group, state, freed) for (group, state), freed in zip(shown, alone)]
        all_of_them = together(store, later, metad, free)
    images.sort(key=lambda image: rank(image.group, image.state)[:2] + (
        -image.alone.bytes(), image.group.ns, image.group.keys[0][2]))
    out = Printer(words, progress)
    counts = counted(every)
    if words.json:
        out.object(
            dict(
                store.head("prune"),
                images_total=len(every),
                names_total=sum(len(group.keys) for group, _ in every),
                **counts,
                frees=all_of_them.bytes(),
                frees_unknown=all_of_them.unknown(),
                images=[as_object(store, image) for image in images],
            )
        )
    else:
        out.lines(page(store, out, every, all_of_them, images, limit))
    return store.status()


def as_commands(
    words: Any, store: Store, progress: Progress, every: List[Tuple[Group, State]], limit: int
) -> int:
    """Prints the commands that remove free images, and as comments those for what isn't free."""
    groups = [group for group, state in every if state.counts()]
    commands = Commands(store)
    with store.metad() as metad:
        later = store.collected(metad)
        idle = orders.containers(store, later, metad, commands)
        held = orders.leases(store, later, metad, commands) if words.leases else []
        turn = orders.InTurn(store, later, metad)
        found = orders.images(store, turn, commands, first(groups, limit))
    total = sum(order.frees.bytes() for order in found)
    out = Printer(words, progress)
    if words.json:
        parts = {"images": found, "containers": idle, "leases": held}
        out.object(dict(
            store.head("commands"), frees=total, images_total=len(groups),
            **{part: [orders.as_object(order) for order in its] for part, its in parts.items()}
        ))
        return store.status()
    out.lines([Whole("# %d free images: these commands free %s together"
                     % (len(groups), out.size(total)))])
    out.lines(orders.lines(out, found, False, "frees"))
    out.lines("#" + line for line in and_more(len(groups), limit))
    if not store.daemon.state:
        out.lines([Whole("# the daemon isn't seen here: SOCKET and ROOT are its own, and which "
                         "containers run isn't known")])
    if idle:
        out.lines(["# containers without a task: with one goes its writable layer for good"])
        out.lines(orders.lines(out, idle, True, "frees"))
    if words.leases:
        out.lines(["# leases of over a day, but for those of Docker and of BuildKit"])
        out.lines(orders.lines(out, held, True, "holds alone"))
    return store.status()


def counted(every: List[Tuple[Group, State]]) -> Dict[str, int]:
    """How many images are in each state, the pinned ones apart."""
    found = {state + "_total": 0 for state in COUNTED}
    for _, state in every:
        if not state.pinned:
            found[state.state + "_total"] += 1
    return dict(found, pinned_total=sum(state.pinned for _, state in every))


def as_object(store: Store, image: Image) -> Dict[str, Any]:
    """An image as its JSON object."""
    members = [store.rows.rows[key].member for key in image.group.keys]
    targets = {store.measure.name(member[2]): True for member in members if member}
    return {
        "ns": image.group.ns,
        "targets": list(targets),
        "names": store.group_names(image.group),
        "state": image.state.state,
        "pinned": image.state.pinned,
        "by": [
            {"type": store.type(key), "name": store.text(key)} for key in image.state.by
        ],
        "until": image.state.until,
        "frees": image.alone.bytes(),
        "frees_unknown": image.alone.unknown(),
    }


def kind_of(store: Store, key: Key) -> str:
    """The kind of what uses or holds an image."""
    if key[0].startswith("snapshots/"):
        return key[0].replace("snapshots/", "snapshot ")
    return store.kind(key)


def why(store: Store, state: State) -> str:
    """What uses or holds an image, and until when."""
    if not state.by:
        return ""
    key = state.by[0]
    told = "%s %s" % (kind_of(store, key), printable(store.called(key).partition("/")[2]))
    if state.state == HELD and key[0] == "leases":
        told += " until %s" % state.until if state.until else " for ever"
    more = len(state.by) - 1
    return "  by %s%s" % (told, " and %d more" % more if more else "")


def page(
    store: Store,
    out: Printer,
    every: List[Tuple[Group, State]],
    all_of_them: Freed,
    images: List[Image],
    limit: int,
) -> Iterator[str]:
    """The lines of the page."""
    counts = counted(every)
    told = "%d images (%d names): %d used, %d held by a lease or an unpack, %d pinned, %d free"
    names = sum(len(group.keys) for group, _ in every)
    numbers = tuple(counts[state + "_total"] for state in (USED, HELD, "pinned", FREE))
    yield Whole(told % ((len(every), names) + numbers))
    yield Whole(
        "Without the free ones, on which no container and no writable layer stands, a collection "
        "frees %s more%s" % (out.size(all_of_them.bytes()), out.more_unknown(all_of_them.unknown()))
    )
    for image in images:
        state = image.state
        yield "%14s  %-6s  %s%s%s" % (
            out.size(image.alone.bytes()),
            "pinned" if state.pinned else state.state,
            store.group_name(image.group),
            out.more_unknown(image.alone.unknown()),
            why(store, state),
        )
    yield from and_more(len(every), limit)
