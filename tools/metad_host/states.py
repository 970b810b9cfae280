"""Which images are in use, which a lease holds, and which are free to go.

An image is used if something stands on it: from each active snapshot and view the way goes up the
parents to the first snapshot that is an image's top, and passes what is between, as Docker's
`-init`. An image that a container's row names is used too, also where the container stands on
another one, since its name moved on. A snapshot whose key begins with `extract-` is being unpacked:
it holds, and uses nothing.
"""
from __future__ import annotations

from typing import Dict, Iterator, List, NamedTuple, Optional, Set, Tuple

from .numbers import go_moment
from .rows import Group, Key
from .store import Store
from .versions import rules_of
from .walks import State as Walked
from .walks import below, is_root

USED, HELD, FREE = "used", "held", "free"
ORDER = (FREE, HELD, USED)
UNPACK = "extract-"
PAUSE = "/pause:"
NEVER = 1 << 100


class State(NamedTuple):
    """Whether an image is used, held or free, by what, until when, and whether it is pinned."""

    state: str
    by: List[Key]  # what uses it, or the lease or the snapshot that holds it
    until: Optional[str]  # of what holds it: None where it has no end
    pinned: bool

    def counts(self) -> bool:
        """Whether it may go."""
        return self.state == FREE and not self.pinned


class States:
    """The states of a store's images."""

    def __init__(self, store: Store, groups: List[Group]) -> None:
        self.store, self.rows = store, store.rows.rows
        self.groups = groups
        self.by_name = {key: place for place, group in enumerate(groups) for key in group.keys}
        self.tops: List[List[Key]] = [self.tops_of(group) for group in groups]
        self.of_top: Dict[Key, List[int]] = {}
        for place, tops in enumerate(self.tops):
            for top in tops:
                self.of_top.setdefault(top, []).append(place)
        self.first: Dict[Key, Optional[Key]] = {}  # of a snapshot: the first top from it upwards
        self.users: List[Dict[Key, bool]] = [{} for _ in groups]
        self.unpacks: List[List[Key]] = [[] for _ in groups]
        self.find_users()
        self.keeper = self.keepers()

    # what stands on an image

    def tops_of(self, group: Group) -> List[Key]:
        """The snapshots that the image's own rows and its content lead to by their labels."""
        found: Dict[Key, bool] = {}
        seen: Set[Key] = set(group.keys)
        todo = list(group.keys)
        while todo:
            key = todo.pop()
            row = self.rows[key]
            held = [row.member] if key[0] == "images" and row.member else []
            held += list(self.store.rows.references(key))
            for below_it in held:
                if below_it in seen or below_it not in self.rows:
                    continue
                seen.add(below_it)
                if below_it[0] == "content":
                    todo.append(below_it)
                else:
                    found[below_it] = True
        return list(found)

    def top_above(self, key: Key) -> Optional[Key]:
        """The first snapshot that is an image's top, from this one up its parents."""
        way: List[Key] = []
        at: Optional[Key] = key
        while at is not None and at not in self.first:
            if at in self.of_top:
                self.first[at] = at
                break
            way.append(at)
            parent = self.rows[at].member
            at = parent if parent in self.rows else None
        found = self.first[at] if at is not None else None
        for passed in way:
            self.first[passed] = found
        return found

    def find_users(self) -> None:
        """Finds what uses each image, and what is being unpacked over it."""
        owners: Dict[Key, Key] = {}
        for key, row in self.rows.items():
            if key[0] == "containers":
                if row.member:
                    owners[row.member] = key
                self.name_users(key)
        guessed = {int(number) for number in self.store.measure.sizes["guessed"]}
        for key, row in self.rows.items():
            if not key[0].startswith("snapshots/") or row.state not in ("active", "view"):
                continue
            start: Optional[Key] = key
            if row.number in guessed and key not in owners:  # it may be committed, a top by itself
                start = row.member if row.member in self.rows else None
            top = self.top_above(start) if start else None
            for place in self.of_top.get(top, ()) if top else ():
                if key[2].startswith(UNPACK) and key not in owners:
                    self.unpacks[place].append(key)
                else:
                    self.users[place][owners.get(key, key)] = True

    def name_users(self, container: Key) -> None:
        """A container uses the image that its row names."""
        image = self.store.image_of.get((container[1], container[2]))
        place = self.by_name.get(("images", container[1], image)) if image else None
        if place is not None:
            self.users[place][container] = True

    # what holds an image

    def keepers(self) -> Dict[Key, Key]:
        """Of each row the lease that keeps it longest, found in one pass from the last end on."""
        at = go_moment(self.store.at)
        assert at is not None
        rows = self.store.rows
        leases = [key for key in self.rows if key[0] == "leases" and is_root(rows, key, at)]
        leases.sort(key=self.end_of, reverse=True)
        images: Dict[Key, List[Walked]] = {}
        for ns, name, image in self.store.measure.sizes["leased"]:
            if ("images", ns, image) in self.rows:
                images.setdefault(("leases", ns, name), []).append((("images", ns, image), False))
        found: Dict[Key, Key] = {}
        seen: Set[Walked] = set()
        for lease in leases:
            todo: List[Walked] = [(lease, False)]
            while todo:
                state = todo.pop()
                for held in below(rows, state) + images.get(state[0], []):
                    if held in seen or (held[0], False) in seen:
                        continue
                    seen.add(held)
                    found.setdefault(held[0], lease)
                    todo.append(held)
        return found

    def end_of(self, lease: Key) -> int:
        """When a lease ends, beyond all moments where it doesn't."""
        end = self.store.rows.end(lease)
        return NEVER if end is None else end

    def until(self, lease: Key) -> Optional[str]:
        """The end of a lease as its label has it, None where it has none."""
        return None if self.end_of(lease) == NEVER else self.store.rows.expiry(lease)

    def holder(self, place: int) -> Optional[Key]:
        """The lease that keeps the image longest: its rows, its targets or its tops."""
        group = self.groups[place]
        keys = list(group.keys) + self.tops[place]
        keys += [row.member for row in map(self.rows.__getitem__, group.keys) if row.member]
        leases = [self.keeper[key] for key in keys if key in self.keeper]
        leases += [self.keeper[key] for key in self.unpacks[place] if key in self.keeper]
        return max(leases, key=self.end_of) if leases else None

    # the answer

    def state(self, place: int) -> State:
        """The state of the image of this place."""
        pinned = any(is_pinned(self.store, key) for key in self.groups[place].keys)
        if self.users[place]:
            return State(USED, list(self.users[place]), None, pinned)
        lease = self.holder(place)
        if lease is not None:
            return State(HELD, [lease] + self.unpacks[place], self.until(lease), pinned)
        if self.unpacks[place]:
            return State(HELD, self.unpacks[place], None, pinned)
        return State(FREE, [], None, pinned)

    def all(self) -> Iterator[Tuple[Group, State]]:
        """Each image with its state."""
        for place, group in enumerate(self.groups):
            yield group, self.state(place)


def is_pinned(store: Store, key: Key) -> bool:
    """Whether an image is pinned: by its label; by its name where the label may be unknown."""
    if (key[1], key[2]) in store.pinned:
        return True
    version, by = store.told
    if key[1] != "k8s.io" or by and rules_of(version).pinned:
        return False
    name, sandbox = store.text(key), store.daemon.sandbox_image
    return name == sandbox if sandbox else PAUSE in name

