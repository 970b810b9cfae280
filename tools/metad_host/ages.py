"""How old rows are, by the times that they have: when they were made or changed, not when used."""
from __future__ import annotations

from typing import Optional

from .amounts import TIMES
from .numbers import SECOND, go_moment
from .rows import Group, Key
from .store import Store


def age(store: Store, key: Key) -> Optional[int]:
    """The nanoseconds since a row was made or changed; None where it has no time."""
    made = store.made.get(key)
    then, now = go_moment(made) if made else None, go_moment(store.at)
    return None if then is None or now is None else now - then


def of_group(store: Store, group: Group) -> Optional[int]:
    """The age of an image: that of its youngest name; None where one has no time."""
    found = [age(store, key) for key in group.keys]
    known = [one for one in found if one is not None]
    return min(known) if known and len(known) == len(found) else None


def told(nanoseconds: Optional[int]) -> str:
    """An age for people: 5 m, 3 h, 12 d."""
    if nanoseconds is None:
        return "of unknown age"
    seconds = max(nanoseconds, 0) // SECOND
    for unit in ("d", "h", "m"):
        if seconds >= 2 * TIMES[unit] or unit == "m":
            return "%d %s old" % (seconds // TIMES[unit], unit)
    return ""
