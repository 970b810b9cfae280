"""What goes without each of many groups, by few plans.

Each group is removed in as many plans as each other group, and no two groups in the same ones. What
one group alone keeps goes in the plans in which that group is removed. What several groups keep
goes only in plans in which all of them are removed, and these are fewer. So the plans in which
something goes tell which group alone keeps it: six plans tell it of twenty groups, and sixteen of
12,870.
"""
from __future__ import annotations

import itertools
import math
from typing import Any, Dict, List, Tuple

from . import asking
from .asking import Metad
from .faults import BadInput
from .freed import NOTHING, Freed, Later
from .rows import Group, Key
from .store import Store

Code = Tuple[int, ...]  # the plans in which a group is removed


def codes(count: int) -> List[Code]:
    """For each of so many groups the plans in which it is removed: few plans, and few removals."""
    plans = size = 1
    while math.comb(plans, max(1, plans // 2)) < count:
        plans += 1
    while math.comb(plans, size) < count:
        size += 1
    return list(itertools.islice(itertools.combinations(range(plans), size), count))


def freed_without(metad: Metad, later: Later, store: Store, groups: List[Group]) -> List[Freed]:
    """For each group what goes beyond the collection without its rows; these are added again."""
    rows = [[key for key in group.keys if key not in later.gone] for group in groups]
    apart = [place for place, keys in enumerate(rows) if keys and is_apart(store, keys)]
    joint = [place for place, keys in enumerate(rows) if keys and not is_apart(store, keys)]
    own = codes(len(joint))
    removed: List[List[int]] = [[] for _ in range(max(itertools.chain(*own), default=-1) + 1)]
    for place, code in zip(joint, own):
        for plan in code:
            removed[plan].append(place)
    found = plans_without(metad, later, store, rows, removed + [[place] for place in apart])
    alone = dict(zip(apart, found[len(removed):]))
    alone.update(zip(joint, told_by(found[:len(removed)], own)))
    return [alone.get(place, NOTHING) for place in range(len(groups))]


def is_apart(store: Store, keys: List[Key]) -> bool:
    """Whether a lease holds images, or a lease holds these: such a thing goes for two reasons."""
    return any(key in store.held or key in store.rows.without for key in keys)


def plans_without(
    metad: Metad, later: Later, store: Store, rows: List[List[Key]], removed: List[List[int]]
) -> List[Freed]:
    """For each of these lists of groups what goes beyond the collection without their rows."""
    plan = asking.request("gc.plan", at=store.at)
    gone = later.gone
    removal = [[line for key in keys for line in store.removal(key, gone)] for keys in rows]
    again = [[line for key in keys for line in store.again(key, gone)] for keys in rows]
    lines: List[bytes] = []
    for places in removed:
        lines += [line for place in places for line in removal[place]] + [plan]
        lines += [line for place in places for line in again[place]]
    reports = metad.reports(lines + [plan])
    found = []
    for place in range(1, len(removed) + 1):
        store.progress.say("asking what goes without each, plan %d of %d" % (place, len(removed)))
        found.append(later.more(next(reports)))
    if any(later.more(next(reports))):
        raise BadInput("the last plan isn't the first: the store didn't come back to what it was")
    return found


def told_by(plans: List[Freed], own: List[Code]) -> List[Freed]:
    """For each of these codes what goes in its plans and in no others."""
    found = {code: Freed([], [], []) for code in own}
    for part in range(len(NOTHING)):
        places: Dict[Any, List[int]] = {}
        for place, freed in enumerate(plans):
            for item in dict.fromkeys(freed[part]):
                places.setdefault(item, []).append(place)
        for item, plans_of_item in places.items():
            code = tuple(plans_of_item)
            if code in found:
                items: List[Any] = found[code][part]
                items.append(item)
            elif len(code) >= len(own[0]):
                raise BadInput("plans of metad contradict each other")
    return list(found.values())
