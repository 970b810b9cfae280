"""What goes without each of many groups: the plans in which each is removed, and what they tell."""
import json
import random
import unittest

import tools
from metad_host.faults import BadInput
from metad_host.freed import Freed, Later
from metad_host.rows import EXPIRE, OPS
from metad_host.without import codes, freed_without, told_by

AT, ENDED, LATER = "2024-03-01T00:00:00Z", "2024-02-01T00:00:00Z", "2024-04-01T00:00:00Z"
TYPES = {op: (kind, member) for kind, (op, member) in OPS.items()}


def report(blobs):
    return {"removed": {"content": [], "ingests": [], "leases": [], "snapshots": []},
            "backend": {"blobs": sorted(blobs), "ingests": [], "snapshots": []}}


class Metad:
    """Stands for metad: `kept` are the blobs with the rows that keep each; a row that is gone or over keeps none."""

    def __init__(self, kept):
        self.kept, self.plans = kept, 0

    def reports(self, lines):
        gone, over = set(), set()
        for line in lines:
            asked = json.loads(line.decode())
            if asked["op"] == "gc.plan":
                self.plans += 1
                yield report(blob for blob, keepers in self.kept.items() if keepers <= gone | over)
                continue
            kind, _, verb = asked["op"].partition(".")
            key = (TYPES[kind][0], asked["ns"], asked[TYPES[kind][1]])
            if verb == "remove":
                gone.add(key)
            elif verb == "add":
                gone.remove(key)
            else:
                assert verb == "label" and asked["key"] == EXPIRE and key not in gone, asked
                over = over | {key} if asked["value"] < AT else over - {key}


def image(name):
    return {"op": "image.add", "ns": "x", "name": name, "target": "sha256:" + name[-1] * 64}


def without(names, kept, leases=(), **members):
    """For each group of these images and leases the blobs that go without it, and the number of plans."""
    store = tools.store([image(name) for name in names] + [{"op": "lease.add", "ns": "x", "id": name} for name in leases], AT, **members)
    metad = Metad({blob: {(kind, "x", name) for kind, name in keepers} for blob, keepers in kept.items()})
    groups = store.rows.groups()
    found = freed_without(metad, Later(store.measure, report([])), store, groups)
    return {group.keys[0][2]: [blob for blob, _ in freed.blobs] for group, freed in zip(groups, found)}, metad.plans


class Codes(unittest.TestCase):
    def test_few_plans(self):
        plans = {count: len({plan for code in codes(count) for plan in code}) for count in (0, 1, 2, 3, 5, 20, 21, 7000)}
        self.assertEqual(plans, {0: 0, 1: 1, 2: 2, 3: 3, 5: 4, 20: 6, 21: 7, 7000: 16})

    def test_no_two_groups_in_the_same_plans(self):
        for count in list(range(1, 80)) + [7000]:
            found = codes(count)
            self.assertEqual((len(found), len(set(found)), len({len(code) for code in found})), (count, count, 1))


class Told(unittest.TestCase):
    def test_what_one_alone_keeps(self):
        chosen = random.Random(1)
        for count in range(1, 40):
            own = codes(count)
            keepers = {blob: set(chosen.sample(range(count), chosen.randint(1, min(count, 3)))) for blob in range(200)}
            plans = [Freed([(blob, 1) for blob, its in keepers.items() if all(plan in own[one] for one in its)], [], [])
                     for plan in range(max(max(code) for code in own) + 1)]
            found = [[blob for blob, _ in freed.blobs] for freed in told_by(plans, own)]
            self.assertEqual(found, [[blob for blob in keepers if keepers[blob] == {one}] for one in range(count)])

    def test_plans_that_contradict_each_other(self):
        with self.assertRaises(BadInput):
            told_by([Freed([("a", 1)], [], []), Freed([("a", 1)], [], [])], [(0,), (1,)])


class Asked(unittest.TestCase):
    def test_what_is_shared_is_nobodys_alone(self):
        kept = {"1": [("images", "a")], "2": [("images", "a"), ("images", "b")], "3": [("leases", "l")], "4": [("images", "c"), ("leases", "l")],
                "5": [("images", name) for name in "abcdef"], "6": [("images", "f")]}
        found, plans = without("abcdef", kept, ["l"])
        self.assertEqual(found, {"a": ["1"], "b": [], "c": [], "d": [], "e": [], "f": ["6"], "l": ["3"]})
        self.assertEqual(plans, 5 + 1)

    def test_a_lease_that_holds_an_image(self):
        held = [["x", "l", "a", ENDED, LATER]]
        kept = {"1": [("images", "a")], "2": [("images", "b")], "3": [("leases", "l")], "4": [("images", "a"), ("leases", "l")]}
        found, _ = without("abcdef", kept, ["l", "m"], held=held)
        self.assertEqual(found, {"a": ["1"], "b": ["2"], "c": [], "d": [], "e": [], "f": [], "l": ["1", "3", "4"], "m": []})
