"""Which free images `free` may take: those that are old enough by their rows' times, the cheapest to pull again first."""
import unittest

import tools

from metad_host import freeing
from metad_host.numbers import DAY

A, B, C = ("sha256:" + letter * 64 for letter in "abc")
REQUESTS = [{"op": "ns.add", "ns": "x"}]
REQUESTS += [{"op": "content.add", "ns": "x", "digest": digest} for digest in (A, B, C)]
REQUESTS += [{"op": "image.add", "ns": "x", "name": name, "target": digest} for name, digest in (("old:1", A), ("young:1", B), ("timeless:1", C))]
MADE = [["images", "x", "old:1", "2024-02-20T00:00:00Z"], ["images", "x", "young:1", "2024-02-28T00:00:00Z"]]


def names(days):
    """The images that may be taken if they are so many days old."""
    store = tools.store(REQUESTS, at="2024-03-01T00:00:00Z", made=MADE, blobs={A: 30, B: 20, C: 10})
    return [group.keys[0][2] for group in freeing.candidates(store, None if days is None else days * DAY)]


class Older(unittest.TestCase):
    def test_each_age(self):
        self.assertEqual(sorted(names(None)), ["old:1", "timeless:1", "young:1"])

    def test_at_least_so_old(self):
        for days, found in ((1, ["old:1", "young:1"]), (2, ["old:1", "young:1"]), (3, ["old:1"]), (10, ["old:1"]), (11, [])):
            self.assertEqual(sorted(names(days)), found, days)
