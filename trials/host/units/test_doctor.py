"""doctor's two plans: one by the store's own version, one by the named version, and the lists of what they differ in."""
import argparse
import contextlib
import io
import json
import unittest
from unittest import mock

import tools

from metad_host import doctor
from metad_host.progress import Progress

OWN, THEN = "", "2.1.9"
BOTH, AFTER, BEFORE = (("content", "x", "sha256:" + letter * 64) for letter in "abc")
GOES = {OWN: {BOTH, BEFORE}, THEN: {BOTH, AFTER}}


def planned(words, progress, version):
    """Stands for the plan by the rules of a version."""
    return tools.store([], containerd=["1.7.24", "recorded", "1.7"]), GOES[version]


def told(*more):
    """What doctor prints."""
    words = argparse.Namespace(containerd=THEN, limit=None, json="json" in more, at=None, bytes=False)
    out = io.TextIOWrapper(io.BytesIO(), encoding="utf-8")
    with mock.patch.object(doctor, "planned", planned), contextlib.redirect_stdout(out), Progress("metad-host") as progress:
        assert doctor.run(words, progress) == 0
    out.flush()
    return out.buffer.getvalue().decode()


class Doctor(unittest.TestCase):
    def test_the_two_versions_differ(self):
        found = json.loads(told("json"))
        self.assertEqual([row["name"] for row in found["goes_then"]], [AFTER[2]])
        self.assertEqual([row["name"] for row in found["stays_then"]], [BEFORE[2]])
        self.assertEqual((found["goes_then_total"], found["stays_then_total"], found["goes_both"]), (1, 1, 1))

    def test_the_page(self):
        lines = told().splitlines()
        self.assertEqual(lines, [
            "by the rules of 1.7.24 (recorded) 2 rows go, by those of 2.1.9 2",
            "1 rows go after the update alone", "  content x/" + AFTER[2],
            "1 rows stay after it, and go now", "  content x/" + BEFORE[2]])
