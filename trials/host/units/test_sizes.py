"""What a report is in bytes, and the remarks beside a script."""
from __future__ import annotations

import json
import os
import tempfile
import unittest

import tools
from metad_host import sizes
from metad_host.faults import BadInput
from metad_host.remarks import Remarks, printable

A, B = "sha256:" + "a" * 64, "sha256:" + "b" * 64


class Measures(unittest.TestCase):
    def test_rows_that_stay(self):
        report = tools.report(kept={"content": 5, "containers": 3},
                              removed={"content": [["x", A], ["x", B]]})
        self.assertEqual(tools.measure().kept(report), {"content": 5, "containers": 3})
        carriers = tools.measure(between=[A, "sha256:" + "c" * 64], sandboxes=[["x", "sandbox:s"]])
        self.assertEqual(carriers.kept(report), {"content": 4, "containers": 2, "sandboxes": 1})
        self.assertEqual(carriers.content_rows(report), [["x", B]])

    def test_units(self):
        for size, text in ((0, "0 B"), (999, "999 B"), (1000, "1.0 kB"), (999949, "999.9 kB"),
                           (999950, "1.0 MB"), (5 * 10 ** 16, "50000.0 TB")):
            self.assertEqual(sizes.human(size), text)

    def test_sums(self):
        self.assertEqual((sizes.known([1, None, 2]), sizes.unknown([1, None, 2])), (3, 1))


class Files(unittest.TestCase):
    def test_an_older_file_is_read(self):
        with tempfile.TemporaryDirectory() as folder:
            path = os.path.join(folder, "sizes")
            old = {name: found for name, found in sizes.empty().items()
                   if name not in sizes.LATER_LISTS}
            sizes.write(path, old)
            self.assertEqual(sizes.read(path), sizes.empty())
            for wrong in (dict(old, form=2), dict(old, blobs=[]), dict(old, held={}), []):
                with open(path, "w") as file:
                    json.dump(wrong, file)
                with self.assertRaisesRegex(BadInput, "no file of sizes"):
                    sizes.read(path)


class Kinds(unittest.TestCase):
    def test_one_that_changes_the_plan_is_enough(self):
        remarks = Remarks()
        remarks.add("times", "a")
        remarks.add("digests", "b")
        remarks.add("digests", "c", plan=True)
        remarks.add("digests", "d", plan=True)
        self.assertTrue(remarks.may_change_plan())
        self.assertEqual(remarks.texts(), ["may change the plan: digests: 3, such as c",
                                           "times: 1, such as a"])

    def test_one_line(self):
        self.assertEqual(printable("a\nb\x1b"), "a\\nb\\x1b")
        self.assertEqual(len(printable("x" * 500)), 200)
