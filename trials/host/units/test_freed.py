"""What a report frees, and what a later one frees beyond it."""
import unittest

import tools
from metad_host.freed import Later, gone_rows

A, B = "sha256:" + "a" * 64, "sha256:" + "b" * 64


class Freed(unittest.TestCase):
    def test_bytes_of_all_kinds(self):
        measure = tools.measure(blobs={A: 5, B: 7}, snapshots={"1": 10, "2": None}, ingests={"3": 1, "4": 2}, between=[B], waiting=[4])
        report = tools.report(backend={"blobs": [A, B], "snapshots": [["native", 1], ["native", 2]], "ingests": [3, 4]})
        freed = Later(measure, report).freed
        self.assertEqual((freed.bytes(), freed.unknown()), (5 + 10 + 1, 1))
        self.assertEqual(freed.blobs, [(A, 5)])

    def test_a_blob_goes_with_the_ingest_that_waits_for_it(self):
        measure = tools.measure(blobs={A: 5}, awaited={A: [["x", "i"]]})
        later = Later(measure, tools.report(backend={"blobs": [A]}))
        self.assertEqual(later.freed.bytes(), 0)
        self.assertEqual(later.more(tools.report()).bytes(), 0)
        ended = tools.report(removed={"ingests": [["x", "i"]]})
        self.assertEqual(later.more(ended).bytes(), 5)
        self.assertEqual(later.more(ended).bytes(), 5, "a dry run changes nothing")
        self.assertEqual(later.advance(ended).bytes(), 5)
        self.assertEqual(later.more(ended).bytes(), 0, "it is gone")

    def test_rows(self):
        report = tools.report(removed={"content": [["x", A]], "snapshots": [["x", "native", "s"]], "images": [["x", "i"]]})
        self.assertEqual(gone_rows(report), {("content", "x", A), ("snapshots/native", "x", "s"), ("images", "x", "i")})
