"""Bytes of writable snapshots in metrics: measured ones, those that a copy kept, and unknown ones."""
import os
import tempfile
import unittest

import tools

assert tools.TOP  # tools finds the modules of the tool
from metad_host import measuring, metrics
from metad_host.freed import NOTHING
from metad_host.progress import Progress
from metad_host.usage import kinds, namespaces

REQUESTS = [
    {"op": "ns.add", "ns": "x"},
    {"op": "snap.prepare", "ns": "x", "snapshotter": "native", "key": "k"},
    {"op": "snap.commit", "ns": "x", "snapshotter": "native", "key": "k", "name": "layer"},
    {"op": "snap.prepare", "ns": "x", "snapshotter": "native", "key": "run", "parent": "layer"},
]
NUMBERS = {"1": {"folder": "native/1", "state": "committed"}, "2": {"folder": "native/2", "state": "active"}}


def samples(writable):
    """The samples of the snapshots' bytes and of the objects of unknown size, by kind; `writable` is the writable one's size."""
    store = tools.store(REQUESTS, numbers=NUMBERS, snapshots={"1": 100, "2": writable})
    report = tools.report(kept={"snapshots": 2})
    found = {
        metric.name: {labels["kind"]: value for labels, value in metric.samples}
        for metric in metrics.metrics(store, report, kinds(store, NOTHING), namespaces(store))
        if metric.name in ("metad_host_bytes", "metad_host_unknown_objects")
    }
    return found["metad_host_bytes"], found["metad_host_unknown_objects"]


class Writable(unittest.TestCase):
    def test_measured_bytes_are_told(self):
        told, unknown = samples(4096)
        self.assertEqual((told["committed"], told["writable"], unknown["writable"]), (100, 4096, 0))

    def test_unknown_bytes_are_no_zero(self):
        told, unknown = samples(None)
        self.assertEqual((told["committed"], unknown["writable"]), (100, 1))
        self.assertNotIn("writable", told)

    def test_a_copy_keeps_what_was_measured(self):
        with tempfile.TemporaryDirectory() as root:
            folder = os.path.join(root, "io.containerd.snapshotter.v1.native", "snapshots", "2")
            os.makedirs(folder)
            with open(os.path.join(folder, "file"), "wb") as file:
                file.write(b"x" * 10000)
            sizes = {"snapshots": {"1": 100, "2": None}, "numbers": NUMBERS}
            kept = measuring.measure(root, sizes, Progress("metad-host"))
        self.assertGreaterEqual(sizes["snapshots"]["2"], 10000)
        self.assertEqual(kept, {"native/2": sizes["snapshots"]["2"]})
        copied = {"snapshots": {"1": 100, "2": None}, "numbers": NUMBERS}
        measuring.take_in(copied, kept)
        self.assertEqual(copied, sizes)
        self.assertEqual(samples(copied["snapshots"]["2"])[0]["writable"], kept["native/2"])
