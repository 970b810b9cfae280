"""What a script leaves in its store, what its rows reference, and which of them are removed as one."""
import copy
import json
import unittest

import tools
from metad_host.faults import BadInput
from metad_host.lines import Lines
from metad_host.rows import Row, Rows, reference, remove_line

DIGEST = "sha256:" + "1" * 64
PLAN = {"op": "gc.plan", "at": "2024-03-01T00:00:00Z"}


class Script(unittest.TestCase):
    def test_rows_that_stay(self):
        rows = tools.rows(
            {"op": "ns.add", "ns": "x"}, {"op": "snap.prepare", "ns": "x", "snapshotter": "native", "key": "k"},
            {"op": "snap.commit", "ns": "x", "snapshotter": "native", "key": "k", "name": "s", "labels": {"a": "b"}},
            {"op": "snap.view", "ns": "x", "snapshotter": "native", "key": "v", "parent": "s"},
            {"op": "content.add", "ns": "x", "digest": DIGEST}, {"op": "content.remove", "ns": "x", "digest": DIGEST}, PLAN)
        self.assertEqual(list(rows.rows), [("snapshots/native", "x", "s"), ("snapshots/native", "x", "v")])
        committed, view = rows.rows.values()
        self.assertEqual((committed.state, committed.number, committed.labels, committed.member), ("committed", 1, {"a": "b"}, None))
        self.assertEqual((view.state, view.number, view.member), ("view", 2, ("snapshots/native", "x", "s")))
        self.assertEqual(rows.at, "2024-03-01T00:00:00Z")

    def test_a_lease_holds_what_is_made_under_it(self):
        rows = tools.rows({"op": "lease.add", "ns": "x", "id": "l"}, {"op": "content.add", "ns": "x", "digest": DIGEST, "lease": "l"},
                          {"op": "lease.hold", "ns": "x", "id": "l", "type": "ingests", "resource": "i"}, PLAN)
        lease = rows.rows["leases", "x", "l"]
        self.assertEqual(lease.holds, [("content", "x", DIGEST), ("ingests", "x", "i")])
        self.assertEqual(len(lease.lines), 3)

    def test_what_a_line_was_made_of_is_what_it_says(self):
        lines = Lines(keep=True)
        lines.say("ns.add", ns="x")
        lines.add("content.add", [("a", "é"), ("b", '"')], ("content.label", {"ns": "x", "digest": DIGEST}), ns="x", digest=DIGEST)
        lines.add("image.add", [("k%d" % place, "v" * 4000) for place in range(20)], ("image.label", {"ns": "x", "name": "i"}),
                  ns="x", name="i", target=DIGEST)
        lines.say("ns.add", ns="y")
        lines.unsay()
        lines.say("gc.plan", at=PLAN["at"])
        self.assertEqual(lines.asked, [json.loads(line) for line in lines.written])
        self.assertTrue(any(b"image.label" in line for line in lines.written))
        read, known = Rows(lines.written), Rows(lines.written, copy.deepcopy(lines.asked))
        self.assertEqual(list(read.rows), list(known.rows))
        for key, row in read.rows.items():
            for member in Row.__slots__:
                self.assertEqual(getattr(row, member), getattr(known.rows[key], member), (key, member))
        self.assertIsNone(Lines().asked)

    def test_a_script_without_a_plan_is_refused(self):
        for lines in ([], [b"{}"], [b"["], [b'{"op":"content.remove","ns":"x","digest":"d"}'], [b'{"op":"ns.add","ns":"x"}']):
            with self.assertRaises(BadInput):
                Rows(lines)


class Groups(unittest.TestCase):
    def test_images_of_one_target_are_one(self):
        lines = [{"op": "image.add", "ns": ns, "name": name, "target": target}
                 for ns, name, target in (("x", "a", DIGEST), ("x", "b", DIGEST), ("y", "a", DIGEST), ("x", "c", "sha256:" + "2" * 64))]
        groups = tools.rows(*lines, {"op": "lease.add", "ns": "x", "id": "l"}, PLAN).groups()
        self.assertEqual([(group.kind, group.ns, [key[2] for key in group.keys]) for group in groups],
                         [("image", "x", ["a", "b"]), ("image", "y", ["a"]), ("image", "x", ["c"]), ("lease", "x", ["l"])])

    def test_images_of_no_digest_stay_apart(self):
        lines = [{"op": "image.add", "ns": "x", "name": name, "target": "sha256:" + "0" * 64} for name in "ab"]
        self.assertEqual(len(tools.rows(*lines, PLAN).groups()), 2)


class References(unittest.TestCase):
    def test_labels(self):
        self.assertEqual(reference("containerd.io/gc.ref.content.l.0", "x", "d"), ("content", "x", "d"))
        self.assertEqual(reference("containerd.io/gc.ref.content", "x", "d"), ("content", "x", "d"))
        self.assertEqual(reference("containerd.io/gc.ref.snapshot.native/a", "x", "k"), ("snapshots/native", "x", "k"))
        self.assertIsNone(reference("containerd.io/gc.ref.contents", "x", "d"))
        self.assertIsNone(reference("containerd.io/gc.root", "x", "d"))

    def test_removal(self):
        self.assertEqual(remove_line(("leases", "x", "l")), b'{"op":"lease.remove","ns":"x","id":"l"}')
        self.assertEqual(remove_line(("images", "x", "i")), b'{"op":"image.remove","ns":"x","name":"i"}')


class Ends(unittest.TestCase):
    def test_of_leases_images_and_ingests(self):
        until = {"containerd.io/gc.expire": "1970-01-01T00:00:02Z"}
        lines = [{"op": "lease.add", "ns": "x", "id": "l", "labels": until}, {"op": "lease.add", "ns": "x", "id": "m"},
                 {"op": "lease.add", "ns": "x", "id": "n", "labels": {"containerd.io/gc.expire": "tomorrow"}},
                 {"op": "image.add", "ns": "x", "name": "i", "target": DIGEST, "labels": until},
                 {"op": "ingest.begin", "ns": "x", "ref": "r", "at": "1970-01-01T00:00:00Z"}, PLAN]
        one, two = tools.rows(*lines), tools.rows({"op": "profile", "v": 2}, *lines)
        ends = [2 * 10 ** 9, None, None, None, 86400 * 10 ** 9]
        self.assertEqual([one.end(key) for key in one.rows], ends)
        ends[3] = 2 * 10 ** 9
        self.assertEqual([two.end(key) for key in two.rows], ends)
