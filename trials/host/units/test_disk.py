"""What nobody has: there before and after the reading, old, and of no row; and still-free, which reads anew."""
import contextlib
import io
import os
import re
import sys
import tempfile
import time
import types
import unittest

import tools
from metad_host import backends, disk, words

sys.path.insert(0, os.path.join(tools.TOP, "trials", "host", "checks"))
import bolt_file  # noqa: E402 (the path above finds it)

SNAPSHOTS = "io.containerd.snapshotter.v1.overlayfs/snapshots"
A = b"sha256:" + b"a" * 64


def script(**snapshots):
    """What of a script the disk is asked about: folders of overlayfs by names there, of which rows have those that begin with `row`."""
    found = backends.Backends()
    found.snapshots["overlayfs"] = {name.encode(): backends.Stored(3, 1, number) for name, number in snapshots.items()}
    rows = {("overlayfs", name.encode()) for name in snapshots if name.startswith("row")}
    return types.SimpleNamespace(backends=found, snapshots=rows, blobs=set(), ingests=set())


class Look(unittest.TestCase):
    def setUp(self):
        self.folder = tempfile.TemporaryDirectory()
        self.root = self.folder.name

    def tearDown(self):
        self.folder.cleanup()

    def made(self, *names, seconds=3600, below=SNAPSHOTS):
        for name in names:
            path = os.path.join(self.root, below, name)
            os.makedirs(path)
            moment = time.time() - seconds
            os.utime(path, (moment, moment))

    def names(self, before, **snapshots):
        return sorted(item.name for item in disk.look(self.root, before, script(**snapshots)).nobody)

    def test_a_row_has_it(self):
        self.made("1", "2", "3")
        before = disk.listing(self.root)
        self.assertEqual(self.names(before, row=1, other=2), ["overlayfs/2", "overlayfs/3"])

    def test_there_both_times(self):
        self.made("1")
        before = disk.listing(self.root)
        self.made("2")
        self.assertEqual(self.names(before), ["overlayfs/1"])
        os.rmdir(os.path.join(self.root, SNAPSHOTS, "1"))
        self.assertEqual(self.names(before), [])

    def test_a_young_one(self):
        self.made("1", seconds=500)
        self.made("2", seconds=700)
        self.assertEqual(self.names(disk.listing(self.root)), ["overlayfs/2"])

    def test_who_removes_it(self):
        self.made("1", "2")
        self.made("9", below="io.containerd.snapshotter.v1.native/snapshots")
        self.made("mount", below=disk.TEMPORARY)
        found = {item.name: item.remover for item in disk.look(self.root, disk.listing(self.root), script(other=1)).nobody}
        self.assertEqual(found["overlayfs/1"], disk.NEXT)
        self.assertIn("one of its rows", found["overlayfs/2"])
        self.assertIn("never", found["native/9"])
        self.assertIn("tmpmounts/mount", found)

    def test_content(self):
        path = os.path.join(self.root, backends.CONTENT, "blobs", "sha256", "a" * 64)
        os.makedirs(os.path.dirname(path))
        with open(path, "wb") as file:
            file.write(b"x" * 10)
        os.utime(path, (0, 0))
        its = script()
        its.backends.blobs = {A.decode(): 10, "sha256:" + "b" * 64: 20}
        self.assertEqual([item.name for item in disk.look(self.root, {}, its).nobody], [A.decode()])
        its.blobs = {A.decode()}
        self.assertEqual(disk.look(self.root, {}, its).nobody, [])

    def test_a_record(self):
        found = disk.look(self.root, {}, script())
        self.assertEqual(disk.of_record(disk.as_record(found)), found)
        for bad in (None, {}, {"nobody": 5}, {"nobody": [[1]]}):
            self.assertIsNone(disk.of_record(bad))


class StillFree(unittest.TestCase):
    def asked(self, names, **more):
        """The status of still-free for these names, of a store with these rows."""
        rows = {b"images": {name: {b"target": {b"digest": A}, b"labels": labels} for name, labels in more.pop("images").items()}}
        rows.update({key.encode(): value for key, value in more.items()})
        with tempfile.TemporaryDirectory() as folder:
            path = os.path.join(folder, "copy.db")
            bolt_file.write(path, {b"v1": {b"version": b"\x06", b"ns": rows}})
            with contextlib.redirect_stderr(io.StringIO()) as told:
                status = words.main(["still-free", path, "ns"] + names, "metad-host")
        return status, re.sub(r"^metad-host: .* \(\d+ s\)\n", "", told.getvalue(), flags=re.MULTILINE)

    def test_it_is(self):
        self.assertEqual(self.asked(["i:1", "i:2"], images={b"i:1": {}, b"i:2": {}}), (0, ""))

    def test_it_has_another_name_now(self):
        status, told = self.asked(["i:1"], images={b"i:1": {}, b"i:2": {}})
        self.assertEqual((status, "other names" in told), (1, True))

    def test_it_is_in_use_now(self):
        status, told = self.asked(["i:1"], images={b"i:1": {}}, containers={b"run": {b"image": b"i:1"}})
        self.assertEqual((status, "used by ns/run" in told), (1, True))
        status, told = self.asked(["i:1"], images={b"i:1": {}}, leases={b"l": {b"content": {A: b""}}}, content={b"blob": {A: {}}})
        self.assertEqual((status, "held by ns/l" in told), (1, True))

    def test_it_is_pinned_or_gone(self):
        self.assertEqual(self.asked(["i:1"], images={b"i:1": {b"io.cri-containerd.pinned": b"pinned"}})[0], 1)
        self.assertEqual(self.asked(["j:1"], images={b"i:1": {}})[0], 1)
