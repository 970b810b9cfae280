"""Pages of a bolt file, of bytes that were read in one go and page by page."""
from __future__ import annotations

import io
import os
import sys
import tempfile
import unittest

import tools
from metad_host import pages
from metad_host.faults import BadInput

sys.path.insert(0, os.path.join(tools.TOP, "trials", "host", "checks"))
import bolt_file  # noqa: E402 (the path above finds it)

TREE = {b"a": {b"%03d" % place: b"v" * 40 for place in range(300)},
        b"b": {b"small": b"1", b"empty": b""}, b"c": {b"in": {b"in": {b"key": b"value"}}}}


class Trees(unittest.TestCase):
    def setUp(self):
        self.folder = tempfile.TemporaryDirectory()
        self.path = os.path.join(self.folder.name, "tree.db")
        bolt_file.write(self.path, TREE)

    def tearDown(self):
        self.folder.cleanup()

    def test_the_same_tree_by_both_ways(self):
        with open(self.path, "rb") as file:
            whole = pages.Whole(file.read())
            by_page = pages.File(file.fileno())
            for source in (whole, by_page):
                self.assertEqual(pages.tree_below(source, pages.newest_meta(source)), TREE)
        self.assertEqual(pages.read(self.path), TREE)

    def test_a_copy_ends_with_the_pages_in_use(self):
        with open(self.path, "rb") as file:
            data = file.read()
        with open(self.path, "ab") as file:
            file.write(b"more" * 5000)
        copy = io.BytesIO()
        pages.copy_whole(self.path, copy)
        self.assertEqual(copy.getvalue(), data)

    def test_the_newest_page_that_is_right(self):
        with open(self.path, "rb") as file:
            data = file.read()
        self.assertEqual(pages.newest_meta(pages.Whole(data)).transaction, 2)
        broken = data[:72] + b"\0" + data[73:]
        self.assertEqual(pages.newest_meta(pages.Whole(broken)).transaction, 1)
        with self.assertRaisesRegex(BadInput, "ends before the meta page at byte 0"):
            pages.newest_meta(pages.Whole(b""))

    def test_a_state_that_moved(self):
        with open(self.path, "rb") as file:
            source = pages.Whole(file.read())
        newer = bolt_file.meta_page(1, 3, 9, 3)

        def take(meta):
            source.data = source.data[:4096] + newer + source.data[8192:]
            raise BadInput("a page is broken")

        with self.assertRaises(pages.Moved):
            pages.one_state(source, take)
        with self.assertRaisesRegex(BadInput, "a page is broken"):
            pages.one_state(source, take)

    def test_memory_is_told(self):
        left = pages.memory_left()
        self.assertTrue(left is None or left > 10 ** 6)


class Checksums(unittest.TestCase):
    def test_the_hash_of_known_texts(self):
        self.assertEqual(pages.checksum(b""), 0xCBF29CE484222325)
        self.assertEqual(pages.checksum(b"a"), 0xAF63DC4C8601EC8C)
