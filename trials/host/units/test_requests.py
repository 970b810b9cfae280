"""The requests that are known, and the rules of their members."""
import os
import re
import unittest

import tools
from metad_host import names, requests

FORMATS = os.path.join(tools.TOP, "docs", "FORMATS.md")


class Table(unittest.TestCase):
    def test_each_op_of_the_page_has_its_members(self):
        with open(FORMATS, encoding="utf-8") as page:
            rows = re.findall(r"^\| `([a-z]+(?:\.[a-z]+)?)` \|([^|]*)\|[^|]*\|[^|]*\|$", page.read(), re.M)
        told = {op: [member.strip() for member in members.split(",") if member.strip()] for op, members in rows}
        known = {op: ["[%s]" % name if name in optional else name for name in members] for op, (members, optional) in requests.OPS.items()}
        self.assertEqual(told, known)


class Data(unittest.TestCase):
    def test_bytes_as_written(self):
        for text, count in (("", 0), ("a\u00e9", 3), ('"\\', 4), ("\n\x0b\x1f", 2 + 6 + 6), ("\x7f", 1)):
            self.assertEqual(requests.written_bytes(text), count, repr(text))


class There(unittest.TestCase):
    def test_what_is_there_stays_and_what_was_to_be_committed_too(self):
        store = names.Names()
        for op, request, reply in (("ns.add", {"ns": "x"}, {}), ("content.add", {"ns": "x", "digest": "d"}, {}), ("ingest.open", {"ns": "x", "ref": "r"}, {}),
                                   ("ingest.commit", {"ns": "x", "ref": "r", "digest": "d", "lease": "l", "there": "hold"}, {"there": True})):
            store.done(op, request, dict(reply, ok=True))
        self.assertEqual(store.rows, {("content", "x", "d"), ("ingest", "x", "r")})
        self.assertTrue(store.has("ingest.open", {"ns": "x", "ref": "r"}))
        self.assertFalse(store.has("ingest.open", {"ns": "x", "ref": "s"}))
        self.assertEqual(store.missing("ingest.open", {"ns": "x", "ref": "s", "lease": "l"}), ["lease"])
