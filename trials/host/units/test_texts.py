"""Names, digests and labels as metad allows them, and what version 4 says otherwise."""
from __future__ import annotations

import unittest

import tools

assert tools.TOP  # tools finds the modules of the tool
from metad_host.buckets import Metadata, Place
from metad_host.later import Later
from metad_host.remarks import Remarks
from metad_host.texts import EXPIRE, FLAT, Texts, is_named, meaning_of
from metad_host.versions import NAMED, chosen

A, B = b"sha256:" + b"a" * 64, b"sha256:" + b"b" * 64
GC = b"containerd.io/gc."
NOON, NIGHT = b"2024-03-01T12:00:00Z", b"2024-03-02T00:00:00Z"


def texts(all_labels=False, images_expire=False):
    return Texts(Remarks(), all_labels, chosen(4, "2.1.9", NAMED) if images_expire else None)


class Names(unittest.TestCase):
    def test_one_name_for_the_same_bytes(self):
        found = texts()
        self.assertEqual(found.name(b"k8s.io/x", "image"), "k8s.io/x")
        made = found.name(b"a\nb", "image")
        self.assertEqual(found.name(b"a\nb", "lease"), made)
        self.assertEqual(found.renamed, {made: "a\nb"})
        self.assertNotEqual(found.name(b"n" * 1025, "image"), found.name(b"n" * 1026, "image"))

    def test_short_names(self):
        found = texts()
        self.assertEqual(found.short_name(b"k8s.io", "namespace"), "k8s.io")
        for name in (b"", b"-a", b"a" * 77, b"\xff", b"a/b"):
            self.assertIsNone(found.short_name(name, "namespace"))
        self.assertTrue(found.remarks.may_change_plan())

    def test_digests(self):
        found = texts()
        self.assertEqual(found.digest(A, "content"), A.decode())
        self.assertEqual(found.digest(b"sha384:" + b"c" * 96, "content"),
                         "sha512:" + "c" * 96 + "0" * 32)
        self.assertIsNone(found.digest(b"md5:1", "image"))
        self.assertFalse(found.remarks.may_change_plan())
        self.assertIsNone(found.digest(b"md5:1", "content", is_row=True))
        self.assertTrue(found.remarks.may_change_plan())


class Labels(unittest.TestCase):
    def test_what_a_key_says(self):
        self.assertTrue(is_named(GC + b"ref.content.x", GC + b"ref.content"))
        self.assertFalse(is_named(GC + b"ref.contents", GC + b"ref.content"))
        for kind, key, said in (("image", b"expire", None), ("lease", b"expire", "expire"),
                                ("lease", b"root", None), ("content", b"root", "root"),
                                ("sandbox", b"ref.content/a", "content"),
                                ("snapshot", b"ref.snapshot.native", "snapshot")):
            self.assertEqual(meaning_of(kind, GC + key, False), said, key)
        self.assertEqual(meaning_of("image", EXPIRE, True), "expire")

    def test_labels_that_no_collection_reads(self):
        labels = {b"team": b"shop", GC + b"root": b"y"}
        self.assertEqual(texts().labels("content", labels, "it"),
                         ([("containerd.io/gc.root", "y")], []))
        self.assertEqual(texts(True).labels("content", labels, "it")[1], [("team", "shop")])

    def test_meanings_stay_whatever_the_bytes(self):
        for value in (b"", b"\xff", b"l" * 5000):
            read, _ = texts().labels("lease", {FLAT: value, EXPIRE: value}, "it")
            self.assertEqual([text for _, text in read], ["x", "x"])
        long = {GC + b"ref.content/" + b"k" * 4096: A, GC + b"ref.snapshot.native/\xff": b"s"}
        for key, _ in texts().labels("content", long, "it")[0]:
            self.assertIn("/renamed-", key)

    def test_expiries(self):
        found = texts()
        self.assertEqual(found.expiry(b"2024-03-01T5:00:00Z", "it"), "2024-03-01T05:00:00Z")
        self.assertEqual(found.expiry(b"tomorrow", "it"), "tomorrow")
        self.assertIsNone(found.end(b"tomorrow"))
        odd = b"2024-03-01T05:00:00-99:00"
        self.assertEqual(found.expiry(odd, "it"), "2024-03-05T08:00:00Z")
        self.assertEqual(texts(images_expire=True).expiry(odd, "it"), odd.decode())
        self.assertIsNone(texts(images_expire=True).end(odd))


def later(space, version=4, containerd="2.1.9"):
    """What stands otherwise in a namespace of these buckets, by the rules of a containerd."""
    remarks = Remarks()
    root = {b"v1": {b"version": bytes([2 * version]), b"ns": space}}
    metadata = Metadata(root, remarks, (containerd, NAMED))
    found = Later(metadata, Texts(remarks, False, metadata.choice), remarks)
    found.read(b"ns", space)
    return found


def image(expiry):
    return {b"target": {b"digest": A}, b"labels": {EXPIRE: expiry}}


def lease(*labels):
    return {b"images": {b"i": b""}, b"labels": dict(labels)}


class References(unittest.TestCase):
    def test_a_row_gets_the_reference(self):
        blobs = {A: {b"labels": {GC + b"bref.content": B}}, B: {}}
        found = later({b"content": {b"blob": blobs}}, containerd="2.2")
        place = Place("content", b"", B)
        self.assertEqual(list(found.labels(place, {}).values()), [A])
        self.assertEqual(found.labels(Place("content", b"", A), {}), {})
        for version in ("2.1.9", "1.7.24"):
            found = later({b"content": {b"blob": blobs}}, containerd=version)
            self.assertEqual(found.labels(place, {}), {})

    def test_each_kind(self):
        self.assertEqual(Later.named_by(b"image.x", b"i"), Place("image", b"", b"i"))
        self.assertEqual(Later.named_by(b"snapshot.native/x", b"k"),
                         Place("snapshot", b"native", b"k"))
        for key in (b"images", b"snapshot", b"lease", b""):
            self.assertIsNone(Later.named_by(key, b"x"))


class Ends(unittest.TestCase):
    def test_the_later_end(self):
        place = Place("image", b"", b"i")
        for own, leases, end in (
                (NOON, {}, NOON), (NOON, {b"a": lease((EXPIRE, NIGHT))}, NIGHT),
                (NIGHT, {b"a": lease((EXPIRE, NOON))}, NIGHT), (NOON, {b"a": lease()}, None),
                (NOON, {b"a": lease((EXPIRE, b"soon")), b"b": lease((EXPIRE, NIGHT))}, None)):
            row = image(own)
            found = later({b"images": {b"i": row}, b"leases": leases})
            self.assertEqual(found.labels(place, row[b"labels"]).get(EXPIRE), end)
            self.assertEqual(row[b"labels"], {EXPIRE: own}, "the store's own labels stay")

    def test_the_end_without_a_lease(self):
        found = later({b"images": {b"i": image(NOON)},
                       b"leases": {b"a": lease(), b"b": lease((EXPIRE, NIGHT))}})
        self.assertEqual(found.without(b"i"), (b"a", NIGHT))
        found = later({b"images": {b"i": image(NOON)}, b"leases": {b"a": lease(), b"b": lease()}})
        self.assertIsNone(found.without(b"i"))
        self.assertIsNone(found.without(b"other"))
        for expiry, without in ((NIGHT, (b"a", NOON)), (b"2024-03-01T00:00:00Z", None)):
            found = later({b"images": {b"i": image(NOON)},
                           b"leases": {b"a": lease((EXPIRE, expiry))}})
            self.assertEqual(found.without(b"i"), without)

    def test_a_flat_lease(self):
        flat, full = lease((FLAT, b"y")), lease((EXPIRE, NIGHT))
        for leases, alone in (({b"a": flat}, True), ({b"a": flat, b"b": full}, True),
                              ({b"a": flat, b"b": lease()}, False), ({b"b": full}, False),
                              ({b"a": lease((FLAT, b"y"), (EXPIRE, NIGHT)), b"b": full}, False)):
            found = later({b"images": {b"i": image(NOON)}, b"leases": leases})
            self.assertEqual(found.is_flat(b"i"), alone)


class Led(unittest.TestCase):
    """Images that the label of another row keeps: in one pass, the last end that leads there."""

    def ends(self, space, image=b"i", **more):
        found = later(space, **more)
        labels = space[b"images"][image][b"labels"]
        return found.labels(Place("image", b"", image), labels).get(EXPIRE), found.led_by(image)

    def test_a_root_without_an_end(self):
        space = {b"images": {b"i": image(NOON)},
                 b"containers": {b"c": {b"labels": {GC + b"ref.image": b"i"}}}}
        by = Place("container", b"", b"c")
        self.assertEqual(self.ends(space), (None, by))
        self.assertEqual(self.ends(space, containerd="1.7.24"), (NOON, None))

    def test_the_last_end_of_a_path(self):
        blob = {b"labels": {GC + b"ref.image.x": b"i"}}
        place = Place("content", b"", A)
        held = {b"content": {A: b""}}
        for leases, own, expected in (
                ({b"l": dict(held, labels=None)}, NOON, None),
                ({b"l": dict(held, **{"labels": {EXPIRE: NIGHT}})}, NOON, NIGHT),
                ({b"l": dict(held, **{"labels": {EXPIRE: NOON}})}, NIGHT, NIGHT),
                ({b"l": dict(held, **{"labels": {EXPIRE: NIGHT, FLAT: b"y"}})}, NOON, NOON)):
            rows = {name: {b"content": row[b"content"], b"labels": row["labels"] or {}}
                    for name, row in leases.items()}
            space = {b"images": {b"i": image(own)}, b"leases": rows,
                     b"content": {b"blob": {A: blob}}}
            by = place if expected != own else None
            self.assertEqual(self.ends(space), (expected, by))

    def test_by_way_of_another_image(self):
        first = image(NIGHT)
        first[b"labels"][GC + b"ref.image"] = b"i"
        space = {b"images": {b"first": first, b"i": image(NOON)}}
        self.assertEqual(self.ends(space), (NIGHT, Place("image", b"", b"first")))
        first[b"labels"][EXPIRE] = b"soon"
        self.assertEqual(self.ends(space), (None, Place("image", b"", b"first")))

    def test_a_lease_that_a_label_outlasts_is_nobodys_last(self):
        space = {b"images": {b"i": image(NOON)}, b"leases": {b"a": lease((EXPIRE, NIGHT))},
                 b"sandboxes": {b"s": {b"labels": {GC + b"ref.image": b"i"}}}}
        self.assertIsNone(later(space).without(b"i"))
        self.assertEqual(self.ends(space), (None, Place("sandbox", b"", b"s")))
