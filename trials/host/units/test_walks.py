"""What each group keeps, and alone keeps, by walks over the references."""
import unittest

import tools
from metad_host.walks import Walks

AT = 10 ** 18


def digest(letter):
    return "sha256:" + letter * 64


def content(letter, *references, **labels):
    """A row of content that references others."""
    more = {"containerd.io/gc.ref.content.%d" % place: digest(to) for place, to in enumerate(references)}
    return {"op": "content.add", "ns": "x", "digest": digest(letter), "labels": dict(more, **labels)}


def image(name, target):
    return {"op": "image.add", "ns": "x", "name": name, "target": digest(target)}


def lease(name, *held, **labels):
    found = [{"op": "lease.add", "ns": "x", "id": name, "labels": {"containerd.io/gc." + key: value for key, value in labels.items()}}]
    return found + [{"op": "lease.hold", "ns": "x", "id": name, "type": "content", "resource": digest(letter)} for letter in held]


def sums(*requests, **sizes):
    """Of each group its names, what it keeps and what it alone keeps; content has 1, 2, 4.. bytes by its letter."""
    rows = tools.rows(*requests, {"op": "gc.plan", "at": "2024-03-01T00:00:00Z"})
    groups = rows.groups()
    blobs = {digest(letter): 2 ** place for place, letter in enumerate("abcdef")}
    measure = tools.measure(blobs=blobs, **sizes)
    kept = Walks(rows, measure, groups, AT).kept()
    alone = Walks(rows, measure, groups, AT).alone()
    return {"+".join(key[2] for key in group.keys): pair for group, pair in zip(groups, zip(kept, alone))}


class Walk(unittest.TestCase):
    def test_shared_content_is_nobodys_alone(self):
        found = sums(content("a", "c"), content("b", "c"), content("c"), image("i", "a"), image("j", "b"))
        self.assertEqual(found, {"i": (1 + 4, 1), "j": (2 + 4, 2)})

    def test_names_of_one_target_are_one_root(self):
        self.assertEqual(sums(content("a"), image("i", "a"), image("j", "a")), {"i+j": (1, 1)})

    def test_a_circle_and_a_reference_to_nothing(self):
        found = sums(content("a", "b", "f"), content("b", "a"), image("i", "a"))
        self.assertEqual(found, {"i": (3, 3)})

    def test_a_flat_lease_follows_no_labels(self):
        found = sums(content("a", "b"), content("b"), *lease("l", "a", flat="yes"), *lease("m", "a"))
        self.assertEqual(found, {"l": (1, 0), "m": (3, 2)})

    def test_a_lease_that_ended_keeps_nothing(self):
        found = sums(content("a"), *lease("l", "a", expire="1971-01-01T00:00:00Z"), *lease("m", "a", expire="tomorrow"))
        self.assertEqual(found, {"l": (0, 0), "m": (1, 1)})

    def test_a_root_label_keeps_too(self):
        found = sums(content("a", "b"), content("b"), content("c", "a", **{"containerd.io/gc.root": "x"}), image("i", "a"))
        self.assertEqual(found, {"i": (3, 0)})

    def test_a_blob_of_two_namespaces_counts_once_and_is_of_both(self):
        other = dict(content("a"), ns="y")
        found = sums(content("a"), other, image("i", "a"), dict(image("j", "a"), ns="y"))
        self.assertEqual(found, {"i": (1, 0), "j": (1, 0)})

    def test_snapshots_with_their_parents(self):
        def snap(key, **more):
            return dict({"op": "snap.prepare", "ns": "x", "snapshotter": "native", "key": key}, **more)
        commit = {"op": "snap.commit", "ns": "x", "snapshotter": "native", "key": "k", "name": "base"}
        container = {"op": "container.add", "ns": "x", "name": "c", "snapshotter": "native", "key": "top"}
        found = sums(snap("k"), commit, snap("top", parent="base"), container, dict(container, name="d"), snapshots={"1": 100, "2": None})
        self.assertEqual(found, {"c": (100, 0), "d": (100, 0)})
