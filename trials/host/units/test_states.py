"""Which images are used, held, free and pinned, and which names are one image."""
import unittest

import tools
from metad_host import daemon
from metad_host.states import FREE, HELD, USED, States

GC = "containerd.io/gc."
SOON, LATER = "2024-03-02T00:00:00Z", "2024-03-05T00:00:00Z"


def digest(letter):
    return "sha256:" + letter * 64


def image(name, letter, ns="x", **labels):
    """The rows of an image: its name, its manifest, its config and its top snapshot."""
    return {"op": "image.add", "ns": ns, "name": name, "target": digest(letter), "labels": labels}


def manifest(letter, config, ns="x"):
    return {"op": "content.add", "ns": ns, "digest": digest(letter), "labels": {GC + "ref.content.config": digest(config)}}


def config(letter, top=None, ns="x"):
    labels = {GC + "ref.snapshot.overlayfs": top} if top else {}
    return {"op": "content.add", "ns": ns, "digest": digest(letter), "labels": labels}


def layer(name, parent=None, ns="x", **labels):
    """A committed snapshot."""
    more = {"parent": parent} if parent else {}
    return [dict({"op": "snap.prepare", "ns": ns, "snapshotter": "overlayfs", "key": "k-" + name}, **more),
            {"op": "snap.commit", "ns": ns, "snapshotter": "overlayfs", "key": "k-" + name, "name": name, "labels": labels}]


def snap(key, parent, op="snap.prepare", ns="x"):
    return {"op": op, "ns": ns, "snapshotter": "overlayfs", "key": key, "parent": parent}


def container(name, key=None, ns="x"):
    more = {"snapshotter": "overlayfs", "key": key} if key else {}
    return dict({"op": "container.add", "ns": ns, "name": name}, **more)


def lease(name, *held, ns="x", expire=None):
    """A lease that holds these (type, resource)."""
    labels = {GC + "expire": expire} if expire else {}
    return [{"op": "lease.add", "ns": ns, "id": name, "labels": labels}] + [
        {"op": "lease.hold", "ns": ns, "id": name, "type": kind, "resource": resource} for kind, resource in held]


# two images over one base: i stands on top-i, j on top-j
BASE = [{"op": "ns.add", "ns": "x"}] + layer("base") + layer("top-i", "base") + layer("top-j", "base") + [
    manifest("a", "c"), config("c", "top-i"), manifest("b", "d"), config("d", "top-j"), image("i", "a"), image("j", "b")]


def states(*requests, daemon=None, **sizes):
    """The state of each image by its names: the state, who uses or holds it, until when, and whether it is pinned."""
    store = tools.store(list(requests), daemon=daemon, **sizes)
    groups = [group for group in store.rows.groups() if group.kind == "image"]
    return {"+".join(key[2] for key in group.keys): (found.state, [key[2] for key in found.by], found.until, found.pinned)
            for group, found in States(store, groups).all()}


def free(*requests, **more):
    """The images that count as free."""
    store = tools.store(list(requests), **more)
    groups = [group for group in store.rows.groups() if group.kind == "image"]
    return ["+".join(key[2] for key in group.keys) for group, found in States(store, groups).all() if found.counts()]


class Used(unittest.TestCase):
    def test_nothing_stands_on_it(self):
        self.assertEqual(states(*BASE), {"i": (FREE, [], None, False), "j": (FREE, [], None, False)})

    def test_an_active_snapshot_and_a_view_without_a_container(self):
        for op in ("snap.prepare", "snap.view"):
            found = states(*BASE, snap("work", "top-i", op))
            self.assertEqual((found["i"][:2], found["j"][0]), ((USED, ["work"]), FREE), op)

    def test_a_committed_snapshot_between(self):
        found = states(*BASE, *layer("work-init", "top-i"), snap("work", "work-init"))
        self.assertEqual((found["i"][:2], found["j"][0]), ((USED, ["work"]), FREE))

    def test_an_image_below_another_isnt_used(self):
        above = layer("top-k", "top-i") + [manifest("e", "f"), config("f", "top-k"), image("k", "e")]
        found = states(*BASE, *above, snap("work", "top-k"))
        self.assertEqual([found[name][0] for name in "ijk"], [FREE, FREE, USED])

    def test_a_container_names_an_image_by_any_of_its_names(self):
        more = [image("i@2", "a"), container("run")]
        self.assertEqual(states(*BASE, *more, uses=[["x", "run", "i@2"]])["i+i@2"][:2], (USED, ["run"]))

    def test_a_name_that_moved_on(self):
        found = states(*BASE, container("run", "work"), snap("work", "top-i"), uses=[["x", "run", "j"]])
        self.assertEqual((found["i"][:2], found["j"][:2]), ((USED, ["run"]), (USED, ["run"])))

    def test_a_row_of_another_namespace_uses_nothing(self):
        more = [{"op": "ns.add", "ns": "y"}, container("run", ns="y")]
        self.assertEqual(states(*BASE, *more, uses=[["y", "run", "i"]])["i"][0], FREE)

    def test_what_another_snapshotter_has_is_another_snapshot(self):
        other = [dict(request, snapshotter="native") for request in layer("top-i")] + [dict(snap("work", "top-i"), snapshotter="native")]
        self.assertEqual(states(*BASE, *other)["i"][0], FREE)

    def test_two_images_of_one_top(self):
        found = states(*BASE, manifest("e", "f"), config("f", "top-i"), image("k", "e"), snap("work", "top-i"))
        self.assertEqual([found[name][0] for name in "ijk"], [USED, FREE, USED])

    def test_an_index(self):
        index = {"op": "content.add", "ns": "x", "digest": digest("e"), "labels": {GC + "ref.content.m.0": digest("a")}}
        self.assertEqual(states(*BASE, index, image("k", "e"), snap("work", "top-i"))["k"][:2], (USED, ["work"]))

    def test_guessed_states(self):
        """Without the snapshotter's file a snapshot without children is guessed active, and may be an image's top."""
        lines = BASE[:1] + [snap("top-i", None)] + BASE[7:]
        del lines[1]["parent"]
        self.assertEqual(states(*lines, guessed=[1])["i"][0], FREE)
        self.assertEqual(states(*lines)["i"][0], USED)
        self.assertEqual(states(*lines, container("run", "top-i"), guessed=[1])["i"][0], USED)


class Held(unittest.TestCase):
    def test_by_each_part_of_it(self):
        for kind, resource in (("content", digest("a")), ("snapshots/overlayfs", "top-i")):
            found = states(*BASE, *lease("l", (kind, resource), expire=SOON))
            self.assertEqual((found["i"][:3], found["j"][0]), ((HELD, ["l"], SOON), FREE), kind)

    def test_by_a_lease_of_its_name(self):
        found = states(*BASE, *lease("l", expire=SOON), leased=[["x", "l", "i"], ["x", "l", "gone"]])
        self.assertEqual((found["i"][:3], found["j"][0]), ((HELD, ["l"], SOON), FREE))

    def test_it_doesnt_count(self):
        self.assertEqual(free(*BASE, *lease("l", ("content", digest("a")))), ["j"])

    def test_not_by_what_others_share(self):
        self.assertEqual(states(*BASE, *lease("l", ("snapshots/overlayfs", "base")))["i"][0], FREE)

    def test_not_by_a_lease_that_ended(self):
        self.assertEqual(states(*BASE, *lease("l", ("content", digest("a")), expire="2024-02-01T00:00:00Z"))["i"][0], FREE)

    def test_by_the_lease_that_ends_last(self):
        both = lease("l", ("content", digest("a")), expire=SOON) + lease("m", ("content", digest("a")), expire=LATER)
        self.assertEqual(states(*BASE, *both)["i"][1:3], (["m"], LATER))
        self.assertEqual(states(*BASE, *both, *lease("n", ("content", digest("a"))))["i"][1:3], (["n"], None))

    def test_what_uses_it_comes_first(self):
        found = states(*BASE, snap("work", "top-i"), *lease("l", ("snapshots/overlayfs", "work")))
        self.assertEqual(found["i"][:2], (USED, ["work"]))

    def test_an_unpack_holds(self):
        found = states(*BASE, snap("extract-1-x sha256:2", "top-i"))
        self.assertEqual(found["i"][:2], (HELD, ["extract-1-x sha256:2"]))
        found = states(*BASE, snap("extract-1", "top-i"), *lease("l", ("snapshots/overlayfs", "extract-1"), expire=SOON))
        self.assertEqual(found["i"][:3], (HELD, ["l", "extract-1"], SOON))

    def test_a_container_of_such_a_name_uses(self):
        found = states(*BASE, snap("extract-1", "top-i"), container("run", "extract-1"))
        self.assertEqual(found["i"][:2], (USED, ["run"]))


class Pinned(unittest.TestCase):
    def test_by_one_of_three_names(self):
        more = [image("i@1", "a"), image("i@2", "a")]
        self.assertEqual(free(*BASE, *more, pinned=[["x", "i@2"]]), ["j"])
        found = states(*BASE, *more, pinned=[["x", "i@2"]])
        self.assertEqual(found["i+i@1+i@2"], (FREE, [], None, True))

    def test_a_name_where_the_label_may_be_unknown(self):
        rows = [{"op": "ns.add", "ns": "k8s.io"}, image("registry.k8s.io/pause:3.9", "a", "k8s.io"), image("mirror/sandbox:1", "b", "k8s.io")]
        self.assertEqual(free(*rows), ["mirror/sandbox:1"])
        self.assertEqual(free(*rows, containerd=["1.6.20", "running"]), ["mirror/sandbox:1"])
        self.assertEqual(len(free(*rows, containerd=["1.7.24", "running"])), 2)
        told = daemon.NONE._replace(sandbox_image="mirror/sandbox:1")
        self.assertEqual(free(*rows, daemon=told, containerd=["1.6.20", "running"]), ["registry.k8s.io/pause:3.9"])


class Groups(unittest.TestCase):
    def test_targets_of_one_config_are_one_image_to_cri(self):
        for ns, expected in (("k8s.io", ["i+j", "k"]), ("moby", ["i", "j", "k"])):
            rows = [manifest("a", "c", ns), manifest("b", "c", ns), manifest("e", "f", ns), config("c", "top", ns),
                    image("i", "a", ns), image("k", "e", ns), image("j", "b", ns)]
            self.assertEqual(sorted(states(*rows)), expected)

    def test_configs_that_meet_late(self):
        index = {"op": "content.add", "ns": "k8s.io", "digest": digest("e"),
                 "labels": {GC + "ref.content.m.0": digest("a"), GC + "ref.content.m.1": digest("b")}}
        rows = [manifest("a", "c", "k8s.io"), manifest("b", "d", "k8s.io"), index]
        names = [image("i", "a", "k8s.io"), image("j", "b", "k8s.io"), image("k", "e", "k8s.io")]
        self.assertEqual(list(states(*rows, *names)), ["i+j+k"])
