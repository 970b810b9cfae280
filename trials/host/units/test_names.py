"""What people call a container, an image's short name, and what an operator means by a text."""
import unittest

import test_states
import tools
from metad_host import ingests, people, why

POD = {b"io.kubernetes.pod.name": b"web-1", b"io.kubernetes.pod.namespace": b"shop", b"io.kubernetes.container.name": b"app"}
IDENTIFIER = "sha256:" + "7" * 64


class People(unittest.TestCase):
    def test_labels(self):
        self.assertEqual(people.known_name(POD), "pod shop/web-1, app")
        self.assertEqual(people.known_name({key: value for key, value in POD.items() if b"container" not in key}), "pod shop/web-1")
        self.assertEqual(people.known_name({b"nerdctl/name": b"web"}), "web")
        self.assertEqual(people.known_name({b"other": b"x", b"nerdctl/name": {}}), "")

    def test_owners(self):
        self.assertEqual(people.owner({b"io.cri-containerd.kind": b"sandbox"}), "sandbox")
        self.assertEqual(people.owner({b"nerdctl/platform": b"x"}), "nerdctl")
        self.assertEqual(people.owner({b"io.cri-containerd.kind": b"container"}), "")

    def test_pinned(self):
        self.assertTrue(people.is_pinned({b"io.cri-containerd.pinned": b"pinned"}))
        self.assertFalse(people.is_pinned({b"io.cri-containerd.pinned": b""}))

    def test_what_answers(self):
        for what, answers in (("web-1", True), ("shop/web-1", True), ("web", False), ("app", False), ("pod shop/web-1, app", True)):
            self.assertEqual(people.answers_to("pod shop/web-1, app", what), answers, what)

    def test_short_names(self):
        for name, short in (("docker.io/library/nginx:1.25", "docker.io/library/nginx"), ("r:5000/a/b", "r:5000/a/b"),
                            ("r:5000/a/b:v1@" + IDENTIFIER, "r:5000/a/b"), ("nginx:1", "nginx")):
            self.assertEqual(people.short_name(name), short)


class Meant(unittest.TestCase):
    def found(self, what, *requests, **sizes):
        store = tools.store(list(requests), **sizes)
        return [(key[0], key[2]) for key in why.find(store, what).keys]

    def test_an_image_by_its_short_name(self):
        names = ["docker.io/library/nginx:1.25", "docker.io/library/nginx@" + IDENTIFIER, IDENTIFIER]
        rows = [test_states.image(name, "a") for name in names[::-1]] + [test_states.image("docker.io/library/redis:7", "b")]
        for what in ("nginx", "nginx:1.25", "library/nginx"):
            self.assertEqual(self.found(what, *rows), [("images", names[0])], what)
        self.assertEqual(self.found("inx", *rows), [])

    def test_two_images_of_one_short_name(self):
        rows = [test_states.image("a/nginx:1", "a"), test_states.image("b/nginx:1", "b")]
        self.assertEqual(len(self.found("nginx", *rows)), 2)

    def test_a_pod(self):
        rows = [{"op": "container.add", "ns": "k8s.io", "name": name} for name in ("1" * 64, "2" * 64)]
        people = [["k8s.io", "1" * 64, "pod shop/web-1, app"], ["k8s.io", "2" * 64, "pod shop/web-2, app"]]
        self.assertEqual(self.found("web-1", *rows, people=people), [("containers", "1" * 64)])


class Ingests(unittest.TestCase):
    def test_the_last_end_counts(self):
        begin = {"op": "ingest.begin", "ns": "x", "ref": "up", "at": "2024-02-29T12:00:00Z"}
        held = test_states.lease("l", ("ingests", "up"), expire="2024-03-09T00:00:00Z")
        numbers = {"1": {"row": ["x", "up"], "backend": "x/1/up"}}
        for rows, end, leases in (([begin], "2024-03-01T12:00:00Z", []), ([begin] + held, "2024-03-09T00:00:00Z", ["l"]),
                                  ([begin] + test_states.lease("l", ("ingests", "up")), None, ["l"])):
            found, = ingests.ingests(tools.store(rows, ingests={"1": 7}, numbers=numbers, made=[["ingests", "x", "up", "2024-02-29T12:00:00Z"]]))
            self.assertEqual((found.end, found.leases, found.size, found.age), (end, leases, 7, 12 * 3600 * 10**9))

    def test_one_of_no_row(self):
        found, = ingests.ingests(tools.store([], ingests={"1": 9}, numbers={"1": {"row": None, "backend": "lost"}}))
        self.assertEqual((found.ns, found.name, found.size, found.end), ("", "lost", 9, None))
