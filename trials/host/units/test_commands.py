"""The commands: whose tool, which names, how quoted; and which things have none."""
import argparse
import shlex
import unittest

import test_states
import tools
from metad_host import ages, amounts, commands, daemon, orders
from metad_host.rows import Group

HERE = daemon.NONE._replace(socket="/run/c d.sock", state="/run/containerd")
A = "a"


def image(name, ns, letter=A):
    return test_states.image(name, letter, ns)


def command(*names, ns="x", daemon=None, **sizes):
    """The command for an image of these names."""
    store = tools.store([image(name, ns) for name in names], daemon=daemon, **sizes)
    group, = store.rows.groups()
    return commands.Commands(store).image(group)


def words(*names, **more):
    """The words of the command that removes, behind `still-free .. &&`."""
    text = command(*names, **more).text
    asked, _, removes = text.partition(" && ")
    return shlex.split(asked), shlex.split(removes)


class Images(unittest.TestCase):
    def test_each_namespace_has_its_tool(self):
        for ns, begin in (("k8s.io", ["crictl", "--runtime-endpoint", "unix://SOCKET", "rmi", "i:1"]),
                          ("moby", ["docker", "--host", "unix://SOCKET", "image", "rm", "i:1"]),
                          ("x", ["ctr", "--address", "SOCKET", "--namespace", "x", "images", "rm", "--sync", "i:1"])):
            self.assertEqual(words("i:1", ns=ns)[1], begin)
        self.assertEqual(words("i:1", ns="x", owners=[["images", "x", "i:1", "nerdctl"]])[1],
                         ["nerdctl", "--address", "SOCKET", "--namespace", "x", "rmi", "i:1"])

    def test_the_socket_of_the_daemon(self):
        self.assertEqual(words("i:1", daemon=HERE)[1][2], "/run/c d.sock")
        self.assertEqual(words("i:1", ns="k8s.io", daemon=HERE)[1][2], "unix:///run/c d.sock")

    def test_all_names(self):
        self.assertEqual(words("i:1", "i:2", ns="moby")[1][-2:], ["i:1", "i:2"])
        identifier = "sha256:" + "7" * 64
        asked, removes = words("i:1", "i@" + identifier, identifier, ns="k8s.io")
        self.assertEqual((asked[1:4], removes[-1]), (["still-free", "ROOT", "k8s.io"], identifier))
        self.assertEqual(sorted(asked[4:]), sorted(["i:1", "i@" + identifier, identifier]))

    def test_an_image_of_docker_without_a_tag(self):
        digest = "sha256:" + "7" * 64
        self.assertEqual(words("moby-dangling@" + digest, ns="moby")[1][-1], digest)

    def test_names_are_quoted(self):
        for name in ("it's", "a b", "$(reboot)", "`reboot`", "a;reboot", "a\"b", "a&&b", "é:1", "a\\b", "*"):
            asked, removes = words(name, "i:1")
            self.assertIn(name, asked)
            self.assertIn(name, removes)

    def test_names_that_no_command_line_carries(self):
        for name in ("-f", "--all", "a\u202eb"):
            found = command(name, "i:1")
            self.assertIsNone(found.text, name)
            self.assertIn("can't carry", found.why_not)
        self.assertIsNone(command("renamed-1", renamed={"renamed-1": "a\nb"}).text)

    def test_no_force(self):
        for ns in ("moby", "k8s.io", "x"):
            self.assertFalse({"-f", "--force"} & set(words("i:1", ns=ns)[1]))


class Others(unittest.TestCase):
    def of(self, request, **more):
        store = tools.store([request], **more)
        return commands.Commands(store), next(iter(store.rows.rows))

    def test_containers(self):
        for ns, owner, end in (("k8s.io", None, ["rm", "run"]), ("k8s.io", "sandbox", ["rmp", "run"]), ("moby", None, ["rm", "run"]),
                               ("x", None, ["containers", "rm", "run"]), ("x", "nerdctl", ["rm", "run"])):
            owners = [["containers", ns, "run", owner]] if owner else []
            found, key = self.of({"op": "container.add", "ns": ns, "name": "run"}, owners=owners)
            self.assertEqual(shlex.split(found.container(key).text)[-len(end):], end)

    def test_leases(self):
        for ns in ("moby", "buildkit"):
            found, key = self.of({"op": "lease.add", "ns": ns, "id": "l"})
            self.assertIsNone(found.lease(key).text, ns)
        found, key = self.of({"op": "lease.add", "ns": "k8s.io", "id": "l"})
        self.assertEqual(shlex.split(found.lease(key).text), ["ctr", "--address", "SOCKET", "--namespace", "k8s.io", "leases", "rm", "--sync", "l"])

    def test_a_stopped_container_of_docker(self):
        key = "0" * 63 + "a"
        rows = [dict(test_states.snap(name, None, ns=ns), parent=None) for ns, name in (("moby", key), ("x", key), ("moby", "work"), ("moby", "1" * 64))]
        for row in rows:
            del row["parent"]
        store = tools.store(rows + [test_states.container("run", "1" * 64, "moby")])
        self.assertEqual(orders.stopped(store), [("snapshots/overlayfs", "moby", key)])

    def test_tasks_are_asked_where_the_daemon_is_seen(self):
        rows = [{"op": "container.add", "ns": "x", "name": "run"}, {"op": "container.add", "ns": "x", "name": "sandbox:s"}]
        store = tools.store(rows, sandboxes=[["x", "sandbox:s"]])
        self.assertEqual(orders.idle(store), [])
        store.daemon = HERE._replace(state="/nowhere")
        self.assertEqual(orders.idle(store), [("containers", "x", "run")])


class Ages(unittest.TestCase):
    def test_an_image_is_as_young_as_its_youngest_name(self):
        made = [["images", "x", "i:1", "2024-02-01T00:00:00Z"], ["images", "x", "i:2", "2024-02-28T12:00:00Z"]]
        store = tools.store([image("i:1", "x"), image("i:2", "x")], made=made)
        group, = store.rows.groups()
        self.assertEqual(ages.told(ages.of_group(store, group)), "36 h old")
        self.assertIsNone(ages.of_group(store, Group("image", "x", group.keys + [("images", "x", "i:3")])))

    def test_told(self):
        day = 86400 * 10**9
        for age, text in ((None, "of unknown age"), (0, "0 m old"), (-5, "0 m old"), (day, "24 h old"), (2 * day, "2 d old"), (61 * 60 * 10**9, "61 m old")):
            self.assertEqual(ages.told(age), text)


class Amounts(unittest.TestCase):
    def test_sizes(self):
        for text, count in (("12GB", 12 * 10**9), ("500MiB", 500 << 20), ("1.5kB", 1500), ("7", 7), ("7B", 7), ("2 TB", 2 * 10**12), ("1g", 10**9)):
            self.assertEqual(amounts.bytes_of(text), count, text)
        for text in ("", "GB", "-1GB", "1.GB", "1EB", "1e3", "nan", "١GB"):
            with self.assertRaises(argparse.ArgumentTypeError):
                amounts.bytes_of(text)

    def test_spans(self):
        for text, seconds in (("7d", 7 * 86400), ("12h", 43200), ("2w", 14 * 86400), ("90s", 90)):
            self.assertEqual(amounts.age_of(text), seconds * 10**9)
        for text in ("7", "d", "-1d", "1y", "1.5d"):
            with self.assertRaises(argparse.ArgumentTypeError):
                amounts.age_of(text)
