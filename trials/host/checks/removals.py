"""By the built program: what prune --commands and free print for random stores, against plans after the removals that they name; and still-free."""
import json
import shlex

import images
import questions
import stores

AT = questions.AT


def names_of(order):
    """The names that a command's still-free asks about, which are those that it removes."""
    asked = shlex.split(order["command"].partition(" && ")[0])
    assert asked[1:4] == ["still-free", "ROOT", order["ns"]], asked
    assert asked[4:] == order["names"], order
    return [("images", order["ns"], name) for name in asked[4:]]


def in_turn(asked, orders):
    """What each command frees beyond those before it is what plans say; answers the sum."""
    lines = [questions.PLAN]
    for order in orders:
        lines += asked.without(names_of(order)) + [questions.PLAN]
    reports = [asked.bytes(report) for report in asked.reports(lines)]
    for order, before, after in zip(orders, reports, reports[1:]):
        assert order["frees"] == after - before, "%d: %s, where plans say %d" % (asked.seed, order, after - before)
    return reports[-1] - reports[0]


def prune(asked, free):
    """Commands for all free images, and for nothing else; together they free what prune tells."""
    found = asked.word("prune", "--commands")
    assert sorted((order["ns"], sorted(order["names"])) for order in found["images"]) == free, asked.seed
    total = in_turn(asked, found["images"])
    assert found["frees"] == total == asked.word("prune")["frees"], (asked.seed, total, found["frees"])
    assert found["containers"] == [] == found["leases"]
    return total, len(free)


def freed(asked, size):
    """What free prints for a size, and its status."""
    found, status = questions.word("free", "--metad", asked.metad, "--at", AT, *questions.VERSION, "--json", str(size), asked.root)
    assert status == (0 if found["is_enough"] else 1) and found["asked"] == size
    assert found["frees"] == in_turn(asked, found["images"]), asked.seed
    return found


def free(asked, total):
    """As much as is asked for, with no image that could be left out; else all that can go."""
    for size in sorted({1, total // 3, total // 2, total}):
        found = freed(asked, size)
        assert found["is_enough"] == (size <= total) and (size > total or found["frees"] >= size), "%d: %d: %s" % (asked.seed, size, found)
        every = [names_of(order) for order in found["images"]]
        base, = asked.reports([questions.PLAN])
        for names in every if total else ():
            others = [name for one in every if one is not names for name in one]
            report, = asked.reports(asked.without(others) + [questions.PLAN])
            assert asked.bytes(report) - asked.bytes(base) < size, "%d: %s isn't needed for %d" % (asked.seed, names, size)
    assert not freed(asked, total + 1)["is_enough"]


def still_free(asked, states):
    """Of each image: 0 where it is free and these are all its names, else 1."""
    for (ns, _), (state, names) in list(states.items())[:4]:
        for these, expected in ((names, 0 if state == "free" else 1), (names + ["another:1"], 1), (names[1:], 1)):
            if these:
                found = stores.tool("still-free", "--at", AT, *questions.VERSION, asked.root, ns, *these)
                assert found.returncode == expected, "%d: %s: %s" % (asked.seed, these, found)
                assert (found.stderr == b"") == (expected == 0), found


def run(work, metad, count):
    sums = [0, 0]
    for seed in range(1000, 1000 + count):
        asked = questions.Asked(seed, work, metad, seed % 4 == 0)
        states = images.states(asked.store, AT)
        total, commands = prune(asked, sorted((ns, names) for (ns, _), (state, names) in states.items() if state == "free"))
        free(asked, total)
        if seed < 1003:
            still_free(asked, states)
        sums = [sums[0] + commands, sums[1] + total]
    refused(work, metad)
    kubelet(work, metad)
    return "%d random stores: %d commands free %d bytes as plans say, in turn and by free" % ((count,) + tuple(sums))


def refused(work, metad):
    """A size or an age that is none ends with 2, before anything is read."""
    for words in (["free", "much", work], ["free", "--older-than", "long", "1GB", work], ["still-free", work, "x"]):
        found = stores.tool(*words)
        assert found.returncode == 2 and not found.stdout, (words, found)
    found = stores.tool("prune", "--commands", "--leases", "--json", "--metad", metad, "--at", AT, stores_of(work))
    told = json.loads(found.stdout.decode())
    assert [(order["ns"], order["names"], order["command"] is not None) for order in told["leases"]] == [("default", ["old"], True)], told["leases"]


def kubelet(work, metad):
    """Of an image of Kubernetes free says that kubelet removes images too; of another it doesn't."""
    import os

    import bolt_file
    path, digest = os.path.join(work, "kubelet.db"), b"sha256:" + b"1" * 64
    for ns, is_told in ((b"k8s.io", True), (b"default", False)):
        rows = {b"images": {b"i:1": {b"target": {b"digest": digest}}}, b"content": {b"blob": {digest: {b"size": b"\xc8\x01"}}}}
        bolt_file.write(path, {b"v1": {b"version": b"\x06", ns: rows}})
        found = stores.tool("free", "1", "--metad", metad, "--at", AT, path)
        assert found.returncode == 0 and (b"kubelet removes unused images" in found.stderr) == is_told, found


def stores_of(work):
    """A store with an old lease, a young one, one without a time, and one of Docker."""
    import os

    import bolt_file
    import random_store
    old, young = (random_store.moment(random_store.NOON - seconds) for seconds in (90000, 3600))
    leases = {b"old": {b"createdat": old}, b"young": {b"createdat": young}, b"unknown": {}}
    path = os.path.join(work, "leases.db")
    bolt_file.write(path, {b"v1": {b"version": b"\x06", b"default": {b"leases": leases}, b"moby": {b"leases": {b"old": {b"createdat": old}}}}})
    return path
