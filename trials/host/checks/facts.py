"""Each store's script is what export writes, and its report is what containerd removed: the same rows, counts and objects, but for what docs/HOST.md names."""
import json
import os

import stores

# of the odd store: a blob that an ingest of another namespace waits for stays in containerd; the parent whose row is gone stays below its child
NAMED = {"everything_odd": {"blobs": 1, "snapshots": [["native", "default/5/low"]]}}


def check(name, work):
    """Compares one store; answers its status and its remarks."""
    root, sizes_file = os.path.join(work, name), os.path.join(work, name + ".sizes")
    stores.make_root(name, root)
    found = stores.export(name, root, sizes_file)
    assert found.stdout == stores.read(name, "script"), "%s: export writes another script" % name
    with open(sizes_file) as file:
        sizes = json.load(file)
    script = found.stdout
    assert stores.asked(name, script) == stores.asked(name, script, sizes), "%s: another removal" % name
    report = json.loads(stores.read(name, "report").splitlines()[-1].decode())["report"]
    compare(name, report, stores.facts(name), sizes, NAMED.get(name, {}))
    return found.returncode, found.stderr.decode()


def compare(name, report, facts, sizes, named):
    """A report against the facts, in the daemon's own words.

    `named` are the objects that differ, as docs/HOST.md says; None where that isn't known.
    """
    between = set(sizes["between"])
    own = {old: new for new, old in sizes["renamed"].items()}
    for kind, rows in report["removed"].items():
        mine = sorted(row for row in rows if row[-1] not in between)
        theirs = sorted([own.get(part, part) for part in row] for row in facts["removed"][kind])
        assert mine == theirs, "%s: other %s: %s, %s" % (name, kind, [row for row in mine if row not in theirs], [row for row in theirs if row not in mine])
    kept = dict(report["kept"])
    kept["content"] -= len(between) - sum(row[1] in between for row in report["removed"]["content"])
    kept["containers"] -= len(sizes["sandboxes"])
    assert kept == facts["kept"], "%s: keeps %s, containerd kept %s" % (name, kept, facts["kept"])
    objects(name, report, facts["backend"], sizes, between, named)


def objects(name, report, theirs, sizes, between, named):
    """The objects of the backends."""
    gone = [tuple(row) for row in report["removed"]["ingests"]]
    blobs = [sizes["renamed"].get(digest, digest) for digest in report["backend"]["blobs"] if digest not in between]
    waited = [digest for digest in blobs if any(tuple(row) not in gone for row in sizes["awaited"].get(digest, ()))]
    if named is None:
        named = {}
    else:
        assert len(waited) == named.get("blobs", 0), "%s: %d blobs that ingests wait for" % (name, len(waited))
    assert sorted(set(blobs) - set(waited)) == theirs["blobs"], "%s: other blobs" % name
    numbers = sizes["numbers"]
    ingests = [numbers[str(number)]["backend"] for number in report["backend"]["ingests"] if number not in sizes["waiting"]]
    assert sorted(ingests) == sorted(theirs["ingests"]), "%s: other ingests" % name
    snapshots = [[snapshotter, numbers[str(number)]["backend"]] for snapshotter, number in report["backend"]["snapshots"]]
    assert sorted(snapshots) == sorted(theirs["snapshots"] + named.get("snapshots", [])), "%s: other snapshots" % name


def run(work):
    status = {name: check(name, work)[0] for name in stores.NAMES}
    assert status == {name: 3 if name == "everything_odd" or stores.version_of(name) else 0 for name in stores.NAMES}, status
    return "%d stores, their scripts and reports against what containerd removed" % len(status)
