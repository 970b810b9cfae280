"""Each copy that is made under a writer is a state that was; a copy is whole or not there; compare tells rows that went too early and too late."""
import json
import multiprocessing
import os
import subprocess

import bolt_file
import changing
import stores

AT = "2024-03-02T03:26:39Z"


def run(work, metad):
    folder = os.path.join(work, "copies")
    os.makedirs(folder)
    states = under_a_writer(folder)
    of_a_folder(folder)
    compared(folder, metad)
    return "50 copies under a writer, of %d states; copies of a folder; rows that went too early and too late" % states


def under_a_writer(folder):
    """50 copies while transactions follow each other without a pause: each is one state."""
    from metad_host import copying, pages
    path, target = os.path.join(folder, "changing.db"), os.path.join(folder, "copy.db")
    ready, stop = multiprocessing.Event(), multiprocessing.Event()
    writer = multiprocessing.Process(target=changing.write_on, args=(path, ready, stop))
    writer.start()
    try:
        assert ready.wait(60)
        states = set()
        for _ in range(50):
            copying.copy(path, target)
            found = pages.read(target)
            assert not changing.mixed(found), "a copy is a state that never was"
            states.add(found[b"first"][b"n"])
    finally:
        stop.set()
        writer.join()
    assert len(states) > 1, "the writer wrote nothing"
    return len(states)


def of_a_folder(folder):
    """A copy of a daemon's folder answers as the folder does, but for what only the folder holds; nothing is written to it."""
    root, target = os.path.join(folder, "root"), os.path.join(folder, "host.db")
    stores.make_root("a_daemon", root)
    before = sorted(os.listdir(root))
    assert stores.tool("copy", root, target).returncode == 0
    assert sorted(name for name in os.listdir(folder) if name.startswith("host.db")) == ["host.db", "host.db.snapshots.native", "host.db.snapshots.overlayfs"]
    for word in ("export", ):
        direct, copied = (json.loads(line) for line in (stores.tool(word, "--at", AT, path).stdout.splitlines()[-1] for path in (root, target)))
        assert direct == copied
    for bad in (root, os.path.join(root, "copy.db"), folder):
        found = stores.tool("copy", root, bad)
        assert found.returncode == 2 and found.stderr.count(b"\n") == 1, "%s: %s" % (bad, found)
    found = stores.tool("copy", target, target)
    assert found.returncode == 2, found
    assert sorted(os.listdir(root)) == before
    assert stores.tool("copy", os.path.join(folder, "nowhere"), target + "2").returncode == 1
    assert not os.path.exists(target + "2") and not [name for name in os.listdir(folder) if name.endswith(".part")]
    os.unlink(os.path.join(root, "io.containerd.snapshotter.v1.native", "metadata.db"))
    assert stores.tool("copy", root, target).returncode == 0
    assert not os.path.exists(target + ".snapshots.native"), "a snapshotter of an earlier copy"


def compared(folder, metad):
    """Copies of before and after a collection of containerd: nothing differs; of a row less and one more, these are told."""
    from metad_host import pages
    before, after, other = (os.path.join(folder, name) for name in ("before.db", "after.db", "other.db"))
    for path, source in ((before, "a_daemon.db"), (after, "a_daemon.after")):
        stores.put(path, subprocess.run(["gunzip", "-c", stores.path(source, "gz")], stdout=subprocess.PIPE, check=True).stdout)
    assert compare(before, after, metad) == (0, 0, 0, 0)
    tree = pages.read(after)
    images = tree[b"v1"][b"moby"][b"images"]
    del images[sorted(images)[0]]
    bolt_file.write(other, tree)
    assert compare(before, other, metad) == (1, 1, 0, 0)
    tree[b"v1"][b"moby"][b"images"][b"new:1"] = {b"target": {b"digest": b"sha256:" + b"1" * 64}}
    bolt_file.write(other, tree)
    assert compare(before, other, metad) == (1, 1, 0, 1)
    status, much, little, new = compare(before, before, metad)
    assert (status, much, new) == (0, 0, 0) and little == 21, little


def compare(before, after, metad):
    """The status of a comparison, and how many rows went too early, stayed, and are new."""
    found = stores.tool("compare", "--json", "--at", AT, "--metad", metad, before, after)
    told = json.loads(found.stdout.decode())
    return found.returncode, told["too_much_total"], told["too_little_total"], told["new_rows"]
