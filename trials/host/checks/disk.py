"""What no row has on a disk: folders, blobs, ingests and temporary mounts that are old and there before and after the reading, with who removes them."""
import json
import os
import subprocess
import time

import stores

AT = "2024-03-02T03:26:39Z"
SNAPSHOTTER = "io.containerd.snapshotter.v1."


def old(path, seconds=3600):
    """Makes a folder or a file so old."""
    moment = time.time() - seconds
    os.utime(path, (moment, moment))


def folder(root, name, size=0, seconds=3600):
    """A folder with a file of this size, so old."""
    path = os.path.join(root, name)
    os.makedirs(path)
    if size:
        stores.put(os.path.join(path, "file"), b"x" * size)
    old(path, seconds)
    return path


def asked(metad, word, *more):
    """The object of a word."""
    found = stores.tool(word, "--json", "--metad", metad, "--at", AT, *more)
    assert found.returncode == 0, found.stderr.decode()
    return json.loads(found.stdout.decode())


def run(work, metad):
    root = os.path.join(work, "disk")
    stores.make_root("a_daemon", root)
    before = asked(metad, "usage", root)["disk"]
    assert before["folder"] is None and before["total"] >= before["free"] and before["inodes"] >= before["free_inodes"], before
    named = {item["name"] for item in before["nobody"]}
    overlayfs, native = (SNAPSHOTTER + name + "/snapshots/" for name in ("overlayfs", "native"))
    folder(root, overlayfs + "9999", 50000)
    folder(root, overlayfs + "new-77", 0)
    folder(root, overlayfs + "8888", 50000, 60)  # young: a pull may be making it
    folder(root, native + "9999", 20000)
    folder(root, "tmpmounts/containerd-mount1")
    folder(root, overlayfs + "4", 3000)  # a row's
    stores.put(os.path.join(root, "io.containerd.content.v1.content", "blobs", "sha256", "f" * 64), b"x" * 1234)
    for path, _, names in os.walk(os.path.join(root, "io.containerd.content.v1.content")):
        for name in names:
            old(os.path.join(path, name))
    subprocess.run(["cp", os.path.join(root, SNAPSHOTTER + "native", "metadata.db"), folder(root, SNAPSHOTTER + "devmapper")], check=True)
    found = asked(metad, "usage", "--measure", root)["disk"]
    nobody = {item["name"]: item for item in found["nobody"]}
    more = set(nobody) - named
    folders = {"overlayfs/9999", "overlayfs/new-77", "native/9999", "tmpmounts/containerd-mount1"}
    assert {name for name in more if not name.startswith(("sha", "ingest"))} == folders, more
    assert "never" in nobody["native/9999"]["remover"] and "its rows" in nobody["overlayfs/9999"]["remover"], nobody
    assert 50000 <= nobody["overlayfs/9999"]["bytes"] < 80000 and found["not_looked_at"] == ["devmapper"], found
    assert nobody["sha256:" + "f" * 64]["bytes"] == 1234 and found["of_nobody"] == sum(item["bytes"] for item in nobody.values()), nobody
    measured = int(subprocess.run(["du", "-s", "-B1", root], stdout=subprocess.PIPE, check=True).stdout.split()[0])
    assert abs(found["folder"] - measured) <= 8192, (found["folder"], measured)
    told(root, metad)
    kept(root, os.path.join(work, "disk.db"), metad, found)
    return "%d things of nobody, each with who removes it; a copy keeps them" % len(nobody)


def told(root, metad):
    """The page's lines, and what why says of a folder."""
    page = stores.tool("usage", "--metad", metad, "--at", AT, root).stdout.decode()
    assert page.startswith("file system ") and "\nthis folder unmeasured, of rows " in page and "\nfolders of devmapper: not looked at\n" in page, page
    why = stores.tool("why", "--metad", metad, "--at", AT, root, "overlayfs/9999").stdout.decode()
    assert why.startswith("overlayfs/9999 (") and "no row has it; overlayfs removes it at the next collection" in why, why
    young = stores.tool("why", "--metad", metad, "--at", AT, root, "overlayfs/8888")
    assert young.returncode == 1 and b"nothing in the store" in young.stderr, young


def told_bytes(metad, *words):
    """The bytes of each kind by metrics."""
    samples, = [metric["samples"] for metric in asked(metad, "metrics", *words)["metrics"] if metric["name"] == "metad_host_bytes"]
    return {sample["labels"]["kind"]: sample["value"] for sample in samples}


def kept(root, copy, metad, disk):
    """A copy that measured keeps the disk and the bytes of writable snapshots for all words."""
    assert stores.tool("copy", "--measure", root, copy).returncode == 0
    found = asked(metad, "usage", copy)
    assert found["disk"]["nobody"] == disk["nobody"] and found["disk"]["of_rows"] > 3000, found["disk"]
    assert found["kinds"]["writable"]["bytes"] >= 3000 and found["kinds"]["writable"]["unknown"] == 2, found["kinds"]  # one of them is the devmapper's
    writable = found["kinds"]["writable"]["bytes"]
    assert told_bytes(metad, copy)["writable"] == told_bytes(metad, "--measure", root)["writable"] == writable, writable
    assert "writable" not in told_bytes(metad, root), "bytes that no one measured"
    row, = [row for row in asked(metad, "impact", copy)["rows"] if row["kind"] == "container"]
    plain, = [row for row in asked(metad, "impact", root)["rows"] if row["kind"] == "container"]
    measured, = [row for row in asked(metad, "impact", "--measure", root)["rows"] if row["kind"] == "container"]
    assert row["frees"] == measured["frees"] > plain["frees"], (row, measured, plain)
    assert stores.tool("copy", root, copy).returncode == 0
    assert asked(metad, "usage", copy)["disk"] is None, "an earlier copy's record"
    assert stores.tool("usage", "--metad", metad, "--measure", copy).returncode == 2
