"""Stores of daemons and of Docker, before and after a collection of their own (../live/rounds recorded them): no row differs by the rules of their version.

Rules of other versions differ: so they are read. The states of Docker's images are those of the node that was recorded.
"""
import glob
import gzip
import json
import os

import stores

# of the recorded node of Docker: two created containers, one of them over an image that it was committed to
DOCKER = {"registry.example/team2/app-08:v1": "used", "docker.io/library/kept-two:1": "used", "registry.example/team1/app-01:v2": "used",
          "registry.example/team1/app-10:v1": "free", "docker.io/library/kept-one:1": "free", "registry.example/team0/app-00:v1": "free"}


def names():
    """The recorded stores."""
    return sorted(os.path.basename(path)[:-len(".round")] for path in glob.glob(os.path.join(stores.DATA, "*.round")))


def put(name, folder):
    """Writes the copies of before and after the collection; answers what was recorded of it."""
    for ending, file in ((".db.gz", "before.db"), (".after.gz", "after.db"), (".native.gz", "before.db.snapshots.native"), (".overlayfs.gz", "before.db.snapshots.overlayfs")):
        path = os.path.join(stores.DATA, name + ending)
        if os.path.exists(path):
            with open(path, "rb") as data:
                stores.put(os.path.join(folder, file), gzip.decompress(data.read()))
    with open(os.path.join(stores.DATA, name + ".round"), encoding="utf-8") as file:
        return json.load(file)


def compared(folder, metad, round, *version):
    found = stores.tool("compare", "--json", "--metad", metad, "--at", round["at"], *version, os.path.join(folder, "before.db"), os.path.join(folder, "after.db"))
    told = json.loads(found.stdout.decode())
    return found.returncode, told["too_much_total"], told["too_little_total"], told


def run(work, metad):
    rows = went = 0
    for name in names():
        folder = os.path.join(work, name)
        round = put(name, folder)
        status, much, little, told = compared(folder, metad, round, "--containerd", round["containerd"])
        assert (much, little) == (0, 0) and status in (0, 3), "%s: %s" % (name, told)
        assert (told["rows_before"], told["rows_planned"]) == (round["rows"], round["planned"]), (name, told)
        rows, went = rows + told["rows_before"], went + told["rows_before"] - told["rows_planned"]
        with open(os.path.join(folder, "before.db.daemon"), "w", encoding="utf-8") as file:
            json.dump({"containerd": round["containerd"]}, file)
        assert compared(folder, metad, round)[:3] == (status, 0, 0), "%s: by the record of a copy" % name
    others(work, metad)
    docker(work, metad)
    return "%d stores of daemons, %d rows, of which their own collections removed %d: 0 differ" % (len(names()), rows, went)


def others(work, metad):
    """By the rules of a version that reads other labels rows differ; a guess has a remark."""
    folder = os.path.join(work, "daemon_2_1")
    round = put("daemon_2_1", folder)
    for version in ("1.7.24", "2.2"):
        _, much, little, told = compared(folder, metad, round, "--containerd", version)
        assert much + little > 0, "%s: the same by the rules of %s" % (told, version)
        assert version == "1.7.24" or told["remarks"], told
    os.unlink(os.path.join(folder, "before.db.daemon"))
    status, _, _, told = compared(folder, metad, round)
    assert status == 3 and told["remarks"], told


def docker(work, metad):
    """Docker's created containers use their images, though no row of a container is there."""
    folder = os.path.join(work, "docker_28")
    found = stores.tool("prune", "--json", "--limit", "0", "--metad", metad, os.path.join(folder, "before.db"))
    told = json.loads(found.stdout.decode())
    assert {image["names"][0]: image["state"] for image in told["images"]} == DOCKER, told["images"]
    assert all(by["type"] == "snapshots/overlayfs" for image in told["images"] for by in image["by"])
