"""The scripts of bench/side/run: `write(path, shape, rows)`; the same words give the same bytes.

program     what bench/program/script prints; its size is a number of requests, all others' of rows
layers      images of two platforms over bases that ten share, with a chain of snapshots each; a
            fifth have lost their row, a fifth hold a container
random      content and snapshots that reference any others, in no order; a fifth is unreached
chain       a chain of content and one of snapshots: nothing that workers could share
fan         a tree of content with 64 references a row, a snapshot at each
garbage     content and snapshots that nothing references
lease       content, snapshots and ingests under one lease
namespaces  layers in namespaces of some 100 rows
mix         layers in four namespaces, with ingests, reads, changed labels and removals between
peer        what containerd sends while it pulls and runs images: each pull under a lease, layers
            through ingests, snapshots named by the digests of their chains, labels in between
"""

import hashlib
import os
import random
import subprocess
import sys

REFERENCE = "containerd.io/gc.ref."
MOMENT = "2024-03-01T00:00:00Z"
DRY_RUN = b'{"op":"gc.plan","at":"2024-03-01T00:00:00Z"}\n'
COLLECTION = b'{"op":"gc.run","at":"2024-03-01T00:00:00Z"}\n'


def digest(name):
    return "sha256:" + hashlib.sha256(name.encode()).hexdigest()


def request(op, ns, labels=None, **members):
    text = '{"op":"%s","ns":"%s"' % (op, ns)
    for name, value in members.items():
        text += ',"%s":"%s"' % (name, value)
    if labels:
        text += ',"labels":{%s}' % ",".join('"%s":"%s"' % pair for pair in labels.items())
    return text + "}\n"


def content(ns, name, labels=None, **members):
    return request("content.add", ns, labels, digest=digest(name), **members)


def references(names, first="l.0"):
    """Labels that reference content by name; `first` is the key of the first."""
    keys = [first] + ["l.%d" % place for place in range(1, len(names))]
    return {REFERENCE + "content." + key: digest(name) for key, name in zip(keys, names)}


def committed(ns, snapshotter, name, parent=None, labels=None, **lease):
    """A committed snapshot, by two requests."""
    above = {"parent": parent} if parent else {}
    key = "making " + name
    yield request("snap.prepare", ns, snapshotter=snapshotter, key=key, **above, **lease)
    yield request("snap.commit", ns, labels, snapshotter=snapshotter, key=key, name=name, **lease)


def image_of_layers(ns, number):
    """One image's requests; the first of ten brings the base."""
    base = "base %d" % (number // 10)
    snapshotter = "native" if number // 10 % 5 == 4 else "overlayfs"
    shared = ["%s.%d" % (base, layer) for layer in range(4)]
    if number % 10 == 0:
        for layer, name in enumerate(shared):
            yield content(ns, name)
            yield from committed(ns, snapshotter, name, shared[layer - 1] if layer else None)
    top = shared[-1]
    for layer in range(4):
        name = "image %d.%d" % (number, layer)
        yield from committed(ns, snapshotter, name, top)
        top = name
    manifests = []
    for platform in ("amd64", "arm64"):
        own = ["%s %d.%d" % (platform, number, layer) for layer in range(4)]
        for name in own:
            yield content(ns, name)
        config = "config %s %d" % (platform, number)
        kept = {REFERENCE + "snapshot." + snapshotter: top} if platform == "amd64" else None
        yield content(ns, config, kept)
        manifests.append("manifest %s %d" % (platform, number))
        yield content(ns, manifests[-1], references([config] + shared + own, "config"))
    index = "index %d" % number
    yield content(ns, index, references(manifests, "m.0"))
    if number % 5 != 0:
        yield request("image.add", ns, name="image%d" % number, target=digest(index))
    elif number % 10 == 0:
        yield request("lease.add", ns, {"containerd.io/gc.flat": "yes"}, id="lease%d" % number)
        yield request("lease.hold", ns, id="lease%d" % number, type="content", resource=digest(index))
    if number % 5 == 1:
        key = "run%d" % number
        yield request("snap.prepare", ns, snapshotter=snapshotter, key=key, parent=top)
        yield request("container.add", ns, name=key, snapshotter=snapshotter, key=key)


ROWS_OF_IMAGE = 19


def layers(rows):
    yield request("ns.add", "n")
    for number in range(max(1, rows // ROWS_OF_IMAGE)):
        yield from image_of_layers("n", number)


def namespaces(rows):
    for number in range(max(1, rows // ROWS_OF_IMAGE)):
        ns = "n%d" % (number // 5)
        if number % 5 == 0:
            yield request("ns.add", ns)
        # a namespace has its own base: numbers of ten begin anew in each
        yield from image_of_layers(ns, number // 5 * 10 + number % 5)


def mix(rows):
    names = ("default", "k8s.io", "moby", "buildkit")
    for ns in names:
        yield request("ns.add", ns)
    for number in range(max(1, rows // (ROWS_OF_IMAGE + 1))):
        ns = names[number // 10 % 4]
        yield from image_of_layers(ns, number)
        layer = digest("pulled %d" % number)
        ref = "layer-%d" % number
        yield request("ingest.begin", ns, ref=ref, at=MOMENT, expected=layer)
        if number % 4:
            yield request("ingest.commit", ns, ref=ref, digest=layer)
        index = digest("index %d" % number)
        yield request("content.get", ns, digest=index)
        yield request("content.label", ns, digest=index, key="note", value=str(number))
        yield request("image.get", ns, name="image%d" % number)
        if number % 20 == 19:
            yield request("image.remove", ns, name="image%d" % number)
    for ns in names:
        yield request("content.list", ns)


# two layers that five share and four of its own, config, manifest and index, each layer with a
# snapshot; an image; every second image has a container with its snapshot
ROWS_OF_PULL = 17


def pull(number):
    """One image's pull, as the client sends it, and a container."""
    ns = "k8s.io" if number % 3 else "default"
    lease, at = "pull-%d" % number, {"containerd.io/gc.expire": "2024-03-02T00:00:00Z"}
    yield request("lease.add", ns, at, id=lease)

    def fetched(name, labels):
        ref = "fetch-%s-%d" % (digest(name)[7:19], number)
        yield request("ingest.begin", ns, ref=ref, at=MOMENT, expected=digest(name), lease=lease)
        yield request("ingest.commit", ns, labels, ref=ref, digest=digest(name), lease=lease)

    source = {"containerd.io/distribution.source.registry.example": "library/image-%d" % number}
    layers = ["shared %d %s" % (number // 5, layer) for layer in "ab"] + ["own %d %d" % (number, at) for at in range(4)]
    config, manifest, index = ("%s of %d" % (word, number) for word in ("config", "manifest", "index"))
    for name in [index, manifest, config] + layers:
        yield from fetched(name, source)
    yield request("content.label", ns, digest=digest(index), key=REFERENCE + "content.m.0", value=digest(manifest))
    for place, name in enumerate([config] + layers):
        key = "config" if place == 0 else "l.%d" % (place - 1)
        yield request("content.label", ns, digest=digest(manifest), key=REFERENCE + "content." + key, value=digest(name))
    parent = {}
    for place, layer in enumerate(layers):
        name = digest("%s chain %d %s" % (ns, place, layer))
        key = "extract-%d%d %s" % (number, place, name)
        kept = {"containerd.io/snapshot.ref": name}
        yield request("snap.prepare", ns, kept, snapshotter="overlayfs", key=key, lease=lease, **parent)
        yield request("snap.commit", ns, kept, snapshotter="overlayfs", key=key, name=name, lease=lease)
        parent = {"parent": name}
        yield request("content.label", ns, digest=digest(layer), key="containerd.io/uncompressed", value=name)
    top = parent["parent"]
    yield request("content.label", ns, digest=digest(config), key=REFERENCE + "snapshot.overlayfs", value=top)
    yield request("image.add", ns, name="registry.example/library/image-%d:latest" % number, target=digest(index))
    yield request("lease.remove", ns, id=lease)
    if number % 2 == 0:
        run = digest("container %d" % number)[7:]
        yield request("snap.prepare", ns, snapshotter="overlayfs", key=run, parent=top)
        yield request("container.add", ns, name=run, snapshotter="overlayfs", key=run)


def peer(rows):
    yield request("ns.add", "default")
    yield request("ns.add", "k8s.io")
    for number in range(max(1, rows // ROWS_OF_PULL)):
        yield from pull(number)


def scattered(rows):
    """References stay within the part that is reached or within the other."""
    rng = random.Random(rows)
    count = rows // 2
    reached = count * 4 // 5
    shards = ("overlayfs", "native")
    yield request("ns.add", "n")
    for number in range(count):
        low, high = (0, reached) if number < reached else (reached, count)
        labels = references(["c%d" % rng.randrange(low, high) for _ in range(rng.randrange(5))] or ["c%d" % low])
        if number + 1 < reached:
            labels[REFERENCE + "content.next"] = digest("c%d" % (number + 1))
        if rng.random() < 0.3:
            other = rng.randrange(low, high)
            labels[REFERENCE + "snapshot." + shards[other % 2]] = "s%d" % other
        yield content("n", "c%d" % number, labels)
        if number < reached and number % 100 == 0:
            yield request("image.add", "n", name="image%d" % number, target=digest("c%d" % number))
    for number in range(count):
        low, high = (0, reached) if number < reached else (reached, count)
        # a parent of the same snapshotter, that is of the same parity, and mostly near
        back = 2 * rng.randrange(1, 50 if rng.random() < 0.8 else max(2, (number - low) // 2))
        parent = "s%d" % (number - back) if number - back >= low else None
        labels = references(["c%d" % rng.randrange(low, high)]) if rng.random() < 0.3 else None
        yield from committed("n", shards[number % 2], "s%d" % number, parent, labels)


def chain(rows):
    count = rows // 2
    yield request("ns.add", "n")
    for number in range(count):
        yield content("n", "c%d" % number, references(["c%d" % (number + 1)]) if number + 1 < count else
                      {REFERENCE + "snapshot.overlayfs": "s%d" % (count - 1)})
    for number in range(count):
        yield from committed("n", "overlayfs", "s%d" % number, "s%d" % (number - 1) if number else None)
    yield request("image.add", "n", name="chain", target=digest("c0"))


def fan(rows):
    count = rows // 2
    yield request("ns.add", "n")
    for number in range(count):
        below = ["c%d" % at for at in range(number * 64 + 1, min(number * 64 + 65, count))]
        labels = references(below) if below else {}
        labels[REFERENCE + "snapshot.overlayfs"] = "s%d" % number
        yield content("n", "c%d" % number, labels)
        yield from committed("n", "overlayfs", "s%d" % number)
    yield request("image.add", "n", name="fan", target=digest("c0"))


def unreferenced(rows, lease=None):
    """Content and chains of eight snapshots, all garbage or all under one lease."""
    under = {"lease": lease} if lease else {}
    yield request("ns.add", "n")
    if lease:
        yield request("lease.add", "n", id=lease)
    for number in range(rows // 2):
        yield content("n", "c%d" % number, **under)
        parent = "s%d" % (number - 1) if number % 8 else None
        yield from committed("n", ("overlayfs", "native")[number // 8 % 2], "s%d" % number, parent, **under)
        if lease and number % 10 == 0:
            yield request("ingest.begin", "n", ref="open%d" % number, at=MOMENT, **under)


# Scripts that keep their rows few: 1,000 of content, then so many requests.

def thousand():
    yield request("ns.add", "n")
    for number in range(1000):
        yield content("n", "c%d" % number)


def reads(requests):
    """Requests that add nothing."""
    yield from thousand()
    lines = [request("content.get", "n", digest=digest("c%d" % number)) for number in range(1000)]
    for number in range(requests):
        yield lines[number % 1000]


def refused(requests):
    """Requests that are refused: an unknown name, a name that stands already, no digest."""
    yield from thousand()
    lines = []
    for number in range(1000):
        lines += [request("content.get", "n", digest=digest("unknown %d" % number)), content("n", "c%d" % number),
                  request("content.get", "n", digest="sha256:%d" % number)]
    for number in range(requests):
        yield lines[number % 3000]


SHAPES = {"layers": layers, "random": scattered, "chain": chain, "fan": fan, "garbage": unreferenced,
          "lease": lambda rows: unreferenced(rows, "l"), "namespaces": namespaces, "mix": mix, "peer": peer}
STEADY = {"reads": reads, "refused": refused}


def program_script(rows, *words):
    """bench/program/script's lines but its collection."""
    script = os.path.join(os.path.dirname(os.path.abspath(__file__)), os.pardir, "program", "script")
    with subprocess.Popen([sys.executable, script, str(rows)] + list(words), stdout=subprocess.PIPE) as made:
        for line in made.stdout:
            if line != COLLECTION:
                yield line.decode()
    if made.returncode != 0:
        raise SystemExit("bench/program/script ended with status %d" % made.returncode)


def lines_of(shape, rows):
    if shape == "program":
        return program_script(rows)
    if shape == "changes":
        return program_script(rows, "churn")
    return (SHAPES.get(shape) or STEADY[shape])(rows)


def write(path, shape, rows):
    """Writes the script without its collections; the number of its lines."""
    count = 0
    with open(path, "w", encoding="ascii", buffering=1 << 20) as out:
        for line in lines_of(shape, rows):
            out.write(line)
            count += 1
    return count
