"""A daemon's folder with random rows of all kinds, and what they reference: small, so that each question can be asked of it."""
import hashlib
import os
import random
import struct

import bolt_file
import stores

NAMESPACES = ("default", "k8s.io", "moby")
SNAPSHOTTERS = ("native", "overlayfs")
AT = "2024-03-02T12:00:00Z"
GC = b"containerd.io/gc."
YEAR_ONE = 62135596800
NOON = 1709380800  # AT in seconds since 1970


def signed(number):
    """A number in Go's variable length, signed."""
    return unsigned(2 * number if number >= 0 else -2 * number - 1)


def unsigned(number):
    """A number in Go's variable length, unsigned."""
    data = bytearray()
    while number > 127:
        data.append(number & 127 | 128)
        number >>= 7
    return bytes(data + bytes([number]))


def moment(seconds):
    """A time in Go's binary form."""
    return b"\x01" + struct.pack(">qi", seconds + YEAR_ONE, 0) + b"\xff\xff"


class Store:
    """A random store: `tree` is its meta.db; images, containers and sizes are what a check compares with."""

    def __init__(self, seed):
        self.is_later = seed % 2 == 1  # version 4, of containerd 2
        self.random = random.Random(seed)
        self.digests = [b"sha256:" + hashlib.sha256(b"%d %d" % (seed, place)).hexdigest().encode() for place in range(14)]
        self.sizes = {digest: self.random.randrange(1, 10 ** self.random.randrange(1, 8)) for digest in self.digests}
        self.stored = {snapshotter: {} for snapshotter in SNAPSHOTTERS}
        self.ingests = {}
        self.numbers = 0
        self.tree = {b"v1": {b"version": b"\x08" if self.is_later else b"\x06"}}
        for ns in self.random.sample(NAMESPACES, self.random.randrange(1, 4)):
            self.tree[b"v1"][ns.encode()] = self.namespace(ns)

    def some(self, items, most):
        """Up to so many of these."""
        return self.random.sample(list(items), min(len(items), self.random.randrange(most + 1)))

    def rarely(self, share):
        return self.random.random() < share

    def references(self, keys, most):
        """Labels that reference content and snapshots, some of which aren't there."""
        labels = {GC + b"ref.content.%d" % place: digest for place, digest in enumerate(self.some(self.digests, most))}
        for snapshotter, names in keys.items():
            if self.rarely(0.15) and names:
                labels[GC + b"ref.snapshot." + snapshotter.encode()] = self.random.choice(names)
        return labels

    def namespace(self, ns):
        keys = {snapshotter: [b"%s-%d" % (kind, place) for kind in (b"layer", b"work") for place in range(self.random.randrange(1, 6))] for snapshotter in SNAPSHOTTERS}
        content = {}
        for digest in self.some(self.digests, len(self.digests)):
            labels = self.references(keys, 3)
            if self.rarely(0.08):
                labels[GC + b"root"] = b"x"
            content[digest] = {b"size": signed(self.sizes[digest]), b"labels": labels}
        images = self.images()
        later = {b"sandboxes": {b"pod-%d" % place: {b"labels": self.references(keys, 2)} for place in range(self.random.randrange(3))}} if self.is_later else {}
        return {**later, b"content": {b"blob": content, b"ingests": self.made_ingests(ns)}, b"images": images,
                b"snapshots": {snapshotter.encode(): self.snapshots(ns, snapshotter, keys) for snapshotter in SNAPSHOTTERS},
                b"containers": self.containers(keys, list(images)), b"leases": self.leases(keys, list(images))}

    def images(self):
        found = {}
        for target in self.some(self.digests, 5):
            names = [b"registry.example/i:%d" % self.digests.index(target), b"registry.example/i@" + target, target]
            for name in names[:self.random.randrange(1, 4)]:
                found[name] = {b"target": {b"digest": target}, b"labels": self.references({}, 1) if self.rarely(0.2) else {}}
                if self.is_later and self.rarely(0.3):
                    found[name][b"labels"][GC + b"expire"] = b"2024-03-02T%02d:10:00Z" % self.random.randrange(24)
        return found

    def containers(self, keys, images):
        found = {}
        for place in range(self.random.randrange(4)):
            snapshotter = self.random.choice(SNAPSHOTTERS)
            found[b"run-%d" % place] = {b"snapshotter": snapshotter.encode(), b"snapshotKey": self.random.choice(keys[snapshotter]),
                                        b"image": self.random.choice(images) if images and self.rarely(0.8) else b"gone:1"}
        return found

    def snapshots(self, ns, snapshotter, keys):
        """Layers, each perhaps over one before it, and writable ones over layers."""
        found, layers = {}, []
        for key in keys[snapshotter]:
            self.numbers += 1
            is_layer = key.startswith(b"layer")
            backend = b"%s/%d/%s" % (ns.encode(), self.numbers, key)
            found[key] = {b"name": backend, b"labels": self.references({}, 1) if self.rarely(0.1) else {}}
            if layers and self.rarely(0.7):
                found[key][b"parent"] = self.random.choice(layers)
            if self.rarely(0.06):
                found[key][b"labels"][GC + b"root"] = b"x"
            size = {b"size": signed(self.random.randrange(10 ** 6))} if is_layer or self.rarely(0.3) else {}
            self.stored[snapshotter][backend] = {b"id": unsigned(self.numbers), b"kind": b"\x03" if is_layer else b"\x02", **size}
            layers += [key] if is_layer else []
        return found

    def made_ingests(self, ns):
        found = {}
        for place in range(self.random.randrange(4)):
            ref = b"up-%d" % place
            backend = b"%s/%d" % (ns.encode(), len(self.ingests))
            self.ingests[backend] = self.random.randrange(5000)
            found[ref] = {b"ref": backend}
            if self.rarely(0.6):
                found[ref][b"expireat"] = moment(NOON + self.random.randrange(-40000, 40000))
            if self.rarely(0.5):
                found[ref][b"expected"] = self.random.choice(self.digests)
        return found

    def leases(self, keys, images):
        found, unheld = {}, list(images)
        for place in range(self.random.randrange(5)):
            labels = {}
            if self.rarely(0.7):
                hour = self.random.randrange(24)
                labels[GC + b"expire"] = self.random.choice([b"2024-03-02T%02d:30:00Z" % hour, b"2024-03-05T%02d:00:00+01:00" % hour, b"tomorrow"])
            if self.rarely(0.3):
                labels[GC + b"flat"] = b"x"
            later = {}
            if self.is_later and GC + b"flat" not in labels:  # each image is held by one lease
                later = {b"images": {image: b"" for image in self.some(unheld, 2)}}
                unheld = [image for image in unheld if image not in later[b"images"]]
            held = {snapshotter.encode(): {key: b"" for key in self.some(keys[snapshotter], 3)} for snapshotter in SNAPSHOTTERS}
            found[b"lease-%d" % place] = {**later, b"labels": labels, b"content": {digest: b"" for digest in self.some(self.digests, 3)}, b"snapshots": held,
                                         b"ingests": {b"up-%d" % number: b"" for number in self.some(range(4), 2)}}
        return found

    def write(self, root):
        """The folder of this store."""
        meta = os.path.join(root, "io.containerd.metadata.v1.bolt", "meta.db")
        os.makedirs(os.path.dirname(meta))
        bolt_file.write(meta, self.tree)
        for snapshotter, rows in self.stored.items():
            path = os.path.join(root, "io.containerd.snapshotter.v1." + snapshotter, "metadata.db")
            os.makedirs(os.path.dirname(path))
            rows = dict(rows)
            if self.rarely(0.3):
                rows[b"default/%d/left" % (self.numbers + 1)] = {b"id": unsigned(self.numbers + 1), b"kind": b"\x03", b"size": signed(77)}
            bolt_file.write(path, {b"v1": {b"snapshots": rows}})
        content = os.path.join(root, "io.containerd.content.v1.content")
        owned = {digest for space in self.tree[b"v1"].values() if isinstance(space, dict) for digest in space[b"content"][b"blob"]}
        for digest in sorted(owned) + (self.some(sorted(set(self.digests) - owned), 2)):
            self.file(os.path.join(content, "blobs", *digest.decode().split(":")), self.sizes[digest])
        for ref, size in self.ingests.items():
            folder = os.path.join(content, "ingest", hashlib.sha256(ref).hexdigest())
            stores.put(os.path.join(folder, "ref"), ref)
            self.file(os.path.join(folder, "data"), size)

    def file(self, path, size):
        """A file of this size without its bytes."""
        stores.put(path, b"")
        os.truncate(path, size)
