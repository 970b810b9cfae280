"""What containerd 1.7 and 2 have beyond 1.6, one small store each: remark, status, and the script.

Version 4 of the metadata has images that expire, leases that hold images, sandboxes beside the
containers, and back references.
"""
from __future__ import annotations

import json
import os

import bolt_file
import stores
import table
from table import DIGEST, GC, LATER, OTHER, row, rows_of

TRIED, BACK_READ = "2.1.9", "2.2.0"  # the version that was tried, and one that reads gc.bref
EARLY, LATE = b"2024-03-01T05:00:00Z", b"2024-03-02T05:00:00Z"
EXPIRE = GC + b"expire"
BACK = "containerd.io/gc.ref.content/back.sha256:" + "1" * 64
SNAPSHOT = {b"native": {b"k": row({}, name=b"1")}}


def image(**labels):
    """An image of the first digest."""
    return row({GC + key.encode(): value for key, value in labels.items()},
               target={b"digest": DIGEST})


def lease(*images, **labels):
    """A lease that holds these images."""
    return row({GC + key.encode(): value for key, value in labels.items()},
               images={name: b"" for name in images})


def blobs(first, second=None):
    """Two blobs with these labels."""
    labels = {GC + key.encode(): value for key, value in first.items()}
    return {b"blob": {DIGEST: row(labels), OTHER: row(second or {})}}


# what it is, the namespace, words, status, remark, and texts that the script has, or hasn't after !
CASES = [
    ("the second profile", rows_of(content=blobs({})), [], 0, None, ['{"op":"profile","v":2}']),
    ("an image that expires", rows_of(images={b"i": image(expire=EARLY)}), [], 0, None,
     ['"labels":{"containerd.io/gc.expire":"2024-03-01T05:00:00Z"}']),
    ("an image whose expiry is none", rows_of(images={b"i": image(expire=b"soon")}), [], 0, None,
     ['"containerd.io/gc.expire":"soon"']),
    ("a sandbox", rows_of(sandboxes={b"s": row({GC + b"ref.content": DIGEST}, spec=b"secret")}), [],
     0, "specs and runtimes of containers, not carried: 1",
     ['"op":"container.add","ns":"ns","name":"sandbox:s","labels":{"containerd.io/gc.ref.content":',
      "!secret"]),
    ("a sandbox whose name a container has",
     rows_of(containers={b"sandbox:s": row({})}, sandboxes={b"s": row({})}), [], 0, None,
     ['"name":"sandbox:s"', '"name":"sandbox:s-"']),
    ("a lease that never ends holds an image",
     rows_of(images={b"i": image(expire=EARLY)}, leases={b"l": lease(b"i")}), [], 0,
     "images that a lease holds, which have the later end as their own: 1", ["!gc.expire"]),
    ("a lease that ends later holds an image",
     rows_of(images={b"i": image(expire=EARLY)}, leases={b"l": lease(b"i", expire=LATE)}), [], 0,
     "images that a lease holds, which have the later end as their own: 1",
     ['"target":"sha256:' + "1" * 64 + '","labels":{"containerd.io/gc.expire":"2024-03-02T05:00']),
    ("a lease that ends earlier holds an image",
     rows_of(images={b"i": image(expire=LATE)}, leases={b"l": lease(b"i", expire=EARLY)}), [], 0,
     None, ['"target":"sha256:' + "1" * 64 + '","labels":{"containerd.io/gc.expire":"2024-03-02T']),
    ("a lease holds an image that doesn't expire",
     rows_of(images={b"i": image()}, leases={b"l": lease(b"i", b"j")}), [], 0, None, []),
    ("a flat lease holds an image longest",
     rows_of(images={b"i": image(expire=EARLY)}, leases={b"l": lease(b"i", flat=b"y")}), [], 3,
     LATER + "images that only a flat lease holds at their end, kept in full until its own: 1",
     ["!gc.expire"]),
    ("a flat lease holds an image, and a full one as long",
     rows_of(images={b"i": image(expire=EARLY)},
             leases={b"f": lease(b"i", expire=LATE, flat=b"y"), b"l": lease(b"i", expire=LATE)}),
     [], 0, None, []),
    ("a back reference to a blob", rows_of(content=blobs({"bref.content": OTHER})), [], 0, None,
     ['"digest":"%s","labels":{"%s":"%s"}' % (OTHER.decode(), BACK, DIGEST.decode()), "!bref"]),
    ("a back reference with a name", rows_of(content=blobs({"bref.content/x": OTHER})), [], 0, None,
     [BACK]),
    ("a back reference to an image",
     rows_of(content=blobs({"bref.image": b"i"}), images={b"i": image()}), [], 0, None, [BACK]),
    ("a back reference to a container",
     rows_of(content=blobs({"bref.container.x": b"c"}), containers={b"c": row({})}), [], 0, None,
     [BACK]),
    ("a back reference to a snapshot",
     rows_of(content=blobs({"bref.snapshot.native/x": b"k"}), snapshots=SNAPSHOT), [], 0, None,
     ['"key":"k","ns":"ns","snapshotter":"native","labels":{"' + BACK]),
    ("a back reference of a snapshot",
     rows_of(content=blobs({}), snapshots={
         b"native": {b"k": row({GC + b"bref.content": DIGEST}, name=b"1")}}), [], 0, None,
     ['"labels":{"containerd.io/gc.ref.snapshot.native/back.8254c329a92850f6d539dd376f4816ee27']),
    ("a back reference to nothing", rows_of(content=blobs({"bref.image": b"i"})), [], 0, None,
     ["!back"]),
    ("a back reference beside a label of its key",
     rows_of(content=blobs({"bref.content": OTHER}, {BACK.encode(): OTHER})), [], 0, None,
     ['"%s":"%s","%s-":"%s"' % (BACK, OTHER.decode(), BACK, DIGEST.decode())]),
    ("a back reference of another kind", rows_of(content=blobs({"bref.task": b"t"})), [], 3,
     LATER + "back references of an unknown kind: 1", []),
    ("a back reference of an image that expires",
     rows_of(content=blobs({}), images={b"i": image(expire=EARLY, **{"bref.content": DIGEST})}), [],
     3, "back references: whether these count depends on", []),
    ("a back reference of an image",
     rows_of(content=blobs({}), images={b"i": image(**{"bref.content": DIGEST})}), [], 0, None, []),
    ("a reference to an image that expires",
     rows_of(content=blobs({"ref.image": b"i"}), images={b"i": image(expire=EARLY)}), [], 0,
     None, ['"labels":{"containerd.io/gc.expire":"2024-03-01T05:00:00Z"}']),
    ("a reference to an image",
     rows_of(content=blobs({"ref.image/x": b"i"}), images={b"i": image()}), [], 0, None, []),
    ("all labels", rows_of(content=blobs({"ref.image": b"i", "bref.content": OTHER})), ["--labels"],
     0, None, ['"containerd.io/gc.ref.image":"i"', "gc.bref.content", BACK]),
    ("an offset that Go 1.19 alone reads",
     rows_of(images={b"i": image(expire=b"2024-03-01T05:00:00-99:00")}), [], 0, None,
     ['"2024-03-01T05:00:00-99:00"']),
    ("an unknown bucket", rows_of(mounts={b"m": {}}), [], 3, LATER + "unknown buckets: 1", []),
]
# by which version's rules: what it is, the namespace, --containerd, status, remark, texts
BY_VERSION = "depends on the daemon's version"
EXPIRES = rows_of(images={b"i": image(expire=EARLY)})
REFERENCE = rows_of(content=blobs({"root": b"x", "ref.image": b"i"}),
                    images={b"i": image(expire=EARLY)})
VERSIONS = [
    ("an image that expires, of a daemon that is named", EXPIRES, "2.1.0", 0, None, ["gc.expire"]),
    ("an image that expires, of a daemon that isn't known", EXPIRES, None, 3,
     LATER + "images that expire: whether", ["gc.expire"]),
    ("an image that expires, of a version that wasn't tried", EXPIRES, "2.0.7", 3, BY_VERSION,
     ["gc.expire"]),
    ("an image that expires, of 1.7 put back", EXPIRES, "1.7.24", 0, None,
     ["!gc.expire", '!"profile"']),
    ("a sandbox of 1.7 put back", rows_of(sandboxes={b"s": row({GC + b"ref.content": DIGEST})}),
     "1.7.24", 0, None, ["!sandbox:"]),
    ("a sandbox of a daemon that isn't known",
     rows_of(sandboxes={b"s": row({GC + b"ref.content": DIGEST})}), None, 3,
     LATER + "labels of sandboxes: whether", ["sandbox:s"]),
    ("a reference to an image, of 2.1", REFERENCE, "2.1.9", 0,
     "images that a label keeps longer, which have the later end as their own: 1", ["!gc.expire"]),
    ("a reference to an image, of 1.7 put back", REFERENCE, "1.7.24", 0, None, ["!gc.expire"]),
    ("a back reference of 2.1, which doesn't read it", rows_of(content=blobs({"bref.content": OTHER})),
     "2.1.9", 0, None, ["!back"]),
    ("a back reference of a daemon that isn't known",
     rows_of(content=blobs({"bref.content": OTHER})), None, 3,
     LATER + "labels that later versions read: 1", ["!back"]),
    ("an expiry of content", rows_of(content=blobs({"expire": EARLY})), "2.1.9", 0,
     "expiries of content and snapshots, which no version that was tried reads: 1", ["!gc.expire"]),
    ("an expiry of content of a daemon that isn't known", rows_of(content=blobs({"expire": EARLY})),
     None, 3, LATER + "expiries of content and snapshots", []),
]
# with version 3, and buckets beside v1
BESIDE = [
    ("sandboxes of 1.7", {b"ns": {b"sandboxes": {b"s": row({})}}}, 0,
     "sandboxes of containerd 1.7, where no collection looks: 1"),
    ("another bucket", {b"ns": {b"sandboxes": {}, b"more": {}}}, 3, LATER + "unknown buckets: 1"),
    ("an empty bucket", {b"ns": {}}, 3, LATER + "unknown buckets: 1"),
]


def run(work):
    path = os.path.join(work, "containerd_2.db")
    for what, namespace, words, status, remark, texts in CASES:
        is_back = "back reference" in what or "bref.content" in str(namespace)
        table.check(what, path, namespace, words, 3 if is_back else status, remark, texts,
                    version=4, containerd=BACK_READ if is_back else TRIED)
    for what, namespace, containerd, status, remark, texts in VERSIONS:
        table.check(what, path, namespace, [], status, remark, texts, version=4,
                    containerd=containerd)
    for what, beside, status, remark in BESIDE:
        for version in (3, 4):
            table.check(what, path, rows_of(content=blobs({})), [], status, remark, [], version,
                        beside)
    table.check("a back reference over all labels", path, many(), [], 3,
                "rows with over 256 references, some on a row between", [BACK], version=4,
                containerd=BACK_READ)
    sizes_of(path, path + ".sizes")
    return "%d stores of versions 3 and 4" % (len(CASES) + len(VERSIONS) + 2 * len(BESIDE) + 1)


def many():
    """A row of 256 references, which a back reference gives one more."""
    labels = {GC + b"ref.content.%d" % place: DIGEST for place in range(256)}
    return rows_of(content=blobs({"bref.content": OTHER}, labels))


def sizes_of(path, sizes):
    """The sizes' file has sandboxes, images that leases keep longer, and which images are used."""
    namespace = rows_of(images={b"i": image(expire=EARLY), b"j": image(expire=EARLY)},
                        leases={b"a": lease(b"i"), b"b": lease(b"j", expire=LATE),
                                b"c": lease(b"i", b"j", expire=LATE)},
                        containers={b"c": row({}, image=b"i")}, sandboxes={b"s": row({})})
    bolt_file.write(path, {b"v1": {b"version": b"\x08", b"ns": namespace}})
    assert stores.host("export", "--containerd", TRIED, "--sizes", sizes, path).returncode == 0
    with open(sizes) as file:
        found = json.load(file)
    assert found["sandboxes"] == [["ns", "sandbox:s"]], found["sandboxes"]
    assert found["uses"] == [["ns", "c", "i"]], found["uses"]
    assert found["held"] == [["ns", "a", "i", LATE.decode(), ""]], found["held"]
