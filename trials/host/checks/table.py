"""Each thing that a script can't say as it is: its remark, its status, and what the script has in its place, one small store each."""
import json
import os
import struct

import bolt_file
import stores

DIGEST = b"sha256:" + b"1" * 64
OTHER = b"sha256:" + b"2" * 64
LATER = "may change the plan: "
NOW = b"\x01" + struct.pack(">qih", 62135596800 + 1709251200, 0, -1)  # 2024-03-01T00:00:00Z
GC = b"containerd.io/gc."


def content(**labels):
    """A row of content; the labels' keys have the common beginning."""
    return {b"size": b"\x02", b"labels": {GC + key.encode(): value for key, value in labels.items()}}


def row(labels, **members):
    found = {key.encode(): value for key, value in members.items()}
    found[b"labels"] = labels
    return found


def rows_of(**kinds):
    """A namespace of these buckets."""
    return {kind.encode(): found for kind, found in kinds.items()}


def references(count):
    return {b"containerd.io/gc.ref.content.%d" % place: DIGEST for place in range(count)}


def expire(text):
    return rows_of(leases={b"l": row({GC + b"expire": text})})


# what it is, the namespace, words, status, remark, and texts that the script has (or, with a leading !, hasn't)
CASES = [
    ("a plain store", rows_of(content={b"blob": {DIGEST: content()}}), [], 0, None, ['"digest":"sha256:1111']),
    ("a long name", rows_of(images={b"n" * 1025: row({}, target={b"digest": DIGEST})}), [], 0, "names over 1,024 bytes, with control bytes or not UTF-8, renamed: 1", ['"name":"renamed-', "!nnn"]),
    ("a control byte", rows_of(containers={b"a\nb": row({})}), [], 0, "names over 1,024 bytes", ['"name":"renamed-']),
    ("no UTF-8", rows_of(leases={b"\xff": row({})}), [], 0, "names over 1,024 bytes", ['"id":"renamed-']),
    ("an odd name in each place", rows_of(
        snapshots={b"native": {b"k\x01": row({}, name=b"1"), b"above": row({}, name=b"2", parent=b"k\x01")}},
        containers={b"c": row({GC + b"ref.snapshot.native": b"k\x01"}, snapshotter=b"native", snapshotKey=b"k\x01")},
        leases={b"l": {b"snapshots": {b"native": {b"k\x01": b""}}, b"ingests": {b"k\x01": b""}}},
        content={b"ingests": {b"k\x01": {b"ref": b"r"}}}), [], 0, "names over 1,024 bytes, with control bytes or not UTF-8, renamed: 6", ["!k\\u0001", '"parent":"renamed-', '"resource":"renamed-']),
    ("sha384", rows_of(content={b"blob": {b"sha384:" + b"3" * 96: content()}}, images={b"i": row({}, target={b"digest": b"sha384:" + b"3" * 96})}), [], 0,
     "sha384 digests, each a sha512 made of it: 2", ['"target":"sha512:' + "3" * 96 + "0" * 32]),
    ("256 references", rows_of(content={b"blob": {DIGEST: row(references(256))}}), [], 0, None, ["!between"]),
    ("257 references", rows_of(content={b"blob": {DIGEST: row(references(257))}}), [], 0, "rows with over 256 references, some on a row between (kept and scanned count it): 1", ["ref.content/between."]),
    ("600 references", rows_of(images={b"i": row(references(600), target={b"digest": DIGEST})}), [], 0, "rows with over 256 references", ["ref.content/between."]),
    ("unread labels that are too many", rows_of(content={b"blob": {DIGEST: row(dict([(b"u%d" % place, b"v") for place in range(250)] + list(references(10).items())))}}), ["--labels"], 0,
     "rows with over 256 labels, of which some that no collection reads are left out: 1", ["gc.ref.content.9", '"u1":"v"']),
    ("unread labels", rows_of(content={b"blob": {DIGEST: row({b"secret": b"word"})}}), [], 0, "labels that no collection reads, not carried (--labels carries them): 1", ["!secret", "!word"]),
    ("unread labels that are wanted", rows_of(content={b"blob": {DIGEST: row({b"secret": b"word"})}}), ["--labels"], 0, None, ['"labels":{"secret":"word"}']),
    ("a long label that no one reads", rows_of(leases={b"l": row({b"note": b"w" * 9000})}), ["--labels"], 0, "labels over 4,096 bytes or not UTF-8 that no collection reads, left out: 1", ["!www"]),
    ("labels over a line", rows_of(content={b"blob": {DIGEST: row({GC + b"ref.content." + bytes([97 + place]) * 3900: OTHER for place in range(20)})}}), [], 0, None,
     ['"op":"content.label"', "ttt"]),
    ("a long root mark", rows_of(content={b"blob": {DIGEST: content(root=b"r" * 5000)}}), [], 0, "labels over 4,096 bytes, empty or not UTF-8, of which the meaning is kept: 1", ['"containerd.io/gc.root":"x"']),
    ("a long flat mark", rows_of(leases={b"l": row({GC + b"flat": b"f" * 5000})}), [], 0, "of which the meaning is kept: 1", ['"containerd.io/gc.flat":"x"']),
    ("a long expiry", expire(b"e" * 5000), [], 0, "of which the meaning is kept: 1", ['"containerd.io/gc.expire":"x"']),
    ("a long fraction", expire(b"2024-03-01T05:00:00." + b"0" * 5000 + b"Z"), [], 0, "expiries that Go alone reads, rewritten: 1", ['"2024-03-01T05:00:00Z"']),
    ("an hour of one digit", expire(b"2024-03-01T5:00:00Z"), [], 0, "expiries that Go alone reads, rewritten: 1", ['"2024-03-01T05:00:00Z"']),
    ("a comma", expire(b"2024-03-01T05:00:00,5Z"), [], 0, "expiries that Go alone reads, rewritten: 1", ['"2024-03-01T05:00:00.5Z"']),
    ("ten digits", expire(b"2024-03-01T05:00:00.0000000019Z"), [], 0, "expiries that Go alone reads, rewritten: 1", ['"2024-03-01T05:00:00.000000001Z"']),
    ("an offset of a day", expire(b"2024-03-01T05:00:00+24:00"), [], 0, "expiries that Go alone reads, rewritten: 1", ['"2024-02-29T05:00:00Z"']),
    ("an offset that Go 1.19 alone reads", expire(b"2024-03-01T05:00:00-99:00"), [], 3, LATER + "expiries that Go 1.19 reads and later versions don't: 1", ['"2024-03-05T08:00:00Z"']),
    ("the year 9999", expire(b"9999-12-31T23:59:59Z"), [], 0, "expiries of the year 9999, which metad counts as unreadable (what has it stays in both): 1", ['"9999-12-31T23:59:59Z"']),
    ("an expiry that no one reads", expire(b"tomorrow"), [], 0, None, ['"containerd.io/gc.expire":"tomorrow"']),
    ("an expiry with a line feed", expire(b"2024-03-01T05:00:00Z\n"), [], 0, None, ['05:00:00Z\\n"']),
    ("an ingest whose lease is gone", rows_of(content={b"ingests": {b"up": {b"ref": b"ns/1/up"}}}), [], 0, "ingests whose lease is gone, begun under one that is removed again: 1", ['"op":"lease.remove"']),
    ("an ingest of a day", rows_of(content={b"ingests": {b"up": {b"ref": b"ns/1/up", b"expireat": NOW}}}), [], 0, None, ['"at":"2024-02-29T00:00:00Z"', "!lease"]),
    ("an ingest out of all years", rows_of(content={b"ingests": {b"up": {b"ref": b"r", b"expireat": b"\x01" + b"\x00" * 14}}}), [], 0, None, ['"at":"0000-12-31T00:00:00Z"']),
    ("an ingest that waits", rows_of(content={b"ingests": {b"up": {b"ref": b"r", b"expireat": NOW, b"expected": DIGEST}}}), [], 0, "ingests that wait for a shared blob", ['"expected":"sha256:1111']),
    ("a missing parent", rows_of(snapshots={b"native": {b"above": row({}, name=b"2", parent=b"below")}}), [], 3, LATER + "snapshots whose parent isn't there, made without one: 1", ["!below"]),
    ("parents in a circle", rows_of(snapshots={b"native": {b"a": row({}, name=b"1", parent=b"b"), b"b": row({}, name=b"2", parent=b"a")}}), [], 3,
     LATER + "snapshots whose parent isn't there, made without one: 1", ['"parent":"b"']),
    ("an unknown bucket", rows_of(sandboxes={b"s": {}}), [], 3, LATER + "unknown buckets: 1", ["!sandboxes"]),
    ("an unknown bucket of a lease", rows_of(leases={b"l": {b"images": {b"i": b""}}}), [], 3, LATER + "unknown buckets: 1", ['"id":"l"']),
    ("a back reference", rows_of(content={b"blob": {DIGEST: row({GC + b"bref.content": OTHER})}}), [], 3, LATER + "labels that later versions read: 1", ["!bref"]),
    ("a reference to an image", rows_of(content={b"blob": {DIGEST: row({GC + b"ref.image": b"i"})}}), [], 3, LATER + "labels that later versions read: 1", ["!ref.image"]),
    ("a digest of another kind", rows_of(content={b"blob": {b"md5:1": content()}}), [], 3, LATER + "digests that are none, left out: 1", ["!md5"]),
    ("an image of no digest", rows_of(images={b"i": row({}, target={b"digest": b"none"})}), [], 0, "digests that are none, left out: 1", ['"target":"sha256:' + "0" * 64]),
    ("a key of no UTF-8", rows_of(content={b"blob": {DIGEST: row({GC + b"ref.content.\xff": OTHER, GC + b"ref.snapshot.native/\xff": b"k"})}}), [], 0,
     "keys of references that are long or not UTF-8, renamed: 2", ['gc.ref.content/renamed-', 'gc.ref.snapshot.native/renamed-']),
    ("a reference to nothing", rows_of(content={b"blob": {DIGEST: row({GC + b"ref.content": b"x" * 5000})}}), [], 0, "references that no row can have, left out: 1", ["!xxx"]),
    ("kinds of snapshots", rows_of(snapshots={b"native": {b"k": row({}, name=b"1")}}), [], 0, "kinds of snapshots, guessed (the daemon's folder tells them): 1", ['"op":"snap.prepare"']),
    ("specs, runtimes and times", rows_of(containers={b"c": row({}, createdat=NOW, spec=b"secret", runtime={b"name": b"runc"})}), [], 0, "specs and runtimes of containers, not carried: 2", ["!secret", "!runc"]),
    ("times", rows_of(images={b"i": row({}, createdat=NOW, target={b"digest": DIGEST})}), [], 0, "times of rows, not carried: 1", []),
    ("annotations of an image", rows_of(images={b"i": row({}, annotations={b"note": b"secret"}, target={b"digest": DIGEST})}), [], 0,
     "annotations of images, not carried: 1", ["!secret"]),
    ("labels of a namespace", rows_of(labels={b"team": b"shop"}), [], 0, "labels of namespaces, not carried: 1", ["!shop"]),
]


def run(work):
    for what, namespace, words, status, remark, texts in CASES:
        check(what, os.path.join(work, "table.db"), namespace, words, status, remark, texts)
    names(work)
    return "%d stores with a thing each that a script can't say" % len(CASES)


def check(what, path, namespace, words, status, remark, texts, version=3, beside=(), containerd=None):
    """Exports a store of this namespace and, beside v1, these buckets."""
    top = {b"version": bytes([2 * version]), b"ns": namespace}
    bolt_file.write(path, {b"v1": top, **dict(beside)})
    named = ["--containerd", containerd] if containerd else []
    found, output, told = stores.exported("--at", "2024-03-02T00:00:00Z", *named, *words, path)
    script = output.decode()
    assert found == status, "%s: status %d, %s" % (what, found, told)
    assert remark is None or any(line.startswith("host: ") and remark in line for line in told.splitlines()), "%s: %s" % (what, told)
    assert (LATER in told) == (status == 3), "%s: %s" % (what, told)
    for text in texts:
        assert (text[1:] not in script) if text[0] == "!" else (text in script), "%s: %s: %s" % (what, text, script[:2000])
    for line in script.encode().splitlines():
        assert len(line) <= 65536, what
        labels = json.loads(line.decode()).get("labels", {})
        assert len(labels) <= 256 and all(len(key.encode()) + len(value.encode()) <= 4096 for key, value in labels.items()), what


def names(work):
    """The sizes' file has the old names, and a row stands under one name wherever it is meant."""
    path, sizes = os.path.join(work, "table.db"), os.path.join(work, "table.sizes")
    bolt_file.write(path, {b"v1": {b"version": b"\x06", b"ns": rows_of(images={b"a\nb": row({}, target={b"digest": b"sha384:" + b"3" * 96})})}})
    assert stores.host("export", "--sizes", sizes, path).returncode == 0
    with open(sizes) as file:
        renamed = json.load(file)["renamed"]
    assert sorted(renamed.values()) == ["a\nb", "sha384:" + "3" * 96], renamed
