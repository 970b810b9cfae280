"""Bad inputs: one line on standard error, status 1, nothing on standard output, no file of sizes."""
import gzip
import os
import re

import bolt_file
import stores

TREE = {b"v1": {b"version": b"\x06", b"ns": {b"content": {b"blob": {b"sha256:" + b"%064x" % place: {b"size": b"\x02"} for place in range(300)}}}}}


def patched(data, offset, new):
    return data[:offset] + new + data[offset + len(new):]


def files(path):
    """Each bad file: what it is, its bytes, and a word of what is said."""
    bolt_file.write(path, TREE)
    with open(path, "rb") as file:
        good = file.read()
    meta = bolt_file.meta_page
    root = int.from_bytes(good[32:40], "little")
    pages = len(good) // bolt_file.SIZE
    yield "an empty file", b"", "ends before"
    yield "another kind of file", b"#!/bin/sh\n" * 2000, "no bolt file"
    yield "cut off", good[:len(good) // 2], "cut off"
    yield "cut off in the first page", good[:50], "ends before"
    yield "wrong checksums", patched(patched(good, 72, b"\0"), bolt_file.SIZE + 72, b"\0"), "wrong checksum"
    yield "another format", meta(0, root, pages, 9, form=3) + meta(1, root, pages, 8, form=3) + good[8192:], "bolt format 3"
    yield "another page size", meta(0, root, pages, 9, size=512).ljust(4096, b"\0") + meta(1, root, pages, 8) + good[8192:], None
    yield "a root page that isn't there", meta(0, pages + 7, pages, 9) + meta(1, root, pages, 8) + good[8192:], "not in use"
    yield "a broken page", patched(good, root * 4096 + 8, b"\x40"), "neither branch nor leaf"
    yield "a page of zeros", patched(good, root * 4096, b"\0" * 4096), "calls itself"
    for what, tree, why in (("another program's file", {b"other": {b"a": b"b"}}, "no bucket v1"), ("a snapshotter's file", {b"v1": {b"snapshots": {b"1": {b"id": b"\1"}}}}, "no version"),
                            ("a newer version", {b"v1": {b"version": b"\x0a"}}, "version 5 of the metadata, where 4 is"), ("a version that is no number", {b"v1": {b"version": b"\xff" * 12}}, "no number"),
                            ("a value where rows are", {b"v1": {b"version": b"\x06", b"ns": {b"images": b"x"}}}, "is no bucket"),
                            ("a row's bucket where a value is", {b"v1": {b"version": b"\x06", b"ns": {b"containers": {b"c": {b"snapshotter": {}}}}}}, "is a bucket"),
                            ("a size that is cut off", {b"v1": {b"version": b"\x06", b"ns": {b"content": {b"blob": {b"sha256:" + b"1" * 64: {b"size": b"\x80"}}}}}}, "no number"),
                            ("a time that is none", {b"v1": {b"version": b"\x06", b"ns": {b"content": {b"ingests": {b"i": {b"ref": b"r", b"expireat": b"\x01"}}}}}}, "no time")):
        bolt_file.write(path, tree)
        with open(path, "rb") as file:
            yield what, file.read(), why


def refused(what, why, *words, **more):
    found = stores.host(*words, **more)
    told = found.stderr.decode()
    assert found.returncode == 1 and found.stdout == b"" and told.count("\n") == 1 and told.startswith("host: "), "%s: %d %s" % (what, found.returncode, told)
    assert why is None or why in told, "%s: %s" % (what, told)


def run(work):
    path, sizes, count = os.path.join(work, "bad.db"), os.path.join(work, "bad.sizes"), 0
    for what, data, why in files(os.path.join(work, "made.db")):
        if what == "another page size":  # the second meta page is right, and older: it is read
            continue
        stores.put(path, data)
        refused(what, why, "export", "--sizes", sizes, path)
        assert not os.path.exists(sizes), what
        count += 1
    refused("no file", "No such file", "export", os.path.join(work, "nowhere.db"))
    assert not os.path.exists(os.path.join(work, "nowhere.db"))
    os.mkfifo(os.path.join(work, "pipe"))
    refused("a pipe", "no regular file", "export", os.path.join(work, "pipe"))
    os.makedirs(os.path.join(work, "empty"))
    refused("a folder of no daemon", "No such file", "export", os.path.join(work, "empty"))
    stores.make_root("a_daemon", os.path.join(work, "broken"))
    stores.put(os.path.join(work, "broken", "io.containerd.snapshotter.v1.native", "metadata.db"), b"none")
    refused("a snapshotter's file that is broken", "snapshotter.v1.native", "export", os.path.join(work, "broken"))
    stores.put(path, gzip.decompress(stores.read("a_daemon", "db.gz")))
    refused("sizes where no file can be", None, "export", "--sizes", os.path.join(work, "no", "folder"), path)
    older(path)
    return "%d bad inputs" % (count + 5 + others(work, sizes))


def others(work, sizes):
    """Bad inputs of the other commands."""
    stores.put(sizes, b"{}")
    report = stores.read("a_daemon", "report")
    script = stores.path("a_daemon", "script")
    refused("sizes of another kind", "no file of sizes", "report", sizes, input=report)
    refused("no sizes", "No such file", "report", sizes + "none", input=report)
    refused("no report", "no reply has a report", "report", sizes, input=b'{"ok":true}\n')
    refused("a refusal", "reply 1 is", "report", sizes, input=b'{"fault":2,"name":"NotFound"}\n')
    refused("no replies", "isn't metad's", "report", sizes, input=b"x\n")
    refused("a script of another kind", "no script of export", "impact", "--metad", "/bin/true", sizes, os.path.join(work, "a_daemon.sizes"))
    refused("sizes of another script", "not the sizes", "report", os.path.join(work, "everything_odd.sizes"), input=re.sub(rb'\["(native|overlayfs)",[0-9]+\]', rb'["\1",99999]', report))
    refused("a program that answers nothing", "ended before", "impact", "--metad", "/bin/true", script, os.path.join(work, "a_daemon.sizes"))
    questions(work, script)
    for words in ([], ["exports"], ["export"], ["export", "--at", "monday", sizes], ["report"], ["usage"], ["why", sizes], ["usage", "--limit", "-1", sizes],
                  ["help", "exports"], ["completion", "fish"], ["--version", "x"]):
        found = stores.host(*words)
        assert (found.returncode, found.stdout) == (2, b""), words
    for words in (["help"], ["--help"], ["--version"], ["help", "why"], ["usage", "--help"], ["completion", "bash"], ["completion", "zsh"]):
        found = stores.host(*words)
        assert found.returncode == 0 and found.stdout and not found.stderr, words
    return 13


def questions(work, script):
    """Bad inputs of the questions: what is missing is told with status 2, a bad file with status 1."""
    sizes = os.path.join(work, "a_daemon.sizes")
    none, folder = os.path.join(work, "none"), os.path.join(work, "a_daemon")
    for words in (["impact", "--metad", none, script, sizes], ["usage", "--metad", none, folder], ["usage", "--metad", "/bin/true", "--sizes", sizes, folder],
                  ["impact", "--metad", "/bin/true", "--sizes", sizes, script, sizes], ["usage", "--metad", "/bin/true", "--measure", "--sizes", sizes, script]):
        found = stores.host(*words)
        assert (found.returncode, found.stdout, found.stderr.count(b"\n")) == (2, b"", 1), "%s: %s" % (words, found)
    refused("a question of a broken file", "no bolt file", "usage", "--metad", "/bin/true", stores.path("a_daemon", "script"))
    refused("a question without a file", "No such file", "why", "--metad", "/bin/true", none, "x")
    refused("a question of sizes of another kind", "no file of sizes", "prune", "--metad", "/bin/true", "--sizes", os.path.join(work, "bad.sizes"), script)
    refused("a program that isn't metad", "metad ended before", "plan", "--metad", "/bin/true", "--sizes", sizes, script)


def older(path):
    """Where the newest meta page is broken, the state before it is read."""
    bolt_file.write(path, TREE)
    with open(path, "rb") as file:
        data = file.read()
    stores.put(path, patched(data, 72, b"\0"))
    assert stores.host("export", path).returncode == 0
