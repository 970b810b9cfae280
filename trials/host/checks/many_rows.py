"""100,000 rows of content are exported within ten seconds of a processor and 400 MiB."""
import hashlib
import os
import subprocess

import bolt_file
import stores

ROWS = 100000


def tree():
    """Images of ten rows each: a manifest that references nine."""
    blobs, images = {}, {}
    for start in range(0, ROWS, 10):
        digests = [b"sha256:" + hashlib.sha256(b"%d" % place).hexdigest().encode() for place in range(start, start + 10)]
        for digest in digests[:9]:
            blobs[digest] = {b"size": b"\xc8\x01", b"createdat": b"\x01" * 15, b"updatedat": b"\x01" * 15}
        blobs[digests[9]] = {b"size": b"\xc8\x01", b"labels": {b"containerd.io/gc.ref.content.%d" % place: digest for place, digest in enumerate(digests[:9])}}
        images[b"registry.example/i:%d" % start] = {b"target": {b"digest": digests[9]}}
    return {b"v1": {b"version": b"\x06", b"default": {b"content": {b"blob": blobs}, b"images": images}}}


def run(work):
    path = os.path.join(work, "many.db")
    bolt_file.write(path, tree())
    with open(os.path.join(work, "many.script"), "wb") as out, open(os.devnull, "wb") as none:
        child = subprocess.Popen([stores.HOST, "export", "--sizes", os.path.join(work, "many.sizes"), path], stdout=out, stderr=none)
        _, status, used = os.wait4(child.pid, 0)
        child.returncode = status
    seconds, mebibytes = used.ru_utime + used.ru_stime, used.ru_maxrss / 1024
    assert status == 0
    with open(os.path.join(work, "many.script"), "rb") as script:
        assert sum(b'"op":"content.add"' in line for line in script) == ROWS
    assert seconds <= 10 and mebibytes <= 400, "%.1f seconds, %d MiB" % (seconds, mebibytes)
    return "%d rows in %.1f seconds of a processor and %d MiB" % (ROWS, seconds, mebibytes)
