"""Damaged copies of a daemon's file.

Each is exported, or refused with one line and nothing on standard output, within two seconds.
"""
from __future__ import annotations

import gzip
import os
import random
import time

import stores

KINDS = ("cut", "a bit", "a page's head", "a page of zeros", "a page of ones", "swapped pages",
         "random bytes")
SOURCES = ("a_daemon", "without_an_image", "containerd_2")
PAGE = 4096


def damaged(data, kind, dice):
    """A copy with one damage."""
    data = bytearray(data)
    at, other = (PAGE * dice.randrange(len(data) // PAGE) for _ in range(2))
    if kind == "cut":
        del data[dice.randrange(len(data)):]
    elif kind == "a bit":
        data[dice.randrange(len(data))] ^= 1 << dice.randrange(8)
    elif kind == "a page's head":
        at += dice.randrange(0, 13)
        data[at:at + 4] = bytes(dice.randrange(256) for _ in range(4))
    elif kind == "swapped pages":
        data[at:at + PAGE], data[other:other + PAGE] = data[other:other + PAGE], data[at:at + PAGE]
    elif kind == "random bytes":
        at = dice.randrange(len(data) - 8)
        data[at:at + 8] = bytes(dice.randrange(256) for _ in range(8))
    else:
        data[at:at + PAGE] = (b"\0" if kind == "a page of zeros" else b"\xff") * PAGE
    return bytes(data)


def run(work, count):
    path = os.path.join(work, "damaged.db")
    dice = random.Random(count)
    sources = [gzip.decompress(stores.read(name, "db.gz")) for name in SOURCES]
    refused, slowest = 0, 0
    for place in range(count):
        kind = KINDS[place % len(KINDS)]
        stores.put(path, damaged(sources[place // len(KINDS) % len(SOURCES)], kind, dice))
        start = time.time()
        status, output, told = stores.exported("--at", "2024-03-02T00:00:00Z", path)
        slowest = max(slowest, time.time() - start)
        assert status in (0, 1, 3), "copy %d, %s: status %d" % (place, kind, status)
        if status == 1:
            refused += 1
            assert output == b"" and told.count("\n") == 1, "copy %d, %s: %s" % (place, kind, told)
        else:
            end = b'{"op":"gc.plan","at":"2024-03-02T00:00:00Z"}\n'
            assert output.endswith(end), "copy %d, %s" % (place, kind)
    assert slowest <= 2, "%.1f seconds" % slowest
    assert 0 < refused < count
    return "%d damaged copies, %d of them refused" % (count, refused)
