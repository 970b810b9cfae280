"""A file that a writer changes: what is read or copied is one state.

That is so whatever the writer does between two pages. A file that changes in each reading is
refused, and no disturbed reading leaves memory behind.
"""
from __future__ import annotations

import contextlib
import gc
import json
import multiprocessing
import os
import subprocess
import sys
import time

import bolt_file
import stores

ROOM = 60  # pages of one state
RATES = (1, 10, 0)  # transactions a second of a writer; 0: as many as it can
# what a process of its own says of one reading after the other: its state, or that it was refused
READER = """
import gc, json, sys, time
sys.dont_write_bytecode = True
sys.path.insert(0, sys.argv[1])
from metad_host import pages
from metad_host.faults import BadInput
gc.disable()
def most():
    with open("/proc/self/status") as file:
        return next(int(line.split()[1]) * 1024 for line in file if line.startswith("VmHWM"))
before, found, end = most(), [], time.time() + float(sys.argv[4])
while len(found) < int(sys.argv[3]) and (not found or time.time() < end):
    try:
        root = pages.read(sys.argv[2])
        found.append([root[key][b"n"].decode() for key in (b"first", b"zlast")])
        del root
    except BadInput as bad:
        found.append(str(bad))
print(json.dumps([most() - before, found]))
"""


def tree(count):
    """A state in which two values far apart are equal, on several pages."""
    rows = {b"k%d" % place: bytes([count % 256]) * 1500 for place in range(20)}
    number = {b"n": b"%d" % count}
    return {b"a": rows, b"first": number, b"z": rows, b"zlast": number}


def mixed(found):
    """Whether a state was never written."""
    values = set(value[:1] for name in (b"a", b"z") for value in found[name].values())
    count = int(found[b"first"][b"n"])
    return found[b"zlast"][b"n"] != found[b"first"][b"n"] or values != {bytes([count % 256])}


def write_on(path, ready, stop):
    """A process that changes the file all the time."""
    writer, count = bolt_file.Writer(path, tree(0), ROOM), 0
    ready.set()
    while not stop.is_set():
        count += 1
        writer.commit(tree(count))


@contextlib.contextmanager
def running(target, *arguments):
    """A process that changes a file as long as the block runs."""
    ready, stop = multiprocessing.Event(), multiprocessing.Event()
    writer = multiprocessing.Process(target=target, args=arguments + (ready, stop))
    writer.start()
    try:
        assert ready.wait(60)
        yield
    finally:
        stop.set()
        writer.join()


def all_the_time(path, readings):
    """Readings and copies of a file that changes all the time; how many states they were."""
    from metad_host import pages
    states = set()
    with running(write_on, path):
        for place in range(readings):
            read = path
            if place % 2:
                read = path + ".copy"
                with open(read, "wb") as file:
                    pages.copy_whole(path, file, 10 ** 6)
            found = pages.read(read, None, 10 ** 6)
            assert not mixed(found), "a mixed state was read of %s" % read
            states.add(found[b"first"][b"n"])
    assert len(states) > 1, "the writer wrote nothing"
    return len(states)


def disturbed(path, moment, commits):
    """A writer's file, and a function that reads it as os.pread does, after some transactions."""
    writer = bolt_file.Writer(path, tree(5), ROOM)
    left, read = [moment], os.pread

    def pread(handle, count, start):
        if left[0] == 0:
            for more in range(commits):
                writer.commit(tree(6 + more))
        left[0] -= 1
        return read(handle, count, start)

    return writer, pread


def between_pages(path):
    """One, two or three transactions before each page of a reading, or piece of a copy.

    It is taken only where it is one state.
    """
    from metad_host import pages
    read, piece, taken, moved = os.pread, pages.PIECE, 0, 0
    for commits in (1, 2, 3):
        for moment in range(70):
            for way in (by_page, by_copy):
                writer, os.pread = disturbed(path, moment, commits)
                pages.PIECE = 2 * bolt_file.SIZE
                try:
                    found = way(path)
                    assert not mixed(found), "mixed: %s, %d transactions before page %d" % (
                        way.__name__, commits, moment)
                    taken += 1
                except pages.Moved:
                    moved += 1
                finally:
                    os.pread, pages.PIECE = read, piece
                    os.close(writer.handle)
    assert taken and moved
    return taken + moved


def by_page(path):
    """One reading of the file page by page."""
    from metad_host import pages
    with pages.opened(path) as handle:
        file = pages.File(handle)
        return pages.one_state(file, lambda meta: pages.tree_below(file, meta))


def by_copy(path):
    """One copy of the file, read."""
    from metad_host import pages
    with pages.opened(path) as handle, open(path + ".copy", "wb") as into:
        pages.one_state(pages.File(handle), lambda meta: pages.copied(handle, meta, into))
    return pages.read(path + ".copy")


def always_moved(path):
    """A file that is written in each reading is refused after 200 of them."""
    from metad_host import pages
    from metad_host.faults import BadInput
    writer, readings = bolt_file.Writer(path, tree(1), ROOM), []
    fill = pages.Room.fill

    def reading(room, handle, meta):
        readings.append(1)
        writer.commit(tree(2))
        return fill(room, handle, meta)

    pages.Room.fill = reading
    try:
        pages.read(path)
        raise AssertionError("it was read")
    except BadInput as bad:
        assert str(bad) == "written in each of 200 readings", bad
    finally:
        pages.Room.fill = fill
        os.close(writer.handle)
    assert len(readings) == 200


def leaves_nothing(path):
    """A reading that meets a broken page, since a transaction wrote it, leaves no object behind.

    That holds without Python's collector, which the tool doesn't run.
    """
    from metad_host import pages
    from metad_host.faults import BadInput
    writer, blocks = bolt_file.Writer(path, tree(1), ROOM), []

    def broken(meta):
        found = pages.tree_below(file, meta)
        writer.commit(tree(len(blocks)))
        raise BadInput("a page of %d buckets is broken" % len(found))

    gc.disable()
    try:
        with pages.opened(path) as handle:
            file = pages.File(handle)
            for _ in range(40):
                with contextlib.suppress(pages.Moved):
                    pages.one_state(file, broken)
                blocks.append(sys.getallocatedblocks())
    finally:
        gc.enable()
        os.close(writer.handle)
    left = blocks[-1] - blocks[9]
    assert left < 100, "%d objects of 30 disturbed readings" % left


def large(path, rows):
    """A file of so many rows that don't change, with room for two states of the rest.

    Answers the page of these rows and the file's pages.
    """
    from metad_host import pages
    value = b"v" * 2100  # a page has one row, and is as full as bbolt leaves it
    rows_of = {b"%09d" % place: value for place in range(rows)}
    bolt_file.write(path, {b"rows": rows_of}, free=2)
    with pages.opened(path) as handle:
        meta = pages.newest_meta(pages.File(handle))
        assert len(pages.read(path)[b"rows"]) == rows
        page = os.pread(handle, meta.size, meta.root * meta.size)
    return int.from_bytes(page[36:44], "little"), meta.pages


def write_few(path, below, pages, rate, ready, stop):
    """A process that changes a few pages, at both ends of a large file, so often a second."""
    handle, count = os.open(path, os.O_RDWR), 1
    size = bolt_file.SIZE
    while not stop.is_set():
        count += 1
        start, first, last = pages + count % 2, 3 + count % 2, pages + 2 + count % 2
        words = [(0, b"n", b"%d" % count)]
        root = bolt_file.leaf(start, [(1, b"first", first.to_bytes(16, "little")),
                                      (1, b"rows", below.to_bytes(16, "little")),
                                      (1, b"zlast", last.to_bytes(16, "little"))])
        for number, data in ((start, root), (first, bolt_file.leaf(first, words)),
                             (last, bolt_file.leaf(last, words))):
            os.pwrite(handle, data, number * size)
        os.ftruncate(handle, (pages + 4) * size)
        meta = bolt_file.meta_page(count % 2, start, pages + 4, count)
        os.pwrite(handle, meta, count % 2 * size)
        if count == 3:
            ready.set()
        if rate and count > 3:
            stop.wait(1 / rate)
    os.close(handle)


def beside(path, rows, readings, seconds):
    """Readings of a large file beside a writer of each rate: each one state, in bounded memory."""
    told = []
    for rate in RATES:
        below, pages = large(path, rows)
        size = os.stat(path).st_size
        start = time.time()
        with running(write_few, path, below, pages, rate):
            words = [sys.executable, "-c", READER, os.path.join(stores.TOP, "tools"), path]
            found = subprocess.run(words + [str(readings), str(seconds)], stdout=subprocess.PIPE)
        most, states = json.loads(found.stdout.decode())
        refused = states.count("written in each of 200 readings")
        wrong = [state for state in states if isinstance(state, str) or state[0] != state[1]]
        assert len(wrong) == refused, "rate %d: mixed, or refused otherwise: %s" % (rate, wrong)
        assert rate == 0 or refused == 0, "rate %d: %d readings refused" % (rate, refused)
        assert most <= 2 * size, "rate %d: %d MB of memory for %d" % (rate, most / 1e6, size / 1e6)
        told.append("%s a second: %d read, %d refused, %.1f of the file in memory, %.1f s" % (
            rate or "all", len(states) - refused, refused, most / size, time.time() - start))
    return "beside a writer, %s" % "; ".join(told)


def run(work, readings, rows):
    path = os.path.join(work, "changing.db")
    steps = between_pages(path)
    always_moved(path)
    leaves_nothing(path)
    states = all_the_time(path + ".always", readings)
    large = beside(path + ".large", rows, 10, 5)
    return ("%d readings and copies with transactions between their pages, %d of a file that "
            "changes all the time, of %d states; %s" % (steps, readings, states, large))
