"""Each byte of a journal changed: that is told, or the last group isn't there; pages of noise."""
import os
import random
import shutil
import tempfile
from concurrent.futures import ThreadPoolExecutor

from stores import (
    HEAD, JOURNAL, NOTE, TEXT, Told, check, journal_of, line_of, lines_told, script_of, serve,
)

wants = Told.wants

FIRST_LINE = 17  # bytes of the head
FORMAT = 15  # where its number stands in them
PAGE = 4096
MARKS = 8  # bytes behind it of which some say how far the file goes

GROUPS = [
    [line_of(op="ns.add", ns="x"), line_of(op="ns.add", ns="y")],
    [line_of(op="lease.add", ns="x", id="l")],
    [line_of(op="lease.remove", ns="x", id="l")],
]


class Worn:
    """A copy of a journal, of which one byte at a time is changed."""

    def __init__(self, folder):
        self.folder, self.path = folder, os.path.join(folder, JOURNAL)
        self.text = journal_of(folder)

    def write(self, at, byte):
        with open(self.path, "r+b") as file:
            file.seek(at)
            file.write(bytes([byte]))

    def tries(self, at, byte, last, count):
        """Changes the byte at a place, sees that it is told, and puts it back."""
        self.write(at, byte)
        done = check(self.folder)
        if byte == 0 and at >= last:
            wants("a byte that is lost in the last group", done.status == 3
                  and b"less than it had" in done.told
                  and lines_told(done.out) == count - len(GROUPS[-1]), at, done)
        elif byte == 0 and FIRST_LINE <= at < HEAD - 1:
            wants("a mark that is lost has another beside it", done.status == 0
                  and lines_told(done.out) == count, at, done)
        else:
            wants("a changed byte is told", done.status == 3 and b"damage" in done.told
                  or HEAD <= at < HEAD + NOTE and done.status == 3
                  or at < FIRST_LINE and b"first line" in done.told
                  or at == FORMAT and b"newer metad" in done.told, at, byte, done)
        if at % 9 == 0 and done.status == 3:
            worn = journal_of(self.folder)
            done = serve(self.folder, line_of(op="ns.add", ns="z"))
            wants("a start refuses it", (done.status, done.out) == (3, b""), at, byte, done)
            wants("and leaves it as it is", journal_of(self.folder) == worn, at, byte)
            lines, status = script_of(self.folder)
            kept = [line for group in GROUPS for line in group]
            wants("what stands before it is written", lines == kept[: len(lines)], at, byte)
        self.write(at, self.text[at])


def part(folder, places, last, count):
    """Three changes of each of these bytes, in a copy: of a bit, to another byte, to 0."""
    with tempfile.TemporaryDirectory(prefix="metad-kept-") as top:
        own = os.path.join(top, "copy")
        shutil.copytree(folder, own)
        worn, chance = Worn(own), random.Random(places[0])
        for at in places:
            old = worn.text[at]
            bits = [old ^ 1 << it for it in range(8) if old ^ 1 << it]
            others = [it for it in range(1, 256) if it != old]
            for byte in {chance.choice(bits), chance.choice(others), 0} - {old}:
                worn.tries(at, byte, last, count)
    return 3 * len(places)


def sound_part(folder, place):
    """Where a byte is changed, what stands before its group makes a store (docs/SERVICE.md)."""
    with tempfile.TemporaryDirectory(prefix="metad-kept-") as top:
        own, new = os.path.join(top, "own"), os.path.join(top, "new")
        shutil.copytree(folder, own)
        os.mkdir(new)
        Worn(own).write(place, 1)
        lines, status = script_of(own)
        wants("the sound lines are written, and damage told", status == 3, status)
        wants("they are those of the groups before", lines == GROUPS[0], lines)
        wants("they make a store", serve(new, b"".join(lines)).status == 0)
        wants("of as many lines", lines_told(check(new).out) == len(lines))


def noise():
    """A page of 0xFF, or of chance, in place of text or behind it is told, and left alone: also at
    the end, and where it is all that a short journal has."""
    chance, pages = random.Random(1), 0
    for count in (1, 300):
        with tempfile.TemporaryDirectory(prefix="metad-kept-") as folder:
            for at in range(0, count, 10):
                numbers = range(at, min(at + 10, count))
                lines = [line_of(op="ns.add", ns="n%d" % it) for it in numbers]
                wants("a group", serve(folder, b"".join(lines)).status == 0)
            path, whole = os.path.join(folder, JOURNAL), journal_of(folder)
            end = whole.rindex(b"\n") + 1
            for page in (b"\xff" * PAGE, bytes(chance.randrange(256) for _ in range(PAGE))):
                for at in (*range(TEXT, end + PAGE, 5000), end - 100, end, len(whole) - PAGE):
                    text = whole[:at] + page + whole[at + PAGE :]
                    with open(path, "wb") as file:
                        file.write(text)
                    done = check(folder)
                    wants("noise is told", done.status == 3 and b"damage" in done.told, at, done)
                    done = serve(folder, line_of(op="ns.add", ns="z"))
                    wants("a start refuses it", (done.status, done.out) == (3, b""), at, done)
                    wants("it is left alone", journal_of(folder) == text, at)
                    pages += 1
    print("kept: %d pages of noise in journals" % pages)


def all_parts():
    """Each byte of the groups, and those of the head that say what the file is."""
    noise()
    with tempfile.TemporaryDirectory(prefix="metad-kept-") as folder:
        for group in GROUPS:
            wants("a group", serve(folder, b"".join(group)).status == 0)
        text = journal_of(folder)
        end = text.rindex(b"\n") + 1
        last = text.index(GROUPS[-1][0])
        places = [*range(FIRST_LINE + MARKS), HEAD - 1]
        places += [*range(HEAD, HEAD + NOTE), *range(TEXT, end)]
        count = sum(map(len, GROUPS))
        sound_part(folder, text.index(GROUPS[1][0]) + 5)
        with ThreadPoolExecutor(os.cpu_count()) as pool:
            parts = [
                pool.submit(part, folder, places[at :: 16], last, count) for at in range(16)
            ]
            tried = sum(it.result() for it in parts)
    told = (len(places), tried)
    print("kept: %d bytes of a journal, each changed in three ways: %d changes" % told)
