"""trials/crashes/main.py [IMAGES [SEED]]: crash images of recorded runs, and failing calls."""
import os
import random
import shutil
import sys
import tempfile
import time
from concurrent.futures import ThreadPoolExecutor

TOP = os.path.dirname(os.path.dirname(os.path.dirname(os.path.abspath(__file__))))
sys.path.insert(0, os.path.join(TOP, "trials", "kept"))

import moves  # noqa: E402 (the path above)
from images import Disk, WAYS, calls_of, files_of, write_files  # noqa: E402 (the path above)
from stores import (  # noqa: E402
    JOURNAL, NO_MEMORY, TEXT, WHEN, Client, Model, Told, any_line, journal_of, line_of, long_line,
    probes, serve,
)

wants = Told.wants

RECORDER = os.environ["RECORDER"]
IMAGES = 300
AGAIN = 8  # of so many images, one is of a recovery that is cut itself
KILLED = -9
# a small store (small.py) has neither word
MOVES = () if os.environ["METAD_KEPT"].endswith("small.py") else (moves.Load, moves.Backup)
# what a call may do, by the kind of call
FAILURES = {
    "w": ("eio", "full", "short", "before", "half", "after"),
    "s": ("eio", "full", "lost", "before", "after"),
    "t": ("eio", "full"),
    "o": ("eio",),
    "O": ("eio", "short"),
}


# ---- workloads: lines in blocks, over a store


def mixed(chance, count):
    """Lines that change, ask and collect."""
    lines = [any_line(chance) for _ in range(count)]
    for at in range(9, count, 17):
        lines[at] = line_of(op="gc.run", at=WHEN)
    return lines


def wide(chance, count):
    """Lines of up to 60,000 bytes, behind which the file grows."""
    return [long_line(chance.randint(30_000, 60_000), op="ns.add", ns="n%d" % number)
            if number % 2 else any_line(chance) for number in range(count)]


def in_blocks(chance, lines):
    """The same lines, some at a time."""
    found, at = [], 0
    while at < len(lines):
        count = chance.randint(1, 9)
        found.append(lines[at : at + count])
        at += count
    return found


class Workload:
    """A store, and a recorded run over it."""

    def __init__(self, folder, name, seed):
        chance = random.Random("%s %d" % (name, seed))
        self.name, self.words = name, []
        before, lines = [], mixed(chance, 50)
        if name == "first start":
            lines = lines[:8]
        elif name == "growth":
            lines = wide(chance, 60)
        elif name in ("checkpoint", "checkpoint back"):
            before, self.words = mixed(chance, 40), ["--checkpoint"]
        self.before = Model()
        os.mkdir(folder)
        if name != "first start":
            wants("a store", serve(folder, b"".join(before)).status == 0)
            self.before.answers(before)
        if name == "checkpoint back":
            wants("a checkpoint", serve(folder, b"", "--checkpoint").status == 0)
        self.files = files_of(folder)
        self.blocks = in_blocks(chance, lines)
        self.lines = lines
        self.record = folder + ".calls"
        status, replies = self.send(folder, RECORD=self.record)
        wants("a whole run", status == 0 and replies == self.before.copy().answers(lines), name)
        self.calls = calls_of(self.record)
        self.stores = stores_after(self.before, lines)
        self.fronts = [store.copy().answers_of(QUESTIONS) for store in self.stores]
        # where the first reply goes out
        self.first = next((at for at, it in enumerate(self.calls) if it.kind == "O"), 0)

    def send(self, folder, **more):
        """Sends the blocks, each when the one before is answered. How it ends, and the replies."""
        env = {**os.environ, "LD_PRELOAD": RECORDER, **more}
        client, replies = Client(folder, *self.words, env=env), []
        for block in self.blocks:
            got = client.ask(block)
            replies += got
            if len(got) < len(block):
                break
        return client.ends().status, replies

    def run_counted(self, folder, kind, counter):
        """A whole run, whose calls of a kind are counted."""
        write_files(folder, self.files)
        self.send(folder, FAIL_ON=kind, FAIL_HOW="eio", FAIL_AT="0", COUNT=counter)

    def crash(self, chance, way):
        """The files that a crash leaves at any call, and how many lines were answered."""
        disk = Disk(self.files)
        # each third one within the start, or its checkpoint
        end = self.first if chance.random() < 1 / 3 and self.first else len(self.calls)
        for call in self.calls[: chance.randint(0, end)]:
            disk.takes(call)
        return disk.crash(chance, way), disk.replies


def stores_after(store, lines):
    """The store after each front of the lines."""
    found = [store.copy()]
    for line in lines:
        store = store.copy()
        store.answer(line)
        found.append(store)
    return found


# the last ones tell the next number of a backend's object
QUESTIONS = probes() + [
    line_of(op="ns.add", ns="last"),
    line_of(op="ingest.begin", ns="last", ref="r", at=WHEN),
    line_of(op="ingest.get", ns="last", ref="r"),
]


# ---- judgement


def first_was_cut(folder):
    """Whether the first start was cut before the file had a line."""
    return not os.path.exists(os.path.join(folder, JOURNAL)) or not any(journal_of(folder)[TEXT:])


def judge(folder, work, least, *more):
    """A start on these files has the store after a front of the lines, with each answered one; and
    the start behind it has what was added since."""
    done = serve(folder, b"".join(QUESTIONS))
    if done.status == 3 and least == 0 and work.name == "first start" and first_was_cut(folder):
        shutil.rmtree(folder)
        os.mkdir(folder)
        done = serve(folder, b"".join(QUESTIONS))
    found = done.status == 0 and done.out in work.fronts[least:]
    wants("a start finds each answered line, and a front of all", found, work.name, *more, least,
          done.status, done.told)
    if found:
        store = work.stores[work.fronts.index(done.out, least)].copy()
        store.answers(QUESTIONS)
        done = serve(folder, b"".join(QUESTIONS))
        wants("a start finds what the one before has added",
              done.status == 0 and done.out == store.answers_of(QUESTIONS), work.name, *more)


def image(works, number, seed):
    """One image, and what a start makes of it; of some the start is cut, too."""
    chance = random.Random(1_000_003 * seed + number)
    work, way = chance.choice(works), chance.choice(WAYS)
    with tempfile.TemporaryDirectory(prefix="metad-crashes-") as top:
        folder = os.path.join(top, "store")
        if isinstance(work, moves.Moved):
            work.image(folder, chance, way, "image %d of seed %d" % (number, seed))
            return
        files, least = work.crash(chance, way)
        write_files(folder, files)
        if number % AGAIN == 0:
            env = {**os.environ, "LD_PRELOAD": RECORDER, "RECORD": top + "/calls"}
            done = serve(folder, b"", env=env)
            if done.status == 0:
                calls = calls_of(top + "/calls")
                disk = Disk(files)
                for call in calls[: chance.randint(0, len(calls))]:
                    disk.takes(call)
                shutil.rmtree(folder)
                write_files(folder, disk.crash(chance, chance.choice(WAYS)))
        judge(folder, work, least, way, "image %d of seed %d" % (number, seed))


def fails_once(work, kind, how, at):
    """A run in which one call fails in one way, and what is found then."""
    with tempfile.TemporaryDirectory(prefix="metad-crashes-") as top:
        folder = os.path.join(top, "store")
        write_files(folder, work.files)
        status, replies = work.send(folder, FAIL_ON=kind, FAIL_HOW=how, FAIL_AT=str(at))
        wants("a failed call ends a run, or is made good", status in (0, 1, 11, KILLED), work.name,
              kind, how, at, status)
        store, found = work.before.copy(), []
        for line, reply in zip(work.lines, replies):
            if reply == NO_MEMORY:
                continue
            wants("the replies are those of the model", reply == store.answer(line), kind, how, at)
            found.append(line)
        if NO_MEMORY in replies:
            # additions were refused: the lines that were done are the ones that a start has
            stores = stores_after(work.before, found + work.lines[len(replies) :])
            fronts, least = [it.answers_of(QUESTIONS) for it in stores], len(found)
        else:
            fronts, least = work.fronts, len(replies)
        done = serve(folder, b"".join(QUESTIONS))
        if done.status == 3 and least == 0 and work.name == "first start":
            return
        wants("a start finds each answered line", done.status == 0 and done.out in fronts[least:],
              work.name, kind, how, at, least, done.status, done.told)


def count_of(work, kind, top):
    """How many calls of a kind a whole run has."""
    folder, counter = os.path.join(top, "counted"), os.path.join(top, "count")
    shutil.rmtree(folder, ignore_errors=True)
    work.run_counted(folder, kind, counter)
    if not os.path.exists(counter):
        return 0
    with open(counter) as file:
        count = int(file.read() or 0)
    os.remove(counter)
    return count


def fails_moved(work, kind, how, at):
    """A load or a backup in which one call fails."""
    with tempfile.TemporaryDirectory(prefix="metad-crashes-") as top:
        work.fails_once(os.path.join(top, "moved"), kind, how, at)


def failing_runs(pool, works, moved, top):
    """Runs in each of which one call fails in one way."""
    tasks = []
    for work in works[:1] + works[3:4]:
        for kind, ways in FAILURES.items():
            for at in range(1, count_of(work, kind, top) + 1):
                tasks += [pool.submit(fails_once, work, kind, how, at) for how in ways]
    for work in moved:
        for kind, ways in moves.FAILURES.items():
            for at in range(1, count_of(work, kind, top) + 1):
                tasks += [pool.submit(fails_moved, work, kind, how, at) for how in ways]
    return tasks


def main():
    """Judges the images; status 1 where anything was wrong."""
    images = int(sys.argv[1]) if len(sys.argv) > 1 else IMAGES
    seed = int(sys.argv[2]) if len(sys.argv) > 2 else 1
    began = time.monotonic()
    with tempfile.TemporaryDirectory(prefix="metad-crashes-") as top:
        names = ("first start", "mixed lines", "growth", "checkpoint", "checkpoint back")
        works = [Workload(os.path.join(top, "store%d" % at), name, seed)
                 for at, name in enumerate(names)]
        lines = moves.lines_of(random.Random("moved %d" % seed), mixed)
        moved = [of(top, lines, QUESTIONS).recorded(RECORDER) for of in MOVES]
        with ThreadPoolExecutor(os.cpu_count()) as pool:
            tasks = [pool.submit(image, works + moved, number, seed) for number in range(images)]
            failing = failing_runs(pool, works, moved, top)
            for task in tasks + failing:
                task.result()
    print("crashes: %d images, %d runs with a failed call, %d tried, %d wrong, %.0f s"
          % (images, len(failing), Told.tried, Told.wrong, time.monotonic() - began))
    return 1 if Told.wrong else 0


if __name__ == "__main__":
    sys.exit(main())
