"""Runs that begin with a checkpoint: both files in turn, cuts, kills, damage and refusals."""
import hashlib
import json
import os
import random
import shutil
import tempfile
from concurrent.futures import ThreadPoolExecutor

from crashes import ENDED, Script, blocks_of, mixing, recover, send
from disk import FULL, STEP, lift, limit_files
from kills import send_for
from stores import (
    SELECTOR, DONE, HEAD, JOURNAL, NO_MEMORY, REFUSE, SECOND, SHIM, TEXT, Client, Model, Told,
    any_line, check, counting, is_logged, journal_of, line_of, lines_told, long_line, probes,
    script_of, serve,
)

wants = Told.wants

ROUNDS = 12  # runs that begin with a checkpoint, one behind the other
KILLED = 40  # runs that are killed
SEEDS = 2  # runs that are cut at the same call
STORMS = 8  # scripts that are sent to their end through runs that are cut
ROWS = 620000  # additions of content that take more than 64 MiB of a journal
SPARES = 2000  # objects of each kind that no row has, as a checkpoint finds them
TAKEN = b"a checkpoint of"
BEGINS, ENDS = b"a checkpoint begins, of a journal of", b"clients waited"
NOT_TAKEN = b"no checkpoint"


def told_of(store):
    """What a store answers to all questions."""
    return store.copy().answers_of(probes())


def found_in(folder):
    """What a start answers to them."""
    return serve(folder, b"".join(probes())).out


def same_store(folder, store, text, *more):
    """A start answers as this model does."""
    return wants(text, found_in(folder) == told_of(store), *more)


def alternate(folder):
    """Each run writes a checkpoint into the other file, and adds lines behind it."""
    chance, store, names = random.Random(3), Model(), []
    for number in range(ROUNDS):
        lines = [any_line(chance) for _ in range(60)]
        done = serve(folder, b"".join(lines), "--checkpoint")
        wants("a run behind a checkpoint", done.status == 0 and done.told.count(TAKEN) == 1, done)
        wants("it answers as the model does", done.out == store.answers_of(lines), number)
        names.append(counting(folder))
        told = [b"/%s: %s" % (names[-1].encode(), it) for it in (BEGINS, ENDS, TAKEN)]
        places = [done.told.find(it) for it in told]
        wants("the file that counts is told, and before and after it how long clients wait",
              -1 not in places and places == sorted(places), done.told)
        found = check(folder)
        wants("the journal is sound", found.status == 0, found)
        kept, status = script_of(folder)
        wants("a script has its lines, and an end of the checkpoint's",
              (status, len(kept)) == (0, lines_told(found.out) + 1), status)
        wants("they make the store", told_of(Model().takes(kept)) == told_of(store), number)
        same_store(folder, store, "a start has the store", number)
    wants("both files count in turn", names == [SECOND, JOURNAL] * (ROUNDS // 2), names)


class Cut:
    """A store, and a script that goes on behind a checkpoint of it."""

    def __init__(self, top, checkpoints):
        self.folder = os.path.join(top, "before%d" % checkpoints)
        os.mkdir(self.folder)
        blocks = blocks_of(7)
        self.before = Model()
        for number in range(checkpoints + 1):
            lines = [line for block in blocks[:2] for line in block] if number == 0 else []
            words = ["--checkpoint"] if number else []
            wants("a store", serve(self.folder, b"".join(lines), *words).status == 0)
            self.before.answers(lines)
        self.blocks = blocks[2:4]
        self.script = [line for block in self.blocks for line in block]

    def fronts(self):
        """The store after each front of the lines that are kept."""
        store = self.before.copy()
        stores = [store.copy()]
        for line in self.script:
            if is_logged(line, store.answer(line)):
                stores.append(store.copy())
        return stores

    def answered(self, replies):
        """How many lines that are kept were answered."""
        store = self.before.copy()
        return sum(is_logged(line, store.answer(line)) for line in self.script[: len(replies)])

    def calls(self):
        """How many calls of the disk a run has that isn't cut."""
        with tempfile.TemporaryDirectory(prefix="metad-kept-") as top:
            own, counter = os.path.join(top, "own"), os.path.join(top, "calls")
            shutil.copytree(self.folder, own)
            done, _ = send(own, self.blocks, mixing(0, 1, count=counter), "--checkpoint")
            wants("a run that isn't cut", done.status == 0 and TAKEN in done.told, done)
            with open(counter) as file:
                return int(file.read())


def found_among(folder, stores, least, *more):
    """Which of these stores a start has, at least so many lines on."""
    out = found_in(folder)
    for number in range(least, len(stores)):
        if out == told_of(stores[number]):
            return number
    wants("what is found is a front, and has each answered line", False, least, *more)
    return least


def cut_at(cut, at, seed, fails):
    """A run that is cut at a call, and what is found then."""
    with tempfile.TemporaryDirectory(prefix="metad-kept-") as top:
        own = os.path.join(top, "own")
        shutil.copytree(cut.folder, own)
        done, replies = send(own, cut.blocks, mixing(at, seed, fails), "--checkpoint")
        wants("a cut run ends so", done.status in ((0, 1) if fails else (ENDED,)), at, seed, done)
        wants("no addition is refused", NO_MEMORY not in replies, at, seed, fails)
        if at % 5 == 0:
            recover(own, seed)
        stores = cut.fronts()
        number = found_among(own, stores, cut.answered(replies), at, seed, fails, done.told)
        done = serve(own, b"", "--checkpoint")
        wants("a checkpoint behind a cut", done.status == 0 and TAKEN in done.told, at, seed, done)
        same_store(own, stores[number], "it has the store", at, seed, fails)


def points():
    """Every crash point of a run that begins with a checkpoint, whichever file counts before."""
    with tempfile.TemporaryDirectory(prefix="metad-kept-") as top:
        cuts = [Cut(top, 0), Cut(top, 1), Cut(top, 2)]
        of = [(cut, cut.calls()) for cut in cuts]
        with ThreadPoolExecutor(os.cpu_count()) as pool:
            runs = [
                pool.submit(cut_at, cut, at, 1000 * seed + at, fails)
                for cut, calls in of
                for at in range(1, calls + 1)
                for seed in range(SEEDS)
                for fails in (False, True)
            ]
            for run in runs:
                run.result()
    told = (", ".join(str(calls) for _, calls in of), len(runs))
    print("kept: %s crash points of runs with a checkpoint, %d cuts" % told)


def storm(seed):
    """A script that comes to its end by runs of which each begins with a checkpoint, and each but
    the last is cut somewhere."""
    chance, script = random.Random(seed), Script(blocks_of(300 + seed))
    store, at, runs = Model(), 0, 0
    with tempfile.TemporaryDirectory(prefix="metad-kept-") as folder:
        while wants("a script comes to its end", runs < 300):
            runs += 1
            lines = script.lines[at:]
            blocks = [lines[it : it + 5] for it in range(0, len(lines), 5)]
            env = mixing(chance.randint(1, 90), chance.randrange(10**6))
            done, replies = send(folder, blocks, env, "--checkpoint")
            recover(folder, seed)
            ahead, stores, places = store.copy(), [store.copy()], [at]
            for number, line in enumerate(lines):
                if is_logged(line, ahead.answer(line)):
                    stores.append(ahead.copy())
                    places.append(at + number + 1)
            ahead, least = store.copy(), 0
            for line in lines[: len(replies)]:
                least += is_logged(line, ahead.answer(line))
            number = found_among(folder, stores, least, seed, runs, done)
            if done.status == 0:
                wants("all is found at the end", number == len(stores) - 1, number, len(stores))
                break
            store, at = stores[number], places[number]
    return runs


def storms():
    with ThreadPoolExecutor(os.cpu_count()) as pool:
        runs = sum(pool.map(storm, range(STORMS)))
    print("kept: %d scripts through %d runs with a checkpoint" % (STORMS, runs))


def kills():
    """Runs that begin with a checkpoint are killed at random moments, some of them within it."""
    chance, store, taken = random.Random(5), Model(), 0
    with tempfile.TemporaryDirectory(prefix="metad-kept-") as folder:
        for _ in range(KILLED):
            before = counting(folder) if os.path.exists(os.path.join(folder, JOURNAL)) else JOURNAL
            sent, answered = send_for(Client(folder, "--checkpoint"), chance)
            ahead, stores, least = store.copy(), [store.copy()], 0
            for number, line in enumerate(sent):
                if is_logged(line, ahead.answer(line)):
                    stores.append(ahead.copy())
                    least += number < len(answered)
            wants("the journal after a kill", check(folder).status in (0, 1))
            store = stores[found_among(folder, stores, least)]
            taken += counting(folder) != before
    print("kept: %d kills of runs that begin with a checkpoint, %d behind it" % (KILLED, taken))


def change(folder, name, at, byte):
    with open(os.path.join(folder, name), "r+b") as file:
        file.seek(at)
        file.write(bytes([byte]))


def damage(folder):
    """Damage in the file that counts is told, and the other isn't taken in its place; damage in the
    other isn't seen."""
    store, lines = Model(), [line_of(op="ns.add", ns="x"), line_of(op="lease.add", ns="x", id="l")]
    store.answers(lines)
    serve(folder, b"".join(lines))
    for counts, other in ((SECOND, JOURNAL), (JOURNAL, SECOND)):
        done = serve(folder, b"", "--checkpoint")
        wants("a checkpoint", done.status == 0 and TAKEN in done.told, done)
        wants("it counts", counting(folder) == counts, counts)
        text = journal_of(folder, counts)
        end = text.rstrip(b"\0").rindex(b"\n")
        for at in (20 if counts == JOURNAL else HEAD - 1, HEAD + 3, TEXT + 3, end - 100, end):
            change(folder, counts, at, text[at] ^ 1 or 2)
            files = journal_of(folder, counts), journal_of(folder, other)
            for done in (serve(folder, lines[0]), check(folder)):
                wants("damage is told", done.status == 3 and b"damage" in done.told, at, done)
            wants("nothing is changed",
                  files == (journal_of(folder, counts), journal_of(folder, other)), counts, at)
            change(folder, counts, at, text[at])
        change(folder, other, TEXT + 3, 7)
        same_store(folder, store, "damage in the other file isn't seen", counts)
        selector = journal_of(folder)[SELECTOR : SELECTOR + 3]
        for at in range(SELECTOR, SELECTOR + 3):
            change(folder, JOURNAL, at, 43 - selector[0])
            same_store(folder, store, "one of three bytes of the selector is another", counts, at)
            change(folder, JOURNAL, at, 7)
            done = serve(folder)
            wants("a byte that is none of a selector is told", done.status == 3, counts, at, done)
            change(folder, JOURNAL, at, selector[0])
    done = serve(folder, b"", "--checkpoint")
    wants("a checkpoint over damage", done.status == 0 and TAKEN in done.told, done)
    same_store(folder, store, "it has the store")


def missing(folder):
    """A store of which one file is gone is refused, unless that one doesn't count."""
    lines = [line_of(op="ns.add", ns="x")]
    serve(folder, lines[0])
    store = Model().takes(lines)
    second = os.path.join(folder, SECOND)
    os.remove(second)
    same_store(folder, store, "a second file that doesn't count may be gone")
    serve(folder, b"", "--checkpoint")
    for name in (SECOND, JOURNAL):
        path = os.path.join(folder, name)
        os.rename(path, path + ".away")
        for done in (serve(folder, lines[0]), check(folder), serve(folder, lines[0])):
            wants("a file that is gone is told", done.status == 3 and b"missing" in done.told, name,
                  done)
        os.rename(path + ".away", path)
    same_store(folder, store, "with both files it goes on")
    text = journal_of(folder, SECOND)
    with open(second, "wb") as file:
        file.write(text[:TEXT] + bytes(len(text) - TEXT))
    for done in (serve(folder, lines[0]), check(folder)):
        wants("one without a line is told", done.status == 3 and b"half a store" in done.told, done)


def told_until(client, *ends):
    """What a client's program tells, up to the first line that has one of these texts."""
    told = b""
    while not any(end in told for end in ends):
        line = client.run.stderr.readline()
        if not line:
            break
        told += line
    return told


def refusals(folder):
    """Where there is no checkpoint that is told, and the run goes on in the file that counts."""
    lines = [line_of(op="ns.add", ns="x")]
    lines += [long_line(60000, op="lease.add", ns="x", id="l%d" % it) for it in range(40)]
    store = Model()
    done = serve(folder, b"".join(lines))
    wants("a store of some MiB", done.out == store.answers_of(lines), done.status)
    label = {"a": "b" * 4000}
    more = [line_of(op="lease.add", ns="x", id="m%d" % it, labels=label) for it in range(400)]
    done = serve(folder, b"".join(more))
    wants("and of rows that are long", done.out == store.answers_of(more), done.status)
    added = line_of(op="lease.add", ns="x", id="added")
    client = Client(folder, "--checkpoint", preexec_fn=limit_files(HEAD + STEP))
    told = told_until(client, NOT_TAKEN, TAKEN)
    wants("a disk that has no room", NOT_TAKEN in told and FULL in told, told)
    lift(client)
    wants("the run goes on", client.ask([added]) == [store.answer(added)])
    wants("it ends well", client.ends().status == 0)
    wants("the first file counts still", counting(folder) == JOURNAL)
    with open(os.path.join(folder, SECOND), "r+b") as file:
        file.write(b"another")
    removed = line_of(op="lease.remove", ns="x", id="added")
    done = serve(folder, removed, "--checkpoint")
    wants("a file of another format", NOT_TAKEN in done.told and b"first line" in done.told, done)
    wants("the run goes on", (done.status, done.out) == (0, store.answer(removed)), done.status)
    os.remove(os.path.join(folder, SECOND))
    done = serve(folder, b"", "--checkpoint")
    wants("it is removed", done.status == 0 and TAKEN in done.told, done)
    wants("behind a start of some MiB it is told about how long clients wait",
          b"all clients wait, some " in done.told, done)
    same_store(folder, store, "the store is there")


def due(folder):
    """A journal of more than 64 MiB is written anew between two blocks, though nobody asked."""
    digests = (hashlib.sha256(b"%d" % it).hexdigest() for it in range(ROWS))
    lines = [line_of(op="ns.add", ns="x")]
    lines += [line_of(op="content.add", ns="x", digest="sha256:" + it) for it in digests]
    done = serve(folder, b"".join(lines))
    wants("each line is answered", (done.status, done.out) == (0, DONE * len(lines)), done.status)
    wants("a checkpoint was due", done.told.count(TAKEN) == 1, done.told)
    wants("it counts", counting(folder) == SECOND)
    wants("all rows are there", lines_told(check(folder).out) >= len(lines))
    done = serve(folder)
    told = [done.told.find(it) for it in (b": starting for ", b": started after ")]
    wants("a long start tells how far it is, and how long it took",
          -1 not in told and told == sorted(told), done.told)


def spares(folder):
    """A checkpoint of many objects that no row has: it makes each under a spare name."""
    lines = [line_of(op="ns.add", ns="x"), line_of(op="ns.add", ns="spare")]
    for it in range(SPARES):
        digest = "sha256:" + hashlib.sha256(b"%d" % it).hexdigest()
        of = {"ns": "x", "snapshotter": "s", "key": "spare%d-0" % it}
        lines += [line_of(op="content.add", ns="x", digest=digest),
                  line_of(op="snap.prepare", **of),
                  line_of(op="ingest.begin", ns="x", ref="r", at="2024-03-01T00:00:00Z")]
        lines += [line_of(op="content.remove", ns="x", digest=digest),
                  line_of(op="snap.remove", **of), line_of(op="ingest.abort", ns="x", ref="r")]
    done = serve(folder, b"".join(lines))
    wants("each line is answered", (done.status, done.out) == (0, DONE * len(lines)), done.status)
    done = serve(folder, b"", "--checkpoint")
    wants("a checkpoint of spare rows", done.status == 0 and TAKEN in done.told, done)
    collected = serve(folder, line_of(op="gc.run", at="2024-03-01T00:00:00Z")).out
    objects = json.loads(collected)["report"]["backend"]
    counts = {kind: len(found) for kind, found in objects.items()}
    wants("the objects are there", set(counts.values()) == {SPARES}, counts)
    names = [line_of(op="ns.list"), line_of(op="snap.list", ns="x", snapshotter="s")]
    found = serve(folder, b"".join(names)).out
    listed = b'{"names":["spare","x"],"ok":true}\n{"names":[],"ok":true}\n'
    wants("no spare name is a row's", found == listed, found)


def little_memory(number):
    """A run with a checkpoint of which one growth is refused. How many growths it had."""
    lines = [line_of(op="ns.add", ns="x"), line_of(op="lease.add", ns="x", id="l"),
             line_of(op="content.add", ns="x", digest="sha256:" + "a" * 64)]
    with tempfile.TemporaryDirectory(prefix="metad-kept-") as folder:
        serve(folder, b"".join(lines))
        store = Model().takes(lines)
        env = {**os.environ, "LD_PRELOAD": REFUSE, "REFUSE": str(number)}
        asked = line_of(op="lease.get", ns="x", id="l")
        done = serve(folder, asked, "--checkpoint", env=env)
        wants("it is taken, or not, or the run is refused", TAKEN in done.told
              or NOT_TAKEN in done.told or b"fault 7" in done.told, number, done)
        wants("a run goes on", done.status == 1 or done.out.count(b"\n") == 1, number, done)
        same_store(folder, store, "the store is there", number)
        count = done.told.splitlines()[-1:]
        return int(count[0]) if count and count[0].isdigit() else 0


def growths():
    if not REFUSE:
        return
    most = little_memory(0)
    wants("a run has growths", most > 10, most)
    with ThreadPoolExecutor(os.cpu_count()) as pool:
        list(pool.map(little_memory, range(1, most + 1)))
    print("kept: %d growths of a run with a checkpoint, each refused" % most)


def all_parts():
    for part in (alternate, damage, missing, refusals, due, spares):
        with tempfile.TemporaryDirectory(prefix="metad-kept-") as folder:
            part(folder)
    growths()
    kills()
    if not SHIM:
        print("kept: cuts of checkpoints are left out: the toolchain's clang isn't there")
        return
    points()
    storms()
