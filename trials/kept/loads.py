"""Stores that are moved: by their lines, and by backups while a program writes; each refusal of a
load, texts that are cut or changed anywhere, and loads that are killed."""
import os
import random
import shutil
import signal
import subprocess
import tempfile
import threading
import time

from stores import (
    JOURNAL, KEPT, WHEN, Client, Model, Told, any_line, backup, check, check_backup, journal_of,
    line_of, lines_told, load, probes, run, script_of, serve,
)

wants = Told.wants

STORES = 6  # stores that are moved
ROUNDS = 5  # runs that each of them had, each but the first behind a checkpoint
CUTS = 60  # places at which a backup is cut, and as many bytes of it that are changed
KILLED = 30  # loads that are killed
BACKUPS = 12  # backups under a writer
TARGET = "sha256:" + "b" * 64
OBJECTS = line_of(op="back.list")
COLLECTS = line_of(op="gc.run", at=WHEN)


def numbered(number):
    """A snapshot, which gets a number in the backend."""
    return line_of(op="snap.prepare", ns="x", snapshotter="s", key="n%d" % number)


def image(number):
    return line_of(op="image.add", ns="x", name="i%06d" % number, target=TARGET)


def renumbered():
    """Lines after which the objects of the store that is left have no number that new ones get."""
    lines = [line_of(op="ns.add", ns="x")] + [numbered(number) for number in range(6)]
    lines += [line_of(op="snap.remove", ns="x", snapshotter="s", key="n%d" % number)
              for number in range(0, 6, 2)]
    return lines + [COLLECTS, numbered(9)]


def text_of(folder):
    """What `script` writes, where all is well."""
    lines, status = script_of(folder)
    wants("a script", status == 0, status)
    return b"".join(lines)


def plain(text):
    """The lines of a text but for the ends of checkpoints."""
    return [line for line in text.splitlines(keepends=True) if not line.startswith(b"end ")]


def folder_in(top, name):
    path = os.path.join(top, name)
    os.mkdir(path)
    return path


def grown(top, seed):
    """A store of several runs, each but the first behind a checkpoint; and its model."""
    chance, store = random.Random(seed), Model()
    folder = folder_in(top, "grown%d" % seed)
    for number in range(ROUNDS if seed else 1):
        lines = renumbered() if number == 0 else []
        lines += [any_line(chance) for _ in range(40)]
        done = serve(folder, b"".join(lines), *(["--checkpoint"] if number else []))
        wants("a store", done.status == 0 and done.out == store.answers_of(lines), seed, number)
    return folder, store


def same(one, other, *more):
    """Two stores answer the same, have the same objects under the same numbers, and give the same
    lines by a checkpoint; and a collection of both removes the same. Both are copied before."""
    with tempfile.TemporaryDirectory(prefix="metad-kept-") as top:
        both = [shutil.copytree(it, os.path.join(top, os.path.basename(it))) for it in (one, other)]
        same_answers(both, b"".join(probes()) + OBJECTS, "the same answers", *more)
        again = [serve(folder, b"", "--checkpoint").status for folder in both]
        wants("a checkpoint of both", again == [0, 0], *more)
        wants("the same checkpoint", text_of(both[0]) == text_of(both[1]), *more)
        ends = b"".join([numbered(20), line_of(op="ns.list"), COLLECTS, OBJECTS])
        same_answers(both, ends, "a collection of both", *more)


def same_answers(folders, lines, text, *more):
    one, other = [serve(folder, lines).out for folder in folders]
    wants(text, one == other and one, *more)


def moved(seed):
    """A store is moved by its script, and by a backup."""
    with tempfile.TemporaryDirectory(prefix="metad-kept-") as top:
        folder, store = grown(top, seed)
        text, file = text_of(folder), os.path.join(top, "file")
        new, restored = folder_in(top, "new"), folder_in(top, "restored")
        done = load(new, text)
        wants("a load", done.status == 0 and not done.told, seed, done)
        wants("it tells its lines", lines_told(done.out) == len(plain(text)), seed, done.out)
        found = check(new)
        wants("a check tells the same", (found.status, found.out) == (0, done.out), found, done)
        wants("it has these lines", plain(text_of(new)) == plain(text), seed)
        wants("it has a further identity",
              check(new).out.split()[1] != check(folder).out.split()[1], seed)
        told = serve(new, b"".join(probes())).out
        wants("it answers as the model does", told == store.copy().answers_of(probes()), seed)
        done = backup(folder, file)
        wants("a backup", done.status == 0 and done.out == check(folder).out, seed, done)
        wants("a check of it", check_backup(file) == (0, done.out, b""), check_backup(file))
        wants("it is its owner's alone", os.stat(file).st_mode & 0o777 == 0o600, seed)
        wants("nothing is beside it", not os.path.exists(file + ".part"), seed)
        with open(file, "rb") as it:
            held = it.read()
        done = load(restored, held)
        wants("a load of it", done.status == 0, seed, done)
        wants("it has the lines", plain(text_of(restored)) == plain(text), seed)
        again = backup(folder, file)
        wants("a backup replaces none", again.status == 1, again)
        wants("it says so", b"is there already" in again.told, again)
        with open(file, "rb") as it:
            wants("it is as it was", it.read() == held, seed)
        same(new, restored, seed)
        same(folder, new, seed)


# ---- refusals


def refused(text, told, *words):
    """A load of this ends with 3, says why, and leaves the folder as it was."""
    with tempfile.TemporaryDirectory(prefix="metad-kept-") as folder:
        done = load(folder, text, *words)
        wants("a load is refused", done.status == 3 and told in done.told, told, done)
        wants("it made no file", os.listdir(folder) == [], told, os.listdir(folder))
        done = run([KEPT, "new", "--dir", folder])
        wants("a new store goes there all the same", done.status == 0, told, done)


def accepted(text, lines, *words):
    with tempfile.TemporaryDirectory(prefix="metad-kept-") as folder:
        done = load(folder, text, *words)
        wants("a load", done.status == 0 and lines_told(done.out) == lines, text, done)
        wants("a start has it", serve(folder).status == 0, text)


def refusals():
    space, first, last = line_of(op="ns.add", ns="x"), numbered(1), numbered(2)
    row = line_of(op="snap.remove", ns="x", snapshotter="s", key="other")
    refused(space + row + first, b"line 2 of the input: it is refused")
    refused(b"no request\n", b"line 1 of the input: it is refused")
    refused(space + b"\n", b"line 2 of the input: it is refused")
    refused(space + line_of(op="ns.list"), b"line 2 of the input: it is refused")
    refused(space + b"# x\n" + first, b"line 2 of the input: it is refused")
    refused(space + b"number x\n" + first, b"line 2 of the input: it is refused")
    refused(space + first[:-1], b"the input may be cut")
    begun = b"number 1\n" + space + first + b"number 7\n" + last
    refused(begun + b"number 7\nend 6\n", b"line 6 of the input: its number is below")
    refused(begun + b"number 2\nend 6\n", b"line 6 of the input: its number is below")
    refused(begun, b"has no line `end N`")
    refused(space + first + b"number 7\n", b"has no line `end N`")
    refused(begun + b"end 5\nnumber 9\n", b"has no line `end N`")
    refused(begun + b"end 4\n", b"line 6 of the input: it doesn't end")
    refused(begun + b"end x\n", b"line 6 of the input: it doesn't end")
    refused(b"end 1\n" + space, b"line 1 of the input: it doesn't end")
    accepted(begun + b"end 5\n", 5)
    accepted(begun, 5, "--part")
    accepted(space + first, 2)
    accepted(b"", 0)
    with tempfile.TemporaryDirectory(prefix="metad-kept-") as top:
        whole = folder_in(top, "whole")
        wants("a store", serve(whole, space).status == 0)
        before = {name: journal_of(whole, name) for name in os.listdir(whole)}
        done = load(whole, space)
        wants("a folder has a store", done.status == 3 and b"a store is there" in done.told, done)
        client = Client(whole)
        client.ask([line_of(op="ns.list")])
        done = load(whole, space)
        wants("a folder is served", done.status in (3, 4), done)
        client.ends()
        wants("it is as it was", journal_of(whole) == before[JOURNAL])
        os.rename(os.path.join(whole, JOURNAL), os.path.join(top, "kept"))
        done = load(whole, space)
        wants("a second file alone", done.status == 3 and b"missing" in done.told, done)
        done = load(os.path.join(top, "none"), space)
        wants("no folder", done.status == 1, done)
        empty = folder_in(top, "empty")
        wants("a new store", run([KEPT, "new", "--dir", empty]).status == 0)
        done = load(empty, space)
        wants("a new store is one", done.status == 3 and b"a store is there" in done.told, done)
    words()


def words():
    """Words that ask for nothing."""
    for line in ("load", "load file", "load --dir=d file", "load --dir=d --new",
                 "load --dir=d --part --part", "backup", "backup file", "backup --dir=d",
                 "backup --dir=d one two", "check", "check --dir=d file", "check one two",
                 "check --part file", "serve --dir=d --part", "serve --dir=d x",
                 "script --dir=d x", "new --dir=d --part"):
        done = run([KEPT, *line.split()])
        wants("no such words", done.status == 2 and b"usage: metad serve" in done.told, line, done)


# ---- cuts and changes


def cuts():
    """A script and a backup that are cut."""
    chance = random.Random(11)
    with tempfile.TemporaryDirectory(prefix="metad-kept-") as top:
        folder, file = grown(top, 1)[0], os.path.join(top, "file")
        text = text_of(folder)
        lines = text.splitlines(keepends=True)
        (end,) = [at for at, line in enumerate(lines) if line.startswith(b"end ")]
        for at in sorted(chance.sample(range(1, len(lines)), min(CUTS, len(lines) - 1))):
            new = folder_in(top, "cut%d" % at)
            done = load(new, b"".join(lines[:at]))
            if at <= end:
                wants("a part of a checkpoint", done.status == 3, at, done)
                wants("it made no file", os.listdir(new) == [], at)
            else:
                told = serve(new, b"".join(probes())).out
                store = Model().takes(lines[:at])
                wants("a front behind it", done.status == 0, at, done)
                wants("it is a past moment", told == store.answers_of(probes()), at)
            shutil.rmtree(new)
        for at in chance.sample(range(1, len(text)), CUTS):
            if text[at - 1 : at] != b"\n":
                refused(text[:at], b"of the input")
        wants("a backup", backup(folder, file).status == 0)
        with open(file, "rb") as it:
            held = it.read()
        changed_backups(top, held, chance)


def changed_backups(top, held, chance):
    """A backup that is cut, longer, or changed in a byte is none."""
    ends = [1, 15, 16, 17, 218, 219, 220, len(held) - 204, len(held) - 203, len(held) - 1]
    texts = [held[:at] for at in ends + chance.sample(range(20, len(held)), CUTS)]
    texts += [held + b"\n", held + held, held[:16] + held[219:], held[:-203]]
    for at in chance.sample(range(len(held)), CUTS) + list(range(0, 240, 7)):
        other = chance.choice([byte for byte in (0, 10, 35, 48, 57, 97, 255) if byte != held[at]])
        texts.append(held[:at] + bytes([other]) + held[at + 1 :])
    for number, text in enumerate(texts):
        path, new = os.path.join(top, "changed"), folder_in(top, "held%d" % number)
        with open(path, "wb") as it:
            it.write(text)
        done, loaded = check_backup(path), load(new, text)
        wants("a changed backup is found", done.status == 3, number, done)
        wants("it isn't loaded", loaded.status == 3, number, loaded)
        wants("it made no file", os.listdir(new) == [], number)
        os.rmdir(new)
    path = os.path.join(top, "newer")
    with open(path, "wb") as it:
        it.write(held.replace(b"#metad backup 1", b"#metad backup 2"))
    done = check_backup(path)
    wants("a newer one is told so", done.status == 3 and b"newer" in done.told, done)


# ---- kills


def killed():
    """Loads that are killed at any moment leave no store, or all of it."""
    chance, whole, none = random.Random(7), 0, 0
    lines = [line_of(op="ns.add", ns="x")]
    lines += [image(number) for number in range(20000)]
    text = b"".join(lines)
    with tempfile.TemporaryDirectory(prefix="metad-kept-") as top:
        began = time.monotonic()
        wants("a load", load(folder_in(top, "all"), text).status == 0)
        took = time.monotonic() - began
        for number in range(KILLED):
            new = folder_in(top, "killed%d" % number)
            # most moments are in the part that writes the files
            moment = took * (1 - chance.random() ** 2 * 0.9)
            left = kill_at(new, text, moment)
            found = check(new)
            if left == 0 or found.status == 0:
                whole += 1
                wants("all of it", found.status == 0 and lines_told(found.out) == len(lines), found)
                wants("it starts", serve(new).status == 0)
            else:
                none += 1
                wants("no start serves it", run([KEPT, "serve", "--dir", new]).status == 3, found)
                wants("nor does a check", found.status == 3, found)
                wants("a script has no store of it", script_of(new)[0] == [], found)
                again_there(new)
            shutil.rmtree(new)
    wants("some were cut off", none > 2, none, whole)
    print("kept: %d loads that were killed left none of a store, %d left all" % (none, whole))


def kill_at(folder, text, moment):
    """A load that is killed at a moment; its status, if it ended before."""
    child = subprocess.Popen([KEPT, "load", "--dir", folder], stdin=subprocess.PIPE,
                             stdout=subprocess.DEVNULL, stderr=subprocess.DEVNULL)
    began = time.monotonic()
    try:
        child.stdin.write(text)
        child.stdin.close()
    except BrokenPipeError:
        pass
    time.sleep(max(0, moment - (time.monotonic() - began)))
    child.send_signal(signal.SIGKILL)
    return child.wait()


def again_there(folder):
    """Where a load was cut off, another one is told so, or goes there."""
    done = load(folder, line_of(op="ns.add", ns="x"))
    if done.status == 0:
        wants("a load where another left no line", serve(folder).status == 0, done)
        return
    wants("what a load left is told", done.status == 3 and b"cut off" in done.told, done)


# ---- backups under a writer


class Writer(threading.Thread):
    """Adds image after image, in runs of which each begins with a checkpoint."""

    def __init__(self, folder):
        super().__init__()
        self.folder, self.answered, self.stops = folder, 0, False

    def run(self):
        number = 0
        while not self.stops:
            client = Client(self.folder, "--checkpoint")
            for _ in range(8):
                lines = [image(number + at) for at in range(25)]
                number += len(client.ask(lines))
                self.answered = number
                time.sleep(0.004)
            wants("the writer", client.ends().status == 0)


def images_in(folder):
    out = serve(folder, line_of(op="image.list", ns="x")).out
    return out.count(b'"i0')


def writers():
    """Backups while a program writes, and takes checkpoints."""
    with tempfile.TemporaryDirectory(prefix="metad-kept-") as top:
        folder = folder_in(top, "served")
        wants("a store", serve(folder, line_of(op="ns.add", ns="x")).status == 0)
        writer, taken = Writer(folder), 0
        writer.start()
        for number in range(BACKUPS):
            file, new = os.path.join(top, "b%d" % number), folder_in(top, "n%d" % number)
            least = writer.answered
            done = backup(folder, file)
            if done.status == 1 and b"ask again" in done.told:
                continue
            taken += 1
            wants("a backup under a writer", done.status == 0, done)
            wants("it is whole", check_backup(file).out == done.out, done)
            with open(file, "rb") as it:
                loaded = load(new, it.read())
            wants("it is loaded", loaded.status == 0, loaded)
            found = images_in(new)
            wants("it has what was answered before", least <= found, least, found)
        writer.stops = True
        writer.join()
        wants("most were taken", taken > BACKUPS // 2, taken)


def all_parts():
    for seed in range(STORES):
        moved(seed)
    refusals()
    cuts()
    killed()
    writers()
