"""The heads of a store's two files: an identity, a generation, a witness; and files of format 1."""
import hashlib
import itertools
import os
import re
import shutil
import tempfile

from stores import (
    HEAD, JOURNAL, KEPT, SECOND, TEXT, Model, Told, check, counting, journal_of, line_of,
    lines_told, run, script_of, serve,
)

wants = Told.wants

FIRST = b"0" * 64  # the first sum of a file of format 1
UNFIT = (b"of two stores", b"of two moments", b"head is stale", b"missing or empty")


def lines_of(first, count):
    """Lines that make a store unlike others."""
    return [line_of(op="ns.add", ns="n%d" % it) for it in range(first, first + count)]


def files_of(folder):
    return {name: journal_of(folder, name) for name in (JOURNAL, SECOND)}


def put(folder, files):
    os.makedirs(folder, exist_ok=True)
    for name, text in files.items():
        with open(os.path.join(folder, name), "wb") as file:
            file.write(text)


def identity_of(told):
    found = re.search(rb"store ([0-9a-f]{32}), generation (\d+)", told)
    return found and (found.group(1), int(found.group(2)))


def told_at_each_start(folder):
    """A start and a check tell the identity, which stays, and the generation, which grows."""
    found = []
    for number, words in enumerate(([], [], ["--checkpoint"], ["--checkpoint"], [])):
        done = serve(folder, line_of(op="ns.add", ns="n%d" % number), *words)
        wants("a start", done.status == 0, done)
        found.append((identity_of(done.told), identity_of(check(folder).out)))
    wants("each tells it", all(it and also for it, also in found), found)
    wants("it stays", len({also[0] for it, also in found}) == 1, found)
    wants("a checkpoint is of the next generation", [also[1] for it, also in found]
          == [0, 0, 1, 2, 2], found)


def moments(folder, first):
    """A store at several moments: what its files were, and which state that is."""
    found, store = [], os.path.join(folder, "store-%d" % first)
    os.makedirs(store)
    for number, words in enumerate(([], [], ["--checkpoint"], [], ["--checkpoint"],
                                    ["--checkpoint"], [])):
        done = serve(store, b"".join(lines_of(first + 10 * number, 10)), *words)
        wants("a start", done.status == 0, done)
        found.append(files_of(store))
    return found


def pairs(folder):
    """Each pair of files of two stores, and of two moments of one, is served as the store of the
    one that counts, with all its lines, or refused with 3, and then no byte is changed."""
    one, other = moments(folder, 0), moments(folder, 1000)
    refused = served = 0
    all_of = [(("one", at), it) for at, it in enumerate(one)]
    all_of += [(("other", at), it) for at, it in enumerate(other)]
    for number, ((name, first), (also, second)) in enumerate(itertools.product(all_of, all_of)):
        if name == also:
            continue
        own = os.path.join(folder, "pair-%d" % number)
        files = {JOURNAL: first[JOURNAL], SECOND: second[SECOND]}
        put(own, files)
        done = run([KEPT, "serve", "--dir", own], line_of(op="ns.list"))
        if done.status == 3:
            refused += 1
            wants("it is told why", any(it in done.told for it in UNFIT)
                  or b"less than it had" in done.told, name, also, done)
            wants("no byte is changed", files_of(own) == files, name, also)
            wants("check refuses it too", check(own).status == 3, name, also)
            continue
        served += 1
        wants("no file of another store is served", name[0] == also[0], name, also, done)
        wants("an end", done.status == 0, name, also, done)
        # the file that counts is whole then, and as late as each that was witnessed
        late = name[1] if counting(own) == JOURNAL else also[1]
        wants("nothing newer was there", late >= max(name[1], also[1])
              or files_of(own)[JOURNAL] and one[late][counting(own)]
              in (one[name[1]][counting(own)], one[also[1]][counting(own)]), name, also)
        shutil.rmtree(own)
    print("kept: %d pairs of files are refused, %d served" % (refused, served))


def stale(folder):
    """An older block of a head doesn't bring an older state back."""
    store = os.path.join(folder, "stale")
    os.mkdir(store)
    serve(store, b"".join(lines_of(0, 5)))
    before = journal_of(store)[4000:4200]
    serve(store, b"".join(lines_of(5, 20)), "--checkpoint")
    serve(store, b"".join(lines_of(100, 20)))
    path = os.path.join(store, JOURNAL)
    with open(path, "r+b") as file:
        file.seek(4000)
        file.write(before)
    files = files_of(store)
    for done in (run([KEPT, "serve", "--dir", store]), check(store)):
        wants("a stale head is told", done.status == 3 and b"stale" in done.told, done)
    wants("no byte is changed", files_of(store) == files)


def less(folder):
    """Lines that a disk lost are told by the witness; --accept-loss serves what is left."""
    store = os.path.join(folder, "less")
    os.mkdir(store)
    for at in range(5):
        serve(store, b"".join(lines_of(10 * at, 10)))
    text = journal_of(store)
    end = text.rindex(b"\n") + 1
    files = files_of(store)
    for at in (TEXT, end // 2, end - 200):
        put(store, {**files, JOURNAL: text[:at] + bytes(len(text) - at)})
        worn = files_of(store)
        done = run([KEPT, "serve", "--dir", store])
        wants("it is told", done.status == 3 and b"less than it had" in done.told, at, done)
        wants("no byte is changed", files_of(store) == worn, at)
        done = check(store)
        wants("check tells it", done.status == 3 and b"less than it had" in done.told, at, done)
        done = run([KEPT, "serve", "--dir", store, "--accept-loss"], line_of(op="ns.list"))
        wants("what is left is served", done.status == 0, at, done)
        wants("then it is whole", run([KEPT, "serve", "--dir", store]).status == 0, at)
        done = run([KEPT, "script", "--dir", store])
        wants("script writes what is left", done.status == 0, at, done)
    put(store, {**files, JOURNAL: text[: end - 200] + bytes(len(text) - end + 200)})
    lines, status = script_of(store)
    wants("script tells what is lost", status == 3 and len(lines) == 40, status, len(lines))
    # a witness that can't be read asks for nothing
    put(store, {**files, SECOND: files[SECOND][:HEAD] + b"\x07" * HEAD + files[SECOND][2 * HEAD :]})
    wants("without a witness", run([KEPT, "serve", "--dir", store]).status == 0)


def half(folder):
    """Of a checkpoint of which a part is lost nothing is served, whatever is accepted: rows that
    keep a layer may be missing. Lines behind it may be lost."""
    store = os.path.join(folder, "half")
    os.mkdir(store)
    lines = [line_of(op="ns.add", ns="x")]
    label = {"a": "b" * 4000}
    lines += [line_of(op="lease.add", ns="x", id="l%d" % it, labels=label) for it in range(600)]
    serve(store, b"".join(lines))
    serve(store, b"", "--checkpoint")
    whole = journal_of(store, SECOND)
    end = whole.rindex(b"\n") + 1
    wants("a checkpoint of several groups", whole.count(b"\n#") >= 4, whole.count(b"\n#"))
    serve(store, b"".join(lines_of(0, 10)))
    files = files_of(store)
    text = files[SECOND]
    for at in (TEXT, (TEXT + end) // 2, end - 1):
        put(store, {**files, SECOND: text[:at] + bytes(len(text) - at)})
        worn = files_of(store)
        for words in (["serve"], ["serve", "--accept-loss"], ["check"], ["script"]):
            done = run([KEPT, *words, "--dir", store])
            told = done.status == 3 and b"half a store" in done.told
            wants("half a store is told", told, words, at, done)
        wants("no byte is changed", files_of(store) == worn, at)
    put(store, {**files, SECOND: text[:end] + bytes(len(text) - end)})
    done = run([KEPT, "serve", "--dir", store])
    wants("lines behind it are told", done.status == 3 and b"less than it had" in done.told, done)
    done = run([KEPT, "serve", "--dir", store, "--accept-loss"], line_of(op="ns.list"))
    wants("the checkpoint is served", done.out == b'{"names":["x"],"ok":true}\n', done)


def sum_of(*texts):
    return hashlib.sha256(b"".join(texts)).hexdigest().encode()


def written_as_1(groups):
    """Groups as a file of format 1."""
    text, last = b"", FIRST
    for group in groups:
        body = b"".join(line + b"\n" for line in group)
        last = sum_of(last, body)
        commit = b"#%s %016x\n" % (last, len(text))
        text += body + commit + commit
    steps = len(text) // (1 << 20) + 1
    head = (b"#metad journal 1\n" + b"++" * steps).ljust(HEAD - 1, b"\0") + b"\n"
    return head + text.ljust(steps << 20, b"\0")


def format_1(folder):
    """A file of format 1 is served and added to, and the next checkpoint is of format 2."""
    store = os.path.join(folder, "old")
    groups = [[it.rstrip(b"\n") for it in lines_of(0, 5)], [lines_of(5, 1)[0].rstrip(b"\n")]]
    put(store, {JOURNAL: written_as_1(groups)})
    done = run([KEPT, "serve", "--dir", store], b"".join(lines_of(6, 3)))
    wants("it is served", done.status == 0 and lines_told(done.told) == 6, done)
    wants("it stays of format 1", journal_of(store).startswith(b"#metad journal 1\n"))
    wants("its lines are there", lines_told(check(store).out) == 9)
    done = run([KEPT, "serve", "--dir", store, "--checkpoint"])
    wants("a checkpoint", done.status == 0, done)
    wants("it counts", counting(store) == SECOND)
    wants("it is of format 2", journal_of(store, SECOND).startswith(b"#metad journal 2\n"))
    old = files_of(store)
    done = run([KEPT, "serve", "--dir", store, "--checkpoint"])
    wants("the next", done.status == 0 and counting(store) == JOURNAL, done)
    wants("the first file is of format 2", journal_of(store).startswith(b"#metad journal 2\n"))
    wants("it is of generation 2", identity_of(check(store).out)[1] == 2)
    store = Model().takes(lines_of(0, 9))
    # a first file of format 1 beside a later second one
    put(os.path.join(folder, "mixed"), {JOURNAL: old[JOURNAL], SECOND: old[SECOND]})
    done = run([KEPT, "serve", "--dir", os.path.join(folder, "mixed")])
    wants("the files of one moment are served", done.status == 0, done)


def newer(folder):
    """A newer format is told as newer, and left alone."""
    store = os.path.join(folder, "newer")
    os.mkdir(store)
    serve(store, b"".join(lines_of(0, 5)))
    text = journal_of(store).replace(b"journal 2\n", b"journal 3\n", 1)
    put(store, {JOURNAL: text})
    for word in ("serve", "check", "script"):
        done = run([KEPT, word, "--dir", store])
        wants("it is told", done.status == 3 and b"newer metad" in done.told, word, done)
    wants("it is left alone", journal_of(store) == text)


def changed_digit(folder):
    """A 2 that was changed to the 1 of format 1 is damage, also if no witness tells the only group;
    no byte of the file is changed."""
    store = os.path.join(folder, "digit")
    os.mkdir(store)
    wants("a store", serve(store).status == 0)
    second = journal_of(store, SECOND)
    wants("a group", serve(store, b"".join(lines_of(0, 5))).status == 0)
    text = journal_of(store).replace(b"journal 2\n", b"journal 1\n", 1)
    for beside in (second, journal_of(store, SECOND)):
        put(store, {JOURNAL: text, SECOND: beside})
        for words in ([], ["--new"], ["--accept-loss"]):
            done = run([KEPT, "serve", "--dir", store, *words], lines_of(5, 1)[0])
            wants("it is told", (done.status, done.out) == (3, b"") and b"damage" in done.told,
                  words, done)
            wants("it is left alone", journal_of(store) == text, words)


def modes(folder):
    """Both files are their owner's alone."""
    store = os.path.join(folder, "modes")
    os.mkdir(store)
    serve(store, b"".join(lines_of(0, 5)))
    for name in (JOURNAL, SECOND):
        mode = os.stat(os.path.join(store, name)).st_mode & 0o777
        wants("a file is its owner's alone", mode == 0o600, name, oct(mode))


def all_parts():
    for part in (told_at_each_start, pairs, stale, less, half, format_1, newer,
                 changed_digit, modes):
        with tempfile.TemporaryDirectory(prefix="metad-kept-") as folder:
            part(folder)
