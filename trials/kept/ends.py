"""How runs begin and end: words, folders, two programs, formats, lines at the limit, signals,
modes, and a folder that goes away."""
import os
import resource
import signal
import shutil
import stat
import subprocess
import tempfile
import time

from stores import (
    DONE, HEAD, JOURNAL, KEPT, SECOND, TEXT, TOP, WHEN, Client, Model, Told, check, counting,
    journal_of, line_of, lines_told, logged, probes, run, script_of, serve,
)

wants = Told.wants

LARGE = 1 << 32  # bytes of a file that isn't a journal
ROOM = 64 << 20  # bytes that a run has to refuse it
# what the program answers to words of a store that ask for nothing, and to all others
USAGE = (
    b"usage: metad serve --dir DIR [--new] [--workers 1..16] [--checkpoint] [--accept-loss]"
    b" [--numbered] [--clock SECONDS] | new --dir DIR | load --dir DIR [--part] | check --dir DIR"
    b" | check FILE | script --dir DIR | backup --dir DIR FILE\n"
)
USAGE_OF_RUN = b"usage: metad run [--workers 1..16]\n"


def little_room():
    """What a run does at its start that has this much memory."""
    resource.setrlimit(resource.RLIMIT_AS, (ROOM, ROOM))


def words(folder):
    """What asks for nothing is answered with the usage; options may be given in either form."""
    for it in (
        ["serve"], ["serve", "--dir"], ["serve", "--dir="], ["serve", "--dir", folder, "x"],
        ["check", "--dir", folder, "--workers=2"], ["script"], ["new"], ["load"], ["backup"],
        ["serve", "--dir", folder, "--dir", folder], ["new", "--dir", folder, "--new"],
        ["serve", "--dir", folder, "--new", "--new"], ["check", "--dir", folder, "--new"],
        ["serve", "--dir", folder, "--new=yes"], ["serve", "--dir", folder, "--ne"],
        ["serve", "--dir", folder, "--clock", "x"], ["serve", "--dir", folder, "--clock", "--new"],
        ["serve", "--dir", folder, "--clock=1000000001"], ["serve", "--dir", b"\xff", "--new"],
        ["serve", "--dir", folder, "--workers", "2", "--workers=2"], ["serve", "--help"],
        ["serve", "help"], ["new", "-h"], ["check", "--dir", folder, "file"], ["check", ""],
        ["check", "--numbered"], ["check", "one", "two"], ["check", "--dir", folder, "--part"],
        ["backup", "--dir", folder], ["backup", "--dir", folder, "--new"], ["backup", "file"],
        ["load", "--dir", folder, "--part", "--part"], ["script", "--dir", folder, "--clock=1"],
    ):
        done = run([KEPT, *it])
        wants("other words have the usage", done == (2, b"", USAGE), it, done)
    for it in ([], ["other", "--dir", folder], ["help"], ["--dir", folder, "new"], [b"\xff"]):
        done = run([KEPT, *it])
        wants("no word of a store has that of run", done == (2, b"", USAGE_OF_RUN), it, done)
    for it in ("0", "17", "x", "-1", ""):
        wants("another number of workers", serve(folder, b"", "--workers", it).status == 2, it)
    wants("no file was made", os.listdir(folder) == [])
    own = os.path.join(folder, "-x")
    os.mkdir(own)
    program = os.path.abspath(KEPT)
    for it in (["new", "--dir", "-x"], ["check", "--dir=-x"], ["backup", "--dir", "-x", "-h"]):
        wants("a hyphen before a name", run([program, *it], cwd=folder).status == 0, it)
    wants("and of a file", run([program, "check", "-h"], cwd=folder).status == 0)
    wants("16 workers", serve(folder, b"", "--workers=16").status == 0)


def folders(folder):
    """Folders in which no journal can be, or isn't."""
    none = os.path.join(folder, "none")
    wants("a folder that isn't there", serve(none).status == 1)
    for word in ("check", "script", "new"):
        wants("nor to another word", run([KEPT, word, "--dir", none]).status == 1, word)
    plain = os.path.join(folder, "plain")
    with open(plain, "wb"):
        pass
    wants("a folder that is a file", serve(plain).status == 1)
    closed = os.path.join(folder, "closed")
    os.mkdir(closed)
    serve(closed, line_of(op="ns.add", ns="x"))
    if os.geteuid():
        os.chmod(closed, 0o500)
        os.chmod(os.path.join(closed, JOURNAL), 0o400)
    else:
        closed = "/proc/self"
    done = serve(closed)
    wants("a folder that can't be written", done.status == 1 and b"fault 11" in done.told, done)


def locks(folder):
    """A folder that a program serves is refused to another, and not to check and script."""
    first = Client(folder)
    wants("the first of two programs", first.ask([line_of(op="ns.add", ns="x")]) == [DONE])
    done = serve(folder, line_of(op="ns.add", ns="y"))
    wants("the second ends with 4", (done.status, done.out) == (4, b""), done)
    wants("a check beside it", check(folder).status == 0)
    wants("a script beside it", script_of(folder) == ([line_of(op="ns.add", ns="x")], 0))
    wants("the end of input", first.ends().status == 0)
    wants("a program after it", serve(folder).status == 0)


def formats(folder):
    """A file of another format is refused and left alone, as is one whose head is damaged."""
    path = os.path.join(folder, JOURNAL)
    for text in (
        b"#metad journal 3\n" + bytes(8192), b"#metad journal 10" + bytes(8192),
        b"#metad journal x\n" + bytes(8192), b"a page\n" * 2000, b"x", b"\0" * 5000 + b"x",
    ):
        with open(path, "wb") as file:
            file.write(text)
        for done in (serve(folder), check(folder), run([KEPT, "script", "--dir", folder])):
            told = b"newer metad" if text[15:16].isdigit() else b"first line"
            wants("another format", done.status == 3 and told in done.told, text[:17], done)
        wants("it is left alone", journal_of(folder) == text, text[:20])
    with open(path, "wb") as file:
        file.write(b"another file")
        file.truncate(LARGE)
    for word in ("serve", "check", "script"):
        done = run([KEPT, word, "--dir", folder], preexec_fn=little_room)
        wants("a large one isn't read", done.status == 3 and b"first line" in done.told, word, done)


def links(folder):
    """A link in place of the second file, and a file of two names, are refused by their names."""
    line = line_of(op="ns.add", ns="x")
    for name in (JOURNAL, SECOND):
        own = os.path.join(folder, name)
        os.mkdir(own)
        serve(own, line)
        path = os.path.join(own, name)
        os.link(path, path + ".other")
        done = serve(own, line)
        told = path.encode() + b": " in done.told and b"fault 11" in done.told
        wants("two names are told", (done.status, done.out, told) == (1, b"", True), name, done)
        os.remove(path + ".other")
    path = os.path.join(own, SECOND)
    os.rename(path, path + ".other")
    os.symlink(path + ".other", path)
    done = serve(own, line)
    told = path.encode() + b": " in done.told and b"fault 11" in done.told
    wants("a link is told", (done.status, done.out, told) == (1, b"", True), done)


def nobodys(folder):
    """A folder without a store, and files of zeros, are nobody's store: a start wants `--new` then.
    It makes none where one with a line is, and a start that refuses changes nothing."""
    path = os.path.join(folder, JOURNAL)
    line = line_of(op="ns.add", ns="x")
    for text in (None, b"", bytes(100), bytes(9000), b"#metad"):
        for word in ("serve", "check", "script"):
            if text is not None:
                with open(path, "wb") as file:
                    file.write(text)
            before = files_of(folder)
            done = run([KEPT, word, "--dir", folder], line)
            told = b"no store is there" in done.told and b"--new" in done.told
            wants("no store is told", (done.status, done.out, told) == (3, b"", True), word, done)
            wants("it is left alone", files_of(folder).get(JOURNAL) == before.get(JOURNAL), word)
        wants("no file is made", text is not None or files_of(folder) == {}, text)
    for number, text in enumerate((None, b"", bytes(100), bytes(9000))):
        for words in (["new"], ["serve", "--new"]):
            own = os.path.join(folder, "%d-%s" % (number, words[0]))
            os.mkdir(own)
            if text is not None:
                with open(os.path.join(own, JOURNAL), "wb") as file:
                    file.write(text)
            for _ in range(2):
                done = run([KEPT, *words, "--dir", own])
                wants("a store is made", (done.status, done.out) == (0, b""), words, text, done)
                wants("it has no line", lines_told(check(own).out) == 0, words, text)
            done = run([KEPT, "serve", "--dir", own], line)
            wants("it is served", (done.status, done.out) == (0, DONE), words, text, done)
            for more in ([], ["--checkpoint"]):
                wants("a start", run([KEPT, "serve", "--dir", own, *more]).status == 0)
                before = files_of(own)
                for words in (["new"], ["serve", "--new"], ["serve", "--new", "--checkpoint"]):
                    done = run([KEPT, *words, "--dir", own], line)
                    told = b"a store with lines is there" in done.told
                    wants("a store with a line isn't made", (done.status, told) == (3, True), done)
                    wants("it is left alone", files_of(own) == before, words)


def files_of(folder):
    """What the files of a folder hold, by their names."""
    names = [it for it in os.listdir(folder) if os.path.isfile(os.path.join(folder, it))]
    return {it: journal_of(folder, it) for it in names}


def parts_of_a_store(folder):
    """Where the second file counts, a start without it, without the first, or with zeros in their
    place ends with 3, and changes nothing."""
    for number, (name, text) in enumerate([
        (SECOND, None), (SECOND, b""), (JOURNAL, None), (JOURNAL, b""), (JOURNAL, bytes(9000)),
        (SECOND, "zeros"), (SECOND, "page of zeros"),
    ]):
        own = os.path.join(folder, str(number))
        os.mkdir(own)
        lines = [line_of(op="ns.add", ns="n%d" % it) for it in range(200)]
        serve(own, b"".join(lines))
        serve(own, b"", "--checkpoint")
        path, whole = os.path.join(own, name), journal_of(own, name)
        if text is None:
            os.remove(path)
        else:
            if text == "zeros":
                text = whole[:TEXT] + bytes(len(whole) - TEXT)
            if text == "page of zeros":
                text = whole[:TEXT] + bytes(HEAD) + whole[TEXT + HEAD :]
            with open(path, "wb") as file:
                file.write(text)
        before = files_of(own)
        for words in (["serve"], ["serve", "--new"], ["new"], ["check"], ["script"]):
            done = run([KEPT, *words, "--dir", own])
            wants("a part of a store is told", (done.status, done.out) == (3, b"")
                  or (done.status == 3 and words[0] in ("check", "script")), number, words, done)
            after = {it: has for it, has in files_of(own).items() if has or it in before}
            wants("it is left alone", after == before, number, words)


def lines(folder):
    """The longest line, a longer one, empty ones, and a last one without a line feed."""
    longest = line_of(op="ns.add", ns="x")[:-1].ljust(65536) + b"\n"
    longer = line_of(op="ns.add", ns="y")[:-1].ljust(65537) + b"\n"
    script = longest + b"\n" + longer + b"\n\n" + b'{"op":"ns.list"}'
    done = serve(folder, script)
    wanted = DONE + b'{"fault":6,"name":"TooLong"}\n' + b'{"names":["x"],"ok":true}\n'
    wants("the longest line and a longer one", (done.status, done.out) == (0, wanted), done)
    done = serve(folder, line_of(op="ns.add", ns="z")[:-1])
    wants("a last line without a line feed", (done.status, done.out) == (0, DONE), done)
    wants("half a line", serve(folder, b'{"op":"ns.add","ns').out.startswith(b'{"fault":5'))
    kept = [longest, line_of(op="ns.add", ns="z")]
    wants("both are kept", script_of(folder) == (kept, 0))
    done = serve(folder, line_of(op="ns.list"))
    wants("both are found again", done.out == b'{"names":["x","z"],"ok":true}\n', done)


def signals(folder):
    """A signal is as a crash: what was answered is found again."""
    more = [line_of(op="ns.add", ns="n%d" % number) for number in range(4)]
    for number, line in zip((signal.SIGTERM, signal.SIGINT, signal.SIGHUP, signal.SIGKILL), more):
        client = Client(folder)
        wants("a line before a signal", client.ask([line]) == [DONE])
        wants("a signal ends the program", client.ends(number).status == -number)
    wants("what was answered is kept", script_of(folder)[0] == more)


def streams(folder):
    """Standard input that can't be read, standard output that can't be written."""
    serve(folder)
    wants("a reader that fails", run_with(folder, stdin=os.open(folder, os.O_RDONLY)) == 1)
    full = os.open("/dev/full", os.O_WRONLY)
    done = subprocess.run(
        [KEPT, "serve", "--dir", folder], input=line_of(op="ns.add", ns="x"), stdout=full,
        stderr=subprocess.PIPE,
    )
    os.close(full)
    wants("a writer that fails", done.returncode == 1 and b"fault 11" in done.stderr, done)
    wants("its line is kept all the same", script_of(folder)[0] == [line_of(op="ns.add", ns="x")])


def run_with(folder, stdin):
    """The status of a run with this input."""
    try:
        return subprocess.run(
            [KEPT, "serve", "--dir", folder], stdin=stdin, capture_output=True
        ).returncode
    finally:
        os.close(stdin)


def modes(folder):
    """Both files are their owner's alone, whatever the mask of the process; those that are there
    keep their mode."""
    for mask in (0, 0o022, 0o077):
        own = os.path.join(folder, "%o" % mask)
        os.mkdir(own)
        serve(own, line_of(op="ns.add", ns="x"), preexec_fn=lambda: os.umask(mask))
        wants("files for their owner alone", modes_of(own) == [0o600] * 2, mask, modes_of(own))
    os.chmod(os.path.join(own, JOURNAL), 0o640)
    wants("a start", serve(own).status == 0)
    wants("a mode that was given stays", modes_of(own) == [0o640, 0o600], modes_of(own))


def modes_of(folder):
    """The modes of both files."""
    return [stat.S_IMODE(os.stat(os.path.join(folder, it)).st_mode) for it in (JOURNAL, SECOND)]


def gone(folder):
    """A folder that is removed, moved or replaced, or whose file is, ends the run with 11: at most
    lines of a second are answered."""
    line = line_of(op="ns.add", ns="x")
    for number, (goes, second) in enumerate([
        (shutil.rmtree, False), (moved, False), (replaced, False), (without_first, False),
        (shutil.rmtree, True), (replaced, True), (without_first, True), (without_second, True),
    ]):
        own = os.path.join(folder, str(number))
        os.mkdir(own)
        if second:
            serve(own, line)
            serve(own, b"", "--checkpoint")
            wants("the second file counts", counting(own) == SECOND)
        client = Client(own)
        wants("a line", client.ask([line_of(op="ns.add", ns="y")]) == [DONE])
        goes(own)
        time.sleep(1.1)
        wants("no line is answered", client.ask([line_of(op="ns.add", ns="z")]) == [], goes, second)
        done = client.ends()
        told = b"was removed, moved or replaced" in done.told and b"fault 11" in done.told
        wants("the run ends with 11", (done.status, told) == (1, True), goes, second, done)
    stays = os.path.join(folder, "stays")
    os.mkdir(stays)
    client = Client(stays)
    wants("a line", client.ask([line]) == [DONE])
    without_second(stays)
    time.sleep(1.1)
    wants("the second file isn't missed", client.ask([line_of(op="ns.add", ns="y")]) == [DONE])
    wants("its end", client.ends().status == 0)


def moved(folder):
    os.rename(folder, folder + ".moved")


def replaced(folder):
    """Another store has the folder's name."""
    moved(folder)
    os.mkdir(folder)
    serve(folder, line_of(op="ns.add", ns="other"))


def without_first(folder):
    os.remove(os.path.join(folder, JOURNAL))


def without_second(folder):
    os.remove(os.path.join(folder, SECOND))


def examples(folder):
    """Each example is answered as it has to be, and found again by the next start."""
    names = os.listdir(os.path.join(TOP, "examples"))
    for name in sorted(it for it in names if it.endswith(".script")):
        own = os.path.join(folder, name)
        os.mkdir(own)
        with open(os.path.join(TOP, "examples", name), "rb") as file:
            script = file.read()
        with open(os.path.join(TOP, "examples", name[: -len("script")] + "expected"), "rb") as file:
            expected = file.read()
        done = serve(own, script, "--workers", "2")
        wants("an example", (done.status, done.out) == (0, expected), name, done.told)
        kept = logged(script.splitlines(keepends=True))
        wants("its journal", script_of(own) == (kept, 0), name)
        more = probes()
        done = serve(own, b"".join(more))
        wanted = Model().takes(kept).answers(more)
        wants("its store", (done.status, done.out) == (0, b"".join(wanted)), name)
        wants("its lines are told", lines_told(done.told) == len(kept), name, done.told)
        # the file's text as a script: a commit line is no request, and neither are zeros
        lines = journal_of(own)[TEXT:].split(b"\n")
        store, done = Model(), 0
        for line in lines:
            done += is_change(store.answer(line + b"\n"))
        wants("a journal is a script", done == len(kept), name, done, len(kept))


def is_change(reply):
    """Whether a line of a journal is answered so that it is a request's."""
    return not reply.startswith((b'{"fault":5', b'{"fault":6'))


def unlogged(folder):
    """Listings, refusals and dry runs leave the journal's bytes as they were."""
    serve(folder, line_of(op="ns.add", ns="temp"))
    before = journal_of(folder)[TEXT:].rstrip(b"\0")
    lines = [line_of(op="ns.list"), line_of(op="ns.add", ns="temp"), b"none\n"]
    lines += [line_of(op="gc.plan", at=WHEN)] * 1000
    done = serve(folder, b"".join(lines))
    wants("a thousand plans", done.status == 0 and done.out.count(b"\n") == 1003, done.told)
    wants("they aren't logged", journal_of(folder)[TEXT:].rstrip(b"\0") == before)


def little_memory(folder):
    """A start that memory refuses changes no file."""
    serve(folder, line_of(op="ns.add", ns="x"))
    refused = 0
    for kilobytes in range(3000, 8000, 250):
        before = journal_of(folder)
        limit = lambda: resource.setrlimit(  # noqa: E731
            resource.RLIMIT_AS, (kilobytes << 10, kilobytes << 10))
        done = serve(folder, line_of(op="ns.list"), preexec_fn=limit)
        if done.status == 1:
            wants("a start without memory", done.out == b"" and b"fault 7" in done.told, done)
            wants("it changes no file", journal_of(folder) == before, kilobytes)
            refused += 1
    wants("a start is refused memory", refused > 0)
    wants("it starts with memory", lines_told(serve(folder).told) == 1)


def all_parts():
    """Each of these, in a folder of its own."""
    parts = (words, folders, locks, formats, lines, nobodys, parts_of_a_store, links, signals,
             streams, modes, gone, examples, unlogged, little_memory)
    for part in parts:
        with tempfile.TemporaryDirectory(prefix="metad-kept-") as folder:
            part(folder)
