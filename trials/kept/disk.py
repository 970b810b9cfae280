"""A disk without room: additions are refused, the rest goes on while the last MiB lasts, and then
questions are still answered."""
import os
import resource
import signal
import subprocess
import tempfile

from stores import (
    DONE, HEAD, NO_MEMORY, WHEN, Client, Told, check, line_of, lines_told, long_line, script_of,
    serve,
)

wants = Told.wants

STEP = 1 << 20  # the file grows by so much
LONG = 60000  # bytes of a line that fills a file soon
SHORT = 8000  # bytes of a line that is done in the last room
FULL = b"can't grow"
SIZES = (4, 6, 64)  # MiB of file systems that are filled
TURNS = 2  # how often such a store is filled and made small again
HOSTILE = 18  # lines of 60 kB that are sent to a full store


def limit_files(size):
    """What a run does at its start whose files may have so many bytes: the limit may be lifted."""

    def limit():
        signal.signal(signal.SIGXFSZ, signal.SIG_IGN)
        resource.setrlimit(resource.RLIMIT_FSIZE, (size, resource.RLIM_INFINITY))

    return limit


def lift(client):
    resource.prlimit(client.run.pid, resource.RLIMIT_FSIZE,
                     (resource.RLIM_INFINITY, resource.RLIM_INFINITY))


def addition(number):
    return long_line(LONG, op="lease.add", ns="x", id="l%d" % number)


def unused():
    """Content that a collection removes."""
    return line_of(op="content.add", ns="x", digest="sha256:" + "a" * 64)


def fill(client):
    """Adds until that is refused. How many were added."""
    for number in range(1000):
        reply = client.ask([addition(number)])
        if reply != [DONE]:
            wants("an addition that the disk has no room for is refused with 7",
                  reply == [NO_MEMORY], number, reply)
            return number
    wants("a disk is full at last", False)
    return 0


def full_disk(folder, begins, makes_room):
    """A disk is filled; then all but additions goes on, and additions too once there is room."""
    client = begins()
    client.ask([line_of(op="ns.add", ns="x"), unused()])
    added = fill(client)
    wants("additions came first", added > 10, added)
    asked = [line_of(op="lease.get", ns="x", id="l0"), line_of(op="gc.plan", at=WHEN)]
    replies = client.ask(asked)
    wants("questions are answered", all(b'"ok":true' in it for it in replies), replies)
    wants("a removal is done", client.ask([line_of(op="lease.remove", ns="x", id="l0")]) == [DONE])
    reply = client.ask([line_of(op="gc.run", at=WHEN)])
    wants("a collection is done", reply and reply[0].startswith(b'{"ok":true,"report"'), reply)
    wants("an addition is refused again", client.ask([addition(0)]) == [NO_MEMORY])
    done = client.ends()
    wants("such a run ends well", done.status == 0, done)
    wants("it is told once", done.told.count(FULL) == 1, done.told)
    kept = added + 4  # a namespace and content before, a removal and a collection behind
    client = begins()
    wants("it starts again", client.ask([line_of(op="lease.get", ns="x", id="l0")])
          == [b'{"fault":2,"name":"NotFound"}\n'])
    wants("an addition is refused by the next run", client.ask([addition(0)]) == [NO_MEMORY])
    makes_room(client)
    wants("there is room again", client.ask([addition(0), addition(added)]) == [DONE, DONE])
    done = client.ends()
    wants("it ends well", done.status == 0 and lines_told(done.told) == kept, done)
    lines, status = script_of(folder)
    wants("all of it is kept", status == 0 and len(lines) == kept + 2, status, len(lines))


def questions():
    """Lines that never change a store."""
    return [line_of(op="lease.get", ns="x", id="l0"), line_of(op="ns.list"),
            line_of(op="lease.list", ns="x", answer="rows"), line_of(op="gc.plan", at=WHEN),
            line_of(op="back.list")]


def only_asks(client):
    """A run without room answers questions, and refuses all that may change the store."""
    may_change = [addition(0), line_of(op="lease.remove", ns="x", id="l0"),
                  line_of(op="gc.run", at=WHEN)]
    replies = client.ask(may_change)
    wants("what may change the store is refused with 7", replies == [NO_MEMORY] * 3, replies)
    replies = client.ask(questions())
    wants("questions are answered without room", len(replies) == 5
          and all(b'"ok":true' in it for it in replies), replies)
    replies = client.ask([b"no request\n"])
    wants("a line that is no request is told so", b'"fault":5' in replies[0], replies)
    done = client.ends()
    wants("a run without room ends well", done.status == 0, done)


def last_room(folder, begins):
    """Lines that don't add go on until the last MiB is used up; then questions are answered, by the
    next start too."""
    client = begins()
    client.ask([line_of(op="ns.add", ns="x")])
    added = fill(client)
    long = long_line(LONG, op="lease.remove", ns="x", id="l0")
    wants("no long line is done in the last room", client.ask([long]) == [NO_MEMORY])
    away = long_line(SHORT, op="lease.label", ns="x", id="l0", key="k", value="")
    taken = 0
    while taken < 1000 and client.ask([away]) == [DONE]:
        taken += 1
    wants("nearly a MiB was left for them", 100 < taken < 140, taken)
    only_asks(client)
    found = check(folder)
    wants("what was answered is kept", lines_told(found.out) == 1 + added + taken, found)
    only_asks(begins())
    done = serve(folder, line_of(op="lease.remove", ns="x", id="l0"))
    wants("with room it goes on", (done.status, done.out) == (0, DONE), done)


def limited():
    """Files may have no more bytes than 3 MiB."""
    size = HEAD + 3 * STEP
    for part in (full_disk, last_room):
        with tempfile.TemporaryDirectory(prefix="metad-kept-") as folder:
            begins = lambda: Client(folder, preexec_fn=limit_files(size))  # noqa: E731
            part(folder, begins, *[lift] if part is full_disk else [])


def no_room_at_all():
    """A disk without room for a head, and one without room for a line."""
    for size in (0, 100, HEAD, HEAD + STEP - 1):
        with tempfile.TemporaryDirectory(prefix="metad-kept-") as folder:
            done = serve(folder, line_of(op="ns.add", ns="x"), preexec_fn=limit_files(size))
            wants("a run without room adds nothing", (done.status, done.out) in
                  ((1, b""), (0, NO_MEMORY)), size, done)
            wants("without a head it ends with 1", size >= HEAD or done.status == 1, size, done)
            done = serve(folder, line_of(op="ns.add", ns="x"))
            wants("with room it goes on", (done.status, done.out) == (0, DONE), size, done)


class Mount:
    """A file system of so many MiB, where this process may mount one."""

    def __init__(self, kind, size, folder):
        self.folder = os.path.join(folder, "mounted")
        os.mkdir(self.folder)
        if kind == "tmpfs":
            words = ["-t", "tmpfs", "-o", "size=%dk" % (size * 1024), "none"]
        else:
            image = os.path.join(folder, "image")
            with open(image, "wb") as file:
                file.truncate(size << 20)
            made = done_by("mkfs.ext4", "-q", "-O", "^has_journal", "-m", "0", image)
            words = ["-o", "loop", image] if made else []
        self.is_there = bool(words) and not os.geteuid() \
            and done_by("mount", *words, self.folder)

    def __enter__(self):
        return self

    def __exit__(self, *_):
        if self.is_there:
            subprocess.run(["umount", self.folder], check=True)


def done_by(*words):
    """Whether a program is there, and does it."""
    try:
        return subprocess.run(words, capture_output=True).returncode == 0
    except OSError:
        return False


def mounted():
    """A file system of its own that is filled, where this process may mount one."""
    with tempfile.TemporaryDirectory(prefix="metad-kept-") as folder:
        with Mount("tmpfs", 3.5, folder) as mount:
            if not mount.is_there:
                print("kept: no file system may be mounted here: files with a limit alone were tried")
                return
            room = ["mount", "-o", "remount,size=32m", mount.folder]
            makes_room = lambda client: subprocess.run(room, check=True)  # noqa: E731
            full_disk(mount.folder, lambda: Client(mount.folder), makes_room)
    for kind in ("tmpfs", "ext4"):
        for size in SIZES:
            with tempfile.TemporaryDirectory(prefix="metad-kept-") as folder:
                with Mount(kind, size, folder) as mount:
                    if mount.is_there:
                        made_small(mount.folder, kind, size)
                    else:
                        print("kept: no %s may be mounted here" % kind)


def wide_row(number):
    """A row of some 56 kB: a lease, or content that a collection removes."""
    labels = {"l%d" % it: "v" * 4000 for it in range(14)}
    if number % 2:
        return line_of(op="lease.add", ns="x", id="r%d" % number, labels=labels)
    digest = "sha256:%064x" % number
    return line_of(op="content.add", ns="x", digest=digest, labels=labels)


def fill_with_rows(client, first):
    """Adds rows until that is refused. The numbers of those that were added."""
    for number in range(first, first + 2000):
        reply = client.ask([wide_row(number)])
        if reply != [DONE]:
            wants("a row that the disk has no room for is refused with 7", reply == [NO_MEMORY],
                  number, reply)
            return range(first, number)
    wants("a disk is full at last", False)
    return range(first, first)


def hostile_lines():
    """Long lines that add nothing. As many would use up the last room if they were done."""
    return [long_line(LONG, op="lease.label", ns="x", id="stays", key="none", value="")
            for _ in range(HOSTILE)]


def made_small(folder, kind, size):
    """A full store is made small by removals, a collection and a checkpoint, however often: then as
    many rows are added as before, and a start has them."""
    most, at = None, 0
    for turn in range(TURNS):
        client = Client(folder)
        client.ask([line_of(op="ns.add", ns="x"), line_of(op="lease.add", ns="x", id="stays")])
        rows = fill_with_rows(client, at)
        most, at = most or len(rows), rows.stop
        wants("as many rows have room as at first", len(rows) >= most - 2 > 2, kind, size, turn,
              len(rows), most)
        replies = client.ask(hostile_lines())
        wants("no long line is done in the last room", replies == [NO_MEMORY] * HOSTILE, kind, size,
              turn, replies)
        asked = [line_of(op="lease.get", ns="x", id="stays"), line_of(op="ns.list")]
        wants("questions are answered", all(b'"ok":true' in it for it in client.ask(asked)), kind,
              size, turn)
        removals = [line_of(op="lease.remove", ns="x", id="r%d" % it) for it in rows if it % 2]
        wants("each removal is done", client.ask(removals) == [DONE] * len(removals), kind, size,
              turn)
        reply = client.ask([line_of(op="gc.run", at=WHEN)])
        wants("a collection removes the others", reply
              and reply[0].count(b"sha256:") >= len(rows) - len(removals), kind, size, turn, reply)
        done = client.ends()
        wants("such a run ends well", done.status == 0, kind, size, turn, done.told)
        done = serve(folder, line_of(op="lease.list", ns="x"), "--checkpoint")
        wants("a checkpoint makes it small", done.status == 0 and b"a checkpoint of" in done.told,
              kind, size, turn, done)
        wants("one row is left", b'"stays"' in done.out and b'"r' not in done.out, done.out)
    client = Client(folder)
    rows = fill_with_rows(client, at)
    wants("additions go on", len(rows) >= most - 2, kind, size, len(rows), most)
    wants("the run ends well", client.ends().status == 0, kind, size)
    done = serve(folder, line_of(op="lease.list", ns="x"))
    wants("a start has them", done.status == 0
          and done.out.count(b'"r') == sum(it % 2 for it in rows), kind, size, done.told)


def all_parts():
    limited()
    no_room_at_all()
    mounted()
