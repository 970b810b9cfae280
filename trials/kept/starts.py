"""How long a start takes behind collections: a checkpoint is due by the rows that they looked at."""
import hashlib
import os
import resource
import subprocess
import tempfile

from stores import (
    DONE, JOURNAL, KEPT, SECOND, TEXT, WHEN, Client, Told, counting, journal_of, line_of, script_of,
    serve,
)

wants = Told.wants

ROWS = 2000  # rows that stay
COLLECTIONS = 1400  # collections that remove a row each, and that look at each other row
FEW = 1 << 20  # so many rows may be looked at before a checkpoint is due
AHEAD = 20  # lines that a client sends at once
TAKEN = b"a checkpoint of"
COLLECTS = line_of(op="gc.run", at=WHEN)


def digest(number):
    return "sha256:" + hashlib.sha256(b"%d" % number).hexdigest()


def kept_row(number):
    """A row that each collection keeps."""
    root = {"containerd.io/gc.root": WHEN}
    return line_of(op="content.add", ns="x", digest=digest(number), labels=root)


def lost_row(number):
    """A row that the next collection removes."""
    return line_of(op="content.add", ns="x", digest=digest(10**9 + number))


def collected(folder, count):
    """Collects so often, a row each. What the run told."""
    client, done = Client(folder), 0
    while done < count:
        many = min(AHEAD // 2, count - done)
        lines = []
        for number in range(done, done + many):
            lines += [lost_row(number), COLLECTS]
        replies = client.ask(lines)
        ok = [it for it in replies if it == DONE]
        reports = [it for it in replies if b'"removed":{"content":[["x",' in it]
        wants("each row is added and removed", len(ok) == len(reports) == many, done, replies[:2])
        done += many
    ended = client.ends()
    wants("such a run ends well", ended.status == 0, ended.status, ended.told)
    return ended.told


def due_by_rows(folder):
    """Collections that look at many rows make a checkpoint due, though the journal is short; a start
    executes few of them, and counts those that it executes."""
    rows = [line_of(op="ns.add", ns="x")] + [kept_row(number) for number in range(ROWS)]
    done = serve(folder, b"".join(rows))
    wants("the rows are added", (done.status, done.out) == (0, DONE * len(rows)), done.status)
    told = collected(folder, COLLECTIONS)
    most = FEW // ROWS + AHEAD
    wants("checkpoints were due", told.count(TAKEN) == COLLECTIONS * ROWS // FEW, told)
    lines, status = script_of(folder)
    left = lines.count(COLLECTS)
    wants("few collections are left", status == 0 and 0 < left <= most, status, left, most)
    before = counting(folder)
    told = collected(folder, most - left)
    wants("a start counts the collections that it executes", told.count(TAKEN) == 1
          and counting(folder) != before, left, told)
    listed = serve(folder, line_of(op="content.list", ns="x")).out
    wants("all rows are there", listed.count(b"sha256:") == ROWS, listed[:100])


def without_effect(folder):
    """Collections that remove nothing aren't logged: so a start is as without them."""
    rows = [line_of(op="ns.add", ns="x")] + [kept_row(number) for number in range(100)]
    done = serve(folder, b"".join(rows))
    wants("the rows are added", (done.status, done.out) == (0, DONE * len(rows)), done.status)
    before = [journal_of(folder, name)[TEXT:] for name in (JOURNAL, SECOND)]
    for count in (300, 3000):
        done = serve(folder, COLLECTS * count)
        wants("each is answered", done.status == 0 and done.out.count(b'"report"') == count, done)
        after = [journal_of(folder, name)[TEXT:] for name in (JOURNAL, SECOND)]
        wants("no byte of a line is there", after == before, count)
        wants("and no checkpoint", TAKEN not in done.told, done.told)


# ---- by hand


def start_of(folder):
    """The processor seconds of a start, the least of three."""
    found = []
    for _ in range(3):
        before = resource.getrusage(resource.RUSAGE_CHILDREN)
        subprocess.run([KEPT, "serve", "--dir", folder], input=b"", check=True,
                       stderr=subprocess.DEVNULL)
        after = resource.getrusage(resource.RUSAGE_CHILDREN)
        found.append(after.ru_utime + after.ru_stime - before.ru_utime - before.ru_stime)
    return min(found)


def long_start():
    """With 100,000 rows, 10,000 collections that remove a row each make a start at most three times
    as long. METAD_ROWS and METAD_COLLECTIONS name other numbers."""
    rows = int(os.environ.get("METAD_ROWS", 100_000))
    count = int(os.environ.get("METAD_COLLECTIONS", 10_000))
    with tempfile.TemporaryDirectory(prefix="metad-kept-") as folder:
        lines = [line_of(op="ns.add", ns="x")] + [kept_row(number) for number in range(rows)]
        serve(folder, b"".join(lines))
        without = start_of(folder)
        told = collected(folder, count)
        start = start_of(folder)
        wants("a start is at most three times as long", start <= 3 * without, start, without)
        print("kept: %d rows: a start takes %.2f s, behind %d collections and %d checkpoints %.2f s"
              % (rows, without, count, told.count(TAKEN), start))


def all_parts():
    for part in (due_by_rows, without_effect):
        with tempfile.TemporaryDirectory(prefix="metad-kept-") as folder:
            part(folder)
