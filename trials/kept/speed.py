"""trials/kept/speed.py [FOLDER]: what a journal costs, as ratios of one run; not in the gate.

METAD and METAD_KEPT name the programs. The journal stands in FOLDER, else in memory (/dev/shm). So
does SQLite's database, which has the same rows: one transaction a row, in its write-ahead log, each
synced. Where there is no `sqlite3` it is left out.
"""
import hashlib
import os
import shutil
import statistics
import subprocess
import sys
import tempfile
import time

from stores import KEPT, Client, line_of

METAD = os.environ.get("METAD", "")
LINES, WAITING, TURNS = 100000, 2000, 5
ROWS, CHANGES = 10000, 4  # of a store that is written anew: each row was removed so often
STORES = 100000, 1000000  # rows of stores that are written anew


def additions(count):
    """Additions of content, all accepted."""
    lines = [line_of(op="ns.add", ns="x")]
    for number in range(count - 1):
        digest = "sha256:" + hashlib.sha256(b"%d" % number).hexdigest()
        lines.append(line_of(op="content.add", ns="x", digest=digest))
    return lines


def changes():
    """Rows that come and go, and stay at last."""
    lines = [line_of(op="ns.add", ns="x")]
    for number in range(ROWS):
        id = "lease-%d" % number
        added = line_of(op="lease.add", ns="x", id=id)
        lines += [added, line_of(op="lease.remove", ns="x", id=id)] * CHANGES + [added]
    return lines


def seconds(words, script):
    """The processor seconds that a program takes for a script that it reads from a file: a busy
    machine changes them less than those of the clock."""
    with tempfile.TemporaryFile() as file:
        file.write(script)
        file.seek(0)
        process = subprocess.Popen(words, stdin=file, stdout=subprocess.DEVNULL,
                                   stderr=subprocess.DEVNULL)
        _, status, used = os.wait4(process.pid, 0)
        process.returncode = status
        assert status == 0, words
        return used.ru_utime + used.ru_stime


def waits(client, lines):
    """How long a client takes that waits for each reply."""
    began = time.monotonic()
    for line in lines:
        client.ask([line])
    return time.monotonic() - began


def run_client():
    """A client of `metad run`."""
    client = Client.__new__(Client)
    client.run = subprocess.Popen([METAD, "run"], stdin=subprocess.PIPE, stdout=subprocess.PIPE,
                                  stderr=subprocess.PIPE)
    return client


def clock(words, script):
    """How long a program takes for a script."""
    began = time.monotonic()
    subprocess.run(words, input=script, stdout=subprocess.DEVNULL, stderr=subprocess.DEVNULL,
                   check=True)
    return time.monotonic() - began


def beside_sqlite(top, lines):
    """How long serve takes for lines, ahead and waiting, and SQLite for the same rows."""
    rows = ["pragma journal_mode=wal; pragma synchronous=full;",
            "create table content(ns text, digest text, primary key(ns, digest)) without rowid;"]
    rows += ["insert into content values('x', '%s');" % line.decode().split('"')[-2]
             for line in lines[1:]]
    with tempfile.TemporaryDirectory(dir=top) as folder:
        ahead = clock([KEPT, "serve", "--new", "--dir", folder], b"".join(lines))
    with tempfile.TemporaryDirectory(dir=top) as folder:
        client = Client(folder)
        waiting = waits(client, lines)
        client.ends()
    with tempfile.TemporaryDirectory(dir=top) as folder:
        words = ["sqlite3", os.path.join(folder, "rows")]
        return ahead, waiting, clock(words, "\n".join(rows).encode())


def turn(top, lines, few):
    """The seconds of one turn: run and serve ahead, run and serve waiting, and a start."""
    script = b"".join(lines)
    with tempfile.TemporaryDirectory(dir=top) as folder:
        words = [KEPT, "serve", "--new", "--dir", folder]
        ahead = seconds([METAD, "run"], script), seconds(words, script)
        start = seconds([KEPT, "serve", "--dir", folder], b"")
    plain = run_client()
    alone = waits(plain, few)
    plain.ends()
    with tempfile.TemporaryDirectory(dir=top) as folder:
        kept = Client(folder)
        waiting = alone, waits(kept, few)
        kept.ends()
    return (*ahead, *waiting, start)


def renewed(top, script):
    """The seconds of a start of a store that changed a lot, of one that begins with a checkpoint,
    and of the one after it."""
    with tempfile.TemporaryDirectory(dir=top) as folder:
        serve = [KEPT, "serve", "--dir", folder]
        seconds([*serve, "--new"], script)
        before = seconds(serve, b"")
        return before, seconds([*serve, "--checkpoint"], b""), seconds(serve, b"")


def waited(top, count):
    """The seconds for which clients wait for a checkpoint of so many rows, and those of run for
    their additions."""
    script = b"".join(additions(count))
    with tempfile.TemporaryDirectory(dir=top) as folder:
        serve = [KEPT, "serve", "--dir", folder]
        run = seconds([METAD, "run"], script)
        seconds([*serve, "--new"], script)
        before = seconds(serve, b"")
        return seconds([*serve, "--checkpoint"], b"") - before, run


def main():
    """Prints the medians, and their ratios."""
    top = sys.argv[1] if len(sys.argv) > 1 else "/dev/shm"
    lines, few = additions(LINES), additions(WAITING)
    turns = [turn(top, lines, few) for _ in range(TURNS)]
    run, kept, alone, waiting, start = map(statistics.median, zip(*turns))
    print("ahead: serve has %.2f of the lines a processor second of run (%.2f and %.2f us a line)"
          % (run / kept, kept / LINES * 1e6, run / LINES * 1e6))
    print("waiting: serve has %.2f of the lines a second of run (%.0f and %.0f us a line)"
          % (alone / waiting, waiting / WAITING * 1e6, alone / WAITING * 1e6))
    print("a start takes %.2f processor s a million lines, %.2f of what run takes for them"
          % (start / LINES * 1e6, start / run))
    script = b"".join(changes())
    turns = [renewed(top, script) for _ in range(TURNS)]
    before, taking, after = map(statistics.median, zip(*turns))
    print("of %d rows that were each removed %d times, a start behind a checkpoint takes %.2f"
          % (ROWS, CHANGES, after / before))
    print("the checkpoint itself takes %.2f of the start behind it" % ((taking - before) / after))
    for count in STORES:
        taking, run = waited(top, count)
        print("a checkpoint of %d rows takes %.1f processor s, %.1f of what run takes to add them"
              % (count, taking, taking / run))
    if shutil.which("sqlite3"):
        turns = [beside_sqlite(top, few) for _ in range(TURNS)]
        ahead, waiting, rows = map(statistics.median, zip(*turns))
        print("SQLite takes %.1f times as long as serve ahead, %.2f of serve waiting (%.0f us a row)"
              % (rows / ahead, rows / waiting, rows / len(few) * 1e6))


main()
