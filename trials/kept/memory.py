"""Memory that is refused: in turn, each growth of a run; a store that ran full, and its reports."""
import os
import resource
import shutil
import tempfile
from concurrent.futures import ThreadPoolExecutor

from stores import (
    DONE, NO_MEMORY, REFUSE, WHEN, Client, Model, Told, is_logged, journal_of, line_of, lines_told,
    script_of, serve,
)

wants = Told.wants

REFILLS = 6  # runs that are filled, one behind the other
REFUSALS = 20  # refused additions after which a client stops
REMOVED = 12000  # rows, without which a store that ran full takes additions again
AT_ONCE = 100  # removals that are sent at once: a line also wants memory until its block is synced


def limit_to(megabytes, more=0):
    """What a run does at its start that has so many MiB, and so many bytes more."""
    size = (megabytes << 20) + more
    return lambda: resource.setrlimit(resource.RLIMIT_AS, (size, size))


def limited(folder, megabytes, script):
    """A run with so much memory."""
    return serve(folder, script, preexec_fn=limit_to(megabytes))


def full(megabytes):
    """A store that was filled until additions are refused starts again with as much memory."""
    with tempfile.TemporaryDirectory(prefix="metad-kept-") as folder:
        count = 6000 * megabytes
        lines = [line_of(op="ns.add", ns="x")]
        lines += [line_of(op="lease.add", ns="x", id="lease-%d" % it) for it in range(count)]
        done = limited(folder, megabytes, b"".join(lines))
        replies = done.out.splitlines(keepends=True)
        added = replies.count(DONE)
        wants("a full store answers each line", done.status == 0 and len(replies) == len(lines),
              megabytes, done.status, done.told)
        wants("additions are refused at last", 0 < added < len(lines)
              and set(replies) == {DONE, NO_MEMORY}, megabytes, added)
        done = limited(folder, megabytes, line_of(op="lease.remove", ns="x", id="lease-0"))
        wants("it starts again", (done.status, done.out) == (0, DONE), megabytes, done)
        wants("with all lines", lines_told(done.told) == added, megabytes, done.told, added)
    print("kept: a store of %d rows starts again at %d MiB" % (added, megabytes))


def planned(megabytes):
    """Reports that are longer than what memory is left end no run: they are written in blocks."""
    with tempfile.TemporaryDirectory(prefix="metad-kept-") as folder:
        count = 3000 * megabytes
        lines = [line_of(op="ns.add", ns="x")]
        lines += [line_of(op="content.add", ns="x", digest="sha256:%064x" % it)
                  for it in range(count)]
        asked = [line_of(op="gc.plan", at=WHEN), line_of(op="ns.list"),
                 line_of(op="content.list", ns="x"), line_of(op="gc.plan", at=WHEN),
                 line_of(op="gc.run", at=WHEN), line_of(op="ns.list")]
        done = limited(folder, megabytes, b"".join(lines + asked))
        replies = done.out.splitlines(keepends=True)
        added = replies[:len(lines)].count(DONE) - 1
        wants("a full store answers each question", done.status == 0
              and len(replies) == len(lines) + len(asked), megabytes, done.status, done.told)
        wants("additions are refused at last", 0 < added < count, megabytes, added)
        plan, run = replies[len(lines)], replies[-2]
        wants("its plan names each row", len(plan) > 70 * added and b'"ok":true' in plan[:20],
              megabytes, len(plan))
        wants("a collection does so", len(run) > 70 * added and b'"ok":true' in run[:20],
              megabytes, len(run))
    print("kept: reports of %d rows at %d MiB" % (added, megabytes))


def lease(word, number):
    return line_of(op="lease." + word, ns="x", id="lease-%d" % number)


def tell_again(folder, megabytes):
    """How starts of a store end of which one has failed, also with more memory: what ends well with
    some pages more took memory that no call asks for, such as a page of the stack."""
    for more in (0, 4096, 16384, 65536, 262144, 1048576):
        statuses = []
        for _ in range(10):
            with tempfile.TemporaryDirectory(prefix="metad-kept-") as copy:
                shutil.copytree(folder, copy, dirs_exist_ok=True)
                done = serve(copy, lease("remove", 0), preexec_fn=limit_to(megabytes, more))
                statuses.append(done.status)
        print("kept: with %d bytes more, ten starts of it end with %s" % (more, statuses))


def refilled(megabytes):
    """It starts again whenever it was filled by a client that waits for each reply. If a start leaves
    too little memory for the next one, its run refuses additions; with fewer rows they are done."""
    with tempfile.TemporaryDirectory(prefix="metad-kept-") as folder:
        number = 6000 * megabytes
        script = [line_of(op="ns.add", ns="x")] + [lease("add", it) for it in range(number)]
        limited(folder, megabytes, b"".join(script))
        for turn in range(REFILLS):
            done = limited(folder, megabytes, lease("remove", turn))
            if not wants("it starts", (done.status, done.out) == (0, DONE), megabytes, turn, done):
                tell_again(folder, megabytes)
                return
            client, refused = Client(folder, preexec_fn=limit_to(megabytes)), 0
            while refused < REFUSALS:
                number += 1
                refused += client.ask([lease("add", number)]) == [NO_MEMORY]
            wants("the run ends well", client.ends().status == 0, megabytes, turn)
        client, removed = Client(folder, preexec_fn=limit_to(megabytes)), []
        for first in range(REFILLS, REFILLS + REMOVED, AT_ONCE):
            removed += client.ask([lease("remove", first + it) for it in range(AT_ONCE)])
        wants("rows are removed", removed == [DONE] * REMOVED, megabytes, len(removed))
        wants("that run ends well", client.ends().status == 0, megabytes)
        done = limited(folder, megabytes, lease("add", number + 1))
        wants("additions are done again", (done.status, done.out) == (0, DONE), megabytes, done)
    print("kept: it starts again at %d MiB, filled %d times by who waits" % (megabytes, REFILLS))


def asked_of_each_kind():
    """Lines whose answers take more of the stack than additions do."""
    digest = "sha256:" + "c" * 64
    return [
        line_of(op="lease.remove", ns="x", id="lease-1"),
        line_of(op="content.add", ns="x", digest=digest, labels={"a": "b"}),
        line_of(op="gc.explain", ns="x", type="content", resource=digest, at=WHEN),
        line_of(op="gc.impact", ns="x", type="content", resource=digest, at=WHEN),
        line_of(op="lease.list", ns="x"), line_of(op="gc.plan", at=WHEN),
        line_of(op="gc.run", at=WHEN), b"no line\n",
        line_of(op="lease.remove", ns="x", id="lease-2", sync=WHEN),
    ]


def is_cramped(folder, pages):
    """A start with so many pages of memory answers each line, or is refused for memory, as told."""
    asked = asked_of_each_kind()
    with tempfile.TemporaryDirectory(prefix="metad-kept-") as copy:
        shutil.copytree(folder, copy, dirs_exist_ok=True)
        done = serve(copy, b"".join(asked), preexec_fn=limit_to(0, pages * 4096))
    replies = done.out.splitlines()
    is_refused = done.status == 1 and not replies and b"fault 7" in done.told
    wants("a start in little memory answers each line, or is refused",
          is_refused or (done.status == 0 and len(replies) == len(asked)), pages, done)
    return is_refused


def stacks():
    """A start to which memory is left to the last page wants no page more for its stack, which no
    call asks for: the system would end it."""
    with tempfile.TemporaryDirectory(prefix="metad-kept-") as folder:
        lines = [line_of(op="ns.add", ns="x")] + [lease("add", it) for it in range(12000)]
        limited(folder, 32, b"".join(lines))
        refused, done = 1024, 8192  # pages: a start with so many is refused, and isn't
        while done - refused > 1:
            pages = (refused + done) // 2
            refused, done = (pages, done) if is_cramped(folder, pages) else (refused, pages)
        # the C library takes memory by 33 pages, so it leaves none at some of a hundred limits
        with ThreadPoolExecutor(os.cpu_count()) as pool:
            list(pool.map(lambda it: is_cramped(folder, it), range(done, done + 100)))
    print("kept: 100 starts in little memory, from %d pages on" % done)


SCRIPT = [
    line_of(op="ns.add", ns="x"),
    line_of(op="content.add", ns="x", digest="sha256:" + "a" * 64),
    line_of(op="content.add", ns="x", digest="sha256:" + "b" * 64),
    line_of(op="image.add", ns="x", name="i", target="sha256:" + "a" * 64),
    line_of(op="lease.add", ns="x", id="l"),
    line_of(op="content.list", ns="x"),
    line_of(op="gc.run", at=WHEN),
    line_of(op="image.remove", ns="x", name="i", sync=WHEN),
    line_of(op="lease.remove", ns="x", id="l"),
]


def refused(number):
    """A run of which one growth is refused. How many growths it had."""
    with tempfile.TemporaryDirectory(prefix="metad-kept-") as folder:
        serve(folder, SCRIPT[0])
        before = journal_of(folder)
        env = {**os.environ, "LD_PRELOAD": REFUSE, "REFUSE": str(number)}
        done = serve(folder, b"".join(SCRIPT[1:]), env=env)
        replies, store, kept = done.out.splitlines(keepends=True), Model().takes(SCRIPT[:1]), 1
        for line, reply in zip(SCRIPT[1:], replies):
            if not reply.startswith((b'{"fault":7', b'{"fault":8')):
                wants("the others are answered as without the refused line",
                      reply == store.answer(line), number, reply)
                kept += is_logged(line, reply)
        goes_on = done.status == 0 and len(replies) == len(SCRIPT) - 1
        wants("a run goes on, or says at its start that memory is missing", goes_on
              or lines_told(done.told) is None and b"fault 7" in done.told, number, done)
        lines, status = script_of(folder)
        wants("a line is done and kept, or neither", status == 0 and len(lines) == kept, number,
              len(lines), kept)
        if lines_told(done.told) is None:
            wants("a start that is refused changes nothing", journal_of(folder) == before, number)
        count = done.told.splitlines()[-1:]
        return int(count[0]) if count and count[0].isdigit() else 0


def growths():
    """Each growth of a run is refused in a run of its own."""
    if not REFUSE:
        print("kept: refused growths are left out: the toolchain's clang isn't there")
        return
    most = refused(0)
    wants("a run has growths", most > 10, most)
    with ThreadPoolExecutor(os.cpu_count()) as pool:
        list(pool.map(refused, range(1, most + 1)))
    print("kept: %d growths, each refused in a run of its own" % most)


def all_parts():
    growths()
    stacks()
    for megabytes in (24, 48):
        full(megabytes)
        refilled(megabytes)
        planned(megabytes)
