"""Runs the program that keeps a store, makes scripts, and has a model answer them."""
import copy
import json
import os
import subprocess
import sys
import time
from collections import namedtuple

TOP = os.path.dirname(os.path.dirname(os.path.dirname(os.path.abspath(__file__))))
sys.path.insert(0, os.path.join(TOP, "trials", "scripts"))

import model  # noqa: E402 (the path above finds it)

KEPT = os.environ.get("METAD_KEPT", "")
SHIM = os.environ.get("MIXING", "")
REFUSE = os.environ.get("REFUSING", "")
JOURNAL = "metad.journal"
SECOND = "metad.journal-wal"  # the other file of a store
HEAD = 4096  # the length of a head, and of the page behind it
TEXT = 2 * HEAD  # where the first line stands in a file
NOTE = 197  # the length of a note in a page
SELECTOR = 4091  # where the first file's head says in three bytes which one counts
NAMESPACES = ("x", "y")
WHEN = "2030-01-01T00:00:00Z"
DONE = b'{"ok":true}\n'
NO_MEMORY = b'{"fault":7,"name":"OutOfMemory"}\n'


def slowness():
    """How many times as long as on a good day the machine takes now, at least once: the loop of
    docs/GATE.md, by the clock, since others may use the processors too."""
    began, total = time.monotonic(), 0
    for it in range(2_000_000):
        total += it
    return max(1.0, 5 * (time.monotonic() - began))


# Seconds after which a run that hasn't ended hangs. The longest run takes some 12 on a good day; the
# other programs of the gate may leave it a tenth of a processor.
WAIT = 300 * slowness()

Ended = namedtuple("Ended", "status out told")


class Told:
    """What was tried."""

    tried = wrong = 0

    @classmethod
    def wants(cls, text, holds, *more):
        """Counts; prints what doesn't hold."""
        cls.tried += 1
        if not holds:
            cls.wrong += 1
            print("WRONG:", text, *[str(it)[:300] for it in more], flush=True)
        return holds


def run(words, script=b"", **more):
    """A program's status, output and errors."""
    done = subprocess.run(words, input=script, capture_output=True, timeout=WAIT, **more)
    return Ended(done.returncode, done.stdout, done.stderr)


def new_where_none_is(folder):
    """`--new` for a folder that has no store: no head is whole in its first file; or that counts,
    and has no card."""
    try:
        with open(os.path.join(folder, JOURNAL), "rb") as file:
            head, card = file.read(HEAD), file.read(NOTE)
    except OSError:
        head = card = b""
    if len(head) < HEAD or not head.endswith(b"\n"):
        return ["--new"]
    second_counts = head[SELECTOR : SELECTOR + 3].count(b"+") > 1
    has_card = head.startswith(b"#metad journal 1") or len(card) == NOTE and 0 not in card
    return [] if second_counts or has_card else ["--new"]


def serve(folder, script=b"", *words, **more):
    """A run over a store, which it makes where none is."""
    words = [*words, *new_where_none_is(folder)]
    return run([KEPT, "serve", "--dir", folder, *words], script, **more)


def check(folder):
    return run([KEPT, "check", "--dir", folder])


def script_of(folder):
    """The lines of a journal, and how the program ended that wrote them."""
    done = run([KEPT, "script", "--dir", folder])
    return done.out.splitlines(keepends=True), done.status


def load(folder, text, *words, **more):
    """A store of a text's lines, in a folder that is there."""
    return run([KEPT, "load", "--dir", folder, *words], text, **more)


def backup(folder, path):
    return run([KEPT, "backup", "--dir", folder, path])


def check_backup(path):
    return run([KEPT, "check", path])


def journal_of(folder, name=JOURNAL):
    with open(os.path.join(folder, name), "rb") as file:
        return file.read()


def counting(folder):
    """The name of the file that counts."""
    return SECOND if journal_of(folder)[SELECTOR : SELECTOR + 3].count(b"+") > 1 else JOURNAL


def lines_told(told):
    """How many lines a start or a check says that there are; none where it says nothing of them."""
    for line in told.splitlines():
        if b" lines, " in line:
            return int(line.split(b" lines, ")[0].split()[-1])
    return None


# ---- scripts


def line_of(**members):
    return json.dumps(members, separators=(",", ":")).encode() + b"\n"


def long_line(length, **members):
    """A line of so many bytes: spaces stand before its end."""
    text = line_of(**members)
    return text[:-2] + b" " * (length - len(text)) + text[-2:]


def probes():
    """Questions whose answers tell the whole store."""
    lines = [line_of(op="ns.list")]
    for ns in NAMESPACES:
        for kind in ("image", "content", "lease", "ingest", "container"):
            lines.append(line_of(op=kind + ".list", ns=ns))
        lines.append(line_of(op="snap.list", ns=ns, snapshotter="s"))
        for number in range(6):
            lines.append(line_of(op="image.get", ns=ns, name="i%d" % number))
            lines.append(line_of(op="lease.get", ns=ns, id="l%d" % number))
            lines.append(line_of(op="lease.resources", ns=ns, id="l%d" % number))
            lines.append(line_of(op="snap.get", ns=ns, snapshotter="s", key="k%d" % number))
    return lines + [line_of(op="gc.plan", at=WHEN)]


def any_line(chance):
    """A request over few names, so that many of them change something."""
    ns, number, other = chance.choice(NAMESPACES), chance.randrange(6), chance.randrange(6)
    digest = "sha256:" + "a" * 63 + chance.choice("0123456789")
    image, lease, key = "i%d" % number, "l%d" % number, "k%d" % number
    root = {"containerd.io/gc.ref.snapshot.s": key} if chance.random() < 0.5 else {}
    lines = {
        line_of(op="ns.add", ns=ns): 2,
        line_of(op="content.add", ns=ns, digest=digest, labels=root): 8,
        line_of(op="content.remove", ns=ns, digest=digest): 2,
        line_of(op="image.add", ns=ns, name=image, target=digest): 5,
        line_of(op="image.remove", ns=ns, name=image): 2,
        line_of(op="image.remove", ns=ns, name=image, sync=WHEN): 1,
        line_of(op="lease.add", ns=ns, id=lease): 3,
        line_of(op="lease.hold", ns=ns, id=lease, type="content", resource=digest): 2,
        line_of(op="lease.remove", ns=ns, id=lease): 1,
        line_of(op="snap.prepare", ns=ns, snapshotter="s", key=key): 2,
        line_of(op="snap.prepare", ns=ns, snapshotter="s", key=key, parent="k%d" % other): 2,
        line_of(op="snap.commit", ns=ns, snapshotter="s", key=key, name="k%d" % other): 2,
        line_of(op="ingest.begin", ns=ns, ref="r%d" % number, at="2029-12-31T12:00:00Z"): 2,
        line_of(op="ingest.commit", ns=ns, ref="r%d" % number, digest=digest): 1,
        line_of(op="content.list", ns=ns): 2,
        line_of(op="gc.plan", at=WHEN): 1,
        line_of(op="gc.run", at=WHEN): 1,
        b"no request\n": 1,
    }
    return chance.choices(list(lines), list(lines.values()))[0]


# ---- what a store answers


# what ops that change nothing end in
QUESTIONS = ("get", "list", "resources", "snapshotters", "explain", "impact")


class Model:
    """A store that docs/FORMATS.md and docs/RULES.md describe: trials/scripts/model.py."""

    def __init__(self):
        self.store = model.Store()

    def copy(self):
        return copy.deepcopy(self)

    def answer(self, line):
        """The reply, with its line feed; nothing to an empty line."""
        reply = self.store.answer(line[:-1] if line.endswith(b"\n") else line)
        return b"" if reply is None else reply.encode() + b"\n"

    def answers(self, lines):
        return [self.answer(line) for line in lines]

    def answers_of(self, lines):
        """All replies, as a run writes them."""
        return b"".join(self.answers(lines))

    def takes(self, lines):
        """These lines of a journal, of which each changes the store, or says which number the next
        object of a backend has at least, or that a checkpoint ends; itself."""
        for place, line in enumerate(lines):
            if line.startswith(b"end "):
                Told.wants("an end tells the lines before it", line == b"end %d\n" % place, line)
            elif line.startswith(b"number "):
                self.store.used = max(self.store.used, int(line.split()[1]) - 1)
            else:
                changes = is_logged(line, self.answer(line))
                Told.wants("a line of a journal changes the store", changes, line)
        return self


def is_logged(line, reply):
    """Whether a line that has this reply is in the journal: a line that isn't refused and may change
    the store. A collection without effect isn't."""
    told = json.loads(reply) if reply.startswith(b'{"') else {}
    if told.get("ok") is not True:
        return False
    if "report" not in told:
        return json.loads(line)["op"].rpartition(".")[2] not in QUESTIONS
    report = told["report"]
    lists = (report["removed"], report["backend"], report["failed"])
    has_effect = any(any(rows) for it in lists for rows in it.values())
    return not report["dry"] and (has_effect or b'"sync"' in line)


def logged(lines):
    """Those of a script's lines that change an empty store, in order."""
    store = Model()
    return [line for line in lines if is_logged(line, store.answer(line))]


# ---- a client that waits


class Client:
    """A run that is given lines as its client wants."""

    def __init__(self, folder, *words, **more):
        self.run = subprocess.Popen(
            [KEPT, "serve", "--dir", folder, *words, *new_where_none_is(folder)],
            stdin=subprocess.PIPE,
            stdout=subprocess.PIPE,
            stderr=subprocess.PIPE,
            **more,
        )

    def ask(self, lines):
        """Sends lines at once, and returns their replies: fewer where the program ends first."""
        try:
            self.run.stdin.write(b"".join(lines))
            self.run.stdin.flush()
        except BrokenPipeError:
            pass
        replies = []
        for _ in lines:
            reply = self.run.stdout.readline()
            if not reply.endswith(b"\n"):
                break
            replies.append(reply)
        return replies

    def ends(self, number=None):
        """Its status and what it said, at the end of its input or after a signal."""
        if number is not None:
            self.run.send_signal(number)
            self.run.wait(WAIT)
        try:
            self.run.stdin.close()
        except BrokenPipeError:
            pass
        told = self.run.stderr.read()
        out = self.run.stdout.read()
        self.run.stdout.close()
        self.run.stderr.close()
        return Ended(self.run.wait(WAIT), out, told)
