"""trials/simulation/main.py [RUNS [SEED]]: clients, a front, a program and a disk that fails.

--replay FOLDER sends the lines of a run that was wrong once more, in their order, with its failed
calls, to the program alone.
"""
import json
import os
import random
import re
import shutil
import socket
import sys
import tempfile
import threading
import time
from concurrent.futures import ThreadPoolExecutor

TOP = os.path.dirname(os.path.dirname(os.path.dirname(os.path.abspath(__file__))))
for part in ("kept", "serve", "crashes"):
    sys.path.insert(0, os.path.join(TOP, "trials", part))

from fronts import KILL, TERM, Front  # noqa: E402 (the path above)
from images import Disk, WAYS, calls_of, files_of, write_files  # noqa: E402
from stores import (  # noqa: E402
    KEPT, NO_MEMORY, WHEN, Model, Told, line_of, new_where_none_is, serve,
)

wants = Told.wants

RECORDER = os.environ["RECORDER"]
RUNS = 100
EPISODES = 4  # starts of a run
CLIENTS = 5
LINES = 60  # of a client, in an episode
AHEAD = 8  # lines that a client sends before it has their replies
WAIT = 60  # seconds after which a client that has no reply is starved
SECRET = re.compile(rb"(?:S|sha256:)([0-9a-f]{12})")
ENDS = ("all", "all", "TERM", "kill", "kill", "kill front", "power", "power", "power")
FAILURES = [("w", "eio"), ("w", "full"), ("w", "half"), ("s", "eio"), ("s", "lost"), ("t", "full"),
            ("t", "eio"), ("w", "before"), ("s", "after")]


# ---- clients


class Client:
    """One client: a namespace and a secret of its own, what it sends, and what it is answered."""

    def __init__(self, number, chance):
        self.secret = "S%012x" % chance.getrandbits(48)
        self.ns, self.chance, self.clock = "c%d" % number, chance, 0
        self.sent, self.replies = [], []

    def line(self):
        """Any line; each names the secret."""
        chance, ns, secret = self.chance, self.ns, self.secret
        number, other = chance.randrange(5), chance.randrange(5)
        digest = "sha256:" + (secret[1:] + "%02d" % number).ljust(64, "0")
        image, lease = "%s-i%d" % (secret, number), "%s-l%d" % (secret, number)
        key, name = "%s-k%d" % (secret, number), "%s-n%d" % (secret, other)
        root = {"containerd.io/gc.ref.snapshot.s": name, "of": secret}
        long = {"containerd.io/gc.root": "1", "text": secret * chance.choice((1, 1, 20, 200))}
        lines = [
            (3, dict(op="ns.add", ns=ns + "." + secret)),
            (8, dict(op="content.add", ns=ns, digest=digest, labels=root)),
            (4, dict(op="content.add", ns=ns, digest=digest, labels=long)),
            (2, dict(op="content.remove", ns=ns, digest=digest, of=secret)),
            (4, dict(op="content.get", ns=ns, digest=digest)),
            (6, dict(op="image.add", ns=ns, name=image, target=digest)),
            (4, dict(op="image.get", ns=ns, name=image)),
            (2, dict(op="image.remove", ns=ns, name=image)),
            (2, dict(op="image.remove", ns=ns, name=image, sync=WHEN)),
            (3, dict(op="lease.add", ns=ns, id=lease)),
            (2, dict(op="lease.hold", ns=ns, id=lease, type="content", resource=digest)),
            (2, dict(op="lease.resources", ns=ns, id=lease)),
            (1, dict(op="lease.remove", ns=ns, id=lease)),
            (3, dict(op="snap.prepare", ns=ns, snapshotter="s", key=key)),
            (2, dict(op="snap.prepare", ns=ns, snapshotter="s", key=key, parent=name)),
            (3, dict(op="snap.commit", ns=ns, snapshotter="s", key=key, name=name)),
            (2, dict(op="snap.get", ns=ns, snapshotter="s", key=name)),
            (2, dict(op="ingest.begin", ns=ns, ref=secret + "-r%d" % number, at=WHEN)),
            (1, dict(op="ingest.commit", ns=ns, ref=secret + "-r%d" % number, digest=digest)),
            (2, dict(op="gc.run", at=WHEN, of=secret)),
            (1, dict(op="gc.plan", at=WHEN, of=secret)),
            (1, dict(op="gc.explain", type="content", ns=ns, digest=digest, at=WHEN, of=secret)),
            (2, dict(op="no." + secret)),
        ]
        made = chance.choices([it for _, it in lines], [count for count, _ in lines])[0]
        # `of` isn't a member of each op: a line that has it is refused, or as the op ignores it
        text = line_of(**made)
        return text if chance.random() < 0.97 else b"{" + text

    def talk(self, path, count):
        """Sends lines and reads replies, some lines ahead, until all are answered or the connection
        ends. Whether it waited too long."""
        self.sent, self.replies, rest = [], [], b""
        try:
            with socket.socket(socket.AF_UNIX) as sock:
                sock.settimeout(WAIT)
                sock.connect(path)
                while len(self.replies) < count:
                    ahead = self.chance.randint(1, AHEAD)
                    while len(self.sent) < min(count, len(self.replies) + ahead):
                        self.sent.append(self.line())
                        sock.sendall(self.sent[-1])
                        if self.chance.random() < 0.1:
                            sock.sendall(b"\n")
                    part = sock.recv(1 << 16)
                    if not part:
                        return False
                    rest += part
                    *whole, rest = rest.split(b"\n")
                    self.replies += [it + b"\n" for it in whole]
        except socket.timeout:
            return True
        except OSError:
            pass
        return False


# ---- a run


def questions(clients):
    """What tells the rows of all clients, and the next number of a backend's object."""
    lines = [line_of(op="ns.list")]
    for it in clients:
        for kind in ("image", "content", "lease", "ingest", "container"):
            lines.append(line_of(op=kind + ".list", ns=it.ns))
        lines.append(line_of(op="snap.list", ns=it.ns, snapshotter="s"))
        for number in range(5):
            lines.append(line_of(op="image.get", ns=it.ns, name="%s-i%d" % (it.secret, number)))
            lines.append(line_of(op="lease.resources", ns=it.ns, id="%s-l%d" % (it.secret, number)))
            for key in ("%s-k%d", "%s-n%d"):
                key = key % (it.secret, number)
                lines.append(line_of(op="snap.get", ns=it.ns, snapshotter="s", key=key))
            digest = "sha256:" + (it.secret[1:] + "%02d" % number).ljust(64, "0")
            lines.append(line_of(op="content.get", ns=it.ns, digest=digest))
    return lines + [
        line_of(op="gc.plan", at=WHEN),
        line_of(op="ns.add", ns="last"),
        line_of(op="ingest.begin", ns="last", ref="r", at=WHEN),
        line_of(op="ingest.get", ns="last", ref="r"),
    ]


def service_of(front):
    """The process number of a front's service; 0 where it has ended already."""
    try:
        return front.service()
    except (IndexError, OSError):
        return 0


class Wrong(Exception):
    """A run that isn't as it should be."""


class Run:
    """Clients over a store, through starts, ends and failures."""

    def __init__(self, top, seed):
        self.top, self.seed, self.chance = top, seed, random.Random(seed)
        self.folder = os.path.join(top, "store")
        os.mkdir(self.folder)
        self.store = Model()
        self.clients = [Client(it, random.Random("%d %d" % (seed, it))) for it in range(CLIENTS)]
        self.failure, self.files, self.done, self.service = {}, {}, [], 0
        self.is_new = True

    def wants(self, text, holds, *more):
        """Ends the run where it doesn't hold, and leaves what replays it."""
        if not wants(text, holds, "seed %d" % self.seed, self.failure, *more):
            self.leave()
            raise Wrong(text)

    def leave(self):
        """Leaves the files, the lines in their order, and the failed calls of this episode."""
        kept = os.path.join(tempfile.gettempdir(), "metad-simulation-%d" % self.seed)
        shutil.rmtree(kept, ignore_errors=True)
        write_files(os.path.join(kept, "store"), self.files)
        with open(os.path.join(kept, "lines"), "wb") as file:
            file.write(b"".join(self.done))
        with open(os.path.join(kept, "failure"), "w") as file:
            json.dump(self.failure, file)
        with open(os.path.join(kept, "secrets"), "w") as file:
            file.write("".join("%s %s\n" % (it.ns, it.secret) for it in self.clients))
        print("replay: trials/simulation/run --replay " + kept, flush=True)

    def episode(self):
        """A start, lines of all clients at once, and an end."""
        chance, ends = self.chance, self.chance.choice(ENDS)
        words = ["--checkpoint"] * (chance.random() < 0.3) + new_where_none_is(self.folder)
        self.failure, record = {}, os.path.join(self.top, "calls")
        if chance.random() < 0.3:
            on, how = chance.choice(FAILURES)
            self.failure = {"FAIL_ON": on, "FAIL_HOW": how, "FAIL_AT": str(chance.randint(1, 40))}
        self.files = files_of(self.folder)
        if os.path.exists(record):
            os.remove(record)
        names = {"LD_PRELOAD": RECORDER, "RECORD": record, **self.failure}
        command = ["env", *("%s=%s" % it for it in names.items())]
        command += [KEPT, "serve", "--dir", self.folder, *words]
        late = []
        with Front(command) as front:
            self.service = service_of(front)
            threads = [
                threading.Thread(target=lambda it=it: late.append(it.talk(front.path, LINES)))
                for it in self.clients
            ]
            for thread in threads:
                thread.start()
            self.end(front, ends, threads)
        self.wants("no client is starved", not any(late))
        self.judge(calls_of(record) if os.path.exists(record) else [], ends)

    def end(self, front, ends, threads):
        """Ends the program in a way, at some reply; waits for the clients."""
        many = self.chance.randint(1, CLIENTS * LINES) if ends != "all" else None
        while any(it.is_alive() for it in threads) and front.run.poll() is None:
            if many is not None and sum(len(it.replies) for it in self.clients) >= many:
                break
            time.sleep(0.002)
        if ends in ("kill", "power") and self.service:
            try:
                os.kill(self.service, KILL)
            except ProcessLookupError:
                pass
        elif ends == "kill front":
            front.run.kill()
        else:
            front.run.send_signal(TERM)
        for thread in threads:
            thread.join()
        front.run.wait(WAIT)
        # a front that was killed leaves a service that sees the end of its input
        end = time.monotonic() + WAIT
        while time.monotonic() < end and os.path.exists("/proc/%d" % self.service):
            time.sleep(0.005)

    def judge(self, calls, ends):
        """Each reply is the model's, in its place; each client has those of its lines; and a start
        finds each line that was answered, by the end or before any moment of a power failure."""
        lines, written = lines_in(calls), replies_in(calls)
        self.done = lines
        self.wants("no reply without a line", len(written) <= len(lines))
        secrets = [b""] + [it.secret[1:].encode() for it in self.clients]
        replies, asked = {it: [] for it in secrets}, {it: [] for it in secrets}
        for at, line in enumerate(lines):
            # a line of no client is the front's own
            named = SECRET.search(line)
            whose = named.group(1) if named else b""
            asked[whose].append(line)
            if at < len(written):
                replies[whose].append(written[at])
        store = self.answered(lines, written)
        for it in self.clients:
            of = it.secret[1:].encode()
            self.wants("the program has each client's lines in order",
                       asked[of] == it.sent[: len(asked[of])], it.ns)
            self.wants("each client has its own replies",
                       it.replies == replies[of][: len(it.replies)], it.ns)
        if ends == "all" and not self.failure:
            self.wants("all is answered", all(len(it.replies) == LINES for it in self.clients))
        if ends == "power":
            calls = calls[: self.chance.randint(0, len(calls))]
            disk = Disk(self.files)
            for call in calls:
                disk.takes(call)
            shutil.rmtree(self.folder)
            write_files(self.folder, disk.crash(self.chance, self.chance.choice(WAYS)))
            lines, written = lines_in(calls), replies_in(calls)
            store = self.answered(lines, written)
        self.find(store, lines[len(written):], bool(written))

    def answered(self, lines, written):
        """The store after the lines that have a reply, which is the model's. Where a call failed,
        a line may be refused for memory."""
        store = self.store.copy()
        for line, reply in zip(lines, written):
            if not (reply == NO_MEMORY and self.failure):
                got = store.answer(line)
                self.wants("each reply is the model's", got == reply, line, got, reply)
        return store

    def find(self, store, unanswered, is_answered):
        """The store that a start has: after all answered lines and some of the others."""
        asked = questions(self.clients)
        with tempfile.TemporaryDirectory(prefix="metad-simulation-") as top:
            copied = os.path.join(top, "store")
            write_files(copied, files_of(self.folder))
            done = serve(copied, b"".join(asked))
            if done.status == 3 and not is_answered and self.is_new:
                # the first start was cut in the file's head
                shutil.rmtree(self.folder)
                os.mkdir(self.folder)
                return
        self.wants("a start begins", done.status == 0, done.status, done.told)
        self.is_new = False
        for line in [None, *unanswered]:
            if line is not None:
                store.answer(line)
            if done.out == store.copy().answers_of(asked):
                self.store = store
                return
        self.wants("a start has each answered line", False, done.told, len(unanswered))


def lines_in(calls):
    """The lines that a recorded program has read, but for empty ones."""
    read = b"".join(it.bytes for it in calls if it.kind == "I").split(b"\n")[:-1]
    return [it + b"\n" for it in read if it]


def replies_in(calls):
    """The replies that it has written."""
    written = b"".join(it.bytes for it in calls if it.kind == "O").splitlines(keepends=True)
    return [it for it in written if it.endswith(b"\n")]


def one(seed):
    """A run whole."""
    with tempfile.TemporaryDirectory(prefix="metad-simulation-") as top:
        try:
            it = Run(top, seed)
            for _ in range(EPISODES):
                it.episode()
        except Wrong:
            pass


def replay(folder):
    """Sends the lines of a run, in their order and with its failed calls, to the program alone."""
    with open(os.path.join(folder, "failure")) as file:
        failure = json.load(file)
    with open(os.path.join(folder, "lines"), "rb") as file:
        lines = file.read()
    with tempfile.TemporaryDirectory(prefix="metad-simulation-") as top:
        own = os.path.join(top, "store")
        shutil.copytree(os.path.join(folder, "store"), own)
        done = serve(own, lines, env={**os.environ, "LD_PRELOAD": RECORDER, **failure})
        sys.stdout.buffer.write(done.out)
        sys.stderr.buffer.write(done.told)
        return done.status


def main():
    """Runs the seeds; status 1 where anything was wrong."""
    if sys.argv[1:2] == ["--replay"]:
        return replay(sys.argv[2])
    runs = int(sys.argv[1]) if len(sys.argv) > 1 else RUNS
    seed = int(sys.argv[2]) if len(sys.argv) > 2 else 1
    began = time.monotonic()
    with ThreadPoolExecutor(os.cpu_count()) as pool:
        for task in [pool.submit(one, 1000 * seed + it) for it in range(runs)]:
            task.result()
    print("simulation: %d runs, %d tried, %d wrong, %.0f s"
          % (runs, Told.tried, Told.wrong, time.monotonic() - began))
    return 1 if Told.wrong else 0


if __name__ == "__main__":
    sys.exit(main())
