"""A store that is kept: its service is killed under a load, and no answered line is lost."""
import hashlib
import json
import os
import random
import shutil
import subprocess
import tempfile
import threading
import time

from fronts import KILL, Front, Told, ask

CLIENTS = 8
AHEAD = 50
MOST = 400  # lines of a client in a round
ROUNDS = 100
SECONDS = 80  # no round begins later
COPIES = 10
wants = Told.wants


def digest(number, at):
    """The digest that a client adds."""
    return "sha256:" + hashlib.sha256(b"%d %d" % (number, at)).hexdigest()


class Round:
    """Clients that add content to a namespace of their own round, until they are cut off or have
    sent all. The first one may kill the service as soon as it has so many replies."""

    def __init__(self, front, turn, kill_at=None, pause=0):
        self.front, self.ns, self.kill_at, self.pause = front, "n%d" % turn, kill_at, pause
        self.sent, self.answered = [0] * CLIENTS, [0] * CLIENTS
        with front.connect() as sock:
            ask(sock, b'{"op":"ns.add","ns":"%s"}' % self.ns.encode())
        self.threads = [threading.Thread(target=self.client, args=(it,)) for it in range(CLIENTS)]
        for thread in self.threads:
            thread.start()

    def client(self, number):
        line = '{"op":"content.add","ns":"%s","digest":"%s"}\n'
        try:
            with self.front.connect() as sock:
                while self.answered[number] < MOST:
                    time.sleep(self.pause)
                    while self.sent[number] < min(self.answered[number] + AHEAD, MOST):
                        text = line % (self.ns, digest(number, self.sent[number]))
                        self.sent[number] += 1
                        sock.sendall(text.encode())
                    part = sock.recv(1 << 16)
                    if not part:
                        return
                    self.answered[number] += part.count(b"\n")
                    if number == 0 and self.kill_at and self.answered[0] >= self.kill_at:
                        self.kill_at = None
                        os.kill(self.front.service(), KILL)
        except OSError:
            pass

    def join(self):
        for thread in self.threads:
            thread.join()

    def compare(self, front):
        """After a start: a front of each client's lines, and all that was answered."""
        with front.connect() as sock:
            found = json.loads(ask(sock, b'{"op":"content.list","ns":"%s"}' % self.ns.encode()))
        after, count = set(found["names"]), 0
        for number in range(CLIENTS):
            there = [digest(number, at) in after for at in range(self.sent[number])]
            kept = there.index(False) if False in there else len(there)
            wants("an answered line is found again", kept >= self.answered[number], self.ns, number)
            wants("a front of the lines is found", not any(there[kept:]), self.ns, number)
            count += kept
        wants("nothing else is found", len(after) == count, self.ns)


def kills(words):
    """Rounds on one store: a kill at a moment, or at a reply. How many lines were answered."""
    began, rounds, last, lines = time.monotonic(), 0, None, 0
    while rounds < ROUNDS and time.monotonic() - began < SECONDS:
        chance = random.Random(rounds)
        with Front(None, words=words) as front:
            if last:
                last.compare(front)
            last = Round(front, rounds, chance.randint(1, MOST) if rounds % 2 else None)
            if rounds % 2 == 0:
                time.sleep(chance.uniform(0.01, 0.2))
                os.kill(front.service(), KILL)
            wants("the front ends as its service did", front.ends() == 128 + KILL)
            last.join()
        rounds += 1
        lines += sum(last.answered)
    with Front(None, words=words) as front:
        last.compare(front)
        with Front(None, words=words) as second:
            wants("a store that is in use is refused", second.ends() == 4)
        wants("it ends with 0 over a store", front.ends(15) == 0)
    print("serve: %d kills of the service, %d lines answered before" % (rounds, lines))


def copies(program, words, folder):
    """Copies under a load: each one is reported as damaged, or has the first lines."""
    texts, statuses = [], []
    other = folder + "-copy"
    with Front(None, words=words) as front:
        load = Round(front, ROUNDS, pause=0.05)
        for _ in range(COPIES):
            shutil.copytree(folder, other)
            done = [subprocess.run([program, word, "--dir", other], capture_output=True)
                    for word in ("check", "script")]
            wants("script ends as check does", done[0].returncode == done[1].returncode, done)
            statuses.append(done[0].returncode)
            texts.append(done[1].stdout)
            shutil.rmtree(other)
        wants("a front ends with 0 under a load", front.ends(15) == 0)
        load.join()
    done = subprocess.run([program, "script", "--dir", folder], capture_output=True)
    wants("the store itself is whole", done.returncode == 0, done.stderr)
    wants("a copy is whole or damaged", set(statuses) <= {0, 3}, statuses)
    wants("a copy has the first lines", all(done.stdout.startswith(text) for text in texts))
    print("serve: %d copies under a load, %d of them whole" % (COPIES, statuses.count(0)))


def run(program):
    """Kills, and copies."""
    folder = tempfile.mkdtemp(prefix="metad-serve-")
    wants("a store is made", subprocess.run([program, "new", "--dir", folder]).returncode == 0)
    words = ["--program", program, "--dir", folder]  # so replies are numbered if the program can
    kills(words)
    copies(program, words, folder)
    shutil.rmtree(folder)
