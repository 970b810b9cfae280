"""The program is killed at random moments, and copied while it writes."""
import os
import random
import shutil
import signal
import tempfile
import threading
import time

from stores import (
    JOURNAL, Client, Model, Told, any_line, check, is_logged, journal_of, line_of, probes,
    script_of,
)

wants = Told.wants

ROUNDS = 100
COPIES = 50
PAUSE = 0.004  # seconds between the writer's groups of 20 lines
GROUPS = 200  # that it writes for each copy at most: a slow copy mustn't make the next one slower


def send_for(client, chance):
    """Sends lines in bursts until a random moment, and kills. The lines, and the replies."""
    sent, replies = [], b""
    out = client.run.stdout.fileno()
    os.set_blocking(out, False)
    stop = time.monotonic() + chance.uniform(0, 0.08)
    while time.monotonic() < stop:
        burst = [any_line(chance) for _ in range(chance.randint(1, 12))]
        sent += burst
        client.run.stdin.write(b"".join(burst))
        client.run.stdin.flush()
        # now and then it doesn't wait for the replies
        wait = min(stop, time.monotonic() + chance.choice((0, 0.001, 0.02)))
        while time.monotonic() < wait and replies.count(b"\n") < len(sent):
            replies += client.run.stdout.read() or b""
    client.run.send_signal(signal.SIGKILL)
    client.run.wait()
    os.set_blocking(out, True)
    replies += client.ends().out
    return sent, replies[: replies.rfind(b"\n") + 1].splitlines(keepends=True)


def killed(folder, store, kept, chance):
    """A round. The lines that the journal then has, and whether lines were in flight."""
    client, more = Client(folder), probes()
    wants("the store after a kill", client.ask(more) == store.answers(more))
    sent, answered = send_for(client, chance)
    copy = store.copy()
    replies = copy.answers(sent)
    wants("the replies are those of the model", answered == replies[: len(answered)])
    lines, status = script_of(folder)
    wants("the journal after a kill", status == 0)
    least = [line for line, reply in zip(sent, replies[: len(answered)]) if is_logged(line, reply)]
    most = [line for line, reply in zip(sent, replies) if is_logged(line, reply)]
    new = lines[len(kept) :]
    wants("lines from before a kill are there", lines[: len(kept)] == kept)
    wants("each answered line is found", new[: len(least)] == least, len(new), len(least))
    wants("what is found is a front", new == most[: len(new)], len(new), len(most))
    store.takes(new)
    return lines, len(answered) < len(sent)


def kills():
    """Kills at random moments."""
    chance, store, kept, flying = random.Random(1), Model(), [], 0
    with tempfile.TemporaryDirectory(prefix="metad-kept-") as folder:
        for _ in range(ROUNDS):
            kept, in_flight = killed(folder, store, kept, chance)
            flying += in_flight
    print("kept: %d kills, %d with lines in flight, %d lines kept" % (ROUNDS, flying, len(kept)))


def copy_mixed(old, new, more, pause):
    """Copies a journal in two parts, of two moments; the first ends near the end of the text."""
    os.mkdir(new)
    text = journal_of(old)
    place = min(len(text.rstrip(b"\0")) + more, len(text))
    time.sleep(pause)
    with open(os.path.join(new, JOURNAL), "wb") as file:
        file.write(text[:place] + journal_of(old)[place:])


class Writer(threading.Thread):
    """Adds rows until it is stopped, so many groups for each copy."""

    def __init__(self, folder):
        super().__init__(daemon=True)
        self.client, self.stopped = Client(folder), threading.Event()
        self.left = 0  # groups for this copy
        # the file is there once a line was answered
        self.client.ask([line_of(op="ns.add", ns="x")])

    def run(self):
        number = 0
        while not self.stopped.is_set():
            if self.left > 0:
                ids = ["l%d" % it for it in range(number, number + 20)]
                self.client.ask([line_of(op="lease.add", ns="x", id=it) for it in ids])
                number += 20
                self.left -= 1
            time.sleep(PAUSE)

    def ends(self):
        self.stopped.set()
        self.join()
        return self.client.ends()


def copies():
    """Copies under a writer: each is whole, or is told as damaged, and has the first lines."""
    with tempfile.TemporaryDirectory(prefix="metad-kept-") as top:
        folder, texts, statuses = os.path.join(top, "store"), [], []
        os.mkdir(folder)
        writer = Writer(folder)
        writer.start()
        for number in range(COPIES):
            new = os.path.join(top, "copy")
            writer.left = GROUPS
            if number % 2:
                copy_mixed(folder, new, 40 * number - 500, 0.001 * number)
            else:
                shutil.copytree(folder, new)
            lines, status = script_of(new)
            wants("script ends as check does", check(new).status == status, status)
            texts.append(lines)
            statuses.append(status)
            live, status = script_of(folder)
            wants("a script of a folder in use", status == 0, status)
            wants("a copy has the lines of a script", live[: len(lines)] == lines)
            shutil.rmtree(new)
        wants("the writer ends well", writer.ends().status == 0)
        whole, status = script_of(folder)
    wants("the journal itself is whole", status == 0)
    wants("a copy is whole or damaged", set(statuses) <= {0, 3}, statuses)
    wants("a copy has the first lines", all(whole[: len(it)] == it for it in texts))
    wants("the copies were made under a writer", len(texts[0]) < len(texts[-1]))
    told = (COPIES, statuses.count(0), len(whole))
    print("kept: %d copies under a writer, %d of them whole, up to %d lines" % told)


def all_parts():
    kills()
    copies()
