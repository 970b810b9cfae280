"""Every crash point of a script, over a disk that loses what wasn't synced (mixing.c)."""
import os
import random
import tempfile
from concurrent.futures import ThreadPoolExecutor

from stores import (
    JOURNAL, NO_MEMORY, SHIM, TEXT, WHEN, Client, Model, Told, any_line, is_logged, journal_of,
    line_of, lines_told, probes, script_of, serve,
)

wants = Told.wants

BLOCKS, LINES = 6, 10  # of the script: its lines are sent in so many blocks
SEEDS = 5  # runs that are cut at the same call
STORMS = 12  # scripts that are sent to their end through crash after crash
ENDED = 77


def blocks_of(seed):
    """A script in blocks, which collects twice."""
    chance = random.Random(seed)
    lines = [line_of(op="ns.add", ns="x"), line_of(op="ns.add", ns="y")]
    while len(lines) < BLOCKS * LINES:
        lines.append(any_line(chance))
    lines[25] = lines[50] = line_of(op="gc.run", at=WHEN)
    return [lines[at : at + LINES] for at in range(0, len(lines), LINES)]


def mixing(at, seed, fails=False, count=None):
    """The surroundings of a run that is cut at this call."""
    more = {"LD_PRELOAD": SHIM, "MIX_AT": str(at), "MIX_SEED": str(seed)}
    if fails:
        more["MIX_FAILS"] = "1"
    if count:
        more["MIX_COUNT"] = count
    return {**os.environ, **more}


def send(folder, blocks, env, *words):
    """Sends blocks, each when the one before is answered. How it ends, and the replies."""
    client, replies = Client(folder, *words, env=env), []
    for block in blocks:
        got = client.ask(block)
        replies += got
        if len(got) < len(block):
            break
    return client.ends(), replies


class Script:
    """Lines, and what stands in the journal once they are answered."""

    def __init__(self, blocks):
        store = Model()
        self.lines = [line for block in blocks for line in block]
        self.replies = store.answers(self.lines)
        self.kept = [it for it, reply in zip(self.lines, self.replies) if is_logged(it, reply)]

    def behind(self, count):
        """Where a client goes on behind so many lines that are kept."""
        for at, (line, reply) in enumerate(zip(self.lines, self.replies)):
            if count == 0:
                return at
            count -= is_logged(line, reply)
        return len(self.lines)


def answered(script, replies):
    """The lines that have to be found where these replies came, and all that may be found. Where
    the file couldn't grow additions are refused, which stands for no change."""
    store, kept = Model(), []
    for line, reply in zip(script.lines, replies):
        if reply != NO_MEMORY:
            wants("the replies are those of the model", reply == store.answer(line), line, reply)
            kept += [line] * is_logged(line, reply)
    return kept, kept if NO_MEMORY in replies else script.kept


def recover(folder, seed):
    """Starts that are cut at each of their calls in turn, until one isn't. How many lines they
    tell, and how many runs there were."""
    found = None
    for at in range(1, 40):
        done = serve(folder, env=mixing(at, seed + at))
        if done.status == 3 and not any(journal_of(folder)[TEXT:]):
            # the first start was cut in the file's head, and no line was in it (docs/SERVICE.md)
            os.remove(os.path.join(folder, JOURNAL))
            continue
        count = lines_told(done.told)
        wants("a cut isn't told as damage", done.status in (0, ENDED), done)
        wants("a start finds what the one before has found", found in (None, count, count or found),
              found, count)
        found = count if count is not None else found
        if done.status == 0:
            return found, at
    wants("a start ends", False)
    return found, 40


def judge(folder, script, replies, seed):
    """What is found after a cut: a front of what is kept, and all that was answered. How many lines
    are found, and how many runs there were."""
    least, most = answered(script, replies)
    found, runs = recover(folder, seed)
    if not wants("a start tells how many lines it finds", found is not None):
        return 0, runs
    lines, status = script_of(folder)
    wants("each line that is told is there", (len(lines), status) == (found, 0), found, len(lines))
    wants("each answered line is found", lines[: len(least)] == least, found, len(least))
    wants("what is found is a front", lines == most[:found], found, len(most))
    more = probes()
    done = serve(folder, b"".join(more))
    wants("it answers as the model does",
          done.out == b"".join(Model().takes(lines).answers(more)), found)
    return found, runs + 2


def point(at, seed, fails, blocks, script):
    """One run that is cut at a call, and what is found then. How many runs there were."""
    with tempfile.TemporaryDirectory(prefix="metad-kept-") as folder:
        done, replies = send(folder, blocks, mixing(at, seed, fails))
        ends = (0, 1) if fails else (ENDED,)
        wants("a cut run ends so", done.status in ends, at, seed, fails, done)
        return judge(folder, script, replies, seed)[1] + 1


def storm(seed):
    """A script that comes to its end, though each run but the last is cut somewhere."""
    chance = random.Random(seed)
    script = Script(blocks_of(100 + seed))
    runs = begins = 0
    with tempfile.TemporaryDirectory(prefix="metad-kept-") as folder:
        while wants("a script comes to its end", runs < 300):
            blocks, at = [], begins
            while at < len(script.lines):
                blocks.append(script.lines[at : at + chance.randint(1, 15)])
                at += len(blocks[-1])
            env = mixing(chance.randint(1, 30), chance.randrange(10**6))
            done, replies = send(folder, blocks, env)
            found, count = judge(folder, script, script.replies[:begins] + replies, seed)
            runs += count + 1
            if done.status == 0:
                wants("all is found at the end", found == len(script.kept), found)
                break
            begins = script.behind(found)
    return runs


def all_parts():
    """Every point, with some seeds each; and scripts through many crashes."""
    if not SHIM:
        print("kept: crashes are left out: the toolchain's clang isn't there")
        return
    blocks = blocks_of(1)
    script = Script(blocks)
    wants("the script collects twice, and is kept for the most part", len(script.kept) > 30)
    with tempfile.TemporaryDirectory(prefix="metad-kept-") as folder:
        counter = os.path.join(folder, "calls")
        store = os.path.join(folder, "store")
        os.mkdir(store)
        done, replies = send(store, blocks, mixing(0, 1, count=counter))
        wants("the whole script", replies == script.replies and done.status == 0, done)
        with open(counter) as file:
            calls = int(file.read())
    with ThreadPoolExecutor(os.cpu_count()) as pool:
        points = [
            pool.submit(point, at, 1000 * seed + at, fails, blocks, script)
            for at in range(1, calls + 1)
            for seed in range(SEEDS)
            for fails in (False, True)
        ]
        storms = [pool.submit(storm, seed) for seed in range(STORMS)]
        runs = sum(it.result() for it in points + storms)
    print("kept: %d crash points, %d scripts through many crashes, %d runs" % (calls, STORMS, runs))
