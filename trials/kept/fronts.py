"""The words that a front adds: replies that begin with their line's number, and moments that may be
only so far from the program's clock."""
import datetime
import json
import os
import tempfile

from disk import addition, limit_files
from starts import COLLECTS, FEW, ROWS, TAKEN, kept_row, lost_row
from stores import (
    DONE, KEPT, NO_MEMORY, WHEN, Client, Told, check, line_of, lines_told, run, script_of, serve,
)

wants = Told.wants

INVALID = b'{"fault":1,"name":"InvalidArgument"}\n'
SECONDS = 7200  # what --clock allows here: the machine may be slow, so near is half of it
NEAR, FAR = SECONDS // 2, 2 * SECONDS
YEAR_9998 = "9998-12-31T23:59:59Z"
DIGEST = "sha256:" + "a" * 64
REFUSED = (
    ["--numbered", "--numbered"], ["--numbered=yes"], ["--clock"], ["--clock="], ["--clock", "x"],
    ["--clock", "-1"], ["--clock", "1.5"], ["--clock=1000000001"], ["--clock", "1 "],
    ["--clock=18446744073709551616"], ["--clock=60", "--clock", "60"],
)


def words(folder):
    """Each word stands once at most, the clock's with whole seconds, and only behind serve."""
    for it in REFUSED:
        done = run([KEPT, "serve", "--dir", folder, "--new", *it])
        wants("such words end with 2", (done.status, done.out) == (2, b""), it, done)
    for word in (["check"], ["script"], ["new"], ["load"], ["backup", "x"]):
        for it in (["--numbered"], ["--clock", "60"]):
            done = run([KEPT, *word, "--dir", folder, *it])
            wants("they are of a run alone", (done.status, done.out) == (2, b""), word, it, done)
    wants("no file was made", os.listdir(folder) == [])
    told = run([KEPT, "serve"]).told
    wants("the usage has both", b" [--numbered] [--clock SECONDS] | " in told, told)
    for it in (["--clock", "0"], ["--clock=1000000000", "--numbered"], ["--numbered"]):
        done = serve(folder, line_of(op="ns.list"), *it)
        wants("these start", done.status == 0 and done.out.endswith(b"\n"), it, done)


# ---- numbers


def cut(reply):
    """The number of a reply, and the reply."""
    number, _, text = reply.partition(b" ")
    return number, text


def all_kinds():
    """Lines of all kinds: empty, broken, too long, refused, done, with replies of one part and of
    many, and a last one without a line feed."""
    lines = [line_of(op="ns.add", ns="x"), b"\n", b"no request\n", line_of(op="ns.add", ns="x")]
    lines += [b"\n", b"\r\n", b" \n", b"\xff\n", b"\0\n", b"{}\n", b"x" * 65537 + b"\n"]
    lines += [line_of(op="ns.add", ns="n%04d" % it * 5) for it in range(2500)]
    lines += [line_of(op="ns.list"), line_of(op="gc.plan", at=WHEN), line_of(op="gc.run", at="x")]
    lines += [b"\n", b"7 {}\n", line_of(op="back.list"), line_of(op="ns.list")[:-1]]
    return lines


def numbers(folder):
    """Each reply begins with the number of its line, and is else as without the word. Lines without
    a reply are counted; each run begins with 1."""
    lines, own = all_kinds(), os.path.join(folder, "plain")
    os.mkdir(own)
    plain = serve(own, b"".join(lines)).out.splitlines(keepends=True)
    wants("some replies are long", max(map(len, plain)) > 1 << 16)
    have = [place for place, line in enumerate(lines, 1) if line != b"\n"]
    for it, more in enumerate(([], ["--checkpoint"], ["--clock", "1000000000"])):
        own = os.path.join(folder, str(it))
        os.mkdir(own)
        done = serve(own, b"".join(lines), "--numbered", *more)
        replies = [cut(reply) for reply in done.out.splitlines(keepends=True)]
        wants("each reply has its line's number", [number for number, _ in replies]
              == [b"%d" % place for place in have], more, done.status, replies[:9])
        wants("else it is the same", [text for _, text in replies] == plain, more)
        done = serve(own, line_of(op="ns.add", ns="last"), "--numbered", *more)
        wants("the next run begins with 1", done.out == b"1 " + DONE, more, done)
    logged = script_of(own)[0]
    wants("no number is logged", all(line.startswith(b"{") for line in logged), logged[:3])


def over_checkpoints(folder):
    """Numbers go on over a checkpoint within a run, and over a witness after each MiB."""
    rows = [line_of(op="ns.add", ns="x")] + [kept_row(number) for number in range(ROWS)]
    wants("the rows are added", serve(folder, b"".join(rows)).status == 0)
    client, sent, wrong = Client(folder, "--numbered"), 0, []
    for block in range((FEW // ROWS + 40) // 10):
        lines = [b"\n"]
        for number in range(10 * block, 10 * block + 10):
            lines += [lost_row(number), COLLECTS]
        client.run.stdin.write(lines[0])
        replies = client.ask(lines[1:])
        want = [b"%d" % it for it in range(sent + 2, sent + 1 + len(lines))]
        if [cut(reply)[0] for reply in replies] != want:
            wrong.append((block, replies[:2]))
        sent += len(lines)
    for number in range(40):
        replies = client.ask([addition(number)])
        sent += 1
        if replies != [b"%d " % sent + DONE]:
            wrong.append((number, replies))
    done = client.ends()
    wants("numbers go on over a checkpoint and a witness", wrong == [], wrong[:3])
    wants("there was a checkpoint", (done.status, done.told.count(TAKEN)) == (0, 1), done)


def without_room(folder):
    """A line that the disk has no room for is refused with its number."""
    wants("a store", serve(folder, line_of(op="ns.add", ns="x")).status == 0)
    client = Client(folder, "--numbered", preexec_fn=limit_files(3 << 20))
    replies = [client.ask([addition(number)]) for number in range(60)]
    done = client.ends()
    texts = [cut(reply[0])[1] for reply in replies if reply]
    wants("each has its number", [cut(reply[0])[0] for reply in replies if reply]
          == [b"%d" % it for it in range(1, 61)], replies[:2])
    wants("some are refused", set(texts) == {DONE, NO_MEMORY} and done.status == 0, done)


# ---- a clock


def moment(seconds, hours=0):
    """A moment so many seconds from now, by a clock that is so many hours ahead."""
    zone = datetime.timezone(datetime.timedelta(hours=hours))
    at = datetime.datetime.now(zone) + datetime.timedelta(seconds=seconds)
    return at.isoformat(timespec="microseconds")


def timed(at):
    """A line of each op that has a moment: each is done, or answered, if its moment is near."""
    return [
        line_of(op="ingest.begin", ns="x", ref="r", at=at),
        line_of(op="ingest.open", ns="x", ref="r", at=at),
        line_of(op="ingest.open", ns="x", ref="s", at=at, answer="row"),
        line_of(op="gc.plan", at=at),
        line_of(op="gc.explain", ns="x", type="images", resource="i", at=at),
        line_of(op="gc.impact", ns="x", type="images", resource="i", at=at),
        line_of(op="image.remove", ns="x", name="i", sync=at),
        line_of(op="lease.remove", ns="x", id="l", sync=at),
        line_of(op="gc.run", at=at).replace(b'"at"', b'"\\u0061t"'),
        line_of(op="content.add", ns="x", digest=DIGEST), line_of(op="gc.run", at=at),
    ]


def distances(folder):
    """Lines whose moments are far, on both sides, are refused with 1 and change nothing; near ones
    are done."""
    first = [line_of(op="ns.add", ns="x"), line_of(op="image.add", ns="x", name="i", target=DIGEST),
             line_of(op="lease.add", ns="x", id="l")]
    wants("a store", serve(folder, b"".join(first)).out == DONE * 3)
    ats = [moment(FAR), moment(-FAR), moment(FAR, 14), moment(-FAR, -12), YEAR_9998,
           "0000-01-01T00:00:00Z", "1969-12-31T23:59:59.999999999Z"]
    for at in ats:
        lines = [it for it in timed(at) if b"content.add" not in it]
        done = serve(folder, b"".join(lines), "--clock", str(SECONDS))
        wants("far ones are refused", done.out == INVALID * len(lines), at, done)
    wants("they aren't logged", script_of(folder) == (first, 0), script_of(folder))
    for number, at in enumerate((moment(0), moment(NEAR), moment(-NEAR), moment(NEAR, 14))):
        lines = timed(at)
        done = serve(folder, b"".join(lines), "--clock", str(SECONDS))
        replies = done.out.splitlines(keepends=True)
        wants("near ones are answered", len(replies) == len(lines), at, done)
        wants("none is refused for its moment", INVALID not in replies, at, replies)
        done = [b'"ok":true' in it for it in replies]
        wants("they are done", all(done) or number and sum(done) >= 6, number, replies)
    logged, status = script_of(folder)
    wants("near ones are logged", status == 0 and len(logged) > len(first) + 6, logged)
    far = [it for it in logged if any(at.encode() in it for at in ats)]
    wants("far ones aren't", far == [], far)


def leases(folder):
    """Nobody ends another's lease by a moment that hasn't come; without the word, anybody does."""
    label = {"containerd.io/gc.expire": moment(10 * SECONDS)}
    held = [line_of(op="ns.add", ns="x"), line_of(op="content.add", ns="x", digest=DIGEST),
            line_of(op="lease.add", ns="x", id="l", labels=label),
            line_of(op="lease.hold", ns="x", id="l", type="content", resource=DIGEST)]
    wants("a lease holds content", serve(folder, b"".join(held)).out == DONE * 4)
    asks = [line_of(op="gc.run", at=YEAR_9998), line_of(op="gc.run", at=moment(0)),
            line_of(op="content.list", ns="x")]
    done = serve(folder, b"".join(asks), "--clock", str(SECONDS), "--numbered")
    replies = done.out.splitlines(keepends=True)
    wants("a far moment is refused, with its number", replies[0] == b"1 " + INVALID, replies)
    wants("the content stays", len(replies) == 3 and DIGEST.encode() in replies[2], replies)
    replies = serve(folder, b"".join(asks)).out.splitlines(keepends=True)
    wants("without the word it goes", DIGEST.encode() not in replies[2], replies)


def without_moments(folder):
    """What has no moment, or none that can be read, is answered as without the word; and a start
    executes the journal whatever its moments are."""
    lines = [it for it in all_kinds() if b"gc.plan" not in it]
    lines = lines[:-1] + [line_of(op="gc.run"), line_of(op="image.remove", ns="x", name="i"),
                          line_of(op="gc.run", at=WHEN, more="x"), line_of(op="gc.run", at="2030"),
                          line_of(op="ns.add", ns="y", at=YEAR_9998), lines[-1]]
    before = b""
    for number, more in enumerate(([], ["--clock", "0"])):
        own = os.path.join(folder, str(number))
        os.mkdir(own)
        done = serve(own, b"".join(lines), *more)
        if more:
            wants("they are answered so", (done.status, done.out) == (0, before), done.told)
        before = done.out
    past = [line_of(op="ns.add", ns="z"), line_of(op="content.add", ns="z", digest=DIGEST),
            line_of(op="gc.run", at=WHEN)]
    wants("a collection", b'"fault"' not in serve(own, b"".join(past)).out)
    count = len(script_of(own)[0])
    for more in ([], ["--checkpoint"]):
        done = serve(own, line_of(op="ns.list"), "--clock", "0", *more)
        names = json.loads(done.out).get("names", [])
        wants("its journal is executed", done.status == 0 and names[-1:] == ["z"], done.told)
        wants("no line of it is left out", more or lines_told(done.told) == count, count, done)
    wants("it is sound", check(own).status == 0)


def all_parts():
    """Each of these, in a folder of its own."""
    parts = (words, numbers, over_checkpoints, without_room, distances, leases, without_moments)
    for part in parts:
        with tempfile.TemporaryDirectory(prefix="metad-kept-") as folder:
            part(folder)
