"""Moments: the front adds its own to a line that needs one and has none. With --clock the program
refuses a moment that is far from its clock, so no client ends what the others' leases hold."""
import calendar
import json
import os
import re
import shlex
import subprocess
import tempfile
import time

from fronts import STAND_IN, TERM, TOOL, Front, Told, ask, knows, lines_of

CLOCK = 300  # seconds that a moment may be from the clock
NEAR, FAR = 100, 600  # well within that, and well beyond
DIGEST = "sha256:" + "5" * 64
REFUSED = b'{"fault":1,"name":"InvalidArgument"}\n'
wants = Told.wants


def moment(program=None):
    """With --moment a line that wants a moment gets the front's, whoever answers; another stays."""
    stays = (b'{"op":"gc.run","at":"2024-03-01T00:00:00Z"}', b'{"op":"gc.run","at":""}',
             b'{"op":"gc.run"', b'{"op":"image.remove","ns":"x","name":"y"}',
             b'{"op":"image.list","ns":"x"}', b"?")
    wants_one = (b'{"op":"gc.run"}', b'{"ns":"x","op":"ingest.open","ref":"r"}')
    with Front(["/bin/cat"], words=["--moment"]) as front, front.connect() as client:
        for line in wants_one:
            got = ask(client, line)
            found = re.fullmatch(re.escape(line[:-1]) +
                                 rb',"at":"(\d{4}-\d\d-\d\dT[0-9:]{8})(\.\d+)?Z"}\n', got)
            if wants("a line gets the front's moment", found, got):
                when = calendar.timegm(time.strptime(found[1].decode(), "%Y-%m-%dT%H:%M:%S"))
                wants("which is now", abs(time.time() - when) < 60, got)
        for line in stays:
            wants("a line stays as it is", ask(client, line) == line + b"\n", line)
        wants("it ends with 0", front.ends(TERM) == 0)
    with Front(["/bin/cat"]) as front, front.connect() as client:
        for line in wants_one + stays:
            got = ask(client, line)
            wants("without the word each line stays as it is", got == line + b"\n", line)
        wants("it ends with 0", front.ends(TERM) == 0)
    if not program:
        return
    command = [program, "serve", "--new", "--dir", tempfile.mkdtemp(prefix="metad-serve-")]
    with Front(command, words=["--moment"]) as front, front.connect() as client:
        got = ask(client, b'{"op":"gc.run"}')
        wants("a store is collected at the front's moment", b'"ok":true' in got, got)
        got = ask(client, b'{"op":"gc.run","at":""}')
        wants("a moment that is none is refused", got.startswith(b'{"fault":1,'), got)
        wants("it ends with 0", front.ends(TERM) == 0)


def waited():
    """A line that has waited in the front gets the moment at which it is handed on."""
    pause, line = 2, rb'\{"op":"gc.run","at":"(.{19})\.(\d+)Z"\}'
    with Front() as folder:
        order = os.path.join(folder.folder, "order")
        command = "tee %s | %s" % (shlex.quote(order), shlex.join(STAND_IN))
        with Front(["/bin/sh", "-c", command], words=["--moment"]) as front:
            with front.connect() as client:
                sent = time.time()
                client.sendall(b'sleep=%d\n{"op":"gc.run"}\n' % pause)
                lines_of(client, 2)
            wants("it ends with 0", front.ends(TERM) == 0)
        with open(order, "rb") as file:
            found = re.fullmatch(line, file.read().split(b"\n")[2])
    if wants("a line that waits gets a moment", found):
        when = calendar.timegm(time.strptime(found[1].decode(), "%Y-%m-%dT%H:%M:%S"))
        when += float(b"." + found[2])
        wants("which is later than that at which it came", sent + pause <= when, when - sent)


def request(op, **members):
    """A request."""
    return json.dumps({"op": op, **members}).encode()


def asked_at(moment):
    """A line of each kind that names a moment. The first four collect, or ask what one would do."""
    row = {"ns": "x", "type": "content", "resource": DIGEST, "at": moment}
    return [
        request("gc.run", at=moment), request("gc.plan", at=moment), request("gc.explain", **row),
        request("gc.impact", **row), request("ingest.begin", ns="x", ref="begun", at=moment),
        request("ingest.open", ns="x", ref="opened", at=moment),
        request("image.remove", ns="x", name="image", sync=moment),
        request("lease.remove", ns="x", id="other", sync=moment),
    ]


def told(seconds):
    """The moment so many seconds from now."""
    return time.strftime("%Y-%m-%dT%H:%M:%SZ", time.gmtime(time.time() + seconds))


def fill(client):
    """An image, a lease, and content that another lease holds for an hour."""
    for it in (request("ns.add", ns="x"),
               request("image.add", ns="x", name="image", target="sha256:" + "6" * 64),
               request("lease.add", ns="x", id="other"),
               request("lease.add", ns="x", id="its",
                       labels={"containerd.io/gc.expire": told(3600)}),
               request("content.add", ns="x", digest=DIGEST, lease="its")):
        reply = ask(client, it)
        wants("the store is filled", reply == b'{"ok":true}\n', it, reply)


def is_there(client, *more):
    """Whether the content is there, and all else that was made, and these ingests."""
    lists = {"content": [DIGEST], "image": ["image"], "lease": ["its", "other"],
             "ingest": sorted(more)}
    return all(json.loads(ask(client, request(kind + ".list", ns="x")))["names"] == names
               for kind, names in lists.items())


def clock(program):
    """With --clock no client's moment ends another's lease; a line without one gets the front's."""
    store = tempfile.mkdtemp(prefix="metad-serve-")
    served = ["--program", program, "--dir", store]
    words = [*served, "--new", "--clock", str(CLOCK)]
    if not knows(program, "--clock"):
        print("not run: trials/serve: moments that are far from the clock of the program, since "
              "its serve has no word --clock")
        done = subprocess.run([TOOL, "--socket", store + "/s", *words], capture_output=True)
        wants("the front refuses the word too", done.returncode == 2 and
              b"doesn't know this word" in done.stderr, done)
        return
    with Front(None, words=words) as front, front.connect() as client, front.connect() as other:
        fill(client)
        for moment in ("9998-12-31T23:59:59Z", "1970-01-01T00:00:00Z", told(FAR), told(-FAR)):
            for it in asked_at(moment):
                wants("a far moment is refused", ask(other, it) == REFUSED, it)
        wants("and nothing has changed", is_there(client))
        wants("a moment that is none is refused", ask(other, request("gc.run", at="")) == REFUSED)
        for moment in (told(NEAR), told(-NEAR)):
            for it in asked_at(moment)[:4]:
                wants("a near moment isn't", b'"ok":true' in ask(other, it), it)
        for it in (request("gc.run"), request("ingest.open", ns="x", ref="opened"),
                   request("gc.plan"),
                   request("gc.explain", ns="x", type="content", resource=DIGEST)):
            wants("a line without a moment gets the front's", b'"ok":true' in ask(other, it), it)
        wants("what a lease holds is still there", is_there(client, "opened"))
        reply = ask(other, request("image.remove", ns="x", name="image", sync=told(NEAR)))
        wants("a removal collects at a near moment", b'"report"' in reply, reply)
        wants("it ends with 0", front.ends(TERM) == 0)
    for wrong in ("x", "-1", "1.5"):
        with Front(None, words=[*served, "--clock", wrong]) as front:
            wants("--clock %s is refused" % wrong, front.ends() == 2)
    with Front(None, words=served) as front, front.connect() as client:
        reply = ask(client, request("gc.run", at="9998-12-31T23:59:59Z"))
        wants("without the word each moment counts", DIGEST.encode() in reply, reply)
        wants("it ends with 0", front.ends(TERM) == 0)


def run(program=None):
    """All of them."""
    moment(program)
    waited()
    if program:
        clock(program)
