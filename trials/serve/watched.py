"""What those see who run a front: readiness, counts, groups, a front that is killed or hung up."""
import calendar
import os
import re
import signal
import socket
import stat
import subprocess
import sys
import tempfile
import time
import urllib.request

from fronts import HERE, KILL, STAND_IN, TERM, TOOL, Front, Told, all_of, ask, lines_of, reach, until

wants = Told.wants
PROGRAM = os.path.join(HERE, "program")


def free_port():
    """A port that nobody has."""
    with socket.socket() as sock:
        sock.bind(("127.0.0.1", 0))
        return sock.getsockname()[1]


def counts(address):
    """What the front counts."""
    with urllib.request.urlopen("http://%s/metrics" % address, timeout=60) as page:
        text = page.read().decode()
    lines = [line for line in text.split("\n") if line and not line.startswith("#")]
    return {name: float(value) for name, _, value in (line.rpartition(" ") for line in lines)}


def metrics(program=None):
    """Lines, faults, collections, what waits, the journal: each is counted."""
    address = "127.0.0.1:%d" % free_port()
    with Front(words=["--metrics", address]) as front:
        with front.connect() as client, front.connect() as busy:
            for _ in range(7):
                ask(client, b'={"fault":2,"name":"NotFound"}')  # no fault: it begins with =
            busy.sendall(b"sleep=2\n=after\n")
            time.sleep(0.5)
            found = counts(address)
            wants("lines are counted", found["metad_lines_total"] == 9, found)
            wants("replies are counted", found["metad_replies_total"] == 7, found)
            wants("what waits is counted", found["metad_replies_waiting"] == 2, found)
            wants("clients are counted", found["metad_clients"] == 2, found)
            wants("it is ready", found["metad_ready"] == 1, found)
        wants("it ends with 0", front.ends(TERM) == 0)
    for wrong in ("0.0.0.0:0", "127.0.0.1", ":80", "example.org:1", "127.0.0.1:x", "[::]:1"):
        with Front(words=["--metrics", wrong]) as front:
            wants("--metrics %s is refused" % wrong, front.ends() == 2)
            wants("and no socket is left", not os.path.exists(front.path))
    if not program:
        return
    folder = tempfile.mkdtemp(prefix="metad-serve-")
    path = os.path.join(folder, "socket")
    store = os.path.join(folder, "store")
    os.mkdir(store)
    words = [TOOL, "--socket", path, "--metrics", address, "--program", program, "--dir", store,
             "--new"]
    with subprocess.Popen(words, stderr=subprocess.DEVNULL) as run:
        with reach(path) as client:
            for line in (b'{"op":"ns.add","ns":"x"}', b'{"op":"ns.add","ns":"x"}', b"no request",
                         b'{"op":"image.get","ns":"x","name":"y"}',
                         b'{"op":"gc.run","at":"2024-03-01T00:00:00Z"}',
                         b'{"op":"gc.plan","at":"2024-03-01T00:00:00Z"}', b'{"op":"gc.run","at":""}'):
                ask(client, line)
        found = counts(address)
        for fault, count in ((1, 1), (2, 1), (3, 1), (5, 1)):
            wants("fault %d is counted" % fault,
                  found.get('metad_faults_total{fault="%d"}' % fault) == count, found)
        wants("collections are counted", found["metad_collections_total"] == 1, found)
        wants("and their time", 0 < found["metad_collection_seconds_total"] < 60, found)
        wants("the journal's bytes are told",
              found['metad_journal_bytes{file="metad.journal"}'] ==
              os.path.getsize(os.path.join(store, "metad.journal")), found)
        run.send_signal(TERM)
        wants("it ends with 0 over a store", run.wait(60) == 0)


def ready():
    """systemd is told once the service answers, and when the front ends."""
    folder = tempfile.mkdtemp(prefix="metad-serve-")
    told = socket.socket(socket.AF_UNIX, socket.SOCK_DGRAM)
    told.bind(os.path.join(folder, "told"))
    told.settimeout(60)
    late = ["/bin/sh", "-c", 'sleep 1; [ -z "${NOTIFY_SOCKET-}" ] && exec "$@"', "sh", *STAND_IN]
    env = {**os.environ, "NOTIFY_SOCKET": told.getsockname()}
    began = time.monotonic()
    with Front(late, env=env) as front, front.connect() as client:
        wants("it says that it is ready", told.recv(100) == b"READY=1")
        wants("once the service answers", time.monotonic() - began >= 1)
        wants("it answers", ask(client, b"=x") == b"=x\n")
        front.run.send_signal(TERM)
        wants("it says that it stops", told.recv(100) == b"STOPPING=1")
        wants("it ends with 0", front.ends() == 0)
    told.close()


def early():
    """Clients that come while the service starts are answered, also where the front shall end."""
    late = ["/bin/sh", "-c", 'sleep 1; exec "$@"', "sh", *STAND_IN]
    for signals in ([], [TERM]):
        front = Front(late)
        with reach(front.path) as client:
            client.sendall(b"=early\n")
            time.sleep(0.2)
            for number in signals:
                front.run.send_signal(number)
            wants("a client that comes early is answered", lines_of(client, 1) == b"=early\n")
        wants("it ends with 0", front.ends(None if signals else TERM) == 0)
        front.__exit__()
    front = Front(["/bin/sh", "-c", "exec sleep 60"])
    until(lambda: os.path.exists(front.path))
    front.run.send_signal(TERM)
    until(lambda: not os.path.exists(front.path))
    wants("a second signal ends a start", front.ends(TERM) == 128 + TERM)
    front.__exit__()


def hung_up():
    """SIGHUP is a clean end; a terminal's signals reach the front alone."""
    signal.signal(signal.SIGHUP, signal.SIG_DFL)  # where nohup runs this trial fronts would ignore it
    with Front() as front:
        client = front.connect()
        client.sendall(b"sleep=1\n=line\n")
        time.sleep(0.3)
        front.run.send_signal(signal.SIGHUP)
        wants("what was sent is answered at SIGHUP", all_of(client) == b'{"ok":true}\n=line\n')
        wants("SIGHUP is a clean end", front.ends() == 0)
    for number in (signal.SIGINT, signal.SIGHUP):
        with Front(start_new_session=True) as front:
            client = front.connect()
            client.sendall(b"sleep=1\n=line\n")
            time.sleep(0.3)
            wants("the service has a session of its own",
                  os.getsid(front.service()) != os.getsid(front.run.pid))
            os.killpg(front.run.pid, number)  # as a terminal does
            wants("what was sent is answered", all_of(client) == b'{"ok":true}\n=line\n')
            wants("a terminal's signal is a clean end", front.ends() == 0)


def killed():
    """A front that is killed within a long line: its service goes, and a new front begins."""
    folder = tempfile.mkdtemp(prefix="metad-serve-")
    lock = os.path.join(folder, "lock")
    with Front(STAND_IN + ["--lock", lock], folder) as front:
        client = front.connect()
        client.sendall(b"sleep=30\n")
        time.sleep(0.3)
        front.ends(KILL)
        began = time.monotonic()
        with Front(STAND_IN + ["--lock", lock], folder) as second:
            with second.connect() as other:
                wants("a new front serves soon", ask(other, b"=x") == b"=x\n")
            wants("not once the line is done", time.monotonic() - began < 20)
            wants("it ends with 0", second.ends(TERM) == 0)
        client.close()
    held = subprocess.Popen([*STAND_IN, "--lock", lock], stdin=subprocess.PIPE,
                            stdout=subprocess.PIPE)
    held.stdin.write(b"=here\n")
    held.stdin.flush()
    held.stdout.readline()
    with Front(STAND_IN + ["--lock", lock]) as front:
        wants("a folder that stays in use ends it with 4", front.ends() == 4)
    front = Front(STAND_IN + ["--lock", lock])
    with reach(front.path) as client:
        client.sendall(b"=waits\n")
        time.sleep(1)
        held.stdin.close()
        wants("one that is left soon is waited for", lines_of(client, 1) == b"=waits\n")
    wants("it ends with 0", front.ends(TERM) == 0)
    front.__exit__()
    held.wait()


def group():
    """--group lets the members of a group connect, and nobody else."""
    number = 12345 if os.getuid() == 0 else os.getgid()
    with Front(words=["--group", str(number)]) as front:
        found = os.stat(front.path)
        wants("the socket is the group's too", stat.S_IMODE(found.st_mode) == 0o660 and
              found.st_gid == number, found)
        with front.connect() as client:
            wants("it is served", ask(client, b"=x") == b"=x\n")
        wants("it ends with 0", front.ends(TERM) == 0)
    with Front(words=["--group", "no such group"]) as front:
        wants("a group that isn't there is refused", front.ends() == 2)
        wants("and no socket is left", not os.path.exists(front.path))


def words():
    """What the front hands on to metad, and what metad knows: it is asked, not tried."""
    folder = tempfile.mkdtemp(prefix="metad-serve-")
    for knows in ("", "--numbered", "--clock SECONDS"):
        noted = os.path.join(folder, "noted" + knows)
        clock = ["--clock", "60"] if "clock" in knows else []
        env = {**os.environ, "KNOWS": knows, "NOTED": noted, "STAND_IN": " ".join(STAND_IN)}
        path = os.path.join(folder, "socket")
        given = [TOOL, "--socket", path, "--dir", "a b", "--workers=3", "--checkpoint", "--new",
                 "--accept-loss", "--program", PROGRAM, *clock]
        with subprocess.Popen(given, env=env, stderr=subprocess.PIPE) as run:
            wants("it is served", b"is served" in run.stderr.readline())
            with reach(path) as client:
                wants("a reply is as it is", ask(client, b"=x") == b"=x\n")
                ask(client, b'{"op":"gc.run"}')
            run.send_signal(TERM)
            wants("it ends with 0", run.wait(60) == 0)
        with open(noted) as file:
            wants("metad is given its words", file.read().split("\n") ==
                  ["serve"] +
                  [" ".join(["serve --dir a b --workers 3 --checkpoint --new --accept-loss",
                             *(clock or [knows] * bool(knows))]), ""])
        with open(noted + ".lines") as file:
            line = file.read().split("\n")[2]
        found = re.fullmatch(r'{"op":"gc.run"(,"at":"(\d{4}-\d\d-\d\dT[0-9:]{8})\.\d+Z")?}', line)
        wants("a line gets the front's moment, or stays as it is",
              found is not None and bool(found[1]) == bool(clock), line)
        if clock and found:
            moment = calendar.timegm(time.strptime(found[2], "%Y-%m-%dT%H:%M:%S"))
            wants("which is now", abs(time.time() - moment) < 60, line)
    env = {**os.environ, "KNOWS": "--numbered", "NOTED": noted, "STAND_IN": ""}
    done = subprocess.run([TOOL, "--socket", path, "--dir", "d", "--program", PROGRAM,
                           "--clock", "60"], env=env, capture_output=True, timeout=60)
    wants("a word that metad doesn't know is refused", done.returncode == 2 and
          b"doesn't know this word" in done.stderr and not os.path.exists(path), done)


def closed():
    """A front whose standard error nobody reads goes on."""
    read, write = os.pipe()
    folder = tempfile.mkdtemp(prefix="metad-serve-")
    path = os.path.join(folder, "socket")
    with subprocess.Popen([TOOL, "--socket", path, "--", *STAND_IN], stderr=write) as run:
        os.close(write)
        os.close(read)
        with reach(path) as client:
            wants("it serves", ask(client, b"=x") == b"=x\n")
        run.send_signal(TERM)
        wants("it ends with 0", run.wait(60) == 0)
    code = "import os, sys\nfor it in (0, 1, 2): os.close(it)\nos.execv(sys.argv[1], sys.argv[1:])"
    with subprocess.Popen([sys.executable, "-c", code, TOOL, "--socket", path, "--",
                           *STAND_IN]) as run:
        with reach(path) as client:
            wants("without any it serves too", ask(client, b"=x") == b"=x\n")
        run.send_signal(TERM)
        wants("it ends with 0 too", run.wait(60) == 0)


def run(program=None):
    """All of them."""
    metrics(program)
    for trial in (ready, early, hung_up, killed, group, words, closed):
        trial()
