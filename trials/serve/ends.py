"""How fronts begin and end: their sockets, signals, and a service that ends."""
import os
import resource
import shutil
import signal
import socket
import stat
import subprocess
import sys
import tempfile
import time

from fronts import KILL, STAND_IN, TERM, TOOL, Front, Told, all_of, ask, connect, lines_of, until

wants = Told.wants


def asked():
    """SIGTERM: what was sent is answered, and nothing else is taken."""
    with Front() as front:
        quiet, busy, half = front.connect(), front.connect(), front.connect()
        ask(quiet, b"=here")
        ask(half, b"=here")
        half.sendall(b"=half")
        busy.sendall(b"sleep=1\n" + b"=line\n" * 20000)
        time.sleep(0.3)
        front.run.send_signal(TERM)
        wants("the socket goes at once", until(lambda: not os.path.exists(front.path)))
        wants("a client that waits for nothing is cut off", all_of(quiet) == b"")
        wants("a half line isn't waited for", all_of(half) == b"")
        wants("what was sent before is answered",
              all_of(busy) == b'{"ok":true}\n' + b"=line\n" * 20000)
        wants("it ends with 0", front.ends() == 0)
    with Front() as front:
        client = front.connect()
        client.sendall(b"=line\n" * 200000)
        got = lines_of(client, 1)
        front.run.send_signal(TERM)
        until(lambda: not os.path.exists(front.path))
        try:
            client.sendall(b"=later\n" * 100)
        except ConnectionError:
            pass
        got += all_of(client)
        wants("all of many lines is answered, and no later one", got == b"=line\n" * 200000,
              len(got))
        wants("it ends with 0 after many lines", front.ends() == 0)


def stuck():
    """A client that takes no replies doesn't keep the front from its end; a second signal ends."""
    with Front() as front:
        client = front.connect()
        client.sendall(b'{"op":"x.list"} reply=5000000\n')
        time.sleep(0.5)
        wants("a client that doesn't read is cut off", front.ends(TERM) == 0)
        client.close()
    with Front() as front:
        client = front.connect()
        client.sendall(b"sleep=50\n")
        time.sleep(0.5)
        front.run.send_signal(TERM)
        until(lambda: not os.path.exists(front.path))
        wants("a second signal ends at once", front.ends(TERM) == 128 + TERM)
        wants("what isn't answered is cut off", all_of(client) == b"")
    with Front() as front:
        wants("SIGINT ends as SIGTERM", front.ends(signal.SIGINT) == 0)


def paths():
    """The socket's mode, one that a crash left, one that is served, and other files."""
    with Front() as front:
        mode = os.stat(front.path).st_mode
        wants("the socket is its owner's alone", stat.S_IMODE(mode) == 0o600, oct(mode))
        with Front(folder=front.folder) as second:
            wants("a socket that is served is refused", second.ends() == 4)
        with front.connect() as client:
            wants("the first goes on", ask(client, b"=first") == b"=first\n")
        service = front.service()
        front.ends(KILL)
        wants("a socket is left of a crash", os.path.exists(front.path))
        wants("the service ends with its front", until(lambda: not runs(service)))
        with Front(folder=front.folder) as second:
            with second.connect() as client:
                wants("it is taken over", ask(client, b"=second") == b"=second\n")
            os.unlink(second.path)
            other = socket.socket(socket.AF_UNIX)
            other.bind(second.path)
            wants("it ends", second.ends(TERM) == 0)
            wants("another's socket stays", os.path.exists(second.path))
            other.close()
    folder = tempfile.mkdtemp(prefix="metad-serve-")
    with open(os.path.join(folder, "socket"), "w") as file:
        file.write("a file")
    with Front(folder=folder) as front:
        wants("a file that is no socket is refused", front.ends() == 2)
        with open(front.path) as file:
            wants("and it stays", file.read() == "a file")
    shutil.rmtree(folder)


def runs(number):
    """Whether a process runs."""
    try:
        with open("/proc/%d/stat" % number) as file:
            return file.read().rpartition(")")[2].split()[0] != "Z"
    except FileNotFoundError:
        return False


def words():
    """Words that can't be followed."""
    for wrong in ([], ["--socket", "s"], ["--", *STAND_IN], ["--socket", "s", "--"], ["serve"],
                  ["--socket", "s", "--dir", "d", "--", *STAND_IN], ["--workers", "2"],
                  ["--socket", "/none/socket", "--", *STAND_IN],
                  ["--socket", "x" * 200, "--", *STAND_IN],
                  ["--socket", "s", "--", "/none/program"]):
        done = subprocess.run([TOOL, *wrong], capture_output=True, timeout=60)
        wants("words that can't be followed: %r" % wrong, done.returncode == 2, done)
        wants("no socket is left", not os.path.exists("s"))


def services():
    """A service that ends: its status is the front's, and its last replies come."""
    for line, status in ((b"end=0", 0), (b"end=1", 1), (b"end=3", 3), (b"end=4", 4),
                         (b"signal=9", 137), (b"extra", 1)):
        with Front() as front:
            client, other = front.connect(), front.connect()
            ask(other, b"=other")
            client.sendall(b"=before\n" + line + b"\n")
            wants("the status after %s" % line.decode(), front.ends() == status)
            got = all_of(client)
            if line != b"extra":
                wants("the last reply comes", got == b"=before\n", got)
            wants("the others are cut off", all_of(other) == b"")
            wants("the socket goes", not os.path.exists(front.path))


def last_replies():
    """A service that ends: a reply that a client reads late comes whole."""
    size = 900_000
    with Front() as front:
        late, other = front.connect(), front.connect()
        late.sendall(b"reply=%d\n" % size)
        got = late.recv(1)
        other.sendall(b"end=1\n")
        wants("the others are cut off at once", all_of(other) == b"")
        got += all_of(late)
        wants("a reply that is read late comes whole", got == b"y" * size + b"\n", len(got))
        wants("the status after a reply that is read late", front.ends() == 1)


def few_files():
    """Where few files may be open, fewer clients are served at once."""
    files = 40

    def limit():
        resource.setrlimit(resource.RLIMIT_NOFILE, (files, files))

    with Front(preexec_fn=limit) as front:
        wants("it says how many clients", front.says(b"at most 8 clients: 40 files may be open"))
        clients = [front.connect() for _ in range(8)]
        for client in clients:
            wants("each of few is served", ask(client, b"=here") == b"=here\n")
        for _ in range(12):
            with front.connect() as client:
                wants("one more is told", b"TooManyClients" in all_of(client))
        for client in clients:
            client.close()
        wants("connections are closed", until(lambda: front.descriptors() < 16))
        with front.connect() as client:
            wants("then another is served", ask(client, b"=here") == b"=here\n")
        wants("it ends with 0 after few clients at once", front.ends(TERM) == 0)


def handed_on():
    """A socket of systemd: it is served, and stays."""
    folder = tempfile.mkdtemp(prefix="metad-serve-")
    path = os.path.join(folder, "handed")
    listener = socket.socket(socket.AF_UNIX)
    listener.bind(path)
    listener.listen()
    waits = connect(path)
    waits.sendall(b"=early\n")
    # as systemd does: descriptor 3, and the number of the process that it is for
    code = ("import os, sys\n"
            "os.dup2(int(sys.argv[1]), 3)\n"
            "os.environ.update(LISTEN_FDS='1', LISTEN_PID=str(os.getpid()))\n"
            "os.execv(sys.argv[2], sys.argv[2:])\n")
    command = [sys.executable, "-c", code, str(listener.fileno()), TOOL, "--", *STAND_IN]
    pipe = {"stderr": subprocess.PIPE, "pass_fds": [listener.fileno()]}
    with subprocess.Popen(command, **pipe) as front:
        listener.close()
        wants("a client that came before is served", lines_of(waits, 1) == b"=early\n")
        with connect(path) as client:
            wants("and one that comes later", ask(client, b"=later") == b"=later\n")
        front.send_signal(TERM)
        wants("it ends with 0 by a socket of systemd", front.wait(60) == 0)
        wants("its file stays", os.path.exists(path))
    twice = [*command[:5], "--socket", path, *command[5:]]
    with open(os.devnull, "rb") as null:
        twice[3] = str(null.fileno())
        done = subprocess.run(twice, capture_output=True, pass_fds=[null.fileno()], timeout=60)
        wants("a descriptor that is no socket is refused", done.returncode == 2, done)
    shutil.rmtree(folder)


def run():
    """All of them."""
    for trial in (asked, stuck, paths, words, services, last_replies, few_files, handed_on):
        trial()
