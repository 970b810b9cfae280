"""Starts fronts and connects to them; counts what isn't as it should be."""
import os
import shutil
import signal
import socket
import subprocess
import sys
import tempfile
import time

HERE = os.path.dirname(os.path.abspath(__file__))
TOP = os.path.dirname(os.path.dirname(HERE))
TOOL = os.environ["METAD_SERVE"]  # the built front
STAND_IN = [sys.executable, os.path.join(HERE, "stand_in.py")]
WAIT = 60  # seconds after which something that didn't come is wrong


class Told:
    """What was tried."""

    tried = wrong = 0

    @classmethod
    def wants(cls, text, holds, *more):
        """Counts; prints what doesn't hold."""
        cls.tried += 1
        if not holds:
            cls.wrong += 1
            print("WRONG:", text, *more, flush=True)
        return holds


def until(holds):
    """Waits until it holds; whether it came to that."""
    end = time.monotonic() + WAIT
    while not holds():
        if time.monotonic() > end:
            return False
        time.sleep(0.01)
    return True


def knows(program, word):
    """Whether the serve of a program has this word, by its usage."""
    done = subprocess.run([program, "serve"], capture_output=True, text=True, timeout=WAIT)
    return word in done.stderr.partition(" | ")[0].replace("[", " ").replace("]", " ").split()


class Front:
    """A front in a folder of its own, over a service: a command, or the one that its words name."""

    def __init__(self, command=STAND_IN, folder=None, words=(), **more):
        self.own = folder is None
        self.folder = folder or tempfile.mkdtemp(prefix="metad-serve-")
        self.path = os.path.join(self.folder, "socket")
        self.command = [TOOL, "--socket", self.path, *words]
        self.command += ["--", *command] if command else []
        self.told = open(os.path.join(self.folder, "told"), "w+b")
        self.run = subprocess.Popen(self.command, stderr=self.told, **more)

    def __enter__(self):
        if not until(lambda: self.says(b"is served") or self.run.poll() is not None):
            raise SystemExit("serve: a front doesn't begin")
        return self

    def __exit__(self, *fault):
        if self.run.poll() is None:
            self.run.kill()
            self.run.wait()
        self.told.close()
        if self.own:
            shutil.rmtree(self.folder, ignore_errors=True)

    def says(self, text):
        """Whether this stands on its standard error."""
        return text in os.pread(self.told.fileno(), 1 << 16, 0)

    def connect(self):
        """A client."""
        return connect(self.path)

    def ends(self, number=None):
        """Its status, perhaps after a signal; None where it doesn't end."""
        if number is not None:
            self.run.send_signal(number)
        try:
            return self.run.wait(WAIT)
        except subprocess.TimeoutExpired:
            return None

    def service(self):
        """The process number of the service."""
        with open("/proc/%d/task/%d/children" % (self.run.pid, self.run.pid)) as file:
            return int(file.read().split()[0])

    def kilobytes(self):
        """The memory that it has."""
        with open("/proc/%d/status" % self.run.pid) as file:
            return next(int(line.split()[1]) for line in file if line.startswith("VmRSS"))

    def ticks(self):
        """Hundredths of a second that it has run."""
        with open("/proc/%d/stat" % self.run.pid) as file:
            words = file.read().rpartition(")")[2].split()
        return int(words[11]) + int(words[12])

    def descriptors(self):
        """How many files it has open."""
        return len(os.listdir("/proc/%d/fd" % self.run.pid))


def connect(path):
    """A connection to a socket."""
    client = socket.socket(socket.AF_UNIX)
    client.settimeout(WAIT)
    client.connect(path)
    return client


def reach(path):
    """A connection to a socket that is being made: its file is there a moment before it listens."""
    client = socket.socket(socket.AF_UNIX)
    client.settimeout(WAIT)
    until(lambda: client.connect_ex(path) == 0)
    return client


def lines_of(client, count):
    """So many replies; fewer where the connection ends."""
    text = b""
    while text.count(b"\n") < count:
        part = client.recv(1 << 20)
        if not part:
            break
        text += part
    return text


def all_of(client):
    """All that comes until the connection ends."""
    parts = []
    try:
        while part := client.recv(1 << 20):
            parts.append(part)
    except ConnectionError:
        pass
    return b"".join(parts)


def ask(client, line):
    """The reply to a line, with its line feed."""
    client.sendall(line + b"\n")
    return lines_of(client, 1)


TERM, KILL = signal.SIGTERM, signal.SIGKILL
