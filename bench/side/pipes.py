"""Runs of one program by lines through pipes: what its phases take, its peak memory, its replies.

The clock starts once the program has answered a first line, so that its start isn't in it; a phase
ends with its last reply. `Program.clock` is "wall", or "processor" for what all threads of the
program together spent on processors, which a busy machine changes less. Peak memory is VmHWM of
/proc/PID/status, read before the program ends: the figure of `wait4` holds this process's own
memory too, since a child begins as its copy.
"""

import array
import fcntl
import os
import select
import subprocess
import threading
import time

BLOCK = 1 << 20
LIMIT = 900  # seconds without a byte of a reply, after which a program has failed
FIRST_LINE = b'{"op":"ns.list"}\n'


class Failed(Exception):
    """A program that ended or answered otherwise than it should."""


class Replies:
    """The replies of a script: the first program's are kept in a file, all others compared."""

    def __init__(self, path):
        self.path, self.known = path, False

    def begin(self):
        self.file, self.line = open(self.path, "rb" if self.known else "wb"), 1

    def take(self, blocks):
        for block in blocks:
            if not self.known:
                self.file.write(block)
                continue
            wanted = self.file.read(len(block))
            if block != wanted:
                same = len(os.path.commonprefix([block, wanted]))
                raise Failed("another reply to line %d" % (self.line + block[:same].count(b"\n")))
            self.line += block.count(b"\n")

    def end(self):
        more = self.known and self.file.read(1)
        self.file.close()
        self.known = True
        if more:
            raise Failed("fewer replies than the other program")


class Program:
    """A program that runs."""

    clock = "wall"

    def __init__(self, path, workers):
        words = [path, "run", "--workers", str(workers)]
        self.process = subprocess.Popen(words, stdin=subprocess.PIPE, stdout=subprocess.PIPE, bufsize=0)
        self.lines, self.replies = self.process.stdin.fileno(), self.process.stdout.fileno()
        for pipe in (self.lines, self.replies):
            fcntl.fcntl(pipe, getattr(fcntl, "F_SETPIPE_SZ", 1031), BLOCK)

    def __enter__(self):
        return self

    def __exit__(self, *fault):
        self.process.kill()
        self.process.wait()
        for pipe in (self.process.stdin, self.process.stdout):
            pipe.close()

    def now(self):
        """Nanoseconds by the clock."""
        if self.clock == "wall":
            return time.perf_counter_ns()
        # what clock_getcpuclockid(3) gives for the process: CPUCLOCK_SCHED of its number
        return time.clock_gettime_ns((~self.process.pid << 3) | 2)

    def send(self, data):
        while data:
            data = data[os.write(self.lines, data):]

    def answers(self, count):
        """The bytes of so many replies, in blocks."""
        blocks = []
        while count > 0:
            if not select.select([self.replies], [], [], LIMIT)[0]:
                raise Failed("no reply within %d s" % LIMIT)
            block = os.read(self.replies, BLOCK)
            if not block:
                raise Failed("it ended before its last reply, with status %s" % self.process.wait())
            count -= block.count(b"\n")
            blocks.append(block)
        return blocks

    def ask(self, line):
        """Seconds until a line's reply is whole, and the reply in blocks."""
        start = self.now()
        self.send(line)
        blocks = self.answers(1)
        return (self.now() - start) / 1e9, blocks

    def ask_file(self, path, count):
        """Seconds until a file of so many lines is answered, and the replies in blocks."""
        def feed():
            with open(path, "rb") as script:
                try:
                    for block in iter(lambda: script.read(BLOCK), b""):
                        self.send(block)
                except BrokenPipeError:
                    pass  # the reader of the replies says so

        feeder = threading.Thread(target=feed, daemon=True)
        start = self.now()
        feeder.start()
        try:
            blocks = self.answers(count)
            seconds = (self.now() - start) / 1e9
        except Failed:
            self.process.kill()  # the feeder's next write fails, before its pipe is closed
            raise
        finally:
            feeder.join()
        return seconds, blocks

    def status(self, key):
        """A size of /proc/PID/status, in KiB."""
        with open("/proc/%d/status" % self.process.pid) as lines:
            return next(int(line.split()[1]) for line in lines if line.startswith(key + ":"))

    def end(self):
        """Seconds from the end of the lines to the end of the program."""
        start = self.now()
        self.process.stdin.close()
        rest = os.read(self.replies, BLOCK)
        status, usage = os.wait4(self.process.pid, 0)[1:]
        self.process.returncode = status = os.WEXITSTATUS(status) if os.WIFEXITED(status) else -1
        end = self.now() if self.clock == "wall" else (usage.ru_utime + usage.ru_stime) * 1e9
        seconds = max(end - start, 1000) / 1e9  # rusage counts whole microseconds
        if rest or status != 0:
            raise Failed("it ended with status %d%s" % (status, ", after a reply too many" if rest else ""))
        return seconds


def play(path, workers, script, count, phases, replies):
    """One run: the script's requests, then a line for each of the phases ({name: line}).

    Gives seconds by phase (`requests`, the phases' names, `end`) and peaks of memory in KiB (`memory
    after requests`, and `memory after` each phase).
    """
    found = {}
    replies.begin()
    with Program(path, workers) as program:
        program.ask(FIRST_LINE)
        found["requests"], blocks = program.ask_file(script, count)
        found["memory after requests"] = program.status("VmHWM")
        replies.take(blocks)
        for name, line in phases.items():
            found[name], blocks = program.ask(line)
            found["memory after " + name] = program.status("VmHWM")
            replies.take(blocks)
        del blocks
        found["end"] = program.end()
    replies.end()
    return found


def reply_times(path, lines, replies):
    """Nanoseconds of each line's reply, each line sent once the one before is answered."""
    times = array.array("q")
    answered = []
    replies.begin()
    with Program(path, 1) as program:
        program.ask(FIRST_LINE)
        for line in lines:
            start = program.now()
            os.write(program.lines, line)
            block = os.read(program.replies, BLOCK)
            if not block.endswith(b"\n"):
                block += b"".join(program.answers(1))
            times.append(program.now() - start)
            answered.append(block)
        program.end()
    replies.take(answered)
    replies.end()
    return times


def sizes_around(path, lines, places):
    """By how many KiB the program's memory (VmSize) grew in the lines at the given places."""
    grown = {}
    with Program(path, 1) as program:
        program.ask(FIRST_LINE)
        for place, line in enumerate(lines[:max(places) + 1]):
            before = program.status("VmSize") if place in places else 0
            program.ask(line)
            if place in places:
                grown[place] = program.status("VmSize") - before
    return grown
