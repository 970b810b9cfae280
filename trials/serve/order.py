"""Clients of the built program: what each gets is what `metad run` answers in the order served."""
import glob
import os
import random
import shlex
import subprocess
import sys
import threading

from fronts import TOP, Front, Told, ask, lines_of

wants = Told.wants


def requests():
    """Request lines of the examples, which are answered in every way."""
    lines = []
    for path in sorted(glob.glob(os.path.join(TOP, "examples", "*.script"))):
        with open(path, "rb") as file:
            lines += [line for line in file.read().split(b"\n")
                      if line.startswith(b'{"op"') and line.endswith(b"}")]
    return lines


def talk(front, number, lines, replies):
    """Sends these lines in parts cut anywhere, and keeps what comes meanwhile."""
    chance = random.Random(number)
    text = b"".join(line + b"\n" for line in lines)
    with front.connect() as client:

        def send():
            at = 0
            while at < len(text):
                count = chance.choice((1, 50, 1000, 20000))
                client.sendall(text[at : at + count])
                at += count

        sender = threading.Thread(target=send)
        sender.start()
        replies[number] = lines_of(client, len(lines))
        sender.join()


def compare(program, count):
    """So many clients at once. A client's lines begin with as many spaces as its number says."""
    lines = requests()
    with Front() as folder:
        order = os.path.join(folder.folder, "order")
        shell = "tee %s | %s run" % (shlex.quote(order), shlex.quote(program))
        with Front(["/bin/sh", "-c", shell]) as front:
            replies = [b""] * count
            threads = [
                threading.Thread(target=talk, args=(front, number,
                                 [b" " * number + line for line in lines], replies))
                for number in range(count)
            ]
            for thread in threads:
                thread.start()
            for thread in threads:
                thread.join()
            wants("a front over the program ends with 0", front.ends(15) == 0)
        with open(order, "rb") as file:
            own, _, served = file.read().partition(b"\n")
        wants("the front's own line comes first", own == b"?", own)
    alone = subprocess.run([program, "run"], input=served, capture_output=True, check=True).stdout
    wanted = [[] for _ in range(count)]
    sent = [[] for _ in range(count)]
    for line, reply in zip(served.split(b"\n"), alone.splitlines(keepends=True)):
        number = len(line) - len(line.lstrip(b" "))
        wanted[number].append(reply)
        sent[number].append(line.lstrip(b" "))
    for number in range(count):
        wants("lines of a client are served in its order", sent[number] == lines, number, count)
        wants("a client of %d gets its replies" % count,
              replies[number] == b"".join(wanted[number]), number)


def example(program):
    """The client of examples/ that talks over a socket."""
    clients = os.path.join(TOP, "examples", "clients")
    with Front([program, "run"]) as front:
        command = [sys.executable, os.path.join(clients, "socket_client.py"), front.path]
        output = subprocess.run(command, capture_output=True, timeout=60).stdout
    with open(os.path.join(clients, "expected"), "rb") as file:
        wants("the example's client", output == file.read(), output)


def lengths(program):
    """The longest line is read as a request, and one more byte is too long."""
    with Front([program, "run"]) as front, front.connect() as client:
        for length, reply in ((65536, b'{"fault":5,"name":"BadLine"}\n'),
                              (65537, b'{"fault":6,"name":"TooLong"}\n'),
                              (200000, b'{"fault":6,"name":"TooLong"}\n')):
            wants("a line of %d bytes" % length, ask(client, b"x" * length) == reply)


def run(program):
    """One client, eight, the example's, and long lines."""
    for count in (1, 8):
        compare(program, count)
    example(program)
    lengths(program)
