#!/usr/bin/env python3
"""stand_in.py [--numbered] [--lock FILE]: a service that answers lines in order, a block at a time,
as `metad run` does.

    =text             itself
    reply=N           N times y
    sleep=S           {"ok":true}, after S seconds
    end=N             its end, with this status, once the lines before are answered
    signal=N          its end by this signal
    extra             two lines
    skip              with --numbered the number of the next line, in place of its own
    anything else     {"ok":true}

Before such a text may stand anything that ends with a space, and behind it `"}`. With --numbered
each reply begins with its line's number. With --lock it ends with 4 where another has this file.
"""
import fcntl
import os
import sys
import time


def answer(line):
    """The reply to a line, or None where it ends."""
    if line.startswith(b"="):
        return line
    name, _, value = line.split(b" ")[-1].rstrip(b'"}').partition(b"=")
    if name == b"reply":
        return b"y" * int(value)
    if name == b"sleep":
        time.sleep(float(value))
    if name == b"extra":
        return b"one\ntwo"
    return b'{"ok":true}'


def write(text):
    """Writes all of it."""
    while text:
        text = text[os.write(1, text) :]


def main():
    """Answers until the input ends."""
    numbered = "--numbered" in sys.argv
    if "--lock" in sys.argv:
        file = os.open(sys.argv[sys.argv.index("--lock") + 1], os.O_RDWR | os.O_CREAT)
        try:
            fcntl.flock(file, fcntl.LOCK_EX | fcntl.LOCK_NB)
        except OSError:
            return 4
    part = b""
    number = 0
    while True:
        block = os.read(0, 65536)
        *lines, part = (part + block).split(b"\n")
        replies = []
        for line in filter(None, lines):
            if line.startswith((b"end=", b"signal=")):
                write(b"".join(replies))
                if line.startswith(b"end="):
                    return int(line[4:])
                os.kill(os.getpid(), int(line[7:]))
            number += 1
            if numbered:
                replies.append(b"%d " % (number + (line == b"skip")))
            replies.append(answer(line) + b"\n")
        write(b"".join(replies))
        if not block:
            return 0


sys.exit(main())
