#!/usr/bin/env python3
"""trials/clients/lengths.py PROGRAM: a client that waits for each reply gets replies as long as the program's block, and a byte shorter or longer.

The program hands its bytes on in blocks of 8,192. It has to hand on a reply before it reads on, also one that ends with a block.
"""
import select
import subprocess
import sys

BLOCK = 8192
WAIT = 20


class Client:
    def __init__(self, program):
        self.run = subprocess.Popen([program, "run"], stdin=subprocess.PIPE, stdout=subprocess.PIPE, bufsize=0)
        self.held = b""

    def ask(self, line):
        """The reply to a line, without its line feed, or None if none comes."""
        self.run.stdin.write(line.encode() + b"\n")
        while b"\n" not in self.held:
            ready, _, _ = select.select([self.run.stdout], [], [], WAIT)
            more = self.run.stdout.read(65536) if ready else b""
            if not more:
                return None
            self.held += more
        reply, _, self.held = self.held.partition(b"\n")
        return reply

    def end(self):
        self.run.stdin.close()
        rest = self.run.stdout.read()
        return self.run.wait(), rest


def names_of(length):
    """Names whose listing is a reply of this length, with its line feed."""
    left = length - len('{"names":[],"ok":true}\n')
    names = []
    while left > 2 * 64:
        names.append("n%05d" % len(names) + "a" * 54)
        left -= 60 + 3
    # the comma before the last name, and its quotes
    first = (left + 1) // 2
    for size in (first, left + 1 - first):
        names.append("n%05d" % len(names) + "b" * (size - 3 - 6))
    return names


def tried(program, length):
    client = Client(program)
    names = names_of(length)
    for name in names:
        if client.ask('{"op":"ns.add","ns":"%s"}' % name) != b'{"ok":true}':
            return "a name wasn't added"
    wanted = ('{"names":[%s],"ok":true}' % ",".join('"%s"' % name for name in sorted(names))).encode()
    if len(wanted) + 1 != length:
        return "the trial asks for %d bytes" % (len(wanted) + 1)
    for _ in range(2):
        reply = client.ask('{"op":"ns.list"}')
        if reply is None:
            client.run.kill()
            return "no reply came"
        if reply != wanted:
            return "the reply is another"
    if client.end() != (0, b""):
        return "the run didn't end well"
    return None


def main():
    program = sys.argv[1]
    status = 0
    for blocks in (1, 2, 4):
        for more in (-1, 0, 1):
            length = blocks * BLOCK + more
            fault = tried(program, length)
            if fault:
                print("clients: a reply of %d bytes: %s" % (length, fault))
                status = 1
    if status == 0:
        print("clients: replies as long as a block, and a byte shorter or longer, come at once")
    return status


sys.exit(main())
