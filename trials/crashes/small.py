#!/usr/bin/env python3
"""A small store with two files, to try the trials of crashes on: small.py serve --dir DIR ..

It answers by the second model, and is right where BUG isn't set. BUG is one of: late (replies go
out before their lines are synced), nosync, half (only the first half of a block is synced),
unsummed (a torn block is believed), front (a start writes at the front), early (a checkpoint is
chosen before it is synced), swap (each reply has the next line's place).
"""
import os
import sys
import zlib

HERE = os.path.dirname(os.path.realpath(__file__))
sys.path.insert(0, os.path.join(os.path.dirname(HERE), "scripts"))

import model  # noqa: E402 (the path above finds it)

BUG = os.environ.get("BUG", "")
NAMES = ("metad.journal", "metad.journal-wal")
# a file's head: one page, whose last byte before a line feed says which file counts, and the second
# one's generation
HEAD, CHOICE = 4096, 4091


def changes(reply):
    """Whether the line of a reply is kept."""
    if reply is None:
        return False
    return reply == '{"ok":true}' or ('"report"' in reply and '"dry":false' in reply)


class Small:
    """The store of a folder."""

    def __init__(self, folder):
        self.files = [os.open(os.path.join(folder, name), os.O_RDWR | os.O_CREAT, 0o600)
                      for name in NAMES]
        for file in self.files:
            if os.fstat(file).st_size < HEAD:
                self.put(file, 0, bytes(HEAD - 1) + b"\n")
                os.fdatasync(file)
        self.active = int(os.pread(self.files[0], 1, CHOICE) == b"+")
        self.store, self.lines, self.end = model.Store(), [], HEAD
        text = os.pread(self.files[self.active], 1 << 30, HEAD)
        at = 0
        while at + 8 <= len(text):
            count, total = (int.from_bytes(text[it : it + 4], "little") for it in (at, at + 4))
            block = text[at + 8 : at + 8 + count]
            is_torn = len(block) < count or (zlib.crc32(block) != total and BUG != "unsummed")
            if count == 0 or is_torn:
                break
            self.takes(block.split(b"\n")[:-1])
            at += 8 + count
        self.end = HEAD if BUG == "front" else HEAD + at
        # what was never whole goes
        os.ftruncate(self.files[self.active], max(HEAD + at, self.end))
        os.fdatasync(self.files[self.active])

    def takes(self, lines):
        for line in lines:
            self.store.answer(line)
            self.lines.append(line)

    def put(self, file, at, data):
        while data:
            done = os.pwrite(file, data, at)
            at, data = at + done, data[done:]

    def block(self, lines):
        text = b"".join(line + b"\n" for line in lines)
        return len(text).to_bytes(4, "little") + zlib.crc32(text).to_bytes(4, "little") + text

    def keeps(self, lines):
        """Lines that changed the store are in the file, and synced."""
        file, data = self.files[self.active], self.block(lines)
        if BUG == "half":
            self.put(file, self.end, data[: len(data) // 2])
            os.fdatasync(file)
            self.put(file, self.end + len(data) // 2, data[len(data) // 2 :])
        else:
            self.put(file, self.end, data)
            if BUG != "nosync":
                os.fdatasync(file)
        self.end += len(data)

    def renews(self):
        """The other file has all lines, and counts."""
        other, data = self.files[1 - self.active], self.block(self.lines) if self.lines else b""
        os.ftruncate(other, HEAD)
        self.put(other, HEAD, data)
        if BUG != "early":
            os.fdatasync(other)
        self.put(self.files[0], CHOICE, b"+" if self.active == 0 else b"\0")
        os.fdatasync(self.files[0])
        if BUG == "early":
            os.fdatasync(other)
        self.active, self.end = 1 - self.active, HEAD + len(data)

    def answers(self, lines):
        """The replies to the lines of a block, once what they change is kept."""
        replies, kept = [], []
        for line in lines:
            reply = self.store.answer(line)
            if reply is not None:
                replies.append(reply.encode() + b"\n")
                if changes(reply):
                    kept.append(line)
        self.lines += kept
        if BUG == "swap":
            replies = replies[1:] + replies[:1]
        if BUG == "late":
            os.write(1, b"".join(replies))
        if kept:
            self.keeps(kept)
        if BUG != "late":
            data = b"".join(replies)
            while data:
                data = data[os.write(1, data) :]


def main():
    small = Small(sys.argv[sys.argv.index("--dir") + 1])
    if "--checkpoint" in sys.argv:
        small.renews()
    rest = b""
    while block := os.read(0, 65536):
        *lines, rest = (rest + block).split(b"\n")
        small.answers(lines)
    if rest:
        small.answers([rest])


main()
