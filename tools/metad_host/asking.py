"""A run of metad that is asked over pipes: lines go there while replies are read."""
from __future__ import annotations

import json
import os
import subprocess
import threading
from typing import IO, Any, Dict, Iterable, Iterator, List, Optional

from .faults import BadInput, Missing

DONE = b'{"ok":true}\n'
PART = 1 << 16  # bytes that are written at once
MANY = 1000  # replies that are read at once


def program(named: Optional[str]) -> str:
    """The program that answers: that is named, or the built one of the pack or repository."""
    if named:
        if os.path.isfile(named) and os.access(named, os.X_OK):
            return os.path.abspath(named)
        raise Missing("--metad %s: no program is there" % named)
    here = os.path.dirname(os.path.dirname(os.path.dirname(os.path.realpath(__file__))))
    found = os.path.join(here, "crates", "metad", "out", "metad")
    if os.path.exists(os.path.join(here, "PACK")):
        if os.access(found, os.X_OK):
            return found
        raise Missing("this pack lacks its program crates/metad/out/metad: unpack it again")
    command = os.path.join(here, "metad")
    if os.path.exists(command) and subprocess.call([command, "built"]) == 0:
        return found
    raise Missing(
        "metad isn't built: run ./metad build, use a pack, or name a program by --metad PROGRAM"
    )


class Metad:
    """One run of the program; `with` ends it."""

    def __init__(self, path: str) -> None:
        self.process = subprocess.Popen(
            [path, "run"], stdin=subprocess.PIPE, stdout=subprocess.PIPE
        )

    def __enter__(self) -> "Metad":
        return self

    def __exit__(self, *fault: object) -> None:
        self.process.kill()
        for pipe in (self.process.stdin, self.process.stdout):
            try:
                if pipe:
                    pipe.close()
            except OSError:
                pass
        self.process.wait()

    def replies(self, lines: List[bytes]) -> Iterator[bytes]:
        """The reply to each of these lines, as it comes."""
        stdin, stdout = self.process.stdin, self.process.stdout
        assert stdin and stdout
        writer = threading.Thread(target=write, args=(stdin, lines), daemon=True)
        writer.start()
        for number in range(1, len(lines) + 1):
            reply = stdout.readline()
            if not reply.endswith(b"\n"):
                raise BadInput(
                    "metad ended before its reply to request %d of %d" % (number, len(lines))
                )
            yield reply
        writer.join()

    def load(self, lines: List[bytes]) -> None:
        """Lines that are answered with `ok`, and most of them with that alone."""
        stdin, stdout = self.process.stdin, self.process.stdout
        assert stdin and stdout
        writer = threading.Thread(target=write, args=(stdin, lines), daemon=True)
        writer.start()
        for place in range(0, len(lines), MANY):
            part = lines[place:place + MANY]
            # no reply is shorter than that
            found = stdout.read(len(part) * len(DONE))
            if found != len(part) * DONE:
                self.look_at(part, found, place, len(lines))
        writer.join()

    def look_at(self, lines: List[bytes], begin: bytes, place: int, count: int) -> None:
        """The replies to these lines one by one; so many bytes of them were read."""
        stdout = self.process.stdout
        assert stdout
        replies = begin.splitlines(keepends=True)
        for number, line in enumerate(lines):
            reply = replies[number] if number < len(replies) else b""
            if not reply.endswith(b"\n"):
                reply += stdout.readline()
            if not reply.endswith(b"\n"):
                told = "metad ended before its reply to request %d of %d"
                raise BadInput(told % (place + number + 1, count))
            if reply != DONE:
                answer(line, reply)

    def reports(self, lines: List[bytes]) -> Iterator[Dict[str, Any]]:
        """The report of each of these lines that is answered with one."""
        for line, reply in zip(lines, self.replies(lines)):
            if reply != DONE:
                found = answer(line, reply).get("report")
                if found is not None:
                    yield found

    def ask(self, op: str, **members: str) -> Dict[str, Any]:
        """The reply to one request, which isn't refused."""
        line = request(op, **members)
        stdin, stdout = self.process.stdin, self.process.stdout
        assert stdin and stdout
        write(stdin, [line])
        reply = stdout.readline()
        if not reply.endswith(b"\n"):
            raise BadInput("metad ended before its reply to %s" % op)
        return answer(line, reply)

    def report(self, op: str, at: str) -> Dict[str, Any]:
        """The report of a collection, or of a dry run, at this moment."""
        found: Dict[str, Any] = self.ask(op, at=at)["report"]
        return found


def request(op: str, **members: str) -> bytes:
    """A request line, without its line feed."""
    return json.dumps({"op": op, **members}, ensure_ascii=False).encode()


def write(stdin: IO[bytes], lines: Iterable[bytes]) -> None:
    """Writes the lines in parts; where the program ended, whoever reads its replies tells so."""
    try:
        part: List[bytes] = []
        size = 0
        for line in lines:
            part.append(line)
            size += len(line)
            if size > PART:
                stdin.write(b"\n".join(part) + b"\n")
                part, size = [], 0
        if part:
            stdin.write(b"\n".join(part) + b"\n")
        stdin.flush()
    except (OSError, ValueError):
        pass


def answer(line: bytes, reply: bytes) -> Dict[str, Any]:
    """A reply as an object; a refusal is refused, with the line that it answers."""
    try:
        found = json.loads(reply.decode())
    except ValueError:
        raise BadInput("a reply of metad isn't whole: is the program metad?")
    if not isinstance(found, dict) or found.get("ok") is not True:
        asked, told = (
            line[:150].decode("utf-8", "replace"),
            reply.decode("utf-8", "replace").strip(),
        )
        raise BadInput("metad answered %s to %s" % (told, asked))
    return found
