"""Tells on standard error what a word does, where it takes over a second."""
from __future__ import annotations

import sys
import threading
import time
from typing import Optional, TextIO

FIRST = 1.0  # seconds before the first line
STEP = 10.0  # seconds between lines that say the same, where standard error is no terminal


class Progress:
    """What is being done now, told by a thread of its own; `with` ends it."""

    def __init__(self, name: str, out: Optional[TextIO] = None) -> None:
        self.name, self.out = name, out or sys.stderr
        self.terminal = self.out.isatty()
        self.text, self.told, self.told_at = "", "", 0.0
        self.start = time.monotonic()
        self.over = threading.Event()
        self.thread = threading.Thread(target=self.watch, daemon=True)

    def __enter__(self) -> "Progress":
        self.thread.start()
        return self

    def __exit__(self, *fault: object) -> None:
        self.end()

    def end(self) -> None:
        """Nothing more is told; a terminal's line goes."""
        self.over.set()
        self.thread.join()
        if self.terminal and self.told:
            self.write("\r\x1b[K")
            self.told = ""

    def say(self, text: str) -> None:
        """What is done from now on."""
        self.text = text

    def seconds(self) -> float:
        """How long the word has taken."""
        return time.monotonic() - self.start

    def watch(self) -> None:
        """Tells it each second, until the word is over."""
        while not self.over.wait(FIRST):
            self.tell()

    def tell(self) -> None:
        """Writes the line, where there is something new in it or some time has gone by."""
        if not self.text:
            return
        line = "%s: %s (%d s)" % (self.name, self.text, self.seconds())
        if self.terminal:
            self.write("\r\x1b[K" + line)
        elif (
            self.text.split(",")[0] != self.told.split(",")[0]
            or self.seconds() - self.told_at > STEP
        ):
            self.write(line + "\n")
            self.told_at = self.seconds()
        else:
            return
        self.told = self.text

    def write(self, text: str) -> None:
        """Writes to standard error, if anyone reads it."""
        try:
            self.out.write(text)
            self.out.flush()
        except (OSError, ValueError):
            pass
