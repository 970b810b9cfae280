"""What a word prints: lines for people, cut to a terminal's width, or one JSON object."""
from __future__ import annotations

import json
import os
import sys
from typing import Any, Dict, Iterable, List, Optional

from .progress import Progress
from .sizes import human


class Whole(str):
    """A line that isn't cut, since its end says what was asked."""


class Printer:
    """How sizes are written, and where lines end."""

    def __init__(self, words: Any, progress: Progress) -> None:
        progress.end()
        self.raw, self.json = words.bytes, words.json
        self.width: Optional[int] = None
        if sys.stdout.isatty():
            self.width = os.get_terminal_size(sys.stdout.fileno()).columns or None

    def size(self, count: Optional[int]) -> str:
        """Bytes in units, or as they are."""
        if count is None:
            return "unknown"
        return str(count) if self.raw else str(human(count))

    def more_unknown(self, count: int) -> str:
        """What stands behind a sum in which some sizes are missing."""
        return " (+ %d of unknown size)" % count if count else ""

    def cut(self, line: str) -> str:
        """A line that fits the terminal, if there is one."""
        if self.width is None or len(line) <= self.width or isinstance(line, Whole):
            return line
        return shorter(line, self.width)

    def lines(self, lines: Iterable[str]) -> None:
        """Prints these lines."""
        sys.stdout.write("".join(self.cut(line) + "\n" for line in lines))
        sys.stdout.flush()

    def object(self, members: Dict[str, Any]) -> None:
        """Prints a JSON object."""
        sys.stdout.write(json.dumps(members, ensure_ascii=False, indent=1) + "\n")
        sys.stdout.flush()


def shorter(line: str, width: int) -> str:
    """A line of this width: its longest word loses its middle, since the ends of names differ."""
    word = max(line.split(), key=len, default="")
    left = len(word) - (len(line) - width) - 3
    if left < 8:  # a word of a few letters says nothing: the line's end goes
        return line[: max(width - 3, 0)] + "..."
    end = left - left // 2
    return line.replace(word, word[: left // 2] + "..." + word[len(word) - end:], 1)


def first(items: List[Any], limit: int) -> List[Any]:
    """So many of these, all with 0."""
    return items[:limit] if limit else items


def and_more(count: int, limit: int) -> List[str]:
    """A line that tells how many aren't shown."""
    return (
        ["%14s and %d more (--limit 0 shows all)" % ("", count - limit)]
        if limit and count > limit
        else []
    )
