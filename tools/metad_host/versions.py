"""Which version of containerd collects a store, and what that version reads of its metadata.

The file tells the version of its schema alone: one of version 4 may be that of any containerd 2, or
of a 1.7 that was put back. So the version is named by `--containerd`, else it is that of the daemon
that has the file open, else that which `copy` recorded beside its copy, else it is guessed.
"""
from __future__ import annotations

import re
from typing import NamedTuple, Optional, Tuple


class Rules(NamedTuple):
    """What a line of versions reads; `tried` is the version whose daemon was compared."""

    line: str
    tried: str
    images_expire: bool  # gc.expire on images
    leases_hold_images: bool
    image_references: bool  # gc.ref.image
    back_references: bool  # gc.bref
    sandboxes: bool  # the labels of sandboxes lead on
    pinned: bool  # the label of the images that the kubelet's own removal passes over


TABLE = (
    #     line   tried     expire leases ref.image bref  sandboxes pinned
    Rules("1.6", "1.6.20", False, False, False, False, False, False),
    Rules("1.7", "1.7.24", False, False, False, False, False, True),
    Rules("2.0", "", True, True, True, False, True, True),
    Rules("2.1", "2.1.9", True, True, True, False, True, True),
    Rules("2.2", "", True, True, True, True, True, True),
)
GUESSED = {4: "2.1"}  # by the version of the schema; any other is that of 1.7
NAMED, RUNNING, RECORDED = "named", "running", "recorded"
VERSION = re.compile(r"v?(\d{1,4})\.(\d{1,4})(?:[.~+-].*)?", re.ASCII)


class Choice(NamedTuple):
    """The rules that count, the version that was told (empty where none was), and who told it."""

    rules: Rules
    version: str
    by: str

    def is_sure(self) -> bool:
        """Whether the version was told, and a daemon of its line was tried."""
        return bool(self.by and self.rules.tried and self.rules.line == line_of(self.version))


def line_of(version: str) -> Optional[str]:
    """The line of a version, such as 2.1 of v2.1.9; None where the text is no version."""
    found = VERSION.fullmatch(version)
    return "%d.%d" % (int(found[1]), int(found[2])) if found else None


def order(line: str) -> Tuple[int, ...]:
    """Lines as numbers, to compare them."""
    return tuple(int(part) for part in line.split("."))


def rules_of(version: str) -> Rules:
    """The rules of a version; of a line that has none those of the last line before it."""
    line = line_of(version)
    found = [rules for rules in TABLE if line and order(rules.line) <= order(line)]
    return found[-1] if found else TABLE[0]


def chosen(schema: int, version: str = "", by: str = "") -> Choice:
    """The rules for a file of this schema, where a version was told or not."""
    if line_of(version):
        return Choice(rules_of(version), version, by)
    return Choice(rules_of(GUESSED.get(schema, "1.7")), "", "")


def reported(text: str) -> str:
    """The version in what `containerd --version` prints; empty where another program answered."""
    words = text.split()
    if words[:1] == ["containerd"] and len(words) > 2 and line_of(words[2]):
        return words[2]
    return ""
