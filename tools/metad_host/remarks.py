"""What a script can't say as it is: counted by its kind, with an example."""
from __future__ import annotations

from typing import Dict, List, Tuple


class Remarks:
    """The remarks of one export, in the order in which their kinds came."""

    def __init__(self) -> None:
        self.kinds: Dict[str, Tuple[int, str, bool]] = {}

    def add(self, kind: str, example: str, plan: bool = False, count: int = 1) -> None:
        """Counts a thing of this kind.

        `plan` tells that the plan may differ from the daemon's collection because of it. One such
        thing is enough for its kind, and is the example.
        """
        before, first, changes = self.kinds.get(kind, (0, example, plan))
        if plan and not changes:
            first, changes = example, True
        self.kinds[kind] = before + count, first, changes

    def may_change_plan(self) -> bool:
        """Whether a remark tells that the plan may differ from the daemon's collection."""
        return any(plan for _, _, plan in self.kinds.values())

    def texts(self) -> List[str]:
        """A line for each kind, those first that may change the plan."""
        lines = []
        for kind, found in sorted(self.kinds.items(), key=lambda item: not item[1][2]):
            count, example, plan = found
            first = "may change the plan: " if plan else ""
            lines.append("%s%s: %d, such as %s" % (first, kind, count, printable(example)))
        return lines


def printable(text: str) -> str:
    """A text on one line, and no longer than one.

    Control characters are escaped, and the end of a long text goes.
    """
    text = "".join(char if char.isprintable() else escaped(char) for char in text)
    return text if len(text) <= 200 else text[:197] + "..."


def escaped(char: str) -> str:
    """A character as Python writes one that can't be printed."""
    return char.encode("unicode_escape", "backslashreplace").decode()
