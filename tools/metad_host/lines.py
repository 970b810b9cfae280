"""Request lines, each within metad's bounds.

Labels that don't fit a line follow it, and references over 256 stand on rows between.
"""
from __future__ import annotations

import hashlib
import json
from typing import Any, Callable, Dict, List, Optional, Tuple

LINE_BYTES = 65000  # below metad's 65,536, with room for the braces
MOST_LABELS = 256
MOVED = 250  # references that go to one row between
Label = Tuple[str, str]  # a key and a value
JSON = json.JSONEncoder(ensure_ascii=False, separators=(",", ":")).encode


class Lines:
    """The lines of one script in `written`, and in `between` rows that only carry references."""

    def __init__(self, keep: bool = False) -> None:
        """`keep` keeps in `asked` what each line says, so that no one has to read it again."""
        self.written: List[bytes] = []
        self.asked: Optional[List[Dict[str, Any]]] = [] if keep else None
        self.between: Dict[str, bool] = {}

    def say(self, op: str, **members: object) -> None:
        """A request of these members, in their order."""
        asked: Dict[str, object] = {"op": op, **members}
        self.written.append(JSON(asked).encode())
        if self.asked is not None:
            self.asked.append(asked)

    def unsay(self) -> None:
        """Takes the last request back."""
        self.written.pop()
        if self.asked is not None:
            self.asked.pop()

    def add(
        self, op: str, labels: List[Label], label_op: Tuple[str, Dict[str, str]], **members: object
    ) -> None:
        """A request with the labels that fit its line, and the others one by one by `label_op`."""
        fitting = self.fitting(members, labels)
        if fitting:
            members["labels"] = dict(labels[:fitting])
        self.say(op, **members)
        for key, value in labels[fitting:]:
            self.say(label_op[0], **label_op[1], key=key, value=value)

    def fitting(self, members: Dict[str, object], labels: List[Label]) -> int:
        """How many of the labels fit a line with these members."""
        if sum(len(key) + len(value) for key, value in labels) < 1000 and len(labels) < 100:
            return len(labels)
        size = len(JSON(members).encode())
        for place, (key, value) in enumerate(labels):
            size += len(JSON({key: value}).encode())
            if size > LINE_BYTES:
                return place
        return len(labels)

    def row_between(self, ns: str, labels: List[Label]) -> Label:
        """A row of content with these references alone, and the label that references it."""
        digest = "sha512:" + hashlib.sha512(json.dumps([ns, labels]).encode()).hexdigest()
        if digest not in self.between:
            self.between[digest] = True
            self.add(
                "content.add",
                labels,
                ("content.label", {"ns": ns, "digest": digest}),
                ns=ns,
                digest=digest,
            )
        return "containerd.io/gc.ref.content/between.%s" % digest[7:39], digest

    def within_bounds(
        self, ns: str, labels: List[Label], is_reference: Callable[[str], bool]
    ) -> List[Label]:
        """At most 256 labels that say the same: references beyond stand on rows between."""
        if len(labels) <= MOST_LABELS:
            return labels
        references = [label for label in labels if is_reference(label[0])]
        others = [label for label in labels if not is_reference(label[0])]
        while len(others) + len(references) > MOST_LABELS:
            moved, references = references[:MOVED], references[MOVED:]
            references.append(self.row_between(ns, moved))
        return others + references
