"""The rows that a script leaves in its store, with what each references."""
from __future__ import annotations

import json
from typing import Any, Dict, Iterator, List, NamedTuple, Optional, Set, Tuple

from .faults import BadInput
from .lines import JSON
from .numbers import DAY, go_moment
from .script import NO_DIGEST
from .texts import CONTENT_REFERENCE, SNAPSHOT_REFERENCE

Key = Tuple[str, str, str]  # a type as gc.explain has it, a namespace and a name
TYPES = {
    "image": "images",
    "container": "containers",
    "lease": "leases",
    "content": "content",
    "ingest": "ingests",
}
OWN = {"image": "name", "container": "name", "lease": "id", "content": "digest", "ingest": "ref"}
OPS = {"images": ("image", "name"), "containers": ("container", "name"), "leases": ("lease", "id")}
CONTENT, SNAPSHOT = CONTENT_REFERENCE.decode(), SNAPSHOT_REFERENCE.decode()
CONFIG = CONTENT + ".config"  # what a manifest's label that names its config is called
CRI = "k8s.io"  # the namespace of Kubernetes' images
ROOT, FLAT, EXPIRE = "containerd.io/gc.root", "containerd.io/gc.flat", "containerd.io/gc.expire"


class Row:
    """A row; `member` is its target, snapshot, parent or expected content."""

    __slots__ = ("labels", "member", "number", "lines", "holds", "begun", "state")

    def __init__(
        self, labels: Dict[str, str], member: Optional[Key] = None, number: int = 0
    ) -> None:
        self.labels, self.member, self.number = labels, member, number
        self.lines: List[bytes] = []  # of images, containers and leases: what adds it again
        self.holds: List[Key] = []  # of a lease
        self.begun: Optional[str] = None  # of an ingest with 24 hours of its own
        self.state = ""  # of a snapshot: active, view or committed


class Group(NamedTuple):
    """What an operator removes as one thing: names of one image, a container or a lease."""

    kind: str
    ns: str
    keys: List[Key]


class Joins:
    """Keys that are joined to one: `first` is the same for all that were."""

    def __init__(self) -> None:
        self.above: Dict[Key, Key] = {}

    def first(self, key: Key) -> Key:
        """The key that stands for all that are joined to this one."""
        while key in self.above:
            higher = self.above[key]
            self.above[key] = self.above.get(higher, higher)
            key = higher
        return key

    def join(self, one: Key, other: Key) -> None:
        """Joins two keys."""
        one, other = self.first(one), self.first(other)
        if one != other:
            self.above[one] = other


class Rows:
    """The rows of a store by their keys, in the order of the script."""

    def __init__(self, lines: List[bytes], said: Optional[List[Dict[str, Any]]] = None) -> None:
        """`said` is what each line says, if it is known; the rows take its labels over."""
        self.rows: Dict[Key, Row] = {}
        self.numbers = 0
        self.profile = 1
        self.without: Dict[Key, str] = {}  # of images that a lease holds: their own expiry
        self.at = ""
        try:
            for line, asked in zip(lines, said or map(json.loads, lines)):
                if asked["op"] == "content.add" and "lease" not in asked:  # most lines of a store
                    key = ("content", asked["ns"], asked["digest"])
                    self.rows[key] = Row(asked.get("labels", {}))
                else:
                    self.take(line, asked)
            if not self.at:
                raise ValueError
        except (ValueError, KeyError, TypeError, IndexError, AttributeError, RecursionError):
            raise BadInput("no script of export, which ends in gc.plan")

    def take(self, line: bytes, asked: Dict[str, Any]) -> None:
        """What a line of the script does to the rows."""
        op = asked["op"]
        kind, _, verb = op.partition(".")
        if kind == "content":
            self.content(verb, asked)
        elif kind == "snap":
            self.snapshot(verb, asked)
        elif kind == "ingest":
            self.ingest(verb, asked)
        elif kind in OWN:
            self.root(kind, verb, line, asked)
        elif op == "profile":
            self.profile = asked["v"]
        elif op == "gc.plan":
            self.at = asked["at"]

    def content(self, verb: str, asked: Dict[str, Any]) -> None:
        """A line on content."""
        key = ("content", asked["ns"], asked["digest"])
        if verb == "add":
            self.rows[key] = Row(asked.get("labels", {}))
            self.made(key, asked)
        elif verb == "label":
            self.rows[key].labels[asked["key"]] = asked["value"]
        else:
            del self.rows[key]

    def snapshot(self, verb: str, asked: Dict[str, Any]) -> None:
        """A line on a snapshot."""
        kind, ns = "snapshots/" + asked["snapshotter"], asked["ns"]
        if verb in ("prepare", "view"):
            self.numbers += 1
            parent = (kind, ns, asked["parent"]) if "parent" in asked else None
            row = self.rows[kind, ns, asked["key"]] = Row(
                asked.get("labels", {}), parent, self.numbers
            )
            row.state = "view" if verb == "view" else "active"
            self.made((kind, ns, asked["key"]), asked)
        elif verb == "commit":
            row = self.rows[kind, ns, asked["name"]] = self.rows.pop((kind, ns, asked["key"]))
            row.labels, row.state = asked.get("labels", {}), "committed"
            self.made((kind, ns, asked["name"]), asked)
        elif verb == "label":
            self.rows[kind, ns, asked["name"]].labels[asked["key"]] = asked["value"]
        else:
            del self.rows[kind, ns, asked["key"]]

    def ingest(self, verb: str, asked: Dict[str, Any]) -> None:
        """A line on an ingest."""
        key = ("ingests", asked["ns"], asked["ref"])
        if verb != "begin":
            del self.rows[key]
            if verb == "commit":
                content = ("content", asked["ns"], asked["digest"])
                self.rows.setdefault(content, Row(asked.get("labels", {})))
                self.made(content, asked)
            return
        self.numbers += 1
        expected = ("content", asked["ns"], asked["expected"]) if "expected" in asked else None
        row = self.rows[key] = Row({}, expected, self.numbers)
        if "lease" not in asked:
            row.begun = asked["at"]
        self.made(key, asked)

    def made(self, key: Key, asked: Dict[str, Any]) -> None:
        """Gives a lease what a line makes under it."""
        if "lease" in asked:
            lease = self.rows["leases", key[1], asked["lease"]]
            lease.holds.append(key)
            lease.lines.append(
                JSON(
                    {
                        "op": "lease.hold",
                        "ns": key[1],
                        "id": asked["lease"],
                        "type": key[0],
                        "resource": key[2],
                    }
                ).encode()
            )

    def root(self, kind: str, verb: str, line: bytes, asked: Dict[str, Any]) -> None:
        """A line on an image, a container or a lease."""
        ns = asked["ns"]
        key = (TYPES[kind], ns, asked[OWN[kind]])
        if verb == "remove":
            del self.rows[key]
            return
        if verb == "add":
            member = None
            if kind == "image":
                member = ("content", ns, asked["target"])
            elif "snapshotter" in asked:
                member = ("snapshots/" + asked["snapshotter"], ns, asked["key"])
            self.rows[key] = Row(asked.get("labels", {}), member)
        row = self.rows[key]
        row.lines.append(line)
        if verb == "hold":
            row.holds.append((asked["type"], ns, asked["resource"]))
        elif verb == "label":
            row.labels[asked["key"]] = asked["value"]

    def groups(self) -> List[Group]:
        """Images by their target, containers and leases; images of no digest stay apart.

        To CRI an image is a config: in its namespace targets of one config are one image.
        """
        found: Dict[Key, Group] = {}
        joins = Joins()
        joined: List[Tuple[Key, Key]] = []
        targets: Set[Key] = set()
        for key, row in self.rows.items():
            kind, ns, _ = key
            if kind not in OPS:
                continue
            target = key
            if kind == "images" and row.member and row.member[2] != NO_DIGEST:
                target = row.member
                if ns == CRI and target not in targets:
                    targets.add(target)
                    for config in self.configs(target):
                        joins.join(config, target)
            joined.append((key, target))
        for key, target in joined:
            first = joins.first(target) if joins.above else target
            if first not in found:
                found[first] = Group(OPS[key[0]][0], key[1], [])
            found[first].keys.append(key)
        return list(found.values())

    def configs(self, target: Key) -> List[Key]:
        """The configs of a target: those of its manifests, where it is an index."""
        found: List[Key] = []
        seen = {target}
        todo = [target]
        while todo:
            key = todo.pop()
            row = self.rows.get(key)
            for label, value in row.labels.items() if row else ():
                held = reference(label, key[1], value)
                if held and label == CONFIG:
                    found.append(held)
                elif held and held[0] == "content" and held not in seen:
                    seen.add(held)
                    todo.append(held)
        return found

    def expiry(self, key: Key) -> Optional[str]:
        """The text of the expiry that counts for this row, None where it has none."""
        if key[0] == "leases" or key[0] == "images" and self.profile == 2:
            return self.rows[key].labels.get(EXPIRE)
        return None

    def end(self, key: Key) -> Optional[int]:
        """The moment in nanoseconds after which this row is no root by itself, None without one."""
        row = self.rows[key]
        if row.begun is not None:
            begun = go_moment(row.begun)
            return None if begun is None else begun + DAY
        text = self.expiry(key)
        return None if text is None or text.startswith("9999") else go_moment(text)

    def references(self, key: Key) -> Iterator[Key]:
        """What the labels of this row reference."""
        for label, value in self.rows[key].labels.items():
            found = reference(label, key[1], value)
            if found:
                yield found


def reference(label: str, ns: str, value: str) -> Optional[Key]:
    """The row that a label references, None where it is no reference."""
    if label.startswith(SNAPSHOT):
        return "snapshots/" + label[len(SNAPSHOT) :].split("/")[0], ns, value
    if label.startswith(CONTENT) and label[len(CONTENT) :][:1] in ("", ".", "/"):
        return "content", ns, value
    return None


def remove_line(key: Key) -> bytes:
    """The line that removes an image, a container or a lease."""
    op, member = OPS[key[0]]
    return JSON({"op": op + ".remove", "ns": key[1], member: key[2]}).encode()
