"""A store that a word asks about: its script, sizes and rows, and runs of metad that hold it."""
from __future__ import annotations

import os
import sys
import time
from typing import Any, Container, Dict, Iterator, List, Optional, Set, Tuple

from . import asking, daemon, disk, exporting, measuring, sizes
from .asking import Metad
from .disk import Disk
from .faults import BadInput, Missing
from .freed import Later
from .lines import JSON
from .progress import Progress
from .remarks import printable
from .rows import EXPIRE, Group, Key, Rows, remove_line
from .script import Script

SANDBOX = "sandbox:"  # what the name of a sandbox begins with in a script


class Store:
    """A store, of a daemon's folder, of a meta.db, or of what `export` wrote elsewhere."""

    def __init__(
        self, words: Any, progress: Progress, program: bool = True, look: bool = False
    ) -> None:
        """`look` looks at the disk too, as far as ROOT is a daemon's folder."""
        self.progress = progress
        self.disk: Optional[Disk] = None
        self.program = asking.program(words.metad) if program else ""
        self.remarks: List[str] = []  # what may change the plan
        self.notes: List[str] = []  # what else is told on standard error
        self.root = words.root
        self.daemon = daemon.NONE
        progress.say("reading %s" % words.root)
        said = None
        if words.sizes:
            self.read_export(words)
        else:
            self.daemon = exporting.daemon_of(words.root)
            told = exporting.told_version(words.containerd, self.daemon)
            script, remarks = exporting.script_of(words.root, words.at, told=told, keep=True)
            self.lines, said, found = script.lines.written, script.lines.asked, script.sizes
            self.look(words, script, look)
            del script  # with the whole tree of the file
            texts = remarks.texts()
            self.remarks = [text for text in texts if text.startswith("may change the plan")]
            self.notes = [text for text in texts if text.startswith("files that memory")]
        self.read_seconds = progress.seconds()
        self.read_at = round(time.time(), 3)
        progress.say("taking in %d lines" % len(self.lines))
        try:
            self.measure = sizes.Measure(found if not words.sizes else sizes.read(words.sizes))
        except BadInput as bad:
            raise BadInput("%s: %s" % (words.sizes, bad))
        try:
            self.rows = Rows(self.lines, said)
        except BadInput as bad:
            raise BadInput("%s: %s" % (words.root, bad))
        self.at: str = words.at or self.rows.at
        self.sandboxes = {tuple(row) for row in self.measure.sizes["sandboxes"]}
        self.held: Dict[Key, List[Tuple[Key, str, str]]] = {}
        self.take_in_held()
        self.set_uses()

    def look(self, words: Any, script: Script, look: bool) -> None:
        """Measures what no one recorded, and looks at the disk, or takes both from a copy."""
        if not os.path.isdir(words.root):
            record = daemon.record(exporting.files(words.root)[0])
            measuring.take_in(script.sizes, record.get("measured"))
            self.disk = disk.of_record(record.get("disk"))
        elif look:
            self.progress.say("looking at the disk")
            self.disk = disk.look(words.root, script.listed, script)
        if getattr(words, "measure", False):
            measuring.measure(words.root, script.sizes, self.progress)
            if self.disk and look:
                self.disk = measuring.whole(words.root, self.disk, self.progress)

    def read_export(self, words: Any) -> None:
        """The lines that `export` wrote to a file."""
        if getattr(words, "measure", False):
            raise Missing(measuring.WANTS)
        if os.path.isdir(words.root):
            raise Missing(
                "--sizes goes with a script that export wrote, and %s is a folder" % words.root
            )
        with open(words.root, "rb") as file:
            self.lines = [line for line in file.read().split(b"\n") if line]

    def take_in_held(self) -> None:
        """Version 4: a lease may hold images, which the script keeps by a later end."""
        for ns, lease, image, without, later in self.measure.sizes["held"]:
            key = ("images", ns, image)
            if key in self.rows.rows and ("leases", ns, lease) in self.rows.rows:
                self.rows.rows["leases", ns, lease].holds.append(key)
                self.held.setdefault(("leases", ns, lease), []).append((key, without, later))
                self.rows.without[key] = without

    def removal(self, key: Key, gone: Container[Key] = ()) -> List[bytes]:
        """The lines that remove an image, a container or a lease."""
        held = [
            (image, without) for image, without, _ in self.held.get(key, ()) if image not in gone
        ]
        return [remove_line(key)] + [expiry_line(image, without) for image, without in held]

    def again(self, key: Key, gone: Container[Key] = ()) -> List[bytes]:
        """The lines that add a removed row again."""
        held = [(image, later) for image, _, later in self.held.get(key, ()) if image not in gone]
        return self.rows.rows[key].lines + [expiry_line(image, later) for image, later in held]

    def remark_shared_holds(self) -> None:
        """An image that several things keep longer loses the end of one when several go."""
        images = [image for held in self.held.values() for image, _, _ in held]
        shared = sorted({image for image in images if images.count(image) > 1})
        if shared:
            self.remarks.append(
                "may change what goes: images that several leases hold: %d, such as %s"
                % (len(shared), printable(self.name(shared[0])))
            )
        led = self.measure.sizes["led"]
        if led:
            self.remarks.append(
                "may change what goes: images that the label of another row keeps: %d, such as %s"
                % (len(led), printable("%s/%s" % (led[0][0], self.measure.name(led[0][1]))))
            )

    def set_uses(self) -> None:
        """Which image each container names, and what else is known of the rows."""
        sizes = self.measure.sizes
        self.image_of: Dict[Tuple[str, str], str] = {
            (ns, container): image for ns, container, image in sizes["uses"]
        }
        self.pinned = {(ns, image) for ns, image in sizes["pinned"]}
        self.people = {(ns, container): text for ns, container, text in sizes["people"]}
        self.made = {(kind, ns, name): time for kind, ns, name, time in sizes["made"]}
        self.told: Tuple[str, str] = ("", "")
        if sizes["containerd"]:
            self.told = (sizes["containerd"][0], sizes["containerd"][1])

    def metad(self) -> Metad:
        """A run of metad that holds the store."""
        self.progress.say("giving metad %d lines" % len(self.lines))
        found = Metad(self.program)
        try:
            found.load(self.lines[:-1])
        except BaseException:
            found.__exit__()
            raise
        return found

    def collected(self, metad: Metad) -> Later:
        """Collects what goes now, so that later reports name only what goes beyond that."""
        self.progress.say("asking what goes now")
        return Later(self.measure, metad.report("gc.run", self.at))

    def head(self, word: str) -> Dict[str, Any]:
        """The members that each JSON object begins with."""
        return {"word": word, "at": self.at, "remarks": self.remarks}

    def status(self) -> int:
        """Tells remarks and notes; 3 where the plan may differ from the daemon's own collection."""
        for text in self.remarks + self.notes:
            sys.stderr.write("%s: %s\n" % (self.progress.name, text))
        return 3 if self.remarks else 0

    # what things are called

    def text(self, key: Key) -> str:
        """The daemon's own name of a row."""
        found: str = self.measure.name(key[2])
        if self.type(key) == "sandboxes" and found.startswith(SANDBOX):
            return found[len(SANDBOX) :]
        return found

    def type(self, key: Key) -> str:
        """The type of a row in a JSON object: as gc.explain has it, but for sandboxes."""
        is_sandbox = (key[1], key[2]) in self.sandboxes and key[0] == "containers"
        return "sandboxes" if is_sandbox else key[0]

    def name(self, key: Key) -> str:
        """A row as people read it: its namespace and the daemon's own name."""
        return "%s/%s" % (key[1], self.text(key))

    def kind(self, key: Key) -> str:
        """The kind of an image, a container, a sandbox or a lease."""
        if (key[1], key[2]) in self.sandboxes and key[0] == "containers":
            return "sandbox"
        return {"images": "image", "containers": "container", "leases": "lease"}[key[0]]

    def called(self, key: Key) -> str:
        """A row as people read it, with the name that they know of a container."""
        known = self.people.get((key[1], key[2])) if key[0] == "containers" else None
        return "%s (%s)" % (self.name(key), known) if known else self.name(key)

    def group_name(self, group: Group) -> str:
        """A group by its first name, and how many more it has."""
        names = sorted((self.text(key) for key in group.keys), key=name_order)
        more = len(names) - 1
        if group.kind != "image":
            return printable(self.called(group.keys[0]))
        told = " and %d more name%s" % (more, "s" * (more > 1)) if more else ""
        return printable("%s/%s" % (group.ns, names[0])) + told

    def group_names(self, group: Group) -> List[str]:
        """All names of a group."""
        return sorted((self.text(key) for key in group.keys), key=name_order)

    # what stands in the backends

    def folder(self, number: int) -> Optional[str]:
        """The folder of a snapshot, such as overlayfs/4711; None where it isn't known."""
        found: Optional[str] = self.measure.sizes["numbers"].get(str(number), {}).get("folder")
        return found

    def snapshot_rows(self) -> Iterator[Tuple[Key, int]]:
        """Each snapshot's row with its number."""
        for key, row in self.rows.rows.items():
            if key[0].startswith("snapshots/"):
                yield key, row.number

    def blob_owners(self) -> Dict[str, Set[str]]:
        """The namespaces that have a row of each blob."""
        found: Dict[str, Set[str]] = {}
        for kind, ns, name in self.rows.rows:
            if kind == "content" and name not in self.measure.between:
                found.setdefault(name, set()).add(ns)
        return found


def name_order(name: str) -> Tuple[bool, bool, str]:
    """Names with a tag first, then those by digest, then identifiers: as people call an image."""
    return ("/" not in name, "@" in name, name)


def expiry_line(image: Key, text: str) -> bytes:
    """The line that gives an image another expiry, or with an empty text none."""
    asked = {"op": "image.label", "ns": image[1], "name": image[2], "key": EXPIRE, "value": text}
    return JSON(asked).encode()
