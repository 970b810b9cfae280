"""A daemon's rows as a script, a plan at its end.

Namespaces, snapshots with parents first, content, images, containers, sandboxes, leases with what
they hold, ingests, and what the backends hold without a row.
"""
from __future__ import annotations

from typing import Dict, List, NamedTuple, Optional, Set, Tuple

from . import people, sizes
from .backends import ACTIVE, COMMITTED, VIEW, Backends, Stored
from .buckets import (Container, Content, Image, Ingest, Lease, Metadata, Place, Sandbox, Snapshot,
                      show)
from .later import Later
from .lines import Lines
from .numbers import DAY, EARLIEST, LATEST, moment_text
from .pages import Bucket
from .remarks import Remarks
from .texts import (CONTENT_REFERENCE, EXPIRE, SHORT_NAME, SNAPSHOT_REFERENCE, Label, Texts)

LONG_AGO = "1970-01-01T00:00:00Z"  # of an ingest under a lease: it is read, and nothing of it kept
NO_DIGEST = "sha256:" + "0" * 64  # the target of an image whose own target is none: no row has it
STATES = {COMMITTED: "committed", ACTIVE: "active", VIEW: "view"}


def is_reference(key: str) -> bool:
    """Whether a label of this key references."""
    return key.startswith((CONTENT_REFERENCE.decode(), SNAPSHOT_REFERENCE.decode()))


def free_name(name: str, taken: Set[bytes]) -> str:
    """This name, or one made longer, that isn't among those taken."""
    while name.encode() in taken:
        name += "-"
    return name


class Snapshots(NamedTuple):
    """The snapshots of a snapshotter, while they are said."""

    ns: str
    snapshotter: str
    rows: Dict[bytes, Snapshot]
    names: Dict[bytes, str]  # what each is called in the script
    parents: Set[bytes]
    said: Set[bytes]
    taken: Set[bytes]  # the names of the script
    stored: Optional[Dict[bytes, Stored]]


class Script:
    """The script of one daemon; `lines.written` are its lines and `sizes` its sizes."""

    def __init__(self, metadata: Metadata, backends: Backends, remarks: Remarks, all_labels: bool,
                 keep: bool = False) -> None:
        """`keep` keeps in `lines.asked` what each line says."""
        self.metadata, self.backends, self.remarks = metadata, backends, remarks
        self.lines = Lines(keep)
        self.texts = Texts(remarks, all_labels, metadata.choice)
        self.later = Later(metadata, self.texts, remarks)
        self.sizes = sizes.empty()
        self.number = 0  # of the backend, as metad counts: one for each snapshot and each ingest
        self.blobs: Set[str] = set()  # of those that rows own, as ingests and snapshots
        self.ingests: Set[bytes] = set()
        self.snapshots: Set[Tuple[str, bytes]] = set()
        self.listed: Dict[str, List[str]] = {}  # the folders that were there before the reading

    def write(self, at: str) -> None:
        """Says all, and a plan at the moment."""
        if self.metadata.images_expire:
            self.lines.say("profile", v=2)
        for name, space in self.metadata.namespaces:
            ns = self.texts.short_name(name, "namespace")
            if ns is not None:
                self.namespace(ns, name, space)
        self.without_rows()
        self.lines.say("gc.plan", at=at)
        self.sizes["renamed"] = self.texts.renamed
        self.sizes["between"] = list(self.lines.between)
        choice = self.metadata.choice
        self.sizes["containerd"] = [choice.version, choice.by, choice.rules.line]

    def namespace(self, ns: str, name: bytes, space: Bucket) -> None:
        """Says a namespace with all that is in it."""
        self.metadata.namespace(name, space)
        self.later.read(name, space)
        self.lines.say("ns.add", ns=ns)
        for snapshotter, snapshots in self.metadata.snapshots(name, space):
            self.snapshots_of(ns, snapshotter, snapshots)
        for content in self.metadata.content(name, space):
            self.content(ns, content)
        for image in self.metadata.images(name, space):
            self.image(ns, image)
        containers: Set[bytes] = set()
        for container in self.metadata.containers(name, space):
            containers.add(container.name)
            self.container(ns, container)
        for sandbox in self.metadata.sandboxes(name, space):
            self.sandbox(ns, sandbox, containers)
        leases: Set[bytes] = set()
        holders: Dict[bytes, bytes] = {}
        for lease in self.metadata.leases(name, space):
            leases.add(lease.name)
            for held in lease.ingests:
                holders.setdefault(held, lease.name)
            self.lease(ns, lease)
        gone = free_name("export-gone", leases)
        for ingest in self.metadata.ingests(name, space):
            self.ingest(ns, ingest, holders.get(ingest.name), gone)

    def next_number(self, kind: str, backend: bytes, row: Optional[List[str]]) -> str:
        """The number of the next object of the backend, kept with what it is."""
        self.number += 1
        self.sizes["numbers"][str(self.number)] = {"kind": kind, "backend": show(backend),
                                                   "row": row}
        return str(self.number)

    def made(self, kind: str, ns: str, name: str, moment: Optional[int]) -> None:
        """Keeps when a row was made or last changed."""
        if moment is not None:
            self.sizes["made"].append([kind, ns, name, moment_text(moment)])

    def owner(self, kind: str, ns: str, name: str, labels: Bucket) -> None:
        """Keeps who made a row."""
        found = people.owner(labels)
        if found:
            self.sizes["owners"].append([kind, ns, name, found])

    def labels(self, ns: str, place: Place, labels: Bucket, what: str) -> List[Label]:
        """The labels of a row, within metad's bounds.

        References beyond these go to rows between, which are said first.
        """
        read, unread = self.texts.labels(place.kind, self.later.labels(place, labels), what)
        room = 256 - len(read)
        if room < 0:
            self.remarks.add("rows with over 256 references, some on a row between (kept and "
                             "scanned count it)", what)
        if len(unread) > max(room, 0):
            self.remarks.add("rows with over 256 labels, of which some that no collection reads "
                             "are left out", what)
        return self.lines.within_bounds(ns, read, is_reference) + unread[:max(room, 0)]

    # snapshots

    def snapshots_of(self, ns: str, snapshotter: bytes, rows: Dict[bytes, Snapshot]) -> None:
        """The snapshots of a snapshotter, each after its parent."""
        short = self.texts.short_name(snapshotter, "snapshotter")
        if short is None:
            return
        names = {name: self.texts.name(name, "snapshot") for name in rows}
        found = Snapshots(ns, short, rows, names, {row.parent for row in rows.values()}, set(),
                          {name.encode() for name in names.values()},
                          self.backends.snapshots.get(short))
        for name in rows:
            way: List[bytes] = []
            on_way: Set[bytes] = set()
            while name in rows and name not in found.said and name not in on_way:
                way.append(name)
                on_way.add(name)
                name = rows[name].parent
            for name in reversed(way):
                self.snapshot(rows[name], found)
                found.said.add(name)

    def snapshot(self, row: Snapshot, found: Snapshots) -> None:
        """One snapshot, of the kind that the backend has.

        Else it is guessed: a parent is committed, any other is active.
        """
        ns, snapshotter, name = found.ns, found.snapshotter, found.names[row.name]
        what = "snapshot %s %s %s" % (ns, snapshotter, name)
        members = {"ns": ns, "snapshotter": snapshotter}
        if row.parent in found.said:
            members["parent"] = found.names[row.parent]
        elif row.parent:
            self.remarks.add("snapshots whose parent isn't there, made without one", what,
                             plan=True)
        stored = None if found.stored is None else found.stored.get(row.backend)
        number = self.next_number("snapshot", row.backend, [ns, snapshotter, name])
        if stored is None:
            self.sizes["guessed"].append(int(number))
            self.remarks.add("kinds of snapshots, guessed (the daemon's folder tells them)", what)
        kind = stored.kind if stored else ACTIVE
        if row.name in found.parents:
            kind = COMMITTED
        place = Place("snapshot", snapshotter.encode(), row.name)
        labels = self.labels(ns, place, row.labels, what)
        label = ("snap.label", {"ns": ns, "snapshotter": snapshotter, "name": name})
        self.measure(number, snapshotter, kind, stored)
        self.snapshots.add((snapshotter, row.backend))
        if kind == COMMITTED:
            key = free_name("export-" + number, found.taken)
            self.lines.say("snap.prepare", key=key, **members)
            self.lines.add("snap.commit", labels, label, ns=ns, snapshotter=snapshotter, key=key,
                           name=name)
        else:
            op = "snap.view" if kind == VIEW else "snap.prepare"
            self.lines.add(op, labels, label, key=name, **members)

    def measure(self, number: str, snapshotter: str, kind: int, stored: Optional[Stored]) -> None:
        """Keeps the size, the state and the folder of a snapshot."""
        self.sizes["snapshots"][number] = stored.size if stored else None
        folder = stored.folder if stored else None
        self.sizes["numbers"][number].update(
            state=STATES.get(kind, "active"),
            folder=None if folder is None else "%s/%d" % (snapshotter, folder))

    # the other rows

    def content(self, ns: str, row: Content) -> None:
        """A row of content."""
        digest = self.texts.digest(row.digest, "content", is_row=True)
        if digest is None:
            return
        self.sizes["blobs"].setdefault(digest, row.size)
        self.blobs.add(show(row.digest))
        labels = self.labels(ns, Place("content", b"", row.digest), row.labels,
                             "content %s %s" % (ns, digest))
        label = ("content.label", {"ns": ns, "digest": digest})
        self.lines.add("content.add", labels, label, ns=ns, digest=digest)

    def image(self, ns: str, row: Image) -> None:
        """An image; its expiry is the later one of its own and of the leases that hold it."""
        name = self.texts.name(row.name, "image")
        what = "image %s %s" % (ns, name)
        self.made("images", ns, name, row.made)
        if people.is_pinned(row.labels):
            self.sizes["pinned"].append([ns, name])
        self.owner("images", ns, name, row.labels)
        target = self.texts.digest(row.target, what) or NO_DIGEST
        labels = self.labels(ns, Place("image", b"", row.name), row.labels, what)
        label = ("image.label", {"ns": ns, "name": name})
        self.lines.add("image.add", labels, label, ns=ns, name=name, target=target)
        expiry = dict(labels).get(EXPIRE.decode(), "")
        held = self.later.without(row.name)
        if held is not None:
            self.remarks.add("images that a lease holds, which have the later end as their own",
                             what)
            lease, without = self.texts.name(held[0], "lease"), self.texts.expiry(held[1], what)
            self.sizes["held"].append([ns, lease, name, without, expiry])
        by = self.later.led_by(row.name)
        if by is not None:
            self.remarks.add("images that a label keeps longer, which have the later end as their "
                             "own", what)
            self.sizes["led"].append([ns, name, by.kind, show(by.name)])
        if self.later.is_flat(row.name):
            self.remarks.add("images that only a flat lease holds at their end, kept in full until "
                             "its own", what, plan=True)

    def container(self, ns: str, row: Container) -> None:
        """A container with its snapshot."""
        name = self.texts.name(row.name, "container")
        what = "container %s %s" % (ns, name)
        self.made("containers", ns, name, row.made)
        known = people.known_name(row.labels)
        if known:
            self.sizes["people"].append([ns, name, known])
        self.owner("containers", ns, name, row.labels)
        members = {"ns": ns, "name": name}
        if row.snapshotter and row.key:
            snapshotter = self.texts.short_name(row.snapshotter, what)
            if snapshotter:
                key = self.texts.name(row.key, what + " snapshot")
                members.update(snapshotter=snapshotter, key=key)
        if row.image:
            image = self.texts.name(row.image, what + " image")
            self.sizes["uses"].append([ns, name, image])
        self.rooted(ns, Place("container", b"", row.name), row.labels, what, members)

    def sandbox(self, ns: str, row: Sandbox, containers: Set[bytes]) -> None:
        """A sandbox as a container without a snapshot: a root whose labels lead on."""
        free = row.name
        while b"sandbox:" + free in containers:
            free += b"-"
        containers.add(b"sandbox:" + free)
        name = self.texts.name(b"sandbox:" + free, "sandbox")
        self.sizes["sandboxes"].append([ns, name])
        self.rooted(ns, Place("sandbox", b"", row.name), row.labels, "sandbox %s %s" % (ns, name),
                    {"ns": ns, "name": name})

    def rooted(self, ns: str, place: Place, labels: Bucket, what: str, members: Dict[str, str]
               ) -> None:
        """A row of a container with its labels."""
        said = self.labels(ns, place, labels, what)
        label = ("container.label", {"ns": ns, "name": members["name"]})
        self.lines.add("container.add", said, label, **members)

    def lease(self, ns: str, row: Lease) -> None:
        """A lease and what it holds; images of it are said with their own ends."""
        name = self.texts.name(row.name, "lease")
        what = "lease %s %s" % (ns, name)
        self.made("leases", ns, name, row.made)
        labels = self.labels(ns, Place("lease", b"", row.name), row.labels, what)
        self.lines.add("lease.add", labels, ("lease.label", {"ns": ns, "id": name}), ns=ns, id=name)
        if EXPIRE not in row.labels:
            self.sizes["endless"].append([ns, name])
        for held in row.content:
            digest = self.texts.digest(held, what + " content")
            if digest:
                self.hold(ns, name, "content", digest)
        for snapshotter, keys in row.snapshots:
            short = self.texts.short_name(snapshotter, what)
            for key in keys if short else ():
                self.hold(ns, name, "snapshots/%s" % short,
                          self.texts.name(key, what + " snapshot"))
        for held in row.ingests:
            self.hold(ns, name, "ingests", self.texts.name(held, what + " ingest"))
        for held in row.images:
            self.sizes["leased"].append([ns, name, self.texts.name(held, what + " image")])

    def hold(self, ns: str, lease: str, kind: str, resource: str) -> None:
        """Gives a lease a resource."""
        self.lines.say("lease.hold", ns=ns, id=lease, type=kind, resource=resource)

    def ingest(self, ns: str, row: Ingest, holder: Optional[bytes], gone: str) -> None:
        """An ingest with its day, or under the lease that holds it.

        Where that lease is gone, it is under one that goes again, whose name is given too.
        """
        name = self.texts.name(row.name, "ingest")
        what = "ingest %s %s" % (ns, name)
        began = self.backends.started.get(row.backend)
        if began is None and row.end is not None:
            began = row.end - DAY
        self.made("ingests", ns, name, began)
        number = self.next_number("ingest", row.backend, [ns, name])
        self.sizes["ingests"][number] = self.backends.ingests.get(row.backend)
        self.ingests.add(row.backend)
        members = {"ns": ns, "ref": name}
        if row.expected:
            expected = self.texts.digest(row.expected, what)
            if expected:
                members["expected"] = expected
                self.sizes["awaited"].setdefault(expected, []).append([ns, name])
        if row.expected and row.backend not in self.backends.ingests:
            self.sizes["waiting"].append(int(number))
            self.remarks.add("ingests that wait for a shared blob, which the daemon keeps and a "
                             "plan doesn't (report and impact don't count it)", what)
        if row.end is not None:
            begun = row.end - DAY
            if not EARLIEST <= begun <= LATEST:
                self.remarks.add("ends of ingests out of the years 0000 to 9998, set to the "
                                 "nearest day", what)
            self.lines.say("ingest.begin", **members, at=moment_text(begun))
        else:
            lease = None if holder is None else self.texts.name(holder, "lease")
            self.held_ingest(ns, members, lease, gone, what)

    def held_ingest(self, ns: str, members: Dict[str, str], holder: Optional[str], gone: str,
                    what: str) -> None:
        """An ingest without an end of its own."""
        if holder is not None:
            self.lines.say("ingest.begin", **members, at=LONG_AGO, lease=holder)
            return
        self.remarks.add("ingests whose lease is gone, begun under one that is removed again", what)
        self.lines.say("lease.add", ns=ns, id=gone)
        self.lines.say("ingest.begin", **members, at=LONG_AGO, lease=gone)
        self.lines.say("lease.remove", ns=ns, id=gone)

    # what no row owns

    def without_rows(self) -> None:
        """What the backends hold and no row owns, so that the plan finds it there.

        It is made and removed in a namespace that goes again.
        """
        namespace = free_name("export-gone", {name for name, _ in self.metadata.namespaces})
        before = len(self.lines.written)
        self.lines.say("ns.add", ns=namespace)
        self.lone_blobs(namespace)
        self.lone_ingests(namespace)
        self.lone_snapshots(namespace)
        if len(self.lines.written) == before + 1:
            self.lines.unsay()
        else:
            self.lines.say("ns.remove", ns=namespace)

    def lone_blobs(self, namespace: str) -> None:
        """Blobs that no row owns; the size of each blob is that of its file."""
        for digest, size in self.backends.blobs.items():
            text = self.texts.digest(digest.encode("utf-8", "surrogateescape"), "blob")
            if text is None:
                continue
            self.sizes["blobs"][text] = size
            if digest not in self.blobs:
                self.lines.say("content.add", ns=namespace, digest=text)
                self.lines.say("content.remove", ns=namespace, digest=text)

    def lone_ingests(self, namespace: str) -> None:
        """Ingests that no row owns."""
        for name, size in self.backends.ingests.items():
            if name not in self.ingests:
                number = self.next_number("ingest", name, None)
                self.sizes["ingests"][number] = size
                self.lines.say("ingest.begin", ns=namespace, ref=number, at=LONG_AGO)
                self.lines.say("ingest.abort", ns=namespace, ref=number)

    def lone_snapshots(self, namespace: str) -> None:
        """Snapshots that no row owns."""
        for snapshotter, found in self.backends.snapshots.items():
            for name, stored in found.items():
                if (snapshotter, name) not in self.snapshots and SHORT_NAME.fullmatch(snapshotter):
                    number = self.next_number("snapshot", name, None)
                    self.measure(number, snapshotter, stored.kind, stored)
                    members = {"ns": namespace, "snapshotter": snapshotter, "key": number}
                    self.lines.say("snap.prepare", **members)
                    self.lines.say("snap.remove", **members)
