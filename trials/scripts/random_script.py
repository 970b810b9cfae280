#!/usr/bin/env python3
"""trials/scripts/random_script.py SEED [--no-questions]: a random script, with hostile lines too.

Names are few, so that requests meet the rows of others; some are odd, and some aren't allowed. Each
line is answered by model.py as it comes, so the rows that were added of late are known, and most
requests name one of them. Of each seed some shares differ: how many namespaces there are, how often
a text is wrong, how often a line is hostile. The same seed gives the same script.
"""
import json
import random
import sys

import model

NAMESPACES = ("x", "x.y", "X-1", "0")
SNAPSHOTTERS = ("overlayfs", "native", "over")
NAMES = ("a", "b", "a/b", 'q"\\', "\u00e9\U0001f433", "docker.io/library/alpine:3.19", "A", "z z")
DIGESTS = tuple("sha256:" + it * 64 for it in "0123abf") + (
    "sha512:" + "0" * 128,
    "sha512:" + "ab" * 64,
)
TIMES = (
    "2024-03-01T00:00:00Z",
    "2024-03-01T00:00:00.000000001Z",
    "2024-03-01T01:00:00+01:00",
    "2024-02-29T23:59:59.999999999-00:00",
    "2024-03-02T00:00:00Z",
    "2024-03-02T00:00:00.5Z",
    "2024-03-03T12:00:00-11:30",
    "1969-12-31T23:59:59.5Z",
    "0000-01-01T00:00:00+23:59",
    "9998-12-31T23:59:59.999999999-23:59",
    "2000-02-29T00:00:00Z",
)
NO_TIMES = (
    "",
    "tomorrow",
    "9999-01-01T00:00:00Z",
    "2023-02-29T00:00:00Z",
    "1900-02-29T00:00:00Z",
    "2024-03-01T24:00:00Z",
    "2024-03-01T00:00:60Z",
    "2024-03-01t00:00:00Z",
    "2024-03-01T00:00:00",
    "2024-03-01T00:00:00.Z",
    "2024-03-01T00:00:00.0000000001Z",
    "2024-03-01T00:00:00+24:00",
    "2024-03-01T00:00:00+01",
    "2024-13-01T00:00:00Z",
    "2024-00-01T00:00:00Z",
    "2024-04-31T00:00:00Z",
    "2024-03-00T00:00:00Z",
    " 2024-03-01T00:00:00Z",
    "2024-03-01T00:00:00Z ",
    "2024-03-01T00:00:00+01:60",
    "\u0662024-03-01T00:00:00Z",
    "2024-03-01T00:00:00z",
    "2024-3-01T00:00:00Z",
)
NO_SHORT_NAMES = ("", ".x", "-x", "_x", "x/y", "x y", "\u00e9", "x" * 77, "x\n")
NO_NAMES = ("", "a\nb", "\x7f", "a\x1f", "n" * 1025, "\u00e9" * 513, "\x00")
NO_DIGESTS = (
    "",
    "sha256:",
    "sha256:" + "A" * 64,
    "sha256:" + "a" * 63,
    "sha256:" + "a" * 65,
    "sha512:" + "a" * 64,
    "md5:" + "a" * 32,
    "sha256:" + "a" * 64 + "\n",
    "SHA256:" + "a" * 64,
    "sha256:" + "g" * 64,
)
NO_TYPES = (
    "",
    "snapshots",
    "snapshots/",
    "snapshots/a/b",
    "Content",
    "contents",
    "blobs",
    "ingest",
    "snapshots/" + "s" * 77,
)
REF, SNAPSHOT_REF = "containerd.io/gc.ref.content", "containerd.io/gc.ref.snapshot."
ROOT, FLAT, EXPIRE = "containerd.io/gc.root", "containerd.io/gc.flat", "containerd.io/gc.expire"
VALUES = (
    '"x"',
    "null",
    "true",
    "false",
    "0",
    "-0",
    "1",
    "2",
    "2.0",
    "2e0",
    "1e999",
    "-1",
    "01",
    "1.",
    ".5",
    "1e-999",
    "[]",
    "{}",
    "[[]]",
    '{"a":"b"}',
    '{"a":1}',
    "NaN",
    "18446744073709551615",
    "18446744073709551616",
    '"\\ud800"',
    '"\\udc00\\ud800"',
    '"\\ud83d\\udc33"',
    '"\\u0000"',
    '"\\x"',
    '"\t"',
    "'x'",
    "nul",
    "1" * 400,
    "99999999999999999999.e5",
    "1.7976931348623157e308",
    "1.7976931348623159e308",
    '"\\u00E9"',
    '"\\/"',
    "Infinity",
    "[1,]",
    '{"a":"b",}',
    "+1",
    "0x1",
    '"a" "b"',
)
BYTES = (
    b'"',
    b"\\",
    b"{",
    b"}",
    b"[",
    b"]",
    b",",
    b":",
    b" ",
    b"\t",
    b"\r",
    b"\x00",
    b"\x1f",
    b"\x7f",
    b"\xff",
    b"\xc3",
    b"\xa9",
    b"\xed\xa0\x80",
    b"\xc0\xaf",
    b"\xef\xbb\xbf",
    b"\\u",
    b"\\u006f",
    b"a",
    b"0",
    b"-",
    b"e",
    b".",
    b"null",
    b"\xf4\x90\x80\x80",
    b"\xe2\x80\xa8",
)


# the member that names a row, by the first word of its ops, and its type in resources and questions
ROWS = {
    "image": "name",
    "container": "name",
    "content": "digest",
    "ingest": "ref",
    "snap": "key",
    "lease": "id",
}
TYPES = {
    "image": "images",
    "container": "containers",
    "content": "content",
    "ingest": "ingests",
    "lease": "leases",
}
REMEMBERED = 9
# ops that make, change or get one row, that make one under a lease, and by which a lease may lose
# one
ONE_ROW = ("add", "set", "get", "label", "target", "begin", "open", "prepare", "view", "commit")
HOLDING = ("content.add", "ingest.commit", "snap.prepare", "snap.view", "snap.commit")
DROPPING = ("content.remove", "ingest.commit", "ingest.abort", "snap.commit", "snap.remove")
ODD = "\x00\x1f\b\t\n\f\r\"\\/\x7f\u2028\u00e9\U0001f433"
DATA = ("", "t", '{"size":7}', ODD)


class Script:
    """A script as it grows, the replies to it, and the rows that were added of late, by kinds."""

    def __init__(self, seed, questions=True):
        self.random = random.Random(seed)
        self.questions = questions
        self.namespaces = NAMESPACES[: self.random.randrange(1, 5)]
        self.names = self.random.sample(NAMES, self.random.randrange(2, 7))
        self.digests = self.random.sample(DIGESTS, self.random.randrange(2, 8))
        self.snapshotters = SNAPSHOTTERS[: self.random.randrange(1, 4)]
        self.wrong = self.random.choice((0, 0.01, 0.01, 0.05))
        self.hostile = self.random.choice((0, 0, 0.05, 0.3))
        self.labelled = self.random.choice((0.2, 0.5, 0.9))
        self.lines, self.replies, self.store = [], [], model.Store()
        self.rows = {it: [] for it in (*ROWS, "committed")}

    # ---- texts

    def is_so(self, share):
        return self.random.random() < share

    def one(self, allowed, others):
        return self.random.choice(others if self.is_so(self.wrong) else allowed)

    def ns(self):
        return "none" if self.is_so(0.02) else self.one(self.namespaces, NO_SHORT_NAMES)

    def snapshotter(self):
        return self.one(self.snapshotters, NO_SHORT_NAMES)

    def name(self):
        return self.one(self.names, NO_NAMES)

    def digest(self):
        return self.one(self.digests, NO_DIGESTS)

    def time(self):
        return self.one(TIMES, NO_TIMES)

    def late(self):
        """A time of the days in which most things end."""
        return self.one(TIMES[:7], NO_TIMES)

    def key(self):
        kind = self.random.randrange(10)
        if kind < 4:
            return REF + self.random.choice(("", ".", "/", ".0", ".1", "/x", "s", ".l/0"))
        if kind < 6:
            return SNAPSHOT_REF + self.random.choice(
                (
                    "",
                    "overlayfs",
                    "native",
                    "over",
                    "overlayfs/",
                    "overlayfs/1",
                    "/overlayfs",
                    "none",
                )
            )
        if kind < 8:
            return self.random.choice((ROOT, FLAT, EXPIRE, EXPIRE))
        return self.random.choice(
            (
                "note",
                "b",
                "B",
                "\u00e9",
                "",
                "a\nb",
                "\x00",
                SNAPSHOT_REF[:-1],
                ROOT + "s",
                "k" * 4090 if self.is_so(0.1) else "k",
            )
        )

    def value(self, key):
        kind = self.random.randrange(12)
        if kind == 0:
            return ""
        if key == EXPIRE:
            return self.random.choice(NO_TIMES) if self.is_so(0.2) else self.random.choice(TIMES)
        if key.startswith(REF):
            return self.random.choice(self.digests)
        if key.startswith(SNAPSHOT_REF):
            return self.random.choice(self.names)
        if kind == 1:
            return (
                "v" * self.random.choice((4095 - len(key), 4096 - len(key), 4097 - len(key), 5))
                if self.is_so(0.2)
                else '\x01\x1f\b\t\n\f\r"\\/\x7f\u2028'
            )
        return self.random.choice(("t", "1", "\u00e9"))

    def labels(self):
        if self.is_so(0.002):
            return {"%d" % it: "v" for it in range(self.random.choice((255, 256, 257)))}
        keys = [self.key() for _ in range(self.random.choice((0, 1, 1, 2, 4)))]
        return {it: self.value(it) for it in keys}

    # ---- rows

    def remember(self, kind, row):
        """Remembers the members that name a row."""
        self.rows[kind] = self.rows[kind][1 - REMEMBERED :] + [row]

    def add(self, kind, row, op, **members):
        """Asks for a row, and remembers it where it is made."""
        if self.ask(op, **row, **members):
            self.remember(kind, row)

    def row(self, *kinds):
        """The first word of the ops of a kind, and the members that name a row."""
        kind = self.random.choice(kinds or tuple(ROWS))
        if self.rows[kind] and self.is_so(0.85 - self.wrong):
            return kind, dict(self.random.choice(self.rows[kind]))
        row = {"ns": self.ns(), ROWS[kind]: self.digest() if kind == "content" else self.name()}
        return kind, row | ({"snapshotter": self.snapshotter()} if kind == "snap" else {})

    def typed(self, *kinds):
        """The namespace, the type and the name of a row."""
        kind, row = self.row(*kinds)
        found = TYPES.get(kind) or "snapshots/" + row["snapshotter"]
        return {"ns": row["ns"], "type": self.one((found,), NO_TYPES), "resource": row[ROWS[kind]]}

    def reference(self):
        """Key and value of a label that references a row, perhaps of another namespace."""
        kind, row = self.row("content", "snap")
        if kind == "content":
            return {"key": REF + self.random.choice(("", ".0", "/x")), "value": row["digest"]}
        return {
            "key": SNAPSHOT_REF + row["snapshotter"] + self.random.choice(("", "/1")),
            "value": row["key"],
        }

    # ---- lines

    def data(self):
        """A text of a row, which no collection reads."""
        if self.is_so(0.004):
            return self.random.choice(("d" * 49152, "d" * 49153, '"' * 24576, '"' * 24577))
        return self.random.choice(DATA)

    def words(self, op, members):
        """What a line may have beside an op's own members: its row's data, words that ask for rows
        in its reply or for its lease to hold what exists, and a lease that loses the object."""
        kind, _, verb = op.partition(".")
        found, wrong = {}, self.is_so(self.wrong)
        if kind in ROWS and verb in ONE_ROW:
            found |= self.maybe(0.12, answer="rows" if wrong else "row")
            if verb not in ("get", "label", "target"):
                found |= self.maybe(0.2, data=self.data())
        elif verb == "list":
            found |= self.maybe(0.3, answer="row" if wrong else "rows")
        if op in HOLDING:
            share = 0.25 if "lease" in members else 0.02
            found |= self.maybe(share, there="x" if wrong else "hold")
        if op in DROPPING:
            found |= {"drop": it for it in self.lease(members["ns"]).values()}
        return found

    def ask(self, op, **members):
        """Asks for an op, or spoils its line; tells whether it is done."""
        members = {"op": op, **members, **self.words(op, members)}
        text = json.dumps(members, ensure_ascii=self.is_so(0.5), separators=(",", ":"))
        line = text.encode()
        if self.is_so(self.hostile):
            line = self.spoil(members, line)
        return self.put(line.replace(b"\n", b" "))

    def put(self, line):
        """Takes a line, and tells whether it is done."""
        reply = self.store.answer(line)
        self.lines.append(line)
        self.replies += [] if reply is None else [reply]
        return reply is not None and reply.startswith('{"ok"')

    def spoil(self, members, line):
        """A line that may still be a request, or not."""
        kind = self.random.randrange(12)
        at = self.random.randrange(len(line) + 1)
        if kind == 0:
            return line[:at]
        if kind == 1:
            return line[:at] + self.random.choice(BYTES) + line[at:]
        if kind == 2:
            return line[:at] + self.random.choice(BYTES) + line[at + 1 :]
        if kind == 3:
            return line[:at] + line[at + self.random.randrange(1, 4) :]
        if kind == 4:
            return (
                self.random.choice((b" ", b"\t", b"\r", b"x", b"{}", b"\xef\xbb\xbf", b",")) + line
            )
        if kind == 5:
            return line + self.random.choice((b" ", b"\t\r", b"\r", b"x", b"{}", b",", b"\x00"))
        if kind == 6:
            return self.random.choice(
                (
                    b"",
                    b" ",
                    b"\r",
                    b"[]",
                    b'"op"',
                    b"1",
                    b"{}",
                    b"null",
                    b"{",
                    b'{"op":"ns.list"}',
                    b'{"op":"ns.list","op":"ns.put"}',
                    b'{"op":"ns.put","op":"ns.list"}',
                )
            )
        if kind == 7:
            depth = self.random.choice((1, 125, 126, 127, 128, 1000))
            return b'{"op":"ns.list","x":' + b"[" * depth + b"]" * depth + b',"x":1}'
        pairs = [(json.dumps(name), json.dumps(value)) for name, value in members.items()]
        place = self.random.randrange(len(pairs))
        if kind == 8:
            pairs.pop(place)
        elif kind == 9:
            pairs[place] = (pairs[place][0], self.random.choice(VALUES))
        elif kind == 10:
            # a member twice, of which one has another value
            other = (pairs[place][0], self.random.choice(VALUES))
            pairs.insert(self.random.choice((place, len(pairs))), other)
        else:
            name = self.random.choice(
                (
                    "at",
                    "sync",
                    "lease",
                    "labels",
                    "parent",
                    "x",
                    "",
                    "Op",
                    "expected",
                    "v",
                    "key",
                    "snapshotter",
                    "data",
                    "put",
                    "answer",
                    "there",
                    "drop",
                )
            )
            pairs.append((json.dumps(name), self.random.choice(VALUES)))
        self.random.shuffle(pairs)
        space = self.random.choice(("", "", " ", "\t", " \r "))
        return (
            "{"
            + space
            + ("," + space).join(f"{name}{space}:{space}{value}" for name, value in pairs)
            + space
            + "}"
        ).encode("utf-8", "surrogatepass")

    def maybe(self, share, **member):
        return member if self.is_so(share) else {}

    def some_labels(self):
        return self.maybe(self.labelled, labels=self.labels())

    def lease(self, ns):
        held = [it["id"] for it in self.rows["lease"] if it["ns"] == ns]
        return self.maybe(
            0.35, lease=self.random.choice(held) if held and self.is_so(0.9) else self.name()
        )

    def step(self):
        """A request, or several that belong together."""
        kind = self.random.randrange(100)
        of = {"ns": self.ns()}
        if kind < 2:
            self.ask(self.random.choice(("ns.add", "ns.add", "ns.remove")), **of)
        elif kind < 9:
            target = self.row("content")[1]
            row = of | {"name": self.name()} | self.maybe(0.8, ns=target["ns"])
            self.add("image", row, "image.add", target=target["digest"], **self.some_labels())
        elif kind < 14:
            self.container(of | {"name": self.name()})
        elif kind < 26:
            row = of | {"digest": self.digest()}
            self.add("content", row, "content.add", **self.some_labels(), **self.lease(row["ns"]))
            if self.is_so(0.5):
                self.ask("content.label", **row, **self.reference())
        elif kind < 32:
            row = of | {"ref": self.name()}
            if self.rows["ingest"] and self.is_so(0.3):
                row = dict(self.random.choice(self.rows["ingest"]))
            self.add(
                "ingest",
                row,
                "ingest.open" if self.is_so(0.4) else "ingest.begin",
                at=self.time(),
                **self.maybe(0.4, expected=self.digest()),
                **self.lease(row["ns"]),
            )
        elif kind < 36:
            _, row = self.row("ingest")
            made = {"ns": row["ns"], "digest": self.digest()}
            self.add(
                "content",
                made,
                "ingest.commit",
                ref=row["ref"],
                **self.some_labels(),
                **self.lease(row["ns"]),
            )
        elif kind < 49:
            self.snapshot()
        elif kind < 54:
            row = of | {"id": self.name()}
            self.add("lease", row, "lease.add", **self.maybe(0.8, labels=self.lease_labels()))
        elif kind < 63:
            held = self.typed("content", "ingest", "snap")
            leases = [it for it in self.rows["lease"] if it["ns"] == held["ns"]]
            lease = self.random.choice(leases)["id"] if leases else self.name()
            self.ask(
                self.random.choice(("lease.hold", "lease.hold", "lease.hold", "lease.drop")),
                **held,
                id=lease,
            )
        elif kind < 67:
            self.label()
        elif kind < 70:
            self.set()
        elif kind < 76:
            self.show(of)
        elif kind < 82:
            self.take_away()
        elif kind < 83:
            self.ask("profile", v=self.random.choice((1, 2, 2, 3, 0, 2**64 - 1, 2**64)))
        elif kind < 89:
            self.ask(self.random.choice(("gc.run", *5 * ("gc.plan",))), at=self.late())
        elif self.questions:
            kinds = ("content", "snap") if self.is_so(0.5) else ()
            self.ask(
                self.random.choice(("gc.explain", "gc.explain", "gc.impact")),
                **self.typed(*kinds),
                at=self.late(),
            )

    def container(self, row):
        both = {"snapshotter": self.snapshotter(), "key": self.name()}
        if self.is_so(0.7):
            _, snapshot = self.row("snap")
            row["ns"], both = snapshot["ns"], {it: snapshot[it] for it in both}
        if self.is_so(self.wrong):
            both.pop(self.random.choice(tuple(both)))
        self.add(
            "container",
            row,
            "container.add",
            **(both if self.is_so(0.85) else {}),
            **self.some_labels(),
        )

    def lease_labels(self):
        labels = self.maybe(0.7, **{EXPIRE: self.value(EXPIRE)}) | self.maybe(0.5, **{FLAT: "t"})
        return labels | (self.labels() if self.is_so(0.1) else {})

    def snapshot(self):
        """A snapshot over none, or over one of late; most are committed at once."""
        row = {"ns": self.ns(), "snapshotter": self.snapshotter(), "key": self.name()}
        parent = self.maybe(0.1, parent=self.name())
        if self.rows["committed"] and self.is_so(0.7):
            above = self.random.choice(self.rows["committed"])
            row, parent = above | {"key": row["key"]}, {"parent": above["key"]}
        op = "snap.view" if self.is_so(0.2) else "snap.prepare"
        self.add("snap", row, op, **parent, **self.some_labels(), **self.lease(row["ns"]))
        if self.is_so(0.65):
            name = self.name()
            if self.ask(
                "snap.commit", **row, name=name, **self.some_labels(), **self.lease(row["ns"])
            ):
                self.remember("snap", row | {"key": name})
                self.remember("committed", row | {"key": name})

    def label(self):
        kind, row = self.row()
        if kind == "ingest":
            _, row = self.row("image")
            self.ask("image.target", **row, target=self.digest())
            return
        key = (
            self.random.choice((EXPIRE, FLAT))
            if kind == "lease" and self.is_so(0.7)
            else self.key()
        )
        put = {"key": key, "value": self.value(key)}
        if kind != "lease" and self.is_so(0.4):
            put = self.reference()
        if kind == "snap":
            row["name"] = row.pop("key")
        self.ask(kind + ".label", **row, **put)

    def set(self):
        """Sets parts of a row: all its labels or some, its data, and what an image or a container
        names."""
        kind, row = self.row("image", "container", "content", "snap", "lease")
        members = self.maybe(0.4, labels=self.labels())
        if not members or self.is_so(self.wrong):
            members |= self.maybe(0.7, put=self.labels())
        if kind == "image":
            members |= self.maybe(0.4, target=self.digest())
        elif kind == "container":
            both = {"snapshotter": self.snapshotter(), "key": self.name()}
            members |= both if self.is_so(0.4) else self.maybe(self.wrong, key=self.name())
        self.ask(kind + ".set", **row, **members)

    def show(self, of):
        kind, row = self.row()
        which = self.random.randrange(9)
        if which == 0:
            self.ask("ns.list")
        elif which == 7:
            self.ask("snap.snapshotters", **of)
        elif which == 8:
            self.ask("back.list")
        elif which == 1:
            self.ask("lease.resources", **self.row("lease")[1])
        elif which < 4:
            self.ask(
                kind + ".list",
                **of,
                **({"snapshotter": row["snapshotter"]} if kind == "snap" else {}),
            )
        else:
            self.ask(kind + ".get", **row)

    def take_away(self):
        kind, row = self.row()
        if kind in ("image", "lease"):
            row |= self.maybe(0.4, sync=self.late())
        self.ask("ingest.abort" if kind == "ingest" else kind + ".remove", **row)

    def clear(self):
        """Takes all rows away, those of a snapshot above it first, and then the namespaces."""
        store = self.store
        snapshots = sorted(store.snapshots, key=lambda it: -store.snapshots[it]["number"])
        for ns, snapshotter, key in snapshots:
            self.ask("snap.remove", ns=ns, snapshotter=snapshotter, key=key)
        tables = {"image": store.images, "container": store.containers, "content": store.content}
        for kind, table in {**tables, "lease": store.leases}.items():
            for ns, name in list(table):
                self.ask(kind + ".remove", ns=ns, **{ROWS[kind]: name})
        for ns, name in list(store.ingests):
            self.ask("ingest.abort", ns=ns, ref=name)
        for ns in sorted(store.namespaces):
            self.ask("ns.remove", ns=ns)

    def end(self):
        """Shows what is left, and how lines of every length end."""
        for ns in self.namespaces:
            for kind in ("image", "container", "content", "ingest", "lease"):
                self.ask(kind + ".list", ns=ns)
            for snapshotter in self.snapshotters:
                self.ask("snap.list", ns=ns, snapshotter=snapshotter)
        self.ask("gc.run", at=self.late())
        if self.is_so(0.15):
            self.clear()
            self.ask("profile", v=self.random.choice((1, 2)))
        self.ask("gc.run", at=TIMES[-2])
        if self.is_so(0.05):
            for length in (65535, 65536, 65537):
                self.put(b'{"op":"ns.list"}'.ljust(length))
                self.put(b"x" * length)


def script_of(seed, questions=True):
    """The bytes of a script, and the replies that it should have."""
    made = Script(seed, questions)
    if made.is_so(0.45):
        made.ask("profile", v=2)
    if made.is_so(0.05):
        # no number is used, so the profile may still be chosen
        made.ask("ns.add", ns="x")
        made.clear()
        made.ask("profile", v=made.random.choice((1, 2)))
    for ns in made.namespaces:
        if made.is_so(0.95):
            made.ask("ns.add", ns=ns)
    for _ in range(made.random.choice((20, 60, 120, 250))):
        made.step()
    made.end()
    return b"\n".join(made.lines) + (b"\n" if made.is_so(0.5) else b""), made.replies


if __name__ == "__main__":
    sys.stdout.buffer.write(script_of(int(sys.argv[1]), "--no-questions" not in sys.argv)[0])
