#!/usr/bin/env python3
"""trials/scripts/model.py < SCRIPT: a second, plain and slow metad, which answers line by line.

It is written from docs/FORMATS.md and docs/RULES.md, and shares no code with the crates or with
tools/. So a definition that says something else than the pages is seen, where both programs answer
the same script. A collection goes over all references of all rows, one after the other; nothing is
indexed, and nothing is refused for memory. The backend is as the page says: a set of blobs, numbers
of ingests, and numbers of snapshots with their parents' numbers.
"""
import json
import re
import sys

LONGEST_LINE = 65536
DEEPEST = 127
MOST_LABELS, LONGEST_LABEL, LONGEST_DATA = 256, 4096, 49152
LAST_NUMBER, MOST_NODES = 4000000000, 16777216
DAY = 86400 * 10**9
DONE = '{"ok":true}'
FAULTS = {
    1: "InvalidArgument",
    2: "NotFound",
    3: "AlreadyExists",
    4: "FailedPrecondition",
    5: "BadLine",
    6: "TooLong",
}
KINDS = ("images", "containers", "leases", "ingests", "content", "snapshots")
COLLECTED = ("content", "ingests", "snapshots")
ROOT, EXPIRE, FLAT = "containerd.io/gc.root", "containerd.io/gc.expire", "containerd.io/gc.flat"
CONTENT_KEY = re.compile(r"containerd\.io/gc\.ref\.content(?:[./].*)?", re.DOTALL)
HALF_A_PAIR = re.compile("[\ud800-\udfff]")
SNAPSHOT_KEY = re.compile(r"containerd\.io/gc\.ref\.snapshot\.([^/]*)(?:/.*)?", re.DOTALL)


KIND_OF = {"image": "images", "container": "containers", "lease": "leases"}
KIND_OF |= {"ingest": "ingests", "content": "content", "snap": "snapshots"}
NAMED_BY = {"images": "name", "containers": "name", "leases": "id", "content": "digest"}
NAMED_BY |= {"snapshots": "key"}
SHOWN = {"images": ("target", "labels"), "containers": ("snapshot", "labels")}
SHOWN |= {"content": ("labels",), "leases": ("labels",)}
SHOWN |= {"snapshots": ("kind", "labels", "number", "parent")}


def text_of(value):
    """Compact JSON, its members by the bytes of their names."""
    return json.dumps(value, ensure_ascii=False, separators=(",", ":"), sort_keys=True)


class Refused(Exception):
    """The faults that apply to a request; the least is answered."""


# ---- a line


class Number(str):
    """A number, as it was written; beyond the greatest of 64 bits it is none."""

    def __new__(cls, text):
        if float(text) in (float("inf"), float("-inf")):
            raise ValueError("too great a number")
        return super().__new__(cls, text)


def no_constant(text):
    raise ValueError(f"{text} is no JSON")


def is_whole(value):
    """Whether no text of a value has half of a surrogate pair."""
    if isinstance(value, str):
        return not HALF_A_PAIR.search(value)
    return all(map(is_whole, value)) if isinstance(value, (list, tuple)) else True


def pairs_of(pairs):
    """An object; of a member that is repeated the last value counts, but each has to be one."""
    if not is_whole(pairs):
        raise ValueError("half a surrogate pair")
    return dict(pairs)


DECODER = json.JSONDecoder(
    object_pairs_hook=pairs_of, parse_int=Number, parse_float=Number, parse_constant=no_constant
)


def is_deep(text):
    """Whether objects and lists are nested more than the deepest that is allowed."""
    depth, deepest = 0, 0
    for it in re.sub(r'"(?:[^"\\]|\\.)*"', "", text):
        depth += (it in "[{") - (it in "]}")
        deepest = max(depth, deepest)
    return deepest > DEEPEST


def json_of(text):
    """The value that a text is; ValueError where it is none."""
    if text.count("[") + text.count("{") > DEEPEST and is_deep(text):
        raise ValueError("nested too deeply")
    return DECODER.decode(text)


# the members of each op, and those that may be left out
MEMBERS = {
    "ns.add": ("ns", ""),
    "ns.remove": ("ns", ""),
    "ns.list": ("", ""),
    "image.add": ("ns name target", "labels data answer"),
    "image.target": ("ns name target", "answer"),
    "image.set": ("ns name", "target labels put data answer"),
    "image.get": ("ns name", "answer"),
    "image.label": ("ns name key value", "answer"),
    "image.list": ("ns", "answer"),
    "image.remove": ("ns name", "sync"),
    "container.add": ("ns name", "snapshotter key labels data answer"),
    "container.set": ("ns name", "snapshotter key labels put data answer"),
    "container.get": ("ns name", "answer"),
    "container.label": ("ns name key value", "answer"),
    "container.list": ("ns", "answer"),
    "container.remove": ("ns name", ""),
    "content.add": ("ns digest", "labels data lease there answer"),
    "content.set": ("ns digest", "labels put data answer"),
    "content.get": ("ns digest", "answer"),
    "content.label": ("ns digest key value", "answer"),
    "content.list": ("ns", "answer"),
    "content.remove": ("ns digest", "drop"),
    "ingest.begin": ("ns ref at", "expected data lease answer"),
    "ingest.open": ("ns ref at", "expected data lease answer"),
    "ingest.get": ("ns ref", "answer"),
    "ingest.list": ("ns", "answer"),
    "ingest.commit": ("ns ref digest", "labels data lease drop there answer"),
    "ingest.abort": ("ns ref", "drop"),
    "snap.prepare": ("ns snapshotter key", "parent labels data lease there answer"),
    "snap.view": ("ns snapshotter key", "parent labels data lease there answer"),
    "snap.commit": ("ns snapshotter key name", "labels data lease drop there answer"),
    "snap.set": ("ns snapshotter key", "labels put data answer"),
    "snap.get": ("ns snapshotter key", "answer"),
    "snap.label": ("ns snapshotter name key value", "answer"),
    "snap.list": ("ns snapshotter", "answer"),
    "snap.snapshotters": ("ns", ""),
    "snap.remove": ("ns snapshotter key", "drop"),
    "lease.add": ("ns id", "labels data answer"),
    "lease.set": ("ns id", "labels put data answer"),
    "lease.get": ("ns id", "answer"),
    "lease.label": ("ns id key value", "answer"),
    "lease.list": ("ns", "answer"),
    "lease.hold": ("ns id type resource", ""),
    "lease.drop": ("ns id type resource", ""),
    "lease.resources": ("ns id", ""),
    "lease.remove": ("ns id", "sync"),
    "gc.run": ("at", ""),
    "gc.plan": ("at", ""),
    "profile": ("v", ""),
    "back.list": ("", ""),
    "gc.explain": ("ns type resource at", ""),
    "gc.impact": ("ns type resource at", ""),
}
MEMBERS = {op: (given.split(), left_out.split()) for op, (given, left_out) in MEMBERS.items()}


def request_of(line):
    """The op and the members of a line; ValueError where it is no request."""
    value = json_of(line.decode("utf-8"))
    if (
        not isinstance(value, dict)
        or type(value.get("op")) is not str
        or value["op"] not in MEMBERS
    ):
        raise ValueError("no object with a known op")
    op = value.pop("op")
    given, left_out = MEMBERS[op]
    if any(it not in value for it in given) or any(
        it not in given and it not in left_out for it in value
    ):
        raise ValueError("a member is missing, or isn't listed")
    for name, it in value.items():
        if name == "v":
            if type(it) is not Number or not it.isdigit() or int(it) >= 2**64:
                raise ValueError("no whole number")
        elif name in ("labels", "put"):
            if type(it) is not dict or any(type(text) is not str for text in it.values()):
                raise ValueError("no object of texts")
        elif type(it) is not str:
            raise ValueError("no text")
    return op, value


# ---- what is allowed

SHORT_NAME = re.compile("[A-Za-z0-9][A-Za-z0-9._-]{0,75}")
NAME = re.compile("[^\x00-\x1f\x7f]+")
DIGEST = re.compile("sha256:[0-9a-f]{64}|sha512:[0-9a-f]{128}")
TIME = re.compile(
    r"([0-9]{4})-([0-9]{2})-([0-9]{2})T([0-9]{2}):([0-9]{2}):([0-9]{2})(?:\.([0-9]{1,9}))?"
    r"(?:Z|([+-])([0-9]{2}):([0-9]{2}))"
)
MONTHS = (31, 28, 31, 30, 31, 30, 31, 31, 30, 31, 30, 31)


def is_short_name(text):
    return SHORT_NAME.fullmatch(text) is not None


def is_name(text):
    return NAME.fullmatch(text) is not None and len(text.encode()) <= 1024


def is_digest(text):
    return DIGEST.fullmatch(text) is not None


def is_data(text):
    """Whether a text has at most so many bytes as JSON writes them, quotes apart."""
    return len(text_of(text).encode()) - 2 <= LONGEST_DATA


def is_label(key, value):
    return key != "" and len(key.encode()) + len(value.encode()) <= LONGEST_LABEL


def is_resource(kind, name):
    if kind == "content":
        return is_digest(name)
    is_type = kind == "ingests" or (
        kind.startswith("snapshots/") and is_short_name(kind.partition("/")[2])
    )
    return is_type and is_name(name)


def is_row_type(kind, name):
    return is_name(name) if kind in ("images", "containers", "leases") else is_resource(kind, name)


def is_leap(year):
    return year % 4 == 0 and (year % 100 != 0 or year % 400 == 0)


def moment_of(text):
    """Nanoseconds since 1970, or None where the text is no time."""
    found = TIME.fullmatch(text)
    if not found:
        return None
    year, month, day, hour, minute, second = map(int, found.groups()[:6])
    fraction, sign, hours, minutes = found.groups()[6:]
    if year > 9998 or not 1 <= month <= 12 or hour > 23 or minute > 59 or second > 59:
        return None
    if not 1 <= day <= MONTHS[month - 1] + (month == 2 and is_leap(year)):
        return None
    offset = 0
    if sign:
        if int(hours) > 23 or int(minutes) > 59:
            return None
        offset = (int(hours) * 60 + int(minutes)) * 60 * (1 if sign == "+" else -1)
    # of the years before this one each fourth has a day more, with the two rules for centuries;
    # year 0 is one of them
    days = 365 * year + (year + 3) // 4 - (year + 99) // 100 + (year + 399) // 400
    days += sum(MONTHS[: month - 1]) + (month > 2 and is_leap(year)) + day - 1 - 719528
    return (days * 86400 + hour * 3600 + minute * 60 + second - offset) * 10**9 + int(
        (fraction or "").ljust(9, "0")
    )


def end_text(moment):
    """A moment in UTC, as the reply has it."""
    second, fraction = divmod(moment, 10**9)
    day, second = divmod(second, 86400)
    cycles, day = divmod(day + 719528, 146097)
    year, month = 400 * cycles, 1
    while day >= 365 + is_leap(year):
        day -= 365 + is_leap(year)
        year += 1
    while day >= MONTHS[month - 1] + (month == 2 and is_leap(year)):
        day -= MONTHS[month - 1] + (month == 2 and is_leap(year))
        month += 1
    clock = "%02d:%02d:%02d" % (second // 3600, second // 60 % 60, second % 60)
    digits = ("." + "%09d" % fraction).rstrip("0").rstrip(".")
    return "%04d-%02d-%02dT%s%sZ" % (year, month, day + 1, clock, digits)


# ---- a store


class Store:
    """The rows by their keys, the objects of the backend, and what requests do to them.

    Keys are (ns, name), of snapshots (ns, snapshotter, name). An op is a method, which tells its
    faults before it changes anything.
    """

    def __init__(self):
        self.profile, self.used = 1, 0
        self.namespaces = set()
        self.images, self.containers, self.leases = {}, {}, {}
        self.content, self.ingests, self.snapshots = {}, {}, {}
        self.blobs, self.begun, self.objects = set(), set(), {}

    def answer(self, line):
        """The reply to a line, or None where the line is empty."""
        if line == b"":
            return None
        if len(line) > LONGEST_LINE:
            return text_of({"fault": 6, "name": FAULTS[6]})
        try:
            op, members = request_of(line)
        except ValueError:
            return text_of({"fault": 5, "name": FAULTS[5]})
        words = {it: members.pop(it) for it in ("answer", "there") if it in members}
        try:
            found = self.answer_with(op, members, **words)
        except Refused as refused:
            least = min(refused.args[0])
            return text_of({"fault": least, "name": FAULTS[least]})
        return DONE if found is None else text_of({"ok": True, **found})

    def answer_with(self, op, members, answer=None, there=None):
        """What an op answers, with the row or the rows that `answer` asks for; what `there` is to
        hold is held, where it is there already."""
        word = "rows" if op.endswith(".list") else "row"
        self.wants(
            wrong=answer not in (None, word)
            or there not in (None, "hold")
            or (there is not None and "lease" not in members)
        )
        told = {}
        try:
            found = getattr(self, "op_" + op.replace(".", "_"))(**members)
        except Refused as refused:
            if there is None or min(refused.args[0]) != 3:
                raise
            found, told = None, {"there": True}
            kind, row = self.row_named(op, **members)
            self.hold(row[0], members["lease"], "/".join((kind, *row[1:-1])), row[-1])
        if answer == "rows":
            kind = KIND_OF[op.partition(".")[0]]
            group = (members["ns"], *(members[it] for it in ("snapshotter",) if it in members))
            rows = sorted(row for row in getattr(self, kind) if row[:-1] == group)
            return {"rows": [self.shown(kind, row, True) for row in rows]}
        if answer == "row":
            told["row"] = self.shown(*self.row_named(op, **members), True)
        return told or found

    @staticmethod
    def row_named(op, ns, snapshotter=None, key=None, **of):
        """The table and the key of the row that an op makes, changes or gets."""
        kind = KIND_OF[op.partition(".")[0]]
        if kind == "snapshots":
            return kind, (ns, snapshotter, of.get("name", key))
        if op == "ingest.commit":
            return "content", (ns, of["digest"])
        return kind, (ns, next(of[it] for it in ("digest", "ref", "id", "name") if it in of))

    def shown(self, kind, row, is_answer=False):
        """A row, as a reply has it; its data where there is some."""
        it = getattr(self, kind)[row]
        told = {"data": it["data"]} if it["data"] else {}
        if kind == "ingests":
            told |= {
                "ref": row[-1],
                "number": it["number"],
                "expected": it["expected"],
                "own": it["end"] is not None,
            }
            return told
        told |= {NAMED_BY[kind]: row[-1], **{of: it[of] for of in SHOWN[kind]}}
        if is_answer and kind == "snapshots" and it["parent"] is not None:
            told["parent_number"] = self.snapshots[(*row[:-1], it["parent"])]["number"]
        return told

    def wants(self, **of):
        """Refuses a request to which faults apply: each is told by whether it does."""
        number = {"wrong": 1, "absent": 2, "there": 3, "forbidden": 4}
        told = [number[it] for it, applies in of.items() if applies]
        if told:
            raise Refused(told)

    # ---- what many ops share

    def wrong_labels(self, labels):
        kept = self.kept_labels(labels)
        return len(kept) > MOST_LABELS or not all(is_label(*it) for it in kept.items())

    @staticmethod
    def kept_labels(labels):
        return {key: value for key, value in (labels or {}).items() if value != ""}

    @staticmethod
    def wrong_data(data):
        return data is not None and not is_data(data)

    def set_row(self, table, row, is_wrong, labels=None, put=None, data=None, **own):
        """Replaces what is given of a row: its labels or some of them, its data, and its own."""
        found = table.get(row)
        kept = dict(found["labels"]) if found else {}
        if labels is not None:
            kept = self.kept_labels(labels)
        for key, value in (put or {}).items():
            if value == "":
                kept.pop(key, None)
        kept |= self.kept_labels(put)
        is_wrong = (
            is_wrong
            or not is_short_name(row[0])
            or (labels is not None and put is not None)
            or self.wrong_labels(labels)
            or not all(is_label(*it) for it in self.kept_labels(put).items())
            or len(kept) > MOST_LABELS
            or self.wrong_data(data)
        )
        self.wants(wrong=is_wrong, absent=found is None or self.is_absent(row[0]))
        found["labels"] = kept
        found |= {} if data is None else {"data": data}
        found |= {of: it for of, it in own.items() if it is not None}

    def drop(self, ns, lease, kind, name):
        """That lease drops what goes, if there is such a lease and it holds it."""
        if (ns, lease) in self.leases:
            self.leases[ns, lease]["resources"].discard((kind, name))

    def is_absent(self, ns, lease=None):
        return ns not in self.namespaces or (lease is not None and (ns, lease) not in self.leases)

    def hold(self, ns, lease, kind, name):
        if lease is not None:
            self.leases[ns, lease]["resources"].add((kind, name))

    def put_label(self, table, row, is_wrong, key, value):
        found = table.get(row)
        labels = found["labels"] if found else {}
        is_full = key not in labels and len(labels) >= MOST_LABELS
        is_wrong = (
            is_wrong
            or not is_short_name(row[0])
            or (value != "" and (not is_label(key, value) or is_full))
        )
        self.wants(wrong=is_wrong, absent=found is None or self.is_absent(row[0]))
        if value == "":
            labels.pop(key, None)
        else:
            labels[key] = value

    def find(self, table, row, is_wrong):
        """The row of a key, where the request is allowed and it is there."""
        self.wants(
            wrong=is_wrong or not is_short_name(row[0]),
            absent=self.is_absent(row[0]) or row not in table,
        )
        return table[row]

    def listing(self, table, ns, *group):
        self.wants(
            wrong=not is_short_name(ns) or not all(map(is_short_name, group)),
            absent=self.is_absent(ns),
        )
        return {"names": sorted(row[-1] for row in table if row[:-1] == (ns, *group))}

    # ---- namespaces

    def op_ns_add(self, ns):
        self.wants(wrong=not is_short_name(ns), there=ns in self.namespaces)
        self.namespaces.add(ns)

    def op_ns_remove(self, ns):
        tables = (getattr(self, it) for it in KINDS)
        self.wants(
            wrong=not is_short_name(ns),
            absent=self.is_absent(ns),
            forbidden=any(row[0] == ns for table in tables for row in table),
        )
        self.namespaces.remove(ns)

    def op_ns_list(self):
        return {"names": sorted(self.namespaces)}

    # ---- images

    def op_image_add(self, ns, name, target, labels=None, data=None):
        is_wrong = (
            not is_short_name(ns)
            or not is_name(name)
            or not is_digest(target)
            or self.wrong_labels(labels)
            or self.wrong_data(data)
        )
        self.wants(wrong=is_wrong, absent=self.is_absent(ns), there=(ns, name) in self.images)
        self.images[ns, name] = {
            "target": target,
            "labels": self.kept_labels(labels),
            "data": data or "",
        }

    def op_image_set(self, ns, name, target=None, **of):
        is_wrong = not is_name(name) or (target is not None and not is_digest(target))
        self.set_row(self.images, (ns, name), is_wrong, target=target, **of)

    def op_image_target(self, ns, name, target):
        self.find(self.images, (ns, name), not is_name(name) or not is_digest(target))[
            "target"
        ] = target

    def op_image_get(self, ns, name):
        self.find(self.images, (ns, name), not is_name(name))
        return {"row": self.shown("images", (ns, name))}

    def op_image_label(self, ns, name, key, value):
        self.put_label(self.images, (ns, name), not is_name(name), key, value)

    def op_image_list(self, ns):
        return self.listing(self.images, ns)

    def op_image_remove(self, ns, name, sync=None):
        return self.remove(self.images, ns, name, sync)

    def remove(self, table, ns, name, sync):
        is_untimely = sync is not None and moment_of(sync) is None
        is_wrong = not is_short_name(ns) or not is_name(name) or is_untimely
        self.wants(
            wrong=is_wrong,
            absent=self.is_absent(ns) or (ns, name) not in table,
            forbidden=sync is not None and self.is_too_large(),
        )
        del table[ns, name]
        return None if sync is None else self.collect(moment_of(sync))

    # ---- containers

    @staticmethod
    def wrong_snapshot(snapshotter, key):
        """Whether one of them stands alone, or both don't name a snapshot."""
        if snapshotter is None or key is None:
            return (snapshotter is None) != (key is None)
        return not is_short_name(snapshotter) or not is_name(key)

    def op_container_add(self, ns, name, snapshotter=None, key=None, labels=None, data=None):
        is_wrong = (
            not is_short_name(ns)
            or not is_name(name)
            or self.wrong_snapshot(snapshotter, key)
            or self.wrong_labels(labels)
            or self.wrong_data(data)
        )
        self.wants(wrong=is_wrong, absent=self.is_absent(ns), there=(ns, name) in self.containers)
        self.containers[ns, name] = {
            "snapshot": None if key is None else [snapshotter, key],
            "labels": self.kept_labels(labels),
            "data": data or "",
        }

    def op_container_set(self, ns, name, snapshotter=None, key=None, **of):
        is_wrong = not is_name(name) or self.wrong_snapshot(snapshotter, key)
        snapshot = None if key is None else [snapshotter, key]
        self.set_row(self.containers, (ns, name), is_wrong, snapshot=snapshot, **of)

    def op_container_get(self, ns, name):
        self.find(self.containers, (ns, name), not is_name(name))
        return {"row": self.shown("containers", (ns, name))}

    def op_container_label(self, ns, name, key, value):
        self.put_label(self.containers, (ns, name), not is_name(name), key, value)

    def op_container_list(self, ns):
        return self.listing(self.containers, ns)

    def op_container_remove(self, ns, name):
        self.find(self.containers, (ns, name), not is_name(name))
        del self.containers[ns, name]

    # ---- content

    def wrong_lease(self, lease):
        return lease is not None and not is_name(lease)

    def op_content_add(self, ns, digest, labels=None, data=None, lease=None):
        is_wrong = (
            not is_short_name(ns)
            or not is_digest(digest)
            or self.wrong_labels(labels)
            or self.wrong_data(data)
            or self.wrong_lease(lease)
        )
        self.wants(
            wrong=is_wrong, absent=self.is_absent(ns, lease), there=(ns, digest) in self.content
        )
        self.put_content(ns, digest, labels, data, lease)

    def put_content(self, ns, digest, labels, data, lease):
        self.content[ns, digest] = {"labels": self.kept_labels(labels), "data": data or ""}
        self.blobs.add(digest)
        self.hold(ns, lease, "content", digest)

    def op_content_set(self, ns, digest, **of):
        self.set_row(self.content, (ns, digest), not is_digest(digest), **of)

    def op_content_get(self, ns, digest):
        self.find(self.content, (ns, digest), not is_digest(digest))
        return {"row": self.shown("content", (ns, digest))}

    def op_content_label(self, ns, digest, key, value):
        self.put_label(self.content, (ns, digest), not is_digest(digest), key, value)

    def op_content_list(self, ns):
        return self.listing(self.content, ns)

    def op_content_remove(self, ns, digest, drop=None):
        self.find(self.content, (ns, digest), not is_digest(digest) or self.wrong_lease(drop))
        del self.content[ns, digest]
        self.drop(ns, drop, "content", digest)

    # ---- ingests

    def next_number(self):
        self.used += 1
        return self.used

    def wrong_begin(self, ns, ref, at, expected, data, lease):
        return (
            not is_short_name(ns)
            or not is_name(ref)
            or moment_of(at) is None
            or (expected is not None and not is_digest(expected))
            or self.wrong_data(data)
            or self.wrong_lease(lease)
        )

    def op_ingest_begin(self, ns, ref, at, expected=None, data=None, lease=None):
        self.wants(
            wrong=self.wrong_begin(ns, ref, at, expected, data, lease),
            absent=self.is_absent(ns, lease),
            there=(ns, ref) in self.ingests,
            forbidden=self.used == LAST_NUMBER,
        )
        number = self.next_number()
        self.ingests[ns, ref] = {
            "number": number,
            "expected": expected,
            "end": moment_of(at) + DAY if lease is None else None,
            "data": data or "",
        }
        self.begun.add(number)
        self.hold(ns, lease, "ingests", ref)

    def op_ingest_open(self, ns, ref, at, expected=None, data=None, lease=None):
        found = self.ingests.get((ns, ref))
        if found is None:
            return self.op_ingest_begin(ns, ref, at, expected, data, lease)
        self.wants(
            wrong=self.wrong_begin(ns, ref, at, expected, data, lease),
            absent=self.is_absent(ns, lease),
            forbidden=expected not in (None, found["expected"]),
        )
        if lease is None and found["end"] is not None:
            found["end"] = max(found["end"], moment_of(at) + DAY)
        self.hold(ns, lease, "ingests", ref)

    def op_ingest_get(self, ns, ref):
        self.find(self.ingests, (ns, ref), not is_name(ref))
        return {"row": self.shown("ingests", (ns, ref))}

    def op_ingest_list(self, ns):
        return self.listing(self.ingests, ns)

    def op_ingest_commit(self, ns, ref, digest, labels=None, data=None, lease=None, drop=None):
        found = self.ingests.get((ns, ref))
        is_wrong = (
            not is_short_name(ns)
            or not is_name(ref)
            or not is_digest(digest)
            or self.wrong_labels(labels)
            or self.wrong_data(data)
            or self.wrong_lease(lease)
            or self.wrong_lease(drop)
        )
        self.wants(
            wrong=is_wrong,
            absent=self.is_absent(ns, lease) or found is None,
            there=(ns, digest) in self.content,
            forbidden=found is not None and found["expected"] not in (None, digest),
        )
        del self.ingests[ns, ref]
        self.drop(ns, drop, "ingests", ref)
        self.put_content(ns, digest, labels, data, lease)

    def op_ingest_abort(self, ns, ref, drop=None):
        self.find(self.ingests, (ns, ref), not is_name(ref) or self.wrong_lease(drop))
        del self.ingests[ns, ref]
        self.drop(ns, drop, "ingests", ref)

    # ---- snapshots

    def make_snapshot(
        self, kind, ns, snapshotter, key, parent=None, labels=None, data=None, lease=None
    ):
        is_wrong = not is_short_name(ns) or not is_short_name(snapshotter) or not is_name(key)
        is_wrong = (
            is_wrong
            or (parent is not None and not is_name(parent))
            or self.wrong_labels(labels)
            or self.wrong_data(data)
            or self.wrong_lease(lease)
        )
        above = self.snapshots.get((ns, snapshotter, parent))
        self.wants(
            wrong=is_wrong,
            absent=self.is_absent(ns, lease) or (parent is not None and above is None),
            there=(ns, snapshotter, key) in self.snapshots,
            forbidden=(above is not None and above["kind"] != "committed")
            or self.used == LAST_NUMBER,
        )
        number = self.next_number()
        self.snapshots[ns, snapshotter, key] = {
            "kind": kind,
            "parent": parent,
            "number": number,
            "labels": self.kept_labels(labels),
            "data": data or "",
        }
        self.objects[snapshotter, number] = above["number"] if above else None
        self.hold(ns, lease, "snapshots/" + snapshotter, key)

    def op_snap_prepare(self, **of):
        self.make_snapshot("active", **of)

    def op_snap_view(self, **of):
        self.make_snapshot("view", **of)

    def op_snap_commit(
        self, ns, snapshotter, key, name, labels=None, data=None, lease=None, drop=None
    ):
        found = self.snapshots.get((ns, snapshotter, key))
        is_wrong = (
            not is_short_name(ns)
            or not is_short_name(snapshotter)
            or not is_name(key)
            or not is_name(name)
            or self.wrong_data(data)
            or self.wrong_lease(drop)
        )
        self.wants(
            wrong=is_wrong or self.wrong_labels(labels) or self.wrong_lease(lease),
            absent=self.is_absent(ns, lease) or found is None,
            there=(ns, snapshotter, name) in self.snapshots,
            forbidden=found is not None and found["kind"] != "active",
        )
        del self.snapshots[ns, snapshotter, key]
        self.snapshots[ns, snapshotter, name] = {
            **found,
            "kind": "committed",
            "labels": self.kept_labels(labels),
            "data": data or "",
        }
        self.drop(ns, drop, "snapshots/" + snapshotter, key)
        self.hold(ns, lease, "snapshots/" + snapshotter, name)

    def find_snapshot(self, ns, snapshotter, key):
        return self.find(
            self.snapshots,
            (ns, snapshotter, key),
            not is_short_name(snapshotter) or not is_name(key),
        )

    def op_snap_get(self, ns, snapshotter, key):
        self.find_snapshot(ns, snapshotter, key)
        return {"row": self.shown("snapshots", (ns, snapshotter, key))}

    def op_snap_set(self, ns, snapshotter, key, **of):
        is_wrong = not is_short_name(snapshotter) or not is_name(key)
        self.set_row(self.snapshots, (ns, snapshotter, key), is_wrong, **of)

    def op_snap_snapshotters(self, ns):
        self.wants(wrong=not is_short_name(ns), absent=self.is_absent(ns))
        return {"names": sorted({row[1] for row in self.snapshots if row[0] == ns})}

    def op_snap_label(self, ns, snapshotter, name, key, value):
        self.put_label(
            self.snapshots,
            (ns, snapshotter, name),
            not is_short_name(snapshotter) or not is_name(name),
            key,
            value,
        )

    def op_snap_list(self, ns, snapshotter):
        return self.listing(self.snapshots, ns, snapshotter)

    def has_children(self, ns, snapshotter, key):
        return any(
            row[:2] == (ns, snapshotter) and it["parent"] == key
            for row, it in self.snapshots.items()
        )

    def op_snap_remove(self, ns, snapshotter, key, drop=None):
        self.wants(wrong=self.wrong_lease(drop))
        self.find_snapshot(ns, snapshotter, key)
        self.wants(forbidden=self.has_children(ns, snapshotter, key))
        del self.snapshots[ns, snapshotter, key]
        self.drop(ns, drop, "snapshots/" + snapshotter, key)

    # ---- leases

    def op_lease_add(self, ns, id, labels=None, data=None):
        self.wants(
            wrong=not is_short_name(ns)
            or not is_name(id)
            or self.wrong_labels(labels)
            or self.wrong_data(data),
            absent=self.is_absent(ns),
            there=(ns, id) in self.leases,
        )
        self.leases[ns, id] = {
            "labels": self.kept_labels(labels),
            "data": data or "",
            "resources": set(),
        }

    def op_lease_set(self, ns, id, **of):
        self.set_row(self.leases, (ns, id), not is_name(id), **of)

    def op_lease_get(self, ns, id):
        self.find(self.leases, (ns, id), not is_name(id))
        return {"row": self.shown("leases", (ns, id))}

    def op_lease_label(self, ns, id, key, value):
        self.put_label(self.leases, (ns, id), not is_name(id), key, value)

    def op_lease_list(self, ns):
        return self.listing(self.leases, ns)

    def op_lease_hold(self, ns, id, type, resource):
        self.find(self.leases, (ns, id), not is_name(id) or not is_resource(type, resource))[
            "resources"
        ].add((type, resource))

    def op_lease_drop(self, ns, id, type, resource):
        held = self.find(self.leases, (ns, id), not is_name(id) or not is_resource(type, resource))[
            "resources"
        ]
        self.wants(absent=(type, resource) not in held)
        held.remove((type, resource))

    def op_lease_resources(self, ns, id):
        return {
            "resources": sorted(
                map(list, self.find(self.leases, (ns, id), not is_name(id))["resources"])
            )
        }

    def op_lease_remove(self, ns, id, sync=None):
        return self.remove(self.leases, ns, id, sync)

    # ---- what keeps what
    #
    # A thing of a path is a tuple of its kind, the key of its row, and 0 in full or 1 where labels
    # aren't followed (of content and snapshots). So things stand by kinds, by keys, and full before
    # flat.

    def end_of(self, kind, row):
        """The last moment of a row, or None where it has no end, or one that can't be read."""
        if kind == "ingests":
            return self.ingests[row]["end"]
        if kind == "images" and self.profile == 1:
            return None
        return moment_of(getattr(self, kind)[row]["labels"].get(EXPIRE, ""))

    def stays(self, kind, row, at):
        """Whether an image or a lease hasn't expired at a moment."""
        end = self.end_of(kind, row)
        return end is None or at <= end

    def is_unreadable(self, kind, row):
        text = getattr(self, kind)[row]["labels"].get(EXPIRE)
        return text is not None and moment_of(text) is None

    def roots(self, at):
        """The things at which paths begin."""
        for kind in ("images", "leases"):
            for row in getattr(self, kind):
                if self.stays(kind, row, at):
                    yield KINDS.index(kind), row, 0
        for row in self.containers:
            yield 1, row, 0
        for row, it in self.ingests.items():
            if it["end"] is not None and at <= it["end"]:
                yield 3, row, 0
        for kind in ("content", "snapshots"):
            for row, it in getattr(self, kind).items():
                if ROOT in it["labels"]:
                    yield KINDS.index(kind), row, 0

    def to_content(self, ns, digest, mode=0):
        """The things that a digest names."""
        return [(4, (ns, digest), mode)] if (ns, digest) in self.content else []

    def to_snapshot(self, ns, snapshotter, name, mode=0):
        return (
            [(5, (ns, snapshotter, name), mode)]
            if (ns, snapshotter, name) in self.snapshots
            else []
        )

    def to_resource(self, ns, kind, name, mode):
        if kind == "content":
            return self.to_content(ns, name, mode)
        if kind == "ingests":
            return [(3, (ns, name), 0)] if (ns, name) in self.ingests else []
        return self.to_snapshot(ns, kind.partition("/")[2], name, mode)

    def references(self, thing):
        """What a thing references, and by what: its own member, then its labels by their keys."""
        kind, row, mode = thing
        ns, it = row[0], getattr(self, KINDS[kind])[row]
        if kind == 0:
            for found in self.to_content(ns, it["target"]):
                yield found, {"by": "target"}
        if kind == 1 and it["snapshot"] is not None:
            for found in self.to_snapshot(ns, *it["snapshot"]):
                yield found, {"by": "snapshot"}
        if kind == 2:
            for resource in it["resources"]:
                for found in self.to_resource(ns, *resource, 1 if FLAT in it["labels"] else 0):
                    yield found, {"by": "resource"}
        if kind == 3 and it["expected"] is not None:
            for found in self.to_content(ns, it["expected"]):
                yield found, {"by": "expected"}
        if kind == 5 and it["parent"] is not None:
            yield (5, (*row[:2], it["parent"]), mode), {"by": "parent"}
        if kind in (0, 1, 4, 5) and mode == 0:
            for key, value in sorted(it["labels"].items()):
                of = SNAPSHOT_KEY.fullmatch(key)
                found = (
                    self.to_snapshot(ns, of[1], value)
                    if of
                    else self.to_content(ns, value)
                    if CONTENT_KEY.fullmatch(key)
                    else []
                )
                for it_too in found:
                    yield it_too, {"by": "label", "label": key}

    def reached(self, at):
        """All things that a path leads to, by the number of things before them."""
        by_length = [set(self.roots(at))]
        found = set(by_length[0])
        while by_length[-1]:
            nexts = {to for thing in by_length[-1] for to, _ in self.references(thing)} - found
            found |= nexts
            by_length.append(nexts)
        return by_length

    # ---- collections

    def is_too_large(self):
        return 2 * (len(self.content) + len(self.snapshots)) + len(self.ingests) > MOST_NODES

    def depths(self):
        """How many objects stand above each; those were made before, with lesser numbers."""
        found = {}
        for snapshotter, number in sorted(self.objects, key=lambda it: it[1]):
            above = self.objects[snapshotter, number]
            found[snapshotter, number] = 0 if above is None else found[snapshotter, above] + 1
        return found

    def plan(self, at):
        """The rows and the objects that a collection removes, and how many things are reached."""
        things = set().union(*self.reached(at))
        kept = {(KINDS[kind], row) for kind, row, _ in things}
        rows = {
            kind: sorted(row for row in getattr(self, kind) if (kind, row) not in kept)
            for kind in COLLECTED
        }
        for kind in ("images", "leases"):
            rows[kind] = sorted(row for row in getattr(self, kind) if not self.stays(kind, row, at))
        depths = self.depths()
        owned = {
            (row[1], it["number"])
            for row, it in self.snapshots.items()
            if ("snapshots", row) in kept
        }
        objects = {
            "blobs": sorted(self.blobs - {row[1] for kind, row in kept if kind == "content"}),
            "ingests": sorted(
                self.begun
                - {it["number"] for row, it in self.ingests.items() if ("ingests", row) in kept}
            ),
            "snapshots": sorted(
                (it for it in self.objects if it not in owned),
                key=lambda it: (it[0], -depths[it], it[1]),
            ),
        }
        return rows, objects, sum(kind >= 3 for kind, _, _ in things)

    def report(self, at, dry):
        rows, objects, scanned = self.plan(at)
        report = {
            "backend": objects,
            "dry": dry,
            "failed": {"blobs": [], "ingests": [], "snapshots": []},
            "ignored": sorted(row for row in self.leases if self.is_unreadable("leases", row)),
            "kept": {kind: len(getattr(self, kind)) - len(rows.get(kind, ())) for kind in KINDS}
            | {"namespaces": len(self.namespaces)},
            "removed": {
                kind: found for kind, found in rows.items() if kind != "images" or self.profile == 2
            },
            "scanned": scanned,
        }
        if self.profile == 2:
            report["ignored_images"] = sorted(
                row for row in self.images if self.is_unreadable("images", row)
            )
        return report

    def collect(self, at):
        report = self.report(at, False)
        for kind, rows in report["removed"].items():
            for row in rows:
                del getattr(self, kind)[row]
        self.blobs -= set(report["backend"]["blobs"])
        self.begun -= set(report["backend"]["ingests"])
        for it in report["backend"]["snapshots"]:
            del self.objects[it]
        return {"report": report}

    def op_gc_run(self, at):
        self.wants(wrong=moment_of(at) is None, forbidden=self.is_too_large())
        return self.collect(moment_of(at))

    def op_gc_plan(self, at):
        self.wants(wrong=moment_of(at) is None, forbidden=self.is_too_large())
        return {"report": self.report(moment_of(at), True)}

    def op_profile(self, v):
        self.wants(wrong=int(v) not in (1, 2), forbidden=bool(self.namespaces) or self.used > 0)
        self.profile = int(v)

    # ---- questions

    def op_back_list(self):
        return {
            "backend": {
                "blobs": sorted(self.blobs),
                "ingests": sorted(self.begun),
                "snapshots": sorted(self.objects),
            }
        }

    def asked_row(self, ns, kind, name, at):
        """The table and the key of the row that a question names."""
        self.wants(
            wrong=not is_short_name(ns) or not is_row_type(kind, name) or moment_of(at) is None
        )
        kind, _, snapshotter = kind.partition("/")
        row = (ns, snapshotter, name) if kind == "snapshots" else (ns, name)
        self.wants(
            absent=self.is_absent(ns) or row not in getattr(self, kind),
            forbidden=self.is_too_large(),
        )
        return kind, row

    def told(self, thing, by):
        """A thing of a path, as the reply has it."""
        kind, row, mode = thing
        told = {**by, "name": row[-1], "type": KINDS[kind] + ("/" + row[1] if kind == 5 else "")}
        if kind >= 4:
            told["mode"] = "flat" if mode else "full"
        if kind == 2 or (kind == 0 and self.profile == 2):
            labels = getattr(self, KINDS[kind])[row]["labels"]
            told |= {"expire": labels[EXPIRE]} if EXPIRE in labels else {}
        if kind == 3 and self.ingests[row]["end"] is not None:
            told["expire"] = end_text(self.ingests[row]["end"])
        return told

    def shortest_path(self, kind, row, at, word):
        """The first of the shortest paths to a row, from its root on, or none."""
        by_length = self.reached(at)
        asked = [(KINDS.index(kind), row, mode) for mode in (0, 1)]
        long = next(
            (long for long, things in enumerate(by_length) if things.intersection(asked)), None
        )
        if long is None:
            return []
        thing, path = next(it for it in asked if it in by_length[long]), []
        for things in reversed(by_length[:long]):
            before = min(it for it in things if any(to == thing for to, _ in self.references(it)))
            path.append(
                self.told(thing, next(by for to, by in self.references(before) if to == thing))
            )
            thing = before
        path.append(self.told(thing, {"by": word}))
        return path[::-1]

    def last_path(self, kind, row):
        """The same of the last moment at which there was a path, or none."""
        tables = ("images", "leases", "ingests")
        ends = {self.end_of(table, it) for table in tables for it in getattr(self, table)}
        for end in sorted(ends - {None}, reverse=True):
            path = self.shortest_path(kind, row, end, "ended")
            if path:
                return path
        return []

    def op_gc_explain(self, ns, type, resource, at):
        kind, row = self.asked_row(ns, type, resource, at)
        path = self.shortest_path(kind, row, moment_of(at), "root")
        return {
            "kept": bool(path),
            "path": path or self.last_path(kind, row),
        }

    def op_gc_impact(self, ns, type, resource, at):
        kind, row = self.asked_row(ns, type, resource, at)
        self.wants(forbidden=kind == "snapshots" and self.has_children(*row))
        rows, objects, _ = self.plan(moment_of(at))
        table = getattr(self, kind)
        removed = table.pop(row)
        rows_without, objects_without, _ = self.plan(moment_of(at))
        table[row] = removed
        only = lambda without, now: [it for it in without if it not in now]
        return {
            "impact": {
                "removed": {it: only(rows_without[it], set(rows[it])) for it in COLLECTED},
                "backend": {
                    it: only(found, set(objects[it])) for it, found in objects_without.items()
                },
            }
        }


def lines_of(script):
    """The lines of a script; the last one needs no line feed."""
    return script.split(b"\n")


def replies_of(script):
    """The replies to a script, a line each."""
    store = Store()
    replies = (store.answer(line) for line in lines_of(script))
    return [it for it in replies if it is not None]


def main():
    store = Store()
    for line in sys.stdin.buffer:
        reply = store.answer(line[:-1] if line.endswith(b"\n") else line)
        if reply is not None:
            sys.stdout.buffer.write(reply.encode() + b"\n")
            sys.stdout.buffer.flush()


if __name__ == "__main__":
    main()
