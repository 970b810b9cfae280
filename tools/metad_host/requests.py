"""What a request line may say, as docs/FORMATS.md has it.

The members of each op, and the rule of each member.
"""
from __future__ import annotations

import json
import re
from typing import Any, Dict, Iterator, List, NoReturn, Optional, Set, Tuple, Union

from .numbers import is_moment
from .texts import CONTROL, DIGEST, LABEL_BYTES, NAME_BYTES, SHORT_NAME

LINE_BYTES = 65536
MOST_LABELS = 256
DATA_BYTES = 49152
NESTING = 127
# by the name of an op its members, and those of them that may be left out
OPS: Dict[str, Tuple[List[str], Set[str]]] = {}

for _row in """
ns.add ns
ns.remove ns
ns.list
image.add ns name target [labels] [data] [answer]
image.set ns name [target] [labels] [put] [data] [answer]
image.target ns name target [answer]
image.remove ns name [sync]
image.get ns name [answer]
image.list ns [answer]
image.label ns name key value [answer]
container.add ns name [snapshotter] [key] [labels] [data] [answer]
container.set ns name [snapshotter] [key] [labels] [put] [data] [answer]
container.remove ns name
container.get ns name [answer]
container.list ns [answer]
container.label ns name key value [answer]
content.add ns digest [labels] [data] [lease] [there] [answer]
content.set ns digest [labels] [put] [data] [answer]
content.remove ns digest [drop]
content.get ns digest [answer]
content.list ns [answer]
content.label ns digest key value [answer]
ingest.begin ns ref at [expected] [data] [lease] [answer]
ingest.open ns ref at [expected] [data] [lease] [answer]
ingest.commit ns ref digest [labels] [data] [lease] [drop] [there] [answer]
ingest.abort ns ref [drop]
ingest.get ns ref [answer]
ingest.list ns [answer]
snap.prepare ns snapshotter key [parent] [labels] [data] [lease] [there] [answer]
snap.view ns snapshotter key [parent] [labels] [data] [lease] [there] [answer]
snap.commit ns snapshotter key name [labels] [data] [lease] [drop] [there] [answer]
snap.set ns snapshotter key [labels] [put] [data] [answer]
snap.remove ns snapshotter key [drop]
snap.get ns snapshotter key [answer]
snap.list ns snapshotter [answer]
snap.label ns snapshotter name key value [answer]
snap.snapshotters ns
lease.add ns id [labels] [data] [answer]
lease.set ns id [labels] [put] [data] [answer]
lease.remove ns id [sync]
lease.get ns id [answer]
lease.list ns [answer]
lease.label ns id key value [answer]
lease.hold ns id type resource
lease.drop ns id type resource
lease.resources ns id
profile v
gc.run at
gc.plan at
gc.explain ns type resource at
gc.impact ns type resource at
back.list
""".strip().split("\n"):
    _op, *_members = _row.split()
    OPS[_op] = ([_name.strip("[]") for _name in _members],
                {_name[1:-1] for _name in _members if _name.startswith("[")})

MAKES = ("add", "begin", "open", "prepare", "view")  # the second words of ops that make a row

SHORT_RULE = ("not 1 to 76 letters, digits, '.', '_' or '-', of which the first is a letter or a "
              "digit")
NAME_RULE = "not 1 to 1,024 bytes without control characters"
TIME_RULE = "no time such as 2024-03-01T00:00:00Z"
TYPE_RULE = "neither content, nor ingests, nor snapshots/ with a snapshotter"
DATA_RULE = "over 49,152 bytes as a reply writes it"
QUESTIONS = ("gc.explain", "gc.impact")  # they ask of a row of any kind
ROW_RULE = ("neither images, containers, leases, content, nor ingests, nor snapshots/ with a "
            "snapshotter")


class NoRequest(Exception):
    """Why a line is no request: the op, where it has one that is known, and the reason."""


def refuse(reason: str, op: Optional[str] = None) -> NoReturn:
    """Tells that a line is no request."""
    raise NoRequest("%s: %s" % (op, reason) if op else reason)


def whole_number(text: str) -> Union[int, float]:
    """A JSON number: an int where it is one from 0 to 2^64 - 1 without a sign, else a float.

    A float has to be finite.
    """
    if text.isdigit() and len(text) <= 20 and int(text) < 2 ** 64:
        return int(text)
    number = float(text)
    if number in (float("inf"), float("-inf")):
        refuse("not JSON: a number out of range")
    return number


def no_constant(name: str) -> NoReturn:
    """Refuses a number that JSON hasn't and Python reads."""
    refuse("not JSON: %s" % name)


def read(line: bytes) -> Tuple[str, Dict[str, Any]]:
    """The op and the members of a request line, or NoRequest."""
    if len(line) > LINE_BYTES:
        refuse("more than 65,536 bytes")
    try:
        text = line.decode()
    except UnicodeDecodeError as bad:
        refuse("not UTF-8, from byte %d on" % (bad.start + 1))
    if not text.strip(" \t\r"):
        refuse("white space alone")
    if deepest(text) > NESTING:
        refuse("nested over 127 deep")
    try:
        request = json.loads(text, parse_int=whole_number, parse_float=whole_number,
                             parse_constant=no_constant)
    except ValueError as bad:
        place = str(bad).replace(": line 1 column", ", at character")
        refuse("not JSON: %s" % place.split(" (char")[0])
    if has_lone_surrogate(text):
        refuse("not JSON: half of a surrogate pair")
    return members_of(request)


def members_of(request: Any) -> Tuple[str, Dict[str, Any]]:
    """The op and the members of a JSON value that is a request."""
    if not isinstance(request, dict):
        refuse("not an object")
    op = request.pop("op", None)
    if op is None:
        refuse("op: missing")
    if not isinstance(op, str):
        refuse("op: not a text")
    if op not in OPS:
        refuse("op: no op is named %s" % json.dumps(op, ensure_ascii=False))
    members, optional = OPS[op]
    faults = ["%s: missing" % name for name in members
              if name not in request and name not in optional]
    faults += ["%s: no member of this op" % name for name in request if name not in members]
    for name, value in request.items():
        fault = wrong_kind(name, value) if name in members else None
        if fault:
            faults.append("%s: %s" % (name, fault))
    if faults:
        refuse("; ".join(faults), op)
    return op, request


def wrong_kind(name: str, value: object) -> Optional[str]:
    """Why a member's value is of another kind than its own; None where it isn't."""
    if name == "v":
        return None if type(value) is int else "not a whole number from 0 to 2^64 - 1"
    if name in ("labels", "put"):
        texts = isinstance(value, dict) and all(isinstance(text, str) for text in value.values())
        return None if texts else "not an object of texts"
    return None if isinstance(value, str) else "not a text"


def deepest(text: str) -> int:
    """How deep arrays and objects are nested in each other."""
    depth = most = 0
    for found in re.finditer(r'"(?:[^"\\]|\\.)*"|[\[{\]}]', text, re.DOTALL):
        if found[0] in "[{":
            depth += 1
            most = max(most, depth)
        elif found[0] in "]}":
            depth -= 1
    return most


def has_lone_surrogate(text: str) -> bool:
    """Whether an escape is half of a surrogate pair."""
    high: Optional[int] = None  # the end of a first half
    for found in re.finditer(r"\\(?:u([0-9A-Fa-f]{4})|.)", text, re.DOTALL):
        code = int(found[1], 16) if found[1] else 0
        if high is not None:
            if found.start() != high or not 0xDC00 <= code < 0xE000:
                return True
            high = None
        elif 0xDC00 <= code < 0xE000:
            return True
        elif 0xD800 <= code < 0xDC00:
            high = found.end()
    return high is not None


def broken_rules(op: str, request: Dict[str, Any]) -> Iterator[str]:
    """Each rule that a member breaks, with the member, whatever the store holds."""
    for name in OPS[op][0]:
        if name in request:
            fault = broken(op, name, request)
            if fault:
                yield "%s: %s" % (name, fault)
    of_snapshot = op in ("container.add", "container.set")
    if of_snapshot and ("snapshotter" in request) != ("key" in request):
        here, gone = ("snapshotter", "key") if "snapshotter" in request else ("key", "snapshotter")
        yield "%s: missing beside %s" % (gone, here)
    if "there" in request and "lease" not in request:
        yield "lease: missing beside there"
    if "labels" in request and "put" in request:
        yield "put: not beside labels"


def broken(op: str, name: str, request: Dict[str, Any]) -> Optional[str]:
    """The rule that this member of the request breaks; None where it breaks none."""
    text = request[name]
    if op.endswith(".label") and name in ("key", "value"):
        return label_rule(request["key"], request["value"]) if name == "key" else None
    if name in ("ns", "snapshotter"):
        return None if SHORT_NAME.fullmatch(text) else SHORT_RULE
    if name in ("digest", "target", "expected"):
        return digest_rule(text)
    if name in ("at", "sync"):
        return None if is_moment(text) else TIME_RULE
    if name in ("labels", "put"):
        return labels_rule(text)
    if name == "data":
        return None if written_bytes(text) <= DATA_BYTES else DATA_RULE
    if name in ("answer", "there"):
        known = "hold" if name == "there" else "rows" if op.endswith(".list") else "row"
        return None if text == known else "not %s" % known
    if name == "v":
        return None if text in (1, 2) else "neither 1 nor 2"
    if name == "type" and op in QUESTIONS:
        root = text in ("images", "containers", "leases")
        return None if root or resource_type(text) else ROW_RULE
    if name == "type":
        return None if resource_type(text) else TYPE_RULE
    if name == "resource" and broken(op, "type", request):
        return None
    if name == "resource" and request["type"] == "content":
        return digest_rule(text)
    return name_rule(text)


def name_rule(text: str) -> Optional[str]:
    """The rule that a name breaks."""
    data = text.encode()
    return None if 0 < len(data) <= NAME_BYTES and not CONTROL.search(data) else NAME_RULE


def written_bytes(text: str) -> int:
    """How many bytes a reply line has of a text, quotes apart."""
    escaped = re.findall(r'["\\\x00-\x1f]', text)
    return len(text.encode()) + sum(1 if char in '"\\\b\t\n\f\r' else 5 for char in escaped)


def digest_rule(text: str) -> Optional[str]:
    """The rule that a digest breaks."""
    if DIGEST.fullmatch(text):
        return None
    if text.startswith("sha512:"):
        return "not sha512: with 128 lower-case digits"
    return "not sha256: with 64 lower-case digits"


def resource_type(text: str) -> Optional[str]:
    """The type of a lease's resource without its snapshotter; None where it is none."""
    if text in ("content", "ingests"):
        return text
    kind, _, snapshotter = text.partition("/")
    return kind if kind == "snapshots" and SHORT_NAME.fullmatch(snapshotter) else None


def label_rule(key: str, value: str) -> Optional[str]:
    """The rule that a label breaks.

    An empty value takes a label away, and then any key is allowed.
    """
    if not value:
        return None
    if not key:
        return "empty"
    fits = len(key.encode()) + len(value.encode()) <= LABEL_BYTES
    return None if fits else "over 4,096 bytes with its value"


def labels_rule(labels: Dict[str, str]) -> Optional[str]:
    """The rule that the labels of a row break."""
    for key, value in labels.items():
        fault = label_rule(key, value)
        if fault and not key:
            return "a key is empty"
        if fault:
            return "the key %s is %s" % (json.dumps(key[:60], ensure_ascii=False), fault)
    return "over 256" if sum(value != "" for value in labels.values()) > MOST_LABELS else None
