"""Why metad refused lines of a script: the number of each, its op, the member and the rule."""
from __future__ import annotations

import json
import sys
from typing import Any, Dict, Iterable, List, Optional

from . import requests
from .faults import BadInput
from .names import Names
from .progress import Progress
from .remarks import printable

# fault 3: the member that names what is there already, by op
MADE = {
    "ns.add": "ns",
    "image.add": "name",
    "container.add": "name",
    "content.add": "digest",
    "ingest.begin": "ref",
    "ingest.commit": "digest",
    "snap.prepare": "key",
    "snap.view": "key",
    "snap.commit": "name",
    "lease.add": "id",
}
# fault 4: what forbids it, by op
FORBIDDEN = {
    "ns.remove": "ns: an object or a lease is in it",
    "ingest.begin": "ref: no number is left for it",
    "ingest.open": "ref: no number is left for it",
    "ingest.commit": "digest: the ingest expects another",
    "snap.prepare": "parent: not committed",
    "snap.view": "parent: not committed",
    "snap.commit": "key: not active",
    "snap.remove": "key: it has children",
    "profile": "v: something was stored before",
    "gc.run": "at: too many rows for a collection",
    "gc.plan": "at: too many rows for a collection",
    "gc.explain": "at: too many rows for a collection",
    "gc.impact": "resource: it has children",
    "image.remove": "sync: too many rows for a collection",
    "lease.remove": "sync: too many rows for a collection",
}
OTHER = {7: "memory was refused", 8: "a thread couldn't be started", 9: "the device failed"}


def run(words: Any, progress: Progress) -> int:
    """Prints a line for each refused line."""
    with open(words.script, "rb") as file:
        lines = [(number, line) for number, line in enumerate(file.read().split(b"\n"), 1) if line]
    replies = replies_of(sys.stdin.buffer)
    if len(replies) != len(lines):
        raise BadInput(
            "%s: it has %d lines, and there are %d replies"
            % (words.script, len(lines), len(replies))
        )
    names = Names()
    for (number, line), reply in zip(lines, replies):
        why = explain(line, reply, names)
        if why:
            sys.stdout.write("line %d: %s\n" % (number, printable(why)))
    sys.stdout.flush()
    return 0


def replies_of(lines: Iterable[bytes]) -> List[Dict[str, Any]]:
    """The replies of metad, each an object."""
    found = []
    for number, line in enumerate(lines, 1):
        try:
            reply = json.loads(line.decode())
        except (ValueError, RecursionError):
            reply = None
        if not isinstance(reply, dict) or not (
            "ok" in reply or isinstance(reply.get("fault"), int)
        ):
            raise BadInput("reply %d isn't metad's" % number)
        found.append(reply)
    return found


def explain(line: bytes, reply: Dict[str, Any], names: Names) -> Optional[str]:
    """Why a line was refused, None where it wasn't; `names` follow the replies."""
    try:
        op, request = requests.read(line)
    except requests.NoRequest as fault:
        return None if "ok" in reply else str(fault)
    if "ok" in reply:
        names.done(op, request, reply)
        return None
    return "%s: %s" % (op, reason(op, request, reply, names))


def reason(op: str, request: Dict[str, Any], reply: Dict[str, Any], names: Names) -> str:
    """The member and the rule of a request that was refused."""
    fault = reply["fault"]
    found = []
    if fault == 1:
        found = list(requests.broken_rules(op, request)) or [too_many_labels(op)]
    elif fault == 2:
        found = ["%s: not there" % member for member in names.missing(op, request)]
    elif fault == 3 and op in MADE:
        found = ["%s: there already" % MADE[op]]
    elif fault == 4 and op in ("snap.prepare", "snap.view") and "parent" not in request:
        found = ["key: no number is left for it"]
    elif fault == 4 and op == "ingest.open" and names.has(op, request):
        found = ["expected: the ingest has another, or none"]
    elif fault == 4 and op in FORBIDDEN:
        found = [FORBIDDEN[op]]
    elif fault in OTHER:
        found = [OTHER[fault]]
    return "; ".join(found) or "%s, for a reason that isn't known here" % reply.get(
        "name", "refused"
    )


def too_many_labels(op: str) -> str:
    """The rule that only the row shows: it would have more labels than a row may have."""
    if op.endswith(".set"):
        return "put: the row would have over 256 labels"
    return "key: new, and the row has 256 labels"
