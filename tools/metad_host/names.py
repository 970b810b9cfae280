"""Which names a store has, as the replies of its script tell it.

So of a name that was refused it is known whether it isn't there, or is there already.
"""
from __future__ import annotations

from typing import Any, Dict, List, Set, Tuple

from .requests import MAKES, QUESTIONS

# the member that names a row, by the first word of an op
OWN = {"image": "name", "container": "name", "content": "digest", "ingest": "ref", "snap": "key",
       "lease": "id"}
# what the first word of an op is, by a report's word for the rows
KINDS = {"content": "content", "images": "image", "ingests": "ingest", "leases": "lease",
         "snapshots": "snap"}


class Names:
    """The namespaces and rows of a store after some replies."""

    def __init__(self) -> None:
        self.namespaces: Set[str] = set()
        self.rows: Set[Tuple[str, ...]] = set()

    def missing(self, op: str, request: Dict[str, Any]) -> List[str]:
        """The members of a request that name something which isn't there."""
        kind, verb = (op.split(".") + [""])[:2]
        ns = request.get("ns")
        if ns not in self.namespaces:
            return ["ns"]
        if op in QUESTIONS:
            return ["resource"]
        found = []
        if op in ("lease.drop",) and ("lease", ns, request["id"]) in self.rows:
            return ["resource"]  # the lease is there
        own = "name" if op == "snap.label" else OWN.get(kind)
        if own in request and verb not in MAKES and self.key(kind, request, own) not in self.rows:
            found.append(own)
        if "parent" in request and self.key(kind, request, "parent") not in self.rows:
            found.append("parent")
        if "lease" in request and ("lease", ns, request["lease"]) not in self.rows:
            found.append("lease")
        return found

    def has(self, op: str, request: Dict[str, Any]) -> bool:
        """Whether the row is there that a request names first."""
        kind = op.split(".")[0]
        return self.key(kind, request, OWN[kind]) in self.rows

    @staticmethod
    def key(kind: str, request: Dict[str, Any], member: str) -> Tuple[str, ...]:
        """What a row is called here."""
        where = (request["snapshotter"],) if kind == "snap" else ()
        return (kind, request["ns"]) + where + (request[member],)

    def done(self, op: str, request: Dict[str, Any], reply: Dict[str, Any]) -> None:
        """Takes in a reply that isn't a refusal."""
        kind, verb = (op.split(".") + [""])[:2]
        if op == "ns.add":
            self.namespaces.add(request["ns"])
        elif op == "ns.remove":
            self.namespaces.discard(request["ns"])
        elif verb in MAKES:
            self.rows.add(self.key(kind, request, OWN[kind]))
        elif verb in ("remove", "abort"):
            self.rows.discard(self.key(kind, request, OWN[kind]))
        elif reply.get("there"):
            pass  # the object was there before, and stays; so does what was to be committed
        elif op == "ingest.commit":
            self.rows.discard(self.key(kind, request, "ref"))
            self.rows.add(("content", request["ns"], request["digest"]))
        elif op == "snap.commit":
            self.rows.discard(self.key(kind, request, "key"))
            self.rows.add(self.key(kind, request, "name"))
        report = reply.get("report")
        if report and not report["dry"]:
            self.collected(report["removed"])

    def collected(self, removed: Dict[str, List[List[str]]]) -> None:
        """Takes out the rows that a collection removed."""
        for kind, rows in removed.items():
            self.rows.difference_update((KINDS[kind],) + tuple(row) for row in rows)
