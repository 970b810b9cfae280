"""Figures of a store as Prometheus' textfile collector reads them."""
from __future__ import annotations

from typing import Any, Dict, Iterator, List, NamedTuple, Tuple

from . import disk
from .freed import Freed
from .printing import Printer, Whole
from .progress import Progress
from .prune import counted, together
from .report import endless
from .rows import Group
from .states import State, States
from .store import Store
from .usage import kinds, namespaces


class Metric(NamedTuple):
    """A metric: its name, what it is, and its samples, each with its labels."""

    name: str
    about: str
    samples: List[Tuple[Dict[str, str], float]]


def metrics(
    store: Store,
    report: Dict[str, Any],
    by_kind: Dict[str, Dict[str, int]],
    by_namespace: List[Dict[str, Any]],
) -> Iterator[Metric]:
    """All metrics."""

    def of_kinds(member: str) -> List[Tuple[Dict[str, str], float]]:
        return [({"kind": kind}, of[member]) for kind, of in by_kind.items()]

    known = [
        kind for kind, of in by_kind.items() if of["objects"] > of["unknown"] or not of["objects"]
    ]
    yield Metric(
        "metad_host_bytes",
        "Bytes in the backends, where they are known; of writable ones with --measure.",
        [sample for sample in of_kinds("bytes") if sample[0]["kind"] in known],
    )
    yield Metric("metad_host_objects", "Objects in the backends.", of_kinds("objects"))
    yield Metric("metad_host_unknown_objects", "Objects of unknown size.", of_kinds("unknown"))
    yield Metric(
        "metad_host_reclaimable_bytes",
        "Bytes that a collection would free now.",
        of_kinds("reclaimable"),
    )
    parts = ("blobs", "shared_blobs", "snapshots", "ingests")
    samples = [
        ({"namespace": of["ns"], "kind": part}, float(of[part]))
        for of in by_namespace
        for part in parts
    ]
    yield Metric(
        "metad_host_namespace_bytes",
        "Bytes of a namespace; shared blobs count in each that has them.",
        samples,
    )
    removed = {kind: len(rows) for kind, rows in report["removed"].items()}
    removed["content"] = len(store.measure.content_rows(report))
    rows = {
        kind: count + removed.get(kind, 0) for kind, count in store.measure.kept(report).items()
    }
    yield Metric(
        "metad_host_rows",
        "Rows of the metadata.",
        [({"kind": kind}, count) for kind, count in sorted(rows.items())],
    )
    yield Metric(
        "metad_host_reclaimable_rows",
        "Rows that a collection would remove now.",
        [({"kind": kind}, count) for kind, count in sorted(removed.items())],
    )
    yield Metric(
        "metad_host_endless_leases",
        "Leases that never end by themselves.",
        [({}, len(endless(report, store.measure)))],
    )
    yield from of_leases(store, report)
    yield from of_disk(store)
    yield Metric(
        "metad_host_remarks", "Remarks that may change the plan.", [({}, len(store.remarks))]
    )
    yield Metric(
        "metad_host_reading_seconds",
        "Seconds that the reading took.",
        [({}, round(store.read_seconds, 3))],
    )


def of_leases(store: Store, report: Dict[str, Any]) -> Iterator[Metric]:
    """Leases by how they end."""
    rows = [key for key in store.rows.rows if key[0] == "leases"]
    unreadable = {tuple(row) for row in report["ignored"]}
    states = {"ended": len(report["removed"]["leases"]), "unreadable": len(unreadable)}
    states["endless"] = len(store.measure.sizes["endless"])
    states["ending"] = len(rows) - sum(states.values())
    samples = [({"state": state}, float(count)) for state, count in sorted(states.items())]
    yield Metric("metad_host_leases", "Leases by how they end.", samples)


def of_images(every: List[Tuple[Group, State]], prunable: Freed) -> Iterator[Metric]:
    """Images by their states, and what goes without the free ones."""
    samples = [
        ({"state": name[: -len("_total")]}, float(count)) for name, count in counted(every).items()
    ]
    yield Metric("metad_host_images", "Images by their states.", samples)
    yield Metric(
        "metad_host_prunable_bytes",
        "Bytes that a collection frees beyond those of now without the free images.",
        [({}, prunable.bytes())],
    )


def of_disk(store: Store) -> Iterator[Metric]:
    """The disk, as far as the daemon's folder is there, and when it was read."""
    yield Metric(
        "metad_host_read_time_seconds", "When the store was read, in Unix time.",
        [({}, store.read_at)],
    )
    found = store.disk
    if not found:
        return
    for name, about, value in (
        ("nobody_bytes", "Bytes of what no row has.", disk.nobodys(found)[0]),
        ("nobody_objects", "Folders, blobs and ingests that no row has.", len(found.nobody)),
        ("file_system_bytes", "Bytes of the file system.", found.total),
        ("file_system_free_bytes", "Bytes of the file system that are free.", found.free),
        ("inodes", "Inodes of the file system.", found.inodes),
        ("free_inodes", "Inodes of the file system that are free.", found.free_inodes),
    ):
        yield Metric("metad_host_" + name, about, [({}, float(value))])


def run(words: Any, progress: Progress) -> int:
    """Prints the metrics."""
    store = Store(words, progress, look=True)
    store.remark_shared_holds()
    groups = [group for group in store.rows.groups() if group.kind == "image"]
    every = list(States(store, groups).all())
    with store.metad() as metad:
        later = store.collected(metad)
        free = [group for group, state in every if state.counts()]
        prunable = together(store, later, metad, free)
    found = list(metrics(store, later.report, kinds(store, later.freed), namespaces(store)))
    found += list(of_images(every, prunable))
    out = Printer(words, progress)
    if words.json:
        out.object(
            dict(
                store.head("metrics"),
                metrics=[
                    {
                        "name": metric.name,
                        "about": metric.about,
                        "samples": [
                            {"labels": labels, "value": value} for labels, value in metric.samples
                        ],
                    }
                    for metric in found
                ],
            )
        )
    else:
        out.lines(Whole(line) for metric in found for line in text(metric))
    return store.status()


def text(metric: Metric) -> Iterator[str]:
    """A metric in Prometheus' text form."""
    yield "# HELP %s %s" % (metric.name, metric.about)
    yield "# TYPE %s gauge" % metric.name
    for labels, value in metric.samples:
        inside = ",".join('%s="%s"' % (name, escaped(part)) for name, part in labels.items())
        yield "%s%s %s" % (
            metric.name,
            "{%s}" % inside if inside else "",
            int(value) if value == int(value) else value,
        )


def escaped(part: str) -> str:
    """A label's value in Prometheus' text form."""
    return part.replace("\\", "\\\\").replace('"', '\\"').replace("\n", "\\n")
