"""Why a thing is still there: every root that keeps it, each with its shortest path.

Each answer decides the next request: the root of a path is removed in the store of the run, and the
question is asked again, until nothing keeps the thing.
"""
from __future__ import annotations

import json
from typing import Any, Dict, Iterator, List, NamedTuple, Optional

from . import ages, disk_page, people
from .asking import Metad
from .faults import BadInput
from .numbers import is_moment
from .printing import Printer, Whole, and_more, first
from .progress import Progress
from .remarks import printable
from .rows import OPS, ROOT, Key
from .script import LONG_AGO, free_name
from .store import Store, name_order

MATCHES = 20
Path = List[Dict[str, Any]]  # the things of a path as gc.explain tells them, from the root on


class Found(NamedTuple):
    """What an operator may mean: rows, and folders of the backend that no row owns."""

    keys: List[Key]
    folders: List[str]


class Kept(NamedTuple):
    """Why a row is there: a path of each root, or the path that kept it until its root ended."""

    key: Key
    paths: List[Path]
    ended: Path
    is_root: bool
    is_whole: bool


def find(store: Store, what: str) -> Found:
    """The rows of this name or folder, else those that people call so or that begin so."""
    rows = store.rows.rows
    exact = [key for key in rows if what in (key[2], store.text(key), store.name(key))]
    if exact:
        return Found(exact, [])
    owned, folders = in_folder(store, what)
    if owned or folders:
        return Found(owned, folders)
    known = [
        ("containers",) + container
        for container, text in store.people.items() if people.answers_to(text, what)
    ]
    if known:
        return Found(known, [])
    starts = (what, "sha256:" + what, "sha512:" + what)
    found = [key for key in rows if store.text(key).startswith(starts)]
    found = found or images_called(store, what)
    return Found([key for key in found if key[2] not in store.measure.between], [])


def images_called(store: Store, what: str) -> List[Key]:
    """The images of this end of a name, with or without a tag: one name of each image."""
    found = []
    for group in store.rows.groups():
        if group.kind == "image":
            names = sorted(group.keys, key=lambda key: name_order(store.text(key)))
            ends = [(store.text(key), people.short_name(store.text(key))) for key in names]
            found += [
                key for key, its in zip(names, ends)
                if any(end == what or end.endswith("/" + what) for end in its)
            ][:1]
    return found


def in_folder(store: Store, what: str) -> Any:
    """The rows whose snapshot is in this folder, and the folder where no row owns it."""
    by_number = {number: key for key, number in store.snapshot_rows()}
    keys: List[Key] = []
    folders: List[str] = []
    for number, about in store.measure.sizes["numbers"].items():
        if about.get("folder") == what:
            key = by_number.get(int(number))
            if key:
                keys.append(key)
            else:
                folders.append(what)
    if not keys and not folders and store.disk:
        folders = [item.name for item in store.disk.nobody if item.name == what]
    return keys, folders


def kept(store: Store, metad: Metad, key: Key, limit: int) -> Kept:
    """All paths that keep a row, of at most so many roots."""
    paths: List[Path] = []
    gone: List[Key] = []
    while True:
        store.progress.say("asking what keeps it, %d roots found" % len(paths))
        reply = metad.ask("gc.explain", ns=key[1], type=key[0], resource=key[2], at=store.at)
        path: Path = reply["path"]
        if not reply["kept"]:
            return Kept(key, paths, path, False, True)
        if limit and len(paths) == limit:
            return Kept(key, paths, [], False, False)
        root = (path[0]["type"], key[1], path[0]["name"])
        paths.append([step for step in path if step["name"] not in store.measure.between])
        if root == key and root[0] in OPS:
            return Kept(key, paths, [], True, True)
        take_away(store, metad, root, gone)
        gone.append(root)


def take_away(store: Store, metad: Metad, root: Key, gone: List[Key]) -> None:
    """Makes this row no root, in the store of the run: it goes, or loses its label or its day."""
    kind, ns, name = root
    if kind in OPS:
        metad.load(store.removal(root, gone))
    elif kind == "content":
        metad.ask("content.label", ns=ns, digest=name, key=ROOT, value="")
    elif kind == "ingests":
        leases = {key[2].encode() for key in store.rows.rows if key[0] == "leases" and key[1] == ns}
        lease = free_name("metad-host", leases)
        expected = store.rows.rows[root].member
        more = {"expected": expected[2]} if expected else {}
        metad.ask("ingest.abort", ns=ns, ref=name)
        metad.ask("lease.add", ns=ns, id=lease)
        metad.ask("ingest.begin", ns=ns, ref=name, at=LONG_AGO, lease=lease, **more)
        metad.ask("lease.remove", ns=ns, id=lease)
    else:
        metad.ask(
            "snap.label",
            ns=ns,
            snapshotter=kind[len("snapshots/") :],
            name=name,
            key=ROOT,
            value="",
        )


def answers(store: Store, keys: List[Key], limit: int) -> List[Kept]:
    """Why each of these rows is there, each asked in a run of its own."""
    found = []
    for key in keys:
        with store.metad() as metad:
            found.append(kept(store, metad, key, limit))
    return found


def sought(store: Store, what: str) -> Found:
    """What an operator means; a name of nothing is refused."""
    found = find(store, what)
    if not found.keys and not found.folders:
        raise BadInput(
            "nothing in the store is called %s: it takes a name, an image's short name, a pod, a "
            "digest or its beginning, or a snapshot's folder such as overlayfs/4711" % what
        )
    return found


def is_ambiguous(store: Store, found: Found) -> bool:
    """Whether these rows have several names, so that one has to be chosen."""
    return len({store.text(key) for key in found.keys}) > 1


def run(words: Any, progress: Progress) -> int:
    """Prints the paths, or the names that begin so."""
    limit = words.limit or 0
    store = Store(words, progress, look=True)
    store.remark_shared_holds()
    found = sought(store, words.what)
    matches = (
        sorted(found.keys, key=lambda key: (store.name(key), key[0]))
        if is_ambiguous(store, found)
        else []
    )
    things = [] if matches else answers(store, found.keys, limit)
    out = Printer(words, progress)
    if words.json:
        out.object(
            dict(
                store.head("why"),
                matches=[
                    {"type": store.type(key), "ns": key[1], "name": store.text(key)}
                    for key in matches
                ],
                folders_of_no_row=found.folders,
                things=[as_object(store, thing) for thing in things],
            )
        )
    else:
        out.lines(
            ambiguous(store, words.what, matches) if matches else page(store, out, found, things)
        )
    return max(store.status(), 1 if matches else 0)


def ambiguous(store: Store, what: str, matches: List[Key]) -> Iterator[str]:
    """The names that begin so."""
    yield "%d things begin with %s:" % (len(matches), printable(what))
    for key in first(matches, MATCHES):
        yield "  %s %s" % (kind(store, key), printable(store.name(key)))
    yield from and_more(len(matches), MATCHES)


def kind(store: Store, key: Key) -> str:
    """The kind of a row as people call it."""
    if key[0] in OPS:
        return store.kind(key)
    return {"ingests": "ingest"}.get(key[0], key[0].replace("snapshots/", "snapshot "))


def size(store: Store, key: Key) -> Optional[int]:
    """The bytes of a row's object, None where they aren't known or it has none."""
    sizes = store.measure.sizes
    found: Optional[int] = None
    if key[0] == "content":
        found = sizes["blobs"].get(key[2])
    elif key[0] not in OPS:
        found = sizes["ingests" if key[0] == "ingests" else "snapshots"].get(
            str(store.rows.rows[key].number)
        )
    return found


def until(step: Dict[str, Any]) -> Optional[str]:
    """When a root ends by itself, None where it doesn't."""
    if step["by"] not in ("root", "ended") or "expire" not in step:
        return None
    readable = step["type"] == "ingests" or is_moment(step["expire"])
    return str(step["expire"]) if readable else None


def holders(store: Store, ns: str, step: Dict[str, Any]) -> List[str]:
    """The leases that give an image its end."""
    image = (step["type"], ns, step["name"])
    return [
        store.measure.name(lease[2])
        for lease, images in store.held.items()
        if image in [held for held, _, _ in images]
    ]


def reason(store: Store, ns: str, step: Dict[str, Any]) -> str:
    """Why a thing of a path is there."""
    texts = ["label " + step["label"] if step["by"] == "label" else step["by"]]
    if step["by"] in ("root", "ended"):
        end = until(step)
        if end:
            texts = ["ended at " + end] if step["by"] == "ended" else texts + ["until " + end]
            texts += ["held by lease " + lease for lease in holders(store, ns, step)]
        elif "expire" in step:
            texts.append(
                "for ever, since its expiry %s can't be read"
                % json.dumps(step["expire"], ensure_ascii=False)
            )
        elif step["type"] == "leases":
            texts.append("for ever, since it has no expiry")
        elif step["type"] not in OPS:
            texts.append("by its label " + ROOT)
    if step.get("mode") == "flat":
        texts.append("flat")
    return ", ".join(texts)


def steps(store: Store, ns: str, path: Path) -> Iterator[str]:
    """A path as lines, each further in than the one before."""
    for depth, step in enumerate(path):
        key = (step["type"], ns, step["name"])
        name = store.called(key) if depth == 0 else store.text(key)
        yield "%s%s %s  [%s]" % (
            "  " * (depth + 1),
            kind(store, key),
            printable(name),
            printable(reason(store, ns, step)),
        )


def page(store: Store, out: Printer, found: Found, things: List[Kept]) -> Iterator[str]:
    """The lines of the page."""
    for folder in found.folders:
        yield Whole(disk_page.folder_line(store, out, folder))
    for thing in things:
        name, more = printable(store.called(thing.key)), about(store, out, thing.key)
        yield Whole("%s %s%s" % (kind(store, thing.key), name, more))
        for path in thing.paths:
            yield from steps(store, thing.key[1], path)
        yield from ending(store, thing)


def about(store: Store, out: Printer, key: Key) -> str:
    """The folder and the size of a row's object, or how old a row is that has none."""
    if key[0] in OPS:
        return "  (%s)" % ages.told(ages.age(store, key)) if key in store.made else ""
    folder, found = store.folder(store.rows.rows[key].number), size(store, key)
    return "  (%s%s)" % (
        folder + ", " if folder else "",
        "of unknown size" if found is None else out.size(found),
    )


def ending(store: Store, thing: Kept) -> Iterator[str]:
    """What is to say behind the paths."""
    count = len(thing.paths)
    if thing.is_root:
        yield "  it stays by itself until it %s" % (
            "is removed" if until(thing.paths[-1][0]) is None else "ends or is removed"
        )
    elif not thing.is_whole:
        yield "  more roots keep it (--limit 0 shows all)"
    elif count:
        yield "  nothing else keeps it: %d root%s to go first" % (
            count,
            " has" if count == 1 else "s have",
        )
    else:
        yield "  nothing keeps it: the next collection removes it"
    if thing.ended and not count:
        yield "  it was kept by:"
        yield from steps(store, thing.key[1], thing.ended)


def as_object(store: Store, thing: Kept) -> Dict[str, Any]:
    """A row with its paths as its JSON object."""
    ns = thing.key[1]
    return {
        "type": store.type(thing.key),
        "ns": ns,
        "name": store.text(thing.key),
        "bytes": size(store, thing.key),
        "folder": store.folder(store.rows.rows[thing.key].number),
        "is_root": thing.is_root,
        "complete": thing.is_whole,
        "paths": [path_object(store, ns, path) for path in thing.paths],
        "ended": path_object(store, ns, thing.ended),
    }


def path_object(store: Store, ns: str, path: Path) -> List[Dict[str, Any]]:
    """A path as its JSON list."""
    return [
        {
            "type": store.type((step["type"], ns, step["name"])),
            "name": store.text((step["type"], ns, step["name"])),
            "by": step["by"],
            "label": step.get("label"),
            "flat": step.get("mode") == "flat",
            "until": until(step),
        }
        for step in path
    ]
