"""The picture of what keeps a thing: the paths of `why` as Graphviz text, or on a page."""
from __future__ import annotations

import html
import os
import tempfile
from typing import Any, Dict, Iterator, List, NamedTuple, Tuple

from . import why
from .faults import BadInput
from .printing import Printer, Whole
from .progress import Progress
from .remarks import printable
from .rows import Key
from .store import Store

MOST_NODES = 200
WIDE, HIGH = 230, 40  # of a box
GAP, STEP = 140, 58  # between columns, and from one box to that below it
LETTERS = 32  # of a name in a box
MARGIN = 24
COLOURS = {
    "image": "#cfe8ff",
    "container": "#d7f5d0",
    "sandbox": "#d7f5d0",
    "lease": "#ffe9b8",
    "content": "#f4f4f4",
    "ingest": "#f6d9ec",
}


class Node(NamedTuple):
    """A row of the picture; `steps` lead from it to what is asked for."""

    kind: str
    name: str
    is_root: bool
    is_asked: bool
    steps: int


class Picture:
    """The nodes and edges of some paths; `left_out` tells how many paths aren't drawn."""

    def __init__(self, store: Store, things: List[why.Kept], most: int) -> None:
        self.nodes: Dict[Key, Node] = {}
        self.edges: Dict[Tuple[Key, Key], str] = {}
        self.left_out = 0
        self.store = store
        for thing in things:
            self.node(thing.key, False, thing.key, 0)
            for path in thing.paths:
                keys = [(step["type"], thing.key[1], step["name"]) for step in path]
                if len(self.nodes) + sum(key not in self.nodes for key in keys) > most:
                    self.left_out += 1
                    continue
                for place, key in enumerate(keys):
                    self.node(key, place == 0, thing.key, len(keys) - 1 - place)
                for above, key, step in zip(keys, keys[1:], path[1:]):
                    self.edges[above, key] = printable(step.get("label", step["by"]))

    def node(self, key: Key, is_root: bool, asked: Key, steps: int) -> None:
        """Adds a node, or what a further path tells of it."""
        old = self.nodes.get(key)
        name = printable(self.store.called(key))
        new = Node(why.kind(self.store, key), name, is_root, key == asked, steps)
        if old:
            new = new._replace(
                is_root=old.is_root or is_root,
                is_asked=old.is_asked or key == asked,
                steps=min(old.steps, steps),
            )
        self.nodes[key] = new


def run(words: Any, progress: Progress) -> int:
    """Prints Graphviz text, or writes the page."""
    store = Store(words, progress)
    found = why.sought(store, words.what)
    if found.folders:
        raise BadInput("%s belongs to no row: nothing keeps it" % found.folders[0])
    out = Printer(words, progress)
    if why.is_ambiguous(store, found):
        out.lines(
            why.ambiguous(
                store, words.what, sorted(found.keys, key=lambda key: (store.name(key), key[0]))
            )
        )
        return max(store.status(), 1)
    picture = Picture(
        store,
        why.answers(store, found.keys, words.limit or 0),
        MOST_NODES if words.html else 10**9,
    )
    if words.html:
        write(words.html, page(picture, words.what))
    if words.json:
        out.object(dict(store.head("graph"), **as_object(picture)))
    elif not words.html:
        out.lines(map(Whole, dot(picture)))
    return store.status()


def write(path: str, text: str) -> None:
    """Writes a file by way of another name."""
    handle, part = tempfile.mkstemp(
        dir=os.path.dirname(path) or ".", prefix=os.path.basename(path) + ".", suffix=".part"
    )
    with open(handle, "w", encoding="utf-8", errors="backslashreplace") as file:
        file.write(text)
    os.chmod(part, 0o644)
    os.replace(part, path)


def as_object(picture: Picture) -> Dict[str, Any]:
    """The picture as the members of a JSON object."""
    number = {key: place for place, key in enumerate(picture.nodes)}
    return {
        "nodes": [
            {
                "id": number[key],
                "type": picture.store.type(key),
                "ns": key[1],
                "name": picture.store.text(key),
                "root": node.is_root,
                "asked": node.is_asked,
            }
            for key, node in picture.nodes.items()
        ],
        "edges": [
            {"from": number[above], "to": number[below], "by": by}
            for (above, below), by in picture.edges.items()
        ],
    }


def quoted(text: str) -> str:
    """A text of Graphviz."""
    return '"%s"' % text.replace("\\", "\\\\").replace('"', '\\"').replace("\n", "\\n")


def shorter(name: str) -> str:
    """A name that fits a box: its beginning and its end."""
    return name if len(name) <= LETTERS else name[: LETTERS - 12] + "..." + name[-9:]


def short_label(by: str) -> str:
    """A label without what each label of the collector begins with."""
    return by.replace("containerd.io/", "")


def dot(picture: Picture) -> Iterator[str]:
    """The picture for Graphviz: roots left, what is asked for right."""
    yield "digraph kept {"
    yield "  rankdir=LR; edge [fontname=sans, fontsize=8];"
    yield "  node [shape=box, style=filled, fontname=sans, fontsize=10];"
    number = {key: "n%d" % place for place, key in enumerate(picture.nodes)}
    for key, node in picture.nodes.items():
        more = ", penwidth=2" if node.is_asked else ""
        yield "  %s [label=%s, tooltip=%s, fillcolor=%s%s];" % (
            number[key],
            quoted(node.kind + "\n" + shorter(node.name)),
            quoted(node.name),
            quoted(colour(node)),
            more,
        )
    for (above, below), by in picture.edges.items():
        yield "  %s -> %s [label=%s];" % (number[above], number[below], quoted(short_label(by)))
    yield "}"


def colour(node: Node) -> str:
    """The colour of a node's box."""
    return COLOURS.get(node.kind, "#e8e4f8")


def places(picture: Picture) -> Dict[Key, Tuple[int, int]]:
    """Where each box stands: roots left, what is asked for right, others between."""
    most = max(node.steps for node in picture.nodes.values())
    columns: Dict[int, List[Key]] = {}
    for key, node in picture.nodes.items():
        columns.setdefault(node.steps, []).append(key)
    below: Dict[Key, List[Key]] = {}
    for above, under in picture.edges:
        below.setdefault(above, []).append(under)
    found: Dict[Key, Tuple[int, int]] = {}
    for steps in sorted(columns):
        keys = columns[steps]
        beside = {
            key: [found[under][1] for under in below.get(key, ()) if under in found] for key in keys
        }
        middle = {
            key: sum(heights) / len(heights) if heights else 0.0 for key, heights in beside.items()
        }
        keys.sort(key=lambda key: middle[key])
        start = sum(middle.values()) / len(keys) - STEP * (len(keys) - 1) / 2
        for place, key in enumerate(keys):
            found[key] = (MARGIN + (most - steps) * (WIDE + GAP), int(start + place * STEP))
    top = min(high for _, high in found.values())
    return {key: (left, high - top + MARGIN) for key, (left, high) in found.items()}


def page(picture: Picture, what: str) -> str:
    """The page: nothing in it comes from elsewhere, and no script is in it."""
    at = places(picture)
    wide = max(left for left, _ in at.values()) + WIDE + MARGIN
    high = max(top for _, top in at.values()) + HIGH + MARGIN
    title = "What keeps %s" % what
    left_out = "<p>%d more paths aren't drawn.</p>\n" % picture.left_out if picture.left_out else ""
    return PAGE % {
        "title": html.escape(printable(title)),
        "store": html.escape("%s, at %s" % (picture.store.root, picture.store.at)),
        "left_out": left_out,
        "wide": wide,
        "high": high,
        "drawing": "\n".join(list(lines(picture, at)) + list(boxes(picture, at))),
    }


PAGE = """<!DOCTYPE html>
<html lang="en">
<head>
<meta charset="utf-8">
<title>%(title)s</title>
<style>
body { font-family: sans-serif; margin: 1.5em; }
svg { border: 1px solid #ccc; background: white; }
</style>
</head>
<body>
<h1>%(title)s</h1>
<p>Store: %(store)s. Roots have a thick border: all of them have to go, or to end,
before the thing on the right goes.</p>
%(left_out)s<svg xmlns="http://www.w3.org/2000/svg" width="%(wide)d" height="%(high)d"
  viewBox="0 0 %(wide)d %(high)d" font-family="sans-serif">
<defs><marker id="end" markerWidth="9" markerHeight="7" refX="9" refY="3.5" orient="auto">
<path d="M0,0 L9,3.5 L0,7 z" fill="#555"/></marker></defs>
%(drawing)s
</svg>
</body>
</html>
"""


RECTANGLE = (
    '<rect x="%d" y="%d" width="%d" height="%d" rx="5" fill="%s" stroke="%s" stroke-width="%s"/>'
)
CURVE = '<path d="M%d,%d C%d,%d %d,%d %d,%d" fill="none" stroke="#555" marker-end="url(#end)"/>'
LABEL = (
    '<text x="%d" y="%d" font-size="10" text-anchor="middle" fill="#333" stroke="white" '
    'stroke-width="3" paint-order="stroke">%s<title>%s</title></text>'
)


def boxes(picture: Picture, at: Dict[Key, Tuple[int, int]]) -> Iterator[str]:
    """Each node as a box with its kind and its name."""
    for key, node in picture.nodes.items():
        left, top = at[key]
        border = "#1a4f8a" if node.is_root else "#b03030" if node.is_asked else "#777"
        yield "<g><title>%s %s</title>" % (html.escape(node.kind), html.escape(node.name))
        yield RECTANGLE % (
            left,
            top,
            WIDE,
            HIGH,
            colour(node),
            border,
            2.5 if node.is_root or node.is_asked else 1,
        )
        yield '<text x="%d" y="%d" font-size="11" fill="#444">%s</text>' % (
            left + 8,
            top + 15,
            html.escape(node.kind),
        )
        yield '<text x="%d" y="%d" font-size="12">%s</text></g>' % (
            left + 8,
            top + 31,
            html.escape(shorter(node.name)),
        )


def lines(picture: Picture, at: Dict[Key, Tuple[int, int]]) -> Iterator[str]:
    """Each edge as a curve with its label."""
    for (above, below), by in picture.edges.items():
        left, top = at[above][0] + WIDE, at[above][1] + HIGH // 2
        right, bottom = at[below][0], at[below][1] + HIGH // 2
        middle = (left + right) // 2
        yield CURVE % (left, top, middle, top, middle, bottom, right, bottom)
        yield LABEL % (
            middle,
            (top + bottom) // 2 - 4,
            html.escape(shorter(short_label(by))),
            html.escape(by),
        )
