"""A second reader of which images are used, held and free: by the rows of meta.db as a tree, each asked by itself, slowly."""
import datetime

GC = b"containerd.io/gc."


def targets(space):
    """The names of each image, by its target."""
    found = {}
    for name, row in space[b"images"].items():
        found.setdefault(row[b"target"][b"digest"], []).append(name)
    return found


def labels(row):
    return row.get(b"labels", {})


def references(row):
    """What a row's labels lead to: content, and snapshots."""
    for key, value in labels(row).items():
        if key.startswith(GC + b"ref.content"):
            yield "content", value
        elif key.startswith(GC + b"ref.snapshot."):
            yield "snapshot", (key[len(GC + b"ref.snapshot."):].split(b"/")[0], value)


def tops(space, target, names):
    """The snapshots that an image and its content lead to."""
    found, seen = set(), set()

    def visit(row):
        for kind, value in references(row):
            if kind == "snapshot" and value[1] in space[b"snapshots"].get(value[0], {}):
                found.add(value)
            elif kind == "content":
                content(value)

    def content(digest):
        row = space[b"content"][b"blob"].get(digest)
        if row is not None and digest not in seen:
            seen.add(digest)
            visit(row)

    content(target)
    for name in names:
        visit(space[b"images"][name])
    return found


def writable(store, space):
    """The active snapshots and views."""
    for snapshotter, rows in space[b"snapshots"].items():
        for key, row in rows.items():
            if store.stored[snapshotter.decode()][row[b"name"]][b"kind"] in (b"\x01", b"\x02"):
                yield snapshotter, key


def used(store, space):
    """The targets that are used: by a container that names an image, or by what stands on one's top."""
    every = {target: tops(space, target, names) for target, names in targets(space).items()}
    found = {space[b"images"][row[b"image"]][b"target"][b"digest"] for row in space[b"containers"].values() if row.get(b"image") in space[b"images"]}
    for snapshotter, key in writable(store, space):
        while key in space[b"snapshots"][snapshotter]:
            stood_on = {target for target, its in every.items() if (snapshotter, key) in its}
            if stood_on:
                found |= stood_on
                break
            key = space[b"snapshots"][snapshotter][key].get(b"parent")
    return found


def ended(expiry, at):
    """Whether an expiry is before a moment; one that can't be read never is."""
    try:
        return datetime.datetime.fromisoformat(expiry.decode().replace("Z", "+00:00")) < at
    except ValueError:
        return False


def held(space, at):
    """The targets that a lease keeps: their names, themselves, or their tops."""
    moment = datetime.datetime.fromisoformat(at.replace("Z", "+00:00"))
    reached = set()

    def visit(kind, name, flat):
        if (kind, name, flat) in reached:
            return
        if kind == "content":
            row = space[b"content"][b"blob"].get(name)
        elif kind == "snapshot":
            row = space[b"snapshots"].get(name[0], {}).get(name[1])
        elif kind == "ingest":
            row = space[b"content"][b"ingests"].get(name)
        else:
            row = space[b"images"].get(name)
        if row is None:
            return
        reached.add((kind, name, flat))
        if kind == "snapshot" and row.get(b"parent"):
            visit("snapshot", (name[0], row[b"parent"]), flat)
        if kind == "image":
            visit("content", row[b"target"][b"digest"], False)
        if kind == "ingest":
            visit("content", row.get(b"expected", b""), False)
        for found in references(row) if not flat else ():
            visit(*found, False)

    for row in space[b"leases"].values():
        if GC + b"expire" in labels(row) and ended(labels(row)[GC + b"expire"], moment):
            continue
        flat = GC + b"flat" in labels(row)
        for digest in row.get(b"content", {}):
            visit("content", digest, flat)
        for snapshotter, keys in row.get(b"snapshots", {}).items():
            for key in keys:
                visit("snapshot", (snapshotter, key), flat)
        for ref in row.get(b"ingests", {}):
            visit("ingest", ref, False)
        for image in row.get(b"images", {}):
            visit("image", image, False)
    things = {(kind, name) for kind, name, _ in reached}
    return {target for target, names in targets(space).items()
            if things & ({("content", target)} | {("image", name) for name in names} | {("snapshot", top) for top in tops(space, target, names)})}


def states(store, at):
    """The state of each image, by its namespace and its target."""
    found = {}
    for ns, space in store.tree[b"v1"].items():
        if isinstance(space, dict):
            uses, holds = used(store, space), held(space, at)
            for target, names in targets(space).items():
                state = "used" if target in uses else "held" if target in holds else "free"
                found[ns.decode(), target.decode()] = state, sorted(name.decode() for name in names)
    return found
