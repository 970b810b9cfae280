"""By the built program: what usage, prune, impact, why and forecast say of random stores, against what plans say when those rows are removed."""
import contextlib
import io
import json
import os
import random
import subprocess

import images
import random_store
import stores

AT = random_store.AT
LATER = "2025-01-01T00:00:00Z"
VERSION = ("--containerd", "2.1.9")
PLAN = json.dumps({"op": "gc.plan", "at": AT}).encode()
MEMBERS = {"images": ("image", "name"), "containers": ("container", "name"), "leases": ("lease", "id")}
KINDS = {"image": "images", "container": "containers", "sandbox": "containers", "lease": "leases"}


def word(*words):
    """The object that a word prints in this process, and its status."""
    from metad_host import words as command
    out, told = stores.Output(), io.StringIO()
    with contextlib.redirect_stdout(out), contextlib.redirect_stderr(told):
        status = command.main(list(words), "metad-host")
    text = out.getvalue() or out.buffer.getvalue().decode()
    assert text, "%s: %s" % (" ".join(words), told.getvalue())
    return json.loads(text), status


def request(op, **members):
    return json.dumps(dict(op=op, **members)).encode()


class Asked:
    """A store with what it needs to be asked by plans alone."""

    def __init__(self, seed, work, metad, with_leases=True):
        self.store, self.metad, self.random = random_store.Store(seed), metad, random.Random(seed)
        if not with_leases:
            for space in self.store.tree[b"v1"].values():
                if isinstance(space, dict):
                    space[b"leases"], space[b"containers"] = {}, {}
        self.seed = seed
        self.root = os.path.join(work, "random", str(seed))
        self.store.write(self.root)
        sizes = os.path.join(work, "random.sizes")
        status, script, _ = stores.exported("--at", AT, *VERSION, "--sizes", sizes, self.root)
        assert status == 0, status
        self.lines = script.splitlines()
        with open(sizes) as file:
            self.sizes = json.load(file)
        self.rows = {}
        for line in self.lines:
            asked = json.loads(line.decode())
            kind = asked["op"].split(".")[0]
            if kind in KINDS and asked["op"] != "lease.remove":
                own = (KINDS[kind], asked["ns"], asked[MEMBERS[KINDS[kind]][1]])
                self.rows.setdefault(own, []).append(line)
        for line in self.lines:
            asked = json.loads(line.decode())
            if asked["op"] == "lease.remove":
                self.rows.pop(("leases", asked["ns"], asked["id"]), None)

    def word(self, name, *more):
        """The object that a word prints of this store."""
        found, status = word(name, "--metad", self.metad, "--at", AT, *VERSION, "--json", "--limit", "0", self.root, *more)
        assert status == 0, "%s: status %d" % (name, status)
        return found

    def replies(self, lines, script):
        """The replies to these lines after the script's, or after another one's."""
        asked = b"\n".join(script[:-1] + lines) + b"\n"
        found = subprocess.run([self.metad, "run"], input=asked, stdout=subprocess.PIPE).stdout.splitlines()
        assert len(found) == len(self.lines) - 1 + len(lines)
        found = [json.loads(reply.decode()) for reply in found]
        for line, reply in zip(script[:-1] + lines, found):  # the image of a lease may be gone before the lease
            assert reply.get("ok") or b'"image.label"' in line and reply["fault"] == 2, "%s: %s" % (line.decode(), reply)
        return found[len(self.lines) - 1:]

    def reports(self, lines, script=None):
        """The reports among the replies to these lines after the script's."""
        return [reply["report"] for reply in self.replies(lines, script or self.lines) if "report" in reply]

    def without(self, keys):
        """The lines that remove these rows."""
        lines = []
        for kind, ns, name in keys:
            lines.append(request(MEMBERS[kind][0] + ".remove", ns=ns, **{MEMBERS[kind][1]: name}))
            for held_ns, lease, image, without, _ in self.sizes["held"]:
                if (kind, ns, name) == ("leases", held_ns, lease):
                    lines.append(request("image.label", ns=ns, name=image, key="containerd.io/gc.expire", value=without))
        return lines

    def keys(self, holder):
        """The rows of a holder, by their names in the script."""
        before = "sandbox:" if holder["kind"] == "sandbox" else ""
        return [(KINDS[holder["kind"]], holder["ns"], before + name) for name in holder["names"]]

    def held(self):
        """The leases that hold images, and these images."""
        found = {("leases", ns, lease) for ns, lease, _, _, _ in self.sizes["held"]}
        return found | {("images", ns, image) for ns, _, image, _, _ in self.sizes["held"]}

    def bytes(self, report):
        """The bytes of what a report frees."""
        gone = {tuple(row) for row in report["removed"]["ingests"]}
        held = {digest for digest, rows in self.sizes["awaited"].items() if any(tuple(row) not in gone for row in rows)}
        total = sum(self.sizes["blobs"][digest] for digest in report["backend"]["blobs"] if digest not in held)
        total += sum(self.sizes["snapshots"][str(number)] or 0 for _, number in report["backend"]["snapshots"])
        return total + sum(self.sizes["ingests"][str(number)] or 0 for number in report["backend"]["ingests"])


def prune(asked):
    """Each image's state, what goes without it and without all free ones, against a second reader and plans."""
    found, states = asked.word("prune"), images.states(asked.store, AT)
    free = [("images", ns, name) for (ns, _), (state, names) in states.items() for name in names if state == "free"]
    base, last = asked.reports([PLAN] + asked.without(free) + [PLAN])
    assert found["images_total"] == len(states) == len(found["images"]) and found["pinned_total"] == 0, found
    assert found["names_total"] == sum(len(names) for _, names in states.values())
    for state in ("used", "held", "free"):
        assert found[state + "_total"] == sum(told == state for told, _ in states.values()), "%d: %s" % (asked.seed, found)
    assert found["frees"] == asked.bytes(last) - asked.bytes(base), "%d: free images free %d" % (asked.seed, found["frees"])
    for image in found["images"]:
        target, = image["targets"]
        state, names = states[image["ns"], target]
        assert (sorted(image["names"]), image["state"]) == (names, state), "%d: %s, not %s" % (asked.seed, image, state)
        assert bool(image["by"]) == (state != "free") and (image["until"] is None or state == "held"), image
        report, = asked.reports(asked.without([("images", image["ns"], name) for name in names]) + [PLAN])
        assert image["frees"] == asked.bytes(report) - asked.bytes(base), "%d: %s" % (asked.seed, image)
    return len(states)


def usage(asked):
    """The sums of usage against the folder's own sizes, and what holders keep against plans."""
    found = asked.word("usage")
    report, = asked.reports([PLAN])
    content = os.path.join(asked.root, "io.containerd.content.v1.content")
    blobs = files(os.path.join(content, "blobs"), "")
    assert found["kinds"]["blobs"]["bytes"] == blobs, "%d: %s, where the folder has %d" % (asked.seed, found["kinds"]["blobs"], blobs)
    assert found["kinds"]["ingests"]["bytes"] == files(os.path.join(content, "ingest"), "data")
    assert sum(of["reclaimable"] for of in found["kinds"].values()) == asked.bytes(report)
    snapshots = [size for size in asked.sizes["snapshots"].values() if size is not None]
    assert found["kinds"]["committed"]["bytes"] + found["kinds"]["writable"]["bytes"] == sum(snapshots)
    assert len(found["holders"]) == found["holders_total"]
    impact = {(row["kind"], row["ns"], tuple(row["names"])): row["frees"] for row in asked.word("impact")["rows"]}
    for holder in found["holders"]:
        keys = asked.keys(holder)
        without, = asked.reports(asked.without(keys) + [PLAN])
        assert holder["own"] == asked.bytes(without) - asked.bytes(report), "%d: %s" % (asked.seed, holder)
        assert impact[holder["kind"], holder["ns"], tuple(holder["names"])] == holder["own"], "%d: impact says otherwise" % asked.seed
    for holder in asked.random.sample(found["holders"], min(3, len(found["holders"]))):
        if not asked.held() & set(asked.keys(holder)):
            alone(asked, asked.keys(holder), holder["kept"])
    walks(asked, found["holders"])
    return len(found["holders"])


def files(folder, name):
    """The bytes of the files below a folder, of those of this name where there is one."""
    return sum(os.path.getsize(os.path.join(path, file)) for path, _, names in os.walk(folder) for file in names if name in ("", file))


def alone(asked, keys, kept):
    """What these rows keep where nothing else is a root: the plan with them removes so much less than the plan without."""
    lines = asked.without([key for key in asked.rows if key not in keys])
    for line in asked.lines:
        row = json.loads(line.decode())
        if "containerd.io/gc.root" in row.get("labels", {}):
            where = {"digest": row["digest"]} if row["op"] == "content.add" else {"snapshotter": row["snapshotter"], "name": row.get("name", row["key"])}
            lines.append(request(row["op"].split(".")[0] + ".label", ns=row["ns"], key="containerd.io/gc.root", value="", **where))
    first, last = asked.reports(lines + [PLAN] + asked.without(keys) + [PLAN], long_ago(asked.lines))
    whole = [asked.bytes(report) for report in (first, last)]
    assert kept == whole[1] - whole[0], "%d: %s keeps %d, not %d" % (asked.seed, keys, whole[1] - whole[0], kept)


def long_ago(lines):
    """A script in which the 24 hours of each ingest are over."""
    return [line.replace(b'"at":"2', b'"at":"1') if b'"op":"ingest.begin"' in line and b'"lease"' not in line else line for line in lines]


def without_its_day(row):
    """The lines that take from an ingest its own 24 hours: it is begun again under a lease that goes."""
    more = {"expected": row["expected"]} if "expected" in row else {}
    ns, ref = row["ns"], row["ref"]
    return [request("ingest.abort", ns=ns, ref=ref), request("lease.add", ns=ns, id="of-the-trial"),
            request("ingest.begin", ns=ns, ref=ref, at=AT, lease="of-the-trial", **more), request("lease.remove", ns=ns, id="of-the-trial")]


def walks(asked, holders):
    """The walks that rank holders give what metad answers."""
    from metad_host.numbers import go_moment
    from metad_host.rows import Rows
    from metad_host.sizes import Measure
    from metad_host.walks import Walks
    rows = Rows(asked.lines)
    groups = rows.groups()
    walked = Walks(rows, Measure(asked.sizes), groups, go_moment(AT))
    by_names = {tuple(sorted(asked.keys(holder))): holder for holder in holders}
    for group, kept, own in zip(groups, walked.kept(), walked.alone()):
        if asked.held() & set(group.keys):
            continue
        holder = by_names[tuple(sorted(group.keys))]
        assert (kept, own) == (holder["kept"], holder["own"]), "%d: a walk gives %d and %d: %s" % (asked.seed, kept, own, holder)


def why(asked):
    """Before the last shown root goes the thing stays, after it goes."""
    things = [(kind, ns, name) for kind, ns, name in everything(asked)]
    count = 0
    for kind, ns, name in asked.random.sample(things, min(6, len(things))):
        found = asked.word("why", "%s/%s" % (ns, name))
        thing, = [thing for thing in found["things"] if (thing["type"], thing["ns"], thing["name"]) == (kind, ns, name)]
        lines = [PLAN]
        for path in thing["paths"]:
            lines += end(asked, ns, path[0], (kind, name)) + [PLAN]
        reports = asked.reports(lines)
        assert len(reports) == len(thing["paths"]) + 1
        goes = [is_gone(report, kind, ns, name) for report in reports]
        if thing["is_root"]:
            assert not any(goes[:-1]), "%d: %s" % (asked.seed, thing)
        else:
            assert goes == [False] * len(thing["paths"]) + [True], "%d: %s: %s" % (asked.seed, goes, thing)
        assert all(path[-1]["name"] == name for path in thing["paths"])
        count += len(thing["paths"])
    return count


def everything(asked):
    """Each row that a collection may remove."""
    for ns, space in asked.store.tree[b"v1"].items():
        if isinstance(space, dict):
            for digest in space[b"content"][b"blob"]:
                yield "content", ns.decode(), digest.decode()
            for ref in space[b"content"][b"ingests"]:
                yield "ingests", ns.decode(), ref.decode()
            for name in space[b"leases"]:
                yield "leases", ns.decode(), name.decode()
            for snapshotter, rows in space[b"snapshots"].items():
                for key in rows:
                    yield "snapshots/" + snapshotter.decode(), ns.decode(), key.decode()


def is_gone(report, kind, ns, name):
    if kind.startswith("snapshots/"):
        return [ns, kind[10:], name] in report["removed"]["snapshots"]
    return [ns, name] in report["removed"][kind]


def end(asked, ns, root, thing):
    """The lines after which a thing is no root."""
    kind, name = root["type"], root["name"]
    if kind == "sandboxes":
        kind, name = "containers", "sandbox:" + name
    if kind in MEMBERS:
        return [] if (kind, name) == thing else asked.without([(kind, ns, name)])
    if kind == "ingests":
        row, = [row for row in map(json.loads, asked.lines) if row["op"] == "ingest.begin" and (row["ns"], row["ref"]) == (ns, name)]
        return without_its_day(row)
    if kind == "content":
        return [request("content.label", ns=ns, digest=name, key="containerd.io/gc.root", value="")]
    return [request("snap.label", ns=ns, snapshotter=kind[10:], name=name, key="containerd.io/gc.root", value="")]


def forecast(asked):
    """What goes until the last moment is what a plan long after frees; what never goes is the rest."""
    found = asked.word("forecast")
    report, last = asked.reports([PLAN, request("gc.plan", at=LATER)])
    assert found["moments"][0]["bytes"] == asked.bytes(report)
    assert sum(moment["bytes"] for moment in found["moments"]) == asked.bytes(last), "%d: %s" % (asked.seed, found)
    every = list(asked.sizes["blobs"].values()) + [size or 0 for part in ("snapshots", "ingests") for size in asked.sizes[part].values()]
    assert found["never"]["bytes"] == sum(every) - asked.bytes(last)
    removed = sum(len(rows) for rows in last["removed"].values())
    assert sum(moment["rows"] for moment in found["moments"]) == removed
    assert found["never"]["rows"] == sum(last["kept"].values()) - last["kept"]["namespaces"]
    return len(found["moments"])


def run(work, metad, count):
    sums = [0, 0, 0, 0]
    for seed in range(count):
        asked = Asked(seed, work, metad)
        for place, question in enumerate((prune, usage, why, forecast)):
            sums[place] += question(asked)
    return "%d random stores: %d images, %d holders, %d roots of things, %d moments, as plans have them" % ((count,) + tuple(sums))
