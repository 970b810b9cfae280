"""What doctor says of an update: a daemon's own collection removed what goes after it, and a plan by the rules before it names what goes now."""
import json
import os
import subprocess

import daemons
import stores

# a recorded store, the version before the update, the one after it, and which of the lists have rows
UPDATES = (
    ("daemon_1_6", "1.6.20", "1.7.24", ()),
    ("daemon_1_6", "1.6.20", "2.1.9", ("goes_then",)),  # images expire after it
    ("daemon_1_7", "1.7.24", "2.1.9", ("goes_then",)),
    ("daemon_2_1", "1.7.24", "2.1.9", ("goes_then",)),
    ("daemon_2_1", "2.1.9", "1.7.24", ("stays_then",)),
    ("daemon_2_1", "2.1.9", "2.2", ("stays_then",)),  # back references keep rows after it
    ("daemon_2_1", "1.7.24", "2.2", ("goes_then", "stays_then")),
)


def rows_of(path):
    """The rows of a file that a collection may remove, read without the tool's script."""
    from metad_host import pages
    found = set()
    for ns, space in pages.read(path)[b"v1"].items():
        if isinstance(space, dict):
            content = space.get(b"content", {})
            found |= {("content", ns, name) for name in content.get(b"blob", {})} | {("ingests", ns, name) for name in content.get(b"ingests", {})}
            found |= {(kind, ns, name) for kind in ("images", "leases") for name in space.get(kind.encode(), {})}
            found |= {("snapshots/" + snapshotter.decode(), ns, name) for snapshotter, rows in space.get(b"snapshots", {}).items() for name in rows}
    return {(kind, ns.decode(), name.decode()) for kind, ns, name in found}


def planned(metad, version, at, path):
    """The rows that a plan by the rules of a version removes."""
    script = stores.tool("export", "--at", at, "--containerd", version, path).stdout
    replies = subprocess.run([metad, "run"], input=script, stdout=subprocess.PIPE, check=True).stdout.splitlines()
    removed = json.loads(replies[-1].decode())["report"]["removed"]
    found = {("snapshots/" + snapshotter, ns, name) for ns, snapshotter, name in removed.pop("snapshots")}
    return found | {(kind, ns, name) for kind, rows in removed.items() for ns, name in rows}


def told(metad, version, at, path):
    """What doctor says: the object and the page."""
    words = ["doctor", "--containerd", version, "--at", at, "--limit", "0", "--metad", metad, path]
    found, page = stores.tool(*words, "--json"), stores.tool(*words)
    assert found.returncode == page.returncode and found.returncode in (0, 3), (found, page)
    return json.loads(found.stdout.decode()), page.stdout.decode()


def run(work, metad):
    count = 0
    for name, now, then, filled in UPDATES:
        folder = os.path.join(work, "doctor", name)
        round = daemons.put(name, folder)
        before, at = os.path.join(folder, "before.db"), round["at"]
        with open(before + ".daemon", "w", encoding="utf-8") as file:
            json.dump({"containerd": now}, file)
        went = {version: planned(metad, version, at, before) for version in (now, then)}
        went[round["containerd"]] = rows_of(before) - rows_of(os.path.join(folder, "after.db"))
        lists = {"goes_then": went[then] - went[now], "stays_then": went[now] - went[then]}
        found, page = told(metad, then, at, before)
        head = "%s: from %s to %s" % (name, now, then)
        for part, rows in lists.items():
            assert {(row["type"], row["ns"], row["name"]) for row in found[part]} == rows, "%s: %s" % (head, part)
            assert found[part + "_total"] == len(rows) and bool(rows) == (part in filled), "%s: %d in %s" % (head, len(rows), part)
            count += len(rows)
        assert found["goes_both"] == len(went[now] & went[then]), head
        first = "by the rules of %s (recorded) %d rows go, by those of %s %d\n" % (now, len(went[now]), then, len(went[then]))
        assert page.startswith(first) and page.count("\n  ") == sum(len(rows) for rows in lists.values()), "%s: %s" % (head, page)
    return "%d updates, %d rows that go or stay after one alone, as daemons and plans have them" % (len(UPDATES), count)
