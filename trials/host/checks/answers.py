"""By the built program: the replies to each store's script are those that its report says, also with all labels, and with the file alone as far as
rows go; and impact tells what containerd freed."""
import json
import os
import subprocess

import stores


def run(work, metad):
    freed = 0
    for name in stores.NAMES:
        script = stores.read(name, "script")
        replies = subprocess.run([metad, "run"], input=stores.asked(name, script), stdout=subprocess.PIPE).stdout
        assert replies == stores.expected(name, script), "%s: metad answers otherwise" % name
        otherwise(name, work, metad)
        if stores.facts(name)["without"]:
            impact(name, work, metad)
            freed += 1
    held(work, metad)
    return "%d scripts answered, also with all labels and from meta.db alone, %d removals as containerd made them" % (len(stores.NAMES), freed)


def held(work, metad):
    """A lease gets back what the script made under it: of a script that is ours, in which each thing is held by its lease alone."""
    script, sizes_file = os.path.join(work, "held.script"), os.path.join(work, "held.sizes")
    digest, other = "sha256:" + "1" * 64, "sha256:" + "2" * 64
    lines = ['{"op":"ns.add","ns":"x"}', '{"op":"lease.add","ns":"x","id":"l"}', '{"op":"content.add","ns":"x","digest":"%s","lease":"l"}' % digest,
             '{"op":"ingest.begin","ns":"x","ref":"r","at":"2024-03-01T00:00:00Z","lease":"l"}', '{"op":"ingest.commit","ns":"x","ref":"r","digest":"%s","lease":"l"}' % other,
             '{"op":"snap.prepare","ns":"x","snapshotter":"native","key":"k","lease":"l"}', '{"op":"snap.commit","ns":"x","snapshotter":"native","key":"k","name":"s","lease":"l"}',
             '{"op":"gc.plan","at":"2024-03-01T00:00:00Z"}']
    stores.put(script, ("\n".join(lines) + "\n").encode())
    from metad_host import sizes
    sizes.write(sizes_file, dict(sizes.empty(), blobs={digest: 5, other: 7}))
    found = stores.host("impact", "--metad", metad, script, sizes_file)
    assert found.stdout.decode().split() == "0 B go before any removal (+ 1 of unknown size) 12 B 2 blobs 1 snapshots lease x/l (+ 1 of unknown size)".split(), found


def otherwise(name, work, metad):
    """The same plan with all labels; and the same rows from meta.db alone, without the backends."""
    root = os.path.join(work, name)
    planned = json.loads(stores.read(name, "report").splitlines()[0].decode())["report"]
    for words in (["--labels", root], [os.path.join(root, "io.containerd.metadata.v1.bolt", "meta.db")]):
        script = stores.host("export", "--at", stores.facts(name)["at"], *stores.version_of(name), *words).stdout
        replies = subprocess.run([metad, "run"], input=script, stdout=subprocess.PIPE).stdout.splitlines()
        assert all(b'"ok":true' in reply for reply in replies), "%s: %s" % (name, words)
        report = json.loads(replies[-1].decode())["report"]
        parts = ("removed", "kept", "scanned") if len(words) == 1 else planned
        assert all(report[part] == planned[part] for part in parts), "%s: another plan with %s" % (name, words)


def impact(name, work, metad):
    """What goes anyway and what impact says of the removed row is together what containerd freed; the lines stand by their bytes."""
    found = stores.host("impact", "--json", "--limit", "0", "--metad", metad, stores.path(name, "script"), os.path.join(work, name + ".sizes"))
    assert found.returncode == 0, found.stderr.decode()
    told = json.loads(found.stdout.decode())
    facts = stores.facts(name)
    kind, ns, row = facts["without"]
    own = [found for found in told["rows"] if (found["kind"], found["ns"]) == (kind, ns) and row in found["names"]]
    assert len(own) == 1, "%s: no line of its own" % name
    assert own[0]["frees"] > 0, "%s: nothing goes with it" % name
    assert told["frees"] + own[0]["frees"] == facts["freed_bytes"], "%s: %s, where containerd freed %d" % (name, own[0], facts["freed_bytes"])
    bytes_of = [found["frees"] for found in told["rows"]]
    assert bytes_of == sorted(bytes_of, reverse=True), "%s: not by bytes" % name
