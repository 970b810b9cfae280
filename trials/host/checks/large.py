"""By the built program: of 100,000 rows of content usage, prune, why and impact take some twice the time of export and run, at most four times; impact of 700 rows is one run."""
import json
import os
import subprocess
import time

import bolt_file
import many_rows
import stores

AT = "2024-03-02T00:00:00Z"
WORDS = ("usage", "prune", "why", "impact")
MOST = 4  # twice is the goal; a word reads what the program writes, while a pipeline does both at once


def seconds(command, folder):
    """How long a command of the shell takes; its output goes to a file."""
    start = time.time()
    found = subprocess.run(["sh", "-c", command + " > out 2> told"], cwd=folder)
    assert found.returncode == 0, "%s: %d %s" % (command, found.returncode, open(os.path.join(folder, "told")).read())
    return time.time() - start


def run(work, metad):
    folder = os.path.join(work, "large")
    os.makedirs(folder)
    bolt_file.write(os.path.join(folder, "many.db"), many_rows.tree())
    digest = next(iter(many_rows.tree()[b"v1"][b"default"][b"content"][b"blob"])).decode()
    tool, asked = stores.TOOL, "--at %s --metad %s" % (AT, metad)
    export = "%s export --at %s many.db | %s run" % (tool, AT, metad)
    times = {}
    for attempt in range(3):  # a busy machine delays one or the other
        base = seconds(export, folder)
        for word in WORDS:
            what = digest if word == "why" else ""
            times[word] = min(times.get(word, 99), seconds("%s %s %s many.db %s" % (tool, word, asked, what), folder) / base)
        if max(times.values()) <= 2:
            break
    assert max(times.values()) <= MOST, "times of export and run: %s" % times
    told = ", ".join("%s %.1f" % item for item in times.items())
    return "of %d rows in times of export and run: %s; impact of %d rows in one run" % (many_rows.ROWS, told, one_run(folder, metad))


def one_run(folder, metad):
    """Impact of 200 images, 300 containers and 200 leases starts metad once, and asks all plans of it."""
    content = {b"sha256:%064x" % place: {b"size": b"\xc8\x01"} for place in range(1000)}
    tree = {b"images": {b"i:%d" % place: {b"target": {b"digest": b"sha256:%064x" % place}} for place in range(200)},
            b"containers": {b"c-%d" % place: {b"snapshotter": b"native", b"snapshotKey": b"k-%d" % place, b"image": b"i:%d" % (place % 100)} for place in range(300)},
            b"leases": {b"l-%d" % place: {b"content": {b"sha256:%064x" % (place + 500): b""}} for place in range(200)},
            b"snapshots": {b"native": {b"k-%d" % place: {b"name": b"default/%d/k" % place} for place in range(300)}}, b"content": {b"blob": content}}
    bolt_file.write(os.path.join(folder, "some.db"), {b"v1": {b"version": b"\x06", b"default": tree}})
    counted = os.path.join(folder, "counted")
    stores.put(counted, ("#!/bin/sh\necho >> %s/starts\nexec %s \"$@\"\n" % (folder, metad)).encode())
    os.chmod(counted, 0o755)
    found = stores.tool("impact", "--json", "--limit", "0", "--at", AT, "--metad", counted, os.path.join(folder, "some.db"))
    rows = json.loads(found.stdout.decode())["rows"]
    with open(os.path.join(folder, "starts")) as file:
        assert file.read() == "\n", "metad was started more than once"
    assert len(rows) == 700 and sum(row["frees"] > 0 for row in rows) == 400 and sum(row["snapshots"] for row in rows) == 300
    return len(rows)
