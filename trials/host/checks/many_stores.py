"""Stores of version 4 that the maker makes: the plan is what its own reader of the rules says.

It needs Go and Debian's packages of bbolt and of containerd (../maker/build), and a metad.
"""
from __future__ import annotations

import json
import os
import shutil
import subprocess

import facts
import stores

BUILD = os.path.join(os.path.dirname(stores.HERE), "maker", "build")
FIRST = 40001  # seed


def run(work, metad, count):
    if not shutil.which("go"):
        return "left out, since there is no Go"
    built = os.path.join(work, "maker")
    subprocess.run([BUILD, built], check=True)
    maker = os.path.join(built, "containerd_store")
    rows = said = unsaid = hung = 0
    seed = FIRST
    while said < count:
        root = os.path.join(work, "later")
        shutil.rmtree(root, ignore_errors=True)
        words = ["-plain"] if seed % 4 else []
        words += ["-remove"] if seed % 3 == 0 else []
        found = made(maker, root, seed, words)
        if found is None:
            hung += 1
            assert hung <= 5, "the maker hangs"
        else:
            gone = check("seed %d" % seed, root, found, metad, not seed % 4)
            said, unsaid = said + (gone is not None), unsaid + (gone is None)
            rows += gone or 0
        seed += 1
    assert unsaid < said and rows > 0
    return ("%d stores of version 4, of which %d rows go: 0 differences; %d more with what a "
            "script can't say" % (said, rows, unsaid))


def made(maker, root, seed, words):
    """The facts of a store that the maker makes in a folder; None where its clock hung it."""
    out = root + ".facts"
    try:
        subprocess.run([maker, "later", "-seed", str(seed), "-ops", "45", "-dir", root, "-o", out]
                       + words, check=True, timeout=60)
    except subprocess.TimeoutExpired:
        return None
    os.replace(os.path.join(root, "before.db"),
               os.path.join(root, "io.containerd.metadata.v1.bolt", "meta.db"))
    with open(out, "rb") as file:
        return stores.facts_of(file.read())


def check(name, root, found, metad, may_be_unsaid):
    """How many rows of a store go, the same in the plan; None where a script can't say it."""
    sizes_file = root + ".sizes"
    words = ("--at", found["at"]) + stores.LATER + ("--sizes", sizes_file)
    status, script, told = stores.exported(*words, root)
    from metad_host.later import BY_VERSION
    unsaid = [line for line in told.splitlines() if "may change the plan" in line
              and BY_VERSION not in line]
    assert status in (0, 3) and (may_be_unsaid or not unsaid), "%s: %d, %s" % (name, status, told)
    if unsaid:
        return None
    with open(sizes_file) as file:
        sizes = json.load(file)
    asked = stores.asked_of(script, found["without"], sizes)
    answered = subprocess.run([metad, "run"], input=asked, stdout=subprocess.PIPE)
    replies = answered.stdout.splitlines()
    assert all(b'"ok":true' in reply for reply in replies), "%s: %s" % (name, replies)
    report = json.loads(replies[-1].decode())["report"]
    facts.compare(name, report, found, sizes, None)
    return sum(len(gone) for gone in found["removed"].values())
