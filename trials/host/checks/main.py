"""Runs all checks of tools/host: main.py HOW [METAD].

HOW is `gate`, or `whole` for more damages, readings and stores; METAD is the built program.
"""
import os
import sys
import tempfile
import time
import traceback

sys.dont_write_bytecode = True
sys.path.insert(0, os.path.dirname(os.path.abspath(__file__)))

import answers
import changing
import containerd_2
import copies
import daemons
import damage
import disk
import doctor
import facts
import inputs
import large
import little_memory
import many_rows
import many_stores
import objects
import page
import planted
import questions
import refusals
import removals
import stores
import table

sys.path.insert(0, os.path.join(stores.TOP, "tools"))


def main(whole, metad):
    checks = [
        ("facts", facts.run),
        ("table", table.run),
        ("containerd_2", containerd_2.run),
        ("inputs", inputs.run),
        ("refusals", refusals.run),
        ("damage", lambda work: damage.run(work, 6000 if whole else 1500)),
        ("changing", lambda work: changing.run(work, *((10000, 45000) if whole else (300, 8000)))),
        ("little_memory", little_memory.run),
        ("many_rows", many_rows.run),
        ("planted", planted.run),
    ]
    if metad:
        checks += [
            ("answers", lambda work: answers.run(work, metad)),
            ("objects", lambda work: objects.run(work, metad)),
            ("copies", lambda work: copies.run(work, metad)),
            ("daemons", lambda work: daemons.run(work, metad)),
            ("doctor", lambda work: doctor.run(work, metad)),
            ("disk", lambda work: disk.run(work, metad)),
            ("questions", lambda work: questions.run(work, metad, 400 if whole else 100)),
            ("removals", lambda work: removals.run(work, metad, 200 if whole else 25)),
            ("large", lambda work: large.run(work, metad)),
        ]
    if metad and "METAD" not in os.environ:  # the page's commands ask the repository's own
        checks += [("page", page.run)]
    if metad and whole:
        checks += [("many_stores", lambda work: many_stores.run(work, metad, 200))]
    failed = 0
    with tempfile.TemporaryDirectory() as work:
        for name, check in checks:
            start = time.time()
            try:
                print("host: %s: %s (%.1f s)" % (name, check(work), time.time() - start))
            except Exception as fault:  # what a check did not expect fails it too
                failed += 1
                told = str(fault) if isinstance(fault, AssertionError) else ""
                print("host: %s: FAILED: %s" % (name, told or traceback.format_exc()))
            sys.stdout.flush()
    return 1 if failed else 0


if __name__ == "__main__":
    sys.exit(main(sys.argv[1] == "whole", sys.argv[2] if len(sys.argv) > 2 else None))
