"""trials/serve/main.py [PART | PART.FUNCTION ..]: the trials of the front, all or these."""
import inspect
import os
import sys
import time

import bounds
import edges
import ends
import kept
import load
import moments
import order
import units
import watched
import whose
from fronts import Front, Told

# each part, and which programs it needs; it tries less without one that ends in a question mark
PARTS = {
    "units": (units, ()),
    "edges": (edges, ()),
    "ends": (ends, ()),
    "bounds": (bounds, ()),
    "whose": (whose, ("METAD?", "METAD_KEPT?")),
    "watched": (watched, ("METAD_KEPT?",)),
    "moments": (moments, ("METAD_KEPT?",)),
    "order": (order, ("METAD",)),
    "load": (load, ("METAD",)),
    "kept": (kept, ("METAD_KEPT",)),
}
PROGRAMS = {"METAD": "the program of run", "METAD_KEPT": "the program of serve"}


def run_one(part, function):
    """Runs one function of a part, on a front of its own if it wants one."""
    trial = getattr(part, function)
    if list(inspect.signature(trial).parameters) == ["front"]:
        with Front() as front:
            trial(front)
    else:
        trial()


def main():
    """Runs the parts; status 1 where anything was wrong."""
    names = sys.argv[1:] or list(PARTS)
    if not {name.partition(".")[0] for name in names} <= set(PARTS):
        sys.exit("usage: trials/serve/run [%s ..]" % " | ".join(PARTS))
    for name in names:
        name, _, function = name.partition(".")
        part, needed = PARTS[name]
        if function:
            run_one(part, function)
            continue
        programs = [os.environ.get(it.rstrip("?")) for it in needed]
        missing = [it for it, program in zip(needed, programs) if not program]
        for it in missing:
            how = "tries less" if it.endswith("?") else "is left out"
            print("serve: %s %s: %s isn't built" % (name, how, PROGRAMS[it.rstrip("?")]))
        if not all(it.endswith("?") for it in missing):
            continue
        began, tried, wrong = time.monotonic(), Told.tried, Told.wrong
        part.run(*programs)
        told = (name, Told.tried - tried, Told.wrong - wrong, time.monotonic() - began)
        print("serve: %s: %d tried, %d wrong, %.0f s" % told, flush=True)
    return 1 if Told.wrong else 0


sys.exit(main())
