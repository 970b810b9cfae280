"""trials/kept/main.py [PART..]: the trials of the program that keeps a store, all or these."""
import signal
import sys
import time
import traceback

import checkpoints
import crashes
import damage
import disk
import ends
import fronts
import heads
import kills
import loads
import memory
import starts
from stores import Told

PARTS = {"ends": ends, "heads": heads, "damage": damage, "crashes": crashes, "kills": kills,
         "disk": disk, "memory": memory, "checkpoints": checkpoints, "loads": loads,
         "starts": starts, "fronts": fronts}
# those that are run only if they are named
BY_HAND = {"long": starts.long_start}


def main():
    """Runs the parts; status 1 where anything was wrong."""
    names = sys.argv[1:] or list(PARTS)
    parts = {**{name: part.all_parts for name, part in PARTS.items()}, **BY_HAND}
    if not set(names) <= set(parts):
        sys.exit("usage: trials/kept/run [%s ..]" % " | ".join(parts))
    # who starts this in the background may have it ignore signals, and the program would too
    for number in (signal.SIGINT, signal.SIGTERM, signal.SIGHUP):
        signal.signal(number, signal.SIG_DFL)
    for name in names:
        began, tried, wrong = time.monotonic(), Told.tried, Told.wrong
        try:
            parts[name]()
        except Exception:  # the other parts are tried all the same
            Told.wants("the part %s comes to its end" % name, False)
            traceback.print_exc(file=sys.stdout)
        told = (name, Told.tried - tried, Told.wrong - wrong, time.monotonic() - began)
        print("kept: %s: %d tried, %d wrong, %.0f s" % told, flush=True)
    return 1 if Told.wrong else 0


sys.exit(main())
