"""Whether an image is still free, read anew: what stands before a command that removes it."""
from __future__ import annotations

import argparse
import sys
from typing import Any

from .progress import Progress
from .remarks import printable
from .states import FREE, States
from .store import Store


def run(words: Any, progress: Progress) -> int:
    """Ends with 0 if these names are all names of one image that is free, else with 1."""
    store = Store(argparse.Namespace(sizes=None, **vars(words)), progress, program=False)
    keys = [("images", words.ns, name) for name in words.names]
    groups = [group for group in store.rows.groups() if group.kind == "image"]
    why = "there is no such image"
    for group, state in States(store, groups).all():
        if not set(keys) & set(group.keys):
            continue
        if set(keys) != set(group.keys):
            why = "the image has other names now"
        elif state.pinned:
            why = "it is pinned"
        elif state.state != FREE:
            why = "it is %s by %s" % (state.state, printable(store.called(state.by[0])))
        else:
            return 0
        break
    progress.end()
    sys.stderr.write("%s: %s: %s\n" % (progress.name, printable(words.names[0]), why))
    return 1
