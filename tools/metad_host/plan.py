"""What a collection would free, now or at another moment."""
from __future__ import annotations

from typing import Any

from .printing import Printer
from .progress import Progress
from .report import SHOWN, Page
from .store import Store


def run(words: Any, progress: Progress) -> int:
    """Prints the page of a dry run."""
    store = Store(words, progress)
    with store.metad() as metad:
        progress.say("asking what goes")
        report = metad.report("gc.plan", store.at)
    found = Page(report, store.measure, SHOWN if words.limit is None else words.limit)
    out = Printer(words, progress)
    if words.json:
        out.object(dict(store.head("plan"), **found.as_object()))
    else:
        out.lines(found.lines(out))
    return store.status()
