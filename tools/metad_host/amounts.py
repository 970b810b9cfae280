"""Sizes and ages that the words take: 12GB, 500MiB, 7d."""
from __future__ import annotations

import argparse
import re

SECOND = 10**9
TIMES = {"s": 1, "m": 60, "h": 3600, "d": 86400, "w": 7 * 86400}
SPAN = re.compile(r"(\d{1,9})([smhdw])", re.ASCII)
UNITS = {
    "": 1, "k": 10**3, "m": 10**6, "g": 10**9, "t": 10**12,
    "ki": 1 << 10, "mi": 1 << 20, "gi": 1 << 30, "ti": 1 << 40,
}
SIZE = re.compile(r"(\d{1,15})(?:\.(\d{1,6}))?\s*([kmgt]i?|)b?", re.ASCII | re.IGNORECASE)


def bytes_of(text: str) -> int:
    """The bytes of a text such as 12GB or 500MiB; another one is refused."""
    found = SIZE.fullmatch(text)
    if not found:
        raise argparse.ArgumentTypeError("%r is no size such as 12GB" % text)
    unit, places = UNITS[found[3].lower()], str(found[2] or "")
    whole: int = int(found[1]) * unit
    part: int = int(places or "0") * unit // 10 ** len(places)
    return whole + part


def age_of(text: str) -> int:
    """The nanoseconds of a text such as 7d; another one is refused."""
    found = SPAN.fullmatch(text)
    if not found:
        raise argparse.ArgumentTypeError("%r is no age such as 7d or 12h" % text)
    return int(found[1]) * TIMES[found[2]] * SECOND
