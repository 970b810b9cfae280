"""In which functions of a source a text stands.

A wrong body whose texts stand between the braces of functions that it names changes no other
function, nor what others know of these: a caller knows a contract, which stands before the braces.
So many such bodies can be judged by one check.
"""
from __future__ import annotations

import functools
import re
from typing import List, NamedTuple, Tuple

from checksums import RUST, read, signature


class Function(NamedTuple):
    """A function of a source with a body, which stands between two places of the text."""

    name: str
    begin: int
    end: int


def functions_of(text: str) -> List[Function]:
    found = [(it["token"], it.start("token")) for it in RUST.finditer(text) if it["token"]]
    tokens = [token for token, _ in found]
    functions = []
    for at, token in enumerate(tokens[:-1]):
        if token == "fn" and re.fullmatch(r"\w+", tokens[at + 1]):
            words, end = signature(tokens, at)
            brace = at + len(words)
            if tokens[brace:brace + 1] == ["{"]:
                functions.append(Function(tokens[at + 1], found[brace][1], found[end - 1][1]))
    return functions


@functools.lru_cache(maxsize=None)
def functions_in(path: str) -> Tuple[Function, ...]:
    return tuple(functions_of(read(path)))


def around(path: str, text: str) -> List[Function]:
    """The functions between whose braces a text stands that is in the file once."""
    begin = read(path).find(text)
    inside = [it for it in functions_in(path) if it.begin < begin and begin + len(text) <= it.end]
    return inside if begin >= 0 else []


def own_name(function: str) -> str:
    """The name in the source of a function as rt names it; of a closure, that of the function
    around it."""
    parts = function.split("::")
    return parts[parts.index("fn") + 1] if "fn" in parts[:-1] else parts[-1]
