"""What a verdict on a wrong body rests on, as a checksum that comments and layout don't change.

A verdict rests on the functions that the body changes, and on their proofs; on all else of the
crate but the bodies of its other functions and their proofs, since a function knows of another its
contract alone; on the contracts and definitions of all crates below, which are their specs, the
signatures and clauses of their public functions, and their public types; on the kit; and on the
body. If a body changes more than the functions that it names, its verdict rests on the whole crate.
"""
from __future__ import annotations

import functools
import hashlib
import os
import re
import subprocess
from typing import Dict, Iterator, List, Optional, Set, Tuple

TOP = os.path.dirname(os.path.dirname(os.path.dirname(os.path.realpath(__file__))))
RUST = re.compile(
    r"//[^\n]*|(?P<token>b?r(#*)\".*?\"\2|b?\"(?:\\.|[^\"\\])*\"|b?'(?:\\[^\n]|[^'\\\n])'"
    r"|\w+|->|::|[^\w\s])",
    re.S,
)
ANTT = re.compile(r"--[^\n]*|(?P<token>\"(?:\\.|[^\"\\])*\"|[(){}\[\],]|[^\s(){}\[\],\"]+)")
CLOSERS = {"(": ")", "[": "]", "{": "}"}
CLAUSES = ("ensures", "requires")
# files of proofs/ that prove one function, in a folder of its name
OF_ONE = ("Answers.antt", "Invariants.antt", "Proof.antt")
ITEMS = ("struct", "enum", "union", "type", "trait", "impl", "const", "static", "mod", "use")
LETTERS = 16


def read(path: str) -> str:
    with open(f"{TOP}/{path}", encoding="utf-8") as file:
        return file.read()


def sum_of(texts: List[str]) -> str:
    return hashlib.sha256("\0".join(texts).encode()).hexdigest()[:LETTERS]


def files_of(crate: str, parts: Tuple[str, ...]) -> Iterator[str]:
    """The files of these parts of a crate, in order, but those of tests."""
    for part in parts:
        for folder, folders, names in os.walk(f"{TOP}/crates/{crate}/{part}"):
            folders.sort()
            for name in sorted(names):
                is_test = re.fullmatch(r"tests?(_\w+)?\.rt", name)
                if name.endswith((".rt", ".antt")) and not is_test:
                    yield os.path.relpath(f"{folder}/{name}", TOP)


def rust_tokens(text: str) -> List[str]:
    """The tokens of a source, without comments, and without a comma before a closing bracket."""
    found = [it["token"] for it in RUST.finditer(text) if it["token"]]
    closed = found[1:] + [""]
    return [it for it, then in zip(found, closed) if not (it == "," and then in (")", "]", "}"))]


def antt_tokens(text: str) -> List[str]:
    return [it["token"] for it in ANTT.finditer(text) if it["token"]]


def tokens_of(path: str) -> str:
    text = read(path)
    return " ".join(rust_tokens(text) if path.endswith(".rt") else antt_tokens(text))


# ---- what of a source crates above can see


def behind(tokens: List[str], at: int) -> int:
    """The place behind the bracket that closes the one that stands there."""
    depth = 0
    while at < len(tokens):
        depth += (tokens[at] in CLOSERS) - (tokens[at] in CLOSERS.values())
        at += 1
        if depth == 0:
            break
    return at


def end_of_item(tokens: List[str], at: int) -> int:
    """The place behind an item that begins there: behind its `;` or its braces."""
    while at < len(tokens):
        if tokens[at] == ";":
            return at + 1
        if tokens[at] == "{":
            return behind(tokens, at)
        at = behind(tokens, at) if tokens[at] in CLOSERS else at + 1
    return at


def is_clause(tokens: List[str], at: int) -> bool:
    """Whether the brace that stands there opens a clause, which may be starred or have a label."""
    before = [it for it in tokens[max(0, at - 3):at] if it != "*"]
    return any(it in CLAUSES for it in before[-2:])


def signature(tokens: List[str], at: int) -> Tuple[List[str], int]:
    """A function's signature and clauses, from its `fn` on, and the place behind its body."""
    begin = at
    while at < len(tokens):
        if tokens[at] == ";":
            return tokens[begin:at], at + 1
        if tokens[at] == "{" and not is_clause(tokens, at):
            return tokens[begin:at], behind(tokens, at)
        at = behind(tokens, at) if tokens[at] in CLOSERS else at + 1
    return tokens[begin:], at


def head_of(tokens: List[str], at: int) -> Tuple[List[str], int]:
    """What stands before the brace of an `impl` or a `trait`, and the place of that brace."""
    begin = at
    while at < len(tokens) and tokens[at] != "{":
        at = behind(tokens, at) if tokens[at] in "([" else at + 1
    return tokens[begin:at], at


def type_of(head: List[str]) -> Optional[str]:
    """The type that an `impl` is for."""
    depth, names = 0, []
    for at, token in enumerate(head[1:], 1):
        depth += (token == "<") - (token == ">")
        if depth == 0 and token == "for" and head[at + 1] != "<":
            names = []
        elif depth == 0 and token == "where":
            break
        elif depth == 0 and re.fullmatch(r"\w+", token):
            names.append(token)
    return names[-1] if names else None


def shown(tokens: List[str], hidden: Set[str], is_open: bool = False) -> List[str]:
    """What crates above can see of these items; of an open block that is all of them."""
    kept: List[str] = []
    at, is_public = 0, is_open
    while at < len(tokens):
        token = tokens[at]
        if token == "pub":
            is_public = tokens[at + 1] != "("
            at = at + 1 if is_public else behind(tokens, at + 1)
            is_public = is_public or is_open
            continue
        if token == "#":
            at = behind(tokens, at + 2 if tokens[at + 1] == "!" else at + 1)
            continue
        if token == "ghost" and tokens[at + 1] == "use":
            at = end_of_item(tokens, at)
            at += tokens[at:at + 1] == [";"]
            continue
        if token == "fn":
            words, at = signature(tokens, at)
            kept += words + [";"] if is_public else []
        elif token in ("impl", "trait"):
            head, brace = head_of(tokens, at)
            end = behind(tokens, brace)
            of = type_of(head) if token == "impl" else None
            is_whole = token == "trait" or "for" in head
            inside = shown(tokens[brace + 1:end - 1], hidden, is_whole)
            if of not in hidden and (is_public or token == "impl") and (inside or is_whole):
                kept += head + ["{"] + inside + ["}"]
            at = end
        elif token == "const" and tokens[at + 1] in ("fn", "unsafe"):
            at += 1
            continue
        elif token in ITEMS or (token == "ghost" and is_open):
            end = end_of_item(tokens, at)
            if token == "use":
                at = end + (tokens[end:end + 1] == [";"])
                continue
            kept += tokens[at:end] if is_public else []
            at = end
        else:
            at += 1
            continue
        is_public = is_open
    return kept


def hidden_types(tokens: List[str]) -> Set[str]:
    """The types of a source that no other crate can name."""
    found = set()
    for at, token in enumerate(tokens[:-1]):
        if token in ("struct", "enum") and tokens[max(0, at - 1)] != "pub":
            found.add(tokens[at + 1])
    return found


def imported(tokens: List[str]) -> Dict[str, str]:
    """The names that a source takes from specs, each with its module."""
    found = {}
    at = 0
    while at < len(tokens):
        if tokens[at:at + 2] == ["ghost", "use"]:
            end = end_of_item(tokens, at)
            path, _, names = "".join(tokens[at + 2:end]).partition("{")
            for name in names.rstrip("};").split(",") if names else [path.rpartition(".")[2]]:
                found[name] = path
            at = end
        at += 1
    return found


def contracts_in(path: str, hidden: Set[str]) -> str:
    """What crates above can see of a source, with where its clauses' names come from."""
    tokens = rust_tokens(read(path))
    kept = shown(tokens, hidden)
    words = set(kept)
    names = [
        f"{module}{name}"
        for name, module in sorted(imported(tokens).items())
        if all(set(re.findall(r"\w+|[^\w\s]", it)) <= words for it in name.split("◌"))
    ]
    return " ".join(kept + names)


# ---- the sums


@functools.lru_cache(maxsize=None)
def listed() -> Dict[str, List[str]]:
    """Each crate of crates.txt, lowest first, with what it uses."""
    lines = [it.split(":") for it in read("crates.txt").split("\n") if re.match(r"[a-z]", it)]
    return {head.split()[0]: lower.split() for head, lower in lines}


@functools.lru_cache(maxsize=None)
def below(crate: str) -> List[str]:
    """The crates of crates.txt that this one stands on, in order."""
    found: Set[str] = set()
    for name in listed()[crate]:
        if name in listed():
            found |= {name, *below(name)}
    return sorted(found)


@functools.lru_cache(maxsize=None)
def own_sum(crate: str) -> str:
    files = files_of(crate, ("src", "specs", "proofs"))
    return sum_of([f"{path}\n{tokens_of(path)}" for path in files])


def frame(tokens: List[str]) -> List[str]:
    """The tokens of a source but those between the braces of functions. A constant function's stay,
    since types may be made by it."""
    kept: List[str] = []
    at = 0
    while at < len(tokens):
        words, end = [tokens[at]], at + 1
        if tokens[at] == "fn" and re.fullmatch(r"\w+", tokens[at + 1]):
            words, end = signature(tokens, at)
            is_constant = "const" in tokens[max(0, at - 2):at]
            words = tokens[at:end] if is_constant else words + ["{", "}"]
        kept += words
        at = end
    return kept


@functools.lru_cache(maxsize=None)
def frame_sum(crate: str) -> str:
    """Of a crate but the bodies and the proofs of its functions."""
    found = []
    for path in files_of(crate, ("src", "specs", "proofs")):
        if path.endswith(".rt"):
            found.append(f"{path}\n{' '.join(frame(rust_tokens(read(path))))}")
        elif os.path.basename(path) not in OF_ONE:
            found.append(f"{path}\n{tokens_of(path)}")
    return sum_of(found)


def proofs_of(crate: str, name: str) -> List[str]:
    """What proves the functions of a name."""
    files = [it for it in files_of(crate, ("proofs",)) if os.path.basename(it) in OF_ONE]
    return [f"{it}\n{tokens_of(it)}" for it in files if name in it.split("/")[3:-1]]


@functools.lru_cache(maxsize=None)
def contracts_sum(crate: str) -> str:
    """Of all that crates above can see of a crate."""
    sources = list(files_of(crate, ("src",)))
    hidden = set().union(*(hidden_types(rust_tokens(read(it))) for it in sources))
    seen = [contracts_in(path, hidden) for path in sources]
    specs = [f"{path}\n{tokens_of(path)}" for path in files_of(crate, ("specs",))]
    return sum_of([it for it in seen if it] + specs)


@functools.lru_cache(maxsize=None)
def kit() -> str:
    """The kit's line."""
    return subprocess.run(["rt", "version"], stdout=subprocess.PIPE, text=True, check=True).stdout


@functools.lru_cache(maxsize=None)
def crate_sum(crate: str, is_whole: bool) -> str:
    """Of all that a verdict on a body of this crate rests on, but the body; if it isn't the whole
    crate, also but the functions that the body changes."""
    own = own_sum(crate) if is_whole else frame_sum(crate)
    seen = [f"{it} {contracts_sum(it)}" for it in below(crate)]
    others = sorted(it for it in listed()[crate] if it not in listed())
    return sum_of([kit(), own, *seen, *others])
