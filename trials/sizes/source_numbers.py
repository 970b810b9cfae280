"""The numbers of 16 or more by which the code's behaviour may change, as the sources have them.

They are constants; and literals that are compared, that stand as an argument of a call, as that of
a capacity or of a place, or that are the length of an array. What clauses and other ghost code say
isn't read, nor are tests. The sources are the crates', and the Go of the front.
"""
from __future__ import annotations

import os
import re
import sys
from typing import Iterator, List, Optional, Set, Tuple

TOP = os.path.dirname(os.path.dirname(os.path.dirname(os.path.realpath(__file__))))
sys.path.insert(0, f"{TOP}/trials/wrong_bodies")

from checksums import behind, end_of_item, is_clause, rust_tokens  # noqa: E402

LEAST = 16
LITERAL = r"(0x[0-9a-fA-F_]+|0o[0-7]+|[0-9][0-9_]*)(?:usize|[ui](?:8|16|32|64|128))?"
FRONT = "go/internal/serve"
# of Go: comments and texts; a constant, by itself or in a block; a token
GO_TEXT = r'//[^\n]*|/\*.*?\*/|`[^`]*`|"(?:[^"\\\n]|\\.)*"|\'(?:[^\'\\]|\\.)+\''
GO_CONSTANT = r"^(?:const )?\s*(\w+)(?: +\w+)? += (.+)$"
GO_TOKEN = r"\w+|[^\w\s]"
# words before a parenthesis that opens no call
NO_CALLS = ("if", "while", "match", "return", "in", "as")


def value_of(token: str) -> Optional[int]:
    found = re.fullmatch(LITERAL, token)
    return int(found[1].replace("_", ""), 0) if found else None


def code_tokens(text: str) -> List[str]:
    """The tokens of a source without clauses, ghost code and attributes."""
    tokens, kept, at = rust_tokens(text), [], 0
    while at < len(tokens):
        if tokens[at] == "{" and is_clause(tokens, at):
            at = behind(tokens, at)
        elif tokens[at] == "ghost":
            at = end_of_item(tokens, at)
        elif tokens[at] == "#":
            at = behind(tokens, at + 1 + (tokens[at + 1] == "!"))
        else:
            kept.append(tokens[at])
            at += 1
    return kept


def is_compared(tokens: List[str], at: int) -> bool:
    """Whether the literal that stands there is a side of a comparison."""
    before, last = tokens[at - 2:at] if at > 1 else ["", ""]
    then, second = tokens[at + 1:at + 3] if at + 2 < len(tokens) else ["", ""]
    left = last in "<>" and before not in (last, "=") or last == "=" and before in "=<>!" != ""
    right = then in "<>" and second != then or second == "=" and then in ("=", "!")
    return bool(last and left or then and right)


def is_argument(tokens: List[str], at: int) -> bool:
    """Whether the literal that stands there is an argument of a call by itself."""
    if tokens[at - 1] not in ("(", ",") or tokens[at + 1] not in (")", ","):
        return False
    depth = 0
    for place in range(at - 1, 0, -1):
        if tokens[place] in ")]}":
            depth += 1
        elif tokens[place] in "([{":
            if depth == 0:
                word = tokens[place - 1]
                is_name = re.fullmatch(r"\w+", word) is not None and word not in NO_CALLS
                return tokens[place] == "(" and is_name and tokens[place - 2] != "fn"
            depth -= 1
    return False


def constants(tokens: List[str]) -> Iterator[str]:
    """The names of the constants that are a number of 16 or more."""
    for at, token in enumerate(tokens):
        if token != "const" or not re.fullmatch(r"[A-Z][A-Z0-9_]*", tokens[at + 1]):
            continue
        end = tokens.index(";", at)
        words = tokens[tokens.index("=", at) + 1:end] if "=" in tokens[at:end] else []
        if words and is_large(words):
            yield tokens[at + 1]


def is_large(words: List[str]) -> bool:
    """Whether an expression of numbers and their operators is 16 or more, in whatever sign."""
    numbers = [value_of(it) for it in words]
    if any(of is None and it not in "<>-+*/()" for of, it in zip(numbers, words)):
        return any(of is not None and of >= LEAST for of in numbers)
    plain = " ".join(it if of is None else str(of) for of, it in zip(numbers, words))
    return abs(eval(plain.replace("< <", "<<"), {})) >= LEAST


def numbers_in(text: str) -> Set[str]:
    """The constants, by name, and the literals, as they are written."""
    tokens = code_tokens(text)
    return set(constants(tokens)) | literals_in(tokens)


def literals_in(tokens: List[str]) -> Set[str]:
    """The literals by which the behaviour may change."""
    found = set()
    for at, token in enumerate(tokens[:-2]):
        value = value_of(token)
        if value is None or value < LEAST:
            continue
        is_length = tokens[at - 1] == ";" and tokens[at + 1] == "]"
        if is_length or is_compared(tokens, at) or is_argument(tokens, at):
            found.add(token)
    return found


def numbers_in_go(text: str) -> Set[str]:
    """The same of a source of Go."""
    text = re.sub(GO_TEXT, " ", text, flags=re.S)
    found = set()
    for block in re.findall(r"^const (?:\([^)]*^\)|.*$)", text, flags=re.M):
        for name, value in re.findall(GO_CONSTANT, block, flags=re.M):
            if re.search(r"\w", value) and is_large(re.findall(GO_TOKEN, value)):
                found.add(name)
    return found | literals_in(re.findall(GO_TOKEN, re.sub(r"(?ms)^const (\(.*?^\)|.*?$)", "", text)))


def numbers_of_front() -> Set[Tuple[str, str]]:
    """Each number of the front with its file."""
    found = set()
    for name in os.listdir(f"{TOP}/{FRONT}"):
        if name.endswith(".go") and not name.endswith("_test.go"):
            with open(f"{TOP}/{FRONT}/{name}", encoding="utf-8") as file:
                found |= {(f"{FRONT}/{name}", it) for it in numbers_in_go(file.read())}
    return found


def numbers_of_crates() -> Set[Tuple[str, str]]:
    """Each number with the file in which it stands, below crates/."""
    found = set()
    for folder, folders, files in os.walk(f"{TOP}/crates"):
        folders[:] = [it for it in folders if it not in ("out", "concrete_calls")]
        for name in files:
            path = os.path.relpath(f"{folder}/{name}", f"{TOP}/crates")
            if name.endswith(".rt") and "/src/" in path and not name.startswith("test"):
                with open(f"{folder}/{name}", encoding="utf-8") as file:
                    found |= {(path, it) for it in numbers_in(file.read())}
    return found
