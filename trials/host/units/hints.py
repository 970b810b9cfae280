"""Each Python file of tools/ is one of 3.8, its lines have at most 100 columns, and each function has type hints."""
from __future__ import annotations

import ast
import os
import sys

TOP = os.path.dirname(os.path.dirname(os.path.dirname(os.path.dirname(os.path.abspath(__file__)))))
COLUMNS = 100


def files():
    """Each Python file of tools/, by its ending or its first line."""
    for folder, _, names in os.walk(os.path.join(TOP, "tools")):
        for name in sorted(names):
            path = os.path.join(folder, name)
            if os.path.islink(path) or "__pycache__" in path:
                continue
            with open(path, "rb") as file:
                if name.endswith(".py") or file.readline().startswith(b"#!/usr/bin/env python3"):
                    yield path


def without_hints(function):
    """The arguments of a function that have no hint, and its result where that has none."""
    own = function.args
    every = own.posonlyargs + own.args + own.kwonlyargs + [own.vararg, own.kwarg]
    names = [arg.arg for arg in every if arg and arg.annotation is None]
    if names[:1] in (["self"], ["cls"]):
        names = names[1:]
    return names + ([] if function.returns else ["its result"])


def faults(text):
    """What is wrong with a file of this text, each with its line."""
    tree = ast.parse(text, feature_version=(3, 8))
    imports = [node for node in tree.body if isinstance(node, ast.ImportFrom)]
    if not any(node.module == "__future__" and node.names[0].name == "annotations" for node in imports):
        yield 1, "no `from __future__ import annotations`"
    for node in ast.walk(tree):
        if isinstance(node, (ast.FunctionDef, ast.AsyncFunctionDef)):
            for name in without_hints(node):
                yield node.lineno, "%s: no hint on %s" % (node.name, name)
    for number, line in enumerate(text.split("\n"), 1):
        if len(line) > COLUMNS:
            yield number, "%d columns" % len(line)


def main():
    """Prints what is wrong; status 1 where anything is."""
    count = wrong = 0
    for path in files():
        with open(path, encoding="utf-8") as file:
            for line, fault in faults(file.read()):
                print("%s:%d: %s" % (os.path.relpath(path, TOP), line, fault))
                wrong += 1
        count += 1
    if not wrong:
        print("host: %d files of tools/ have hints on each function, and lines of at most %d columns" % (count, COLUMNS))
    return 1 if wrong else 0


if __name__ == "__main__":
    sys.exit(main())
