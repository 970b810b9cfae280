#!/usr/bin/env python3
"""The two words that answer lines: `run` answers a script, and `serve` does so over a store, whose
journal is in a folder. Trials that try both take them, and the program of each, from here.

trials/scripts/programs.py TRIAL [run | serve ..]
    prints 'WORD PATH', a line for each word: for trials in sh, which then read programs.sh

METAD names another program of `run` than that of ./metad build, METAD_KEPT another one of `serve`.
If only METAD is set, there is no program of `serve`. If there is none, a trial says so in a line
'not run: ..', and tries the other word. It ends with 1 if there is no program of a word that it was
asked for, or none of `run`.
"""
import contextlib
import os
import re
import subprocess
import sys
import tempfile
from collections import namedtuple

TOP = os.path.dirname(os.path.dirname(os.path.dirname(os.path.realpath(__file__))))
WORDS = ("run", "serve")
MEMORY = "/dev/shm"
# what `serve` says of a store that has no line yet
NEW_STORE = re.compile(
    rb"metad: .+: 0 lines, 0 bytes, last sum [0-9a-f]{64}\n"
    rb"metad: .+: store [0-9a-f]{32}, generation 0\n"
)

Program = namedtuple("Program", "word path")


def built(*words):
    """What ./metad built says of a program, or None where it isn't built."""
    ran = subprocess.run([f"{TOP}/metad", "built", *words], stdout=subprocess.PIPE, text=True)
    return ran.stdout.strip() if ran.returncode == 0 else None


def path_of(word):
    """Where the program of this word is, or None where there is none."""
    run, kept = os.environ.get("METAD"), os.environ.get("METAD_KEPT")
    if word == "serve":
        return kept or (None if run else built("serve"))
    return run or (None if built() is None else f"{TOP}/crates/metad/out/metad")


def chosen(trial, words):
    """The programs of a trial, and the other ones of its words: `run` and `serve` among them choose
    programs."""
    asked = [it for it in words if it in WORDS]
    found = {word: path_of(word) for word in asked or WORDS}
    for word in (word for word, path in found.items() if path is None):
        if word == "run" or asked:
            sys.exit(f"{trial}: the program of {word} isn't built: ./metad build")
        why = "METAD_KEPT names none" if os.environ.get("METAD") else "it isn't built"
        print(f"not run: {trial} by the program of serve: {why}", file=sys.stderr, flush=True)
    programs = [Program(word, path) for word, path in found.items() if path is not None]
    return programs, [it for it in words if it not in WORDS]


@contextlib.contextmanager
def command(program):
    """The words that start a program: `serve` over a new store. The store's folder goes at the end;
    it is in memory where it can be, since a sync costs nothing there."""
    if program.word == "run":
        yield [program.path, "run"]
        return
    is_free = not os.environ.get("TMPDIR") and os.access(MEMORY, os.W_OK)
    with tempfile.TemporaryDirectory(dir=MEMORY if is_free else None) as folder:
        yield [program.path, "serve", "--dir", folder, "--new"]


def said(program, told):
    """What a program wrote on standard error, without what `serve` says of each new store."""
    return NEW_STORE.sub(b"", told, count=1) if program.word == "serve" else told


if __name__ == "__main__":
    for it in chosen(sys.argv[1], sys.argv[2:])[0]:
        print(it.word, it.path)
