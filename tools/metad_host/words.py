"""The tool's words: what each takes, and how it ends.

Status 0: done; 1: an input can't be read, `compare` found a row that went too early, or a name has
several meanings; 2: other words, or something that the word needs isn't there; 3: the plan may
differ from the daemon's collection, for a remark on standard error.
"""
from __future__ import annotations

import argparse
import importlib
import os
import subprocess
import sys
from typing import Any, Dict, List, NamedTuple, Tuple

from . import demo
from .amounts import age_of, bytes_of
from .faults import BadInput, Missing
from .numbers import is_moment
from .progress import Progress
from .remarks import printable
from .versions import line_of


class Word(NamedTuple):
    """A word: its module, what it answers, its operands and its options."""

    module: str
    answers: str
    operands: Tuple[str, ...]
    options: Tuple[str, ...]


QUESTION = (
    "--at", "--containerd", "--measure", "--metad", "--sizes", "--json", "--limit", "--bytes"
)
WORDS: Dict[str, Word] = {
    "usage": Word(
        "usage",
        "what fills the disk, by kind, by namespace and by holder",
        ("ROOT",),
        QUESTION,
    ),
    "plan": Word("plan", "what a collection would free", ("ROOT",), QUESTION),
    "prune": Word(
        "prune",
        "images that are used, held or free, and what goes without them",
        ("ROOT",),
        QUESTION + ("--commands", "--leases"),
    ),
    "free": Word(
        "freeing",
        "commands that together free so many bytes",
        ("SIZE", "ROOT"),
        QUESTION + ("--older-than",),
    ),
    "ingests": Word(
        "ingests", "uploads that aren't done, with their leases and ends", ("ROOT",),
        ("--at", "--containerd", "--sizes", "--json", "--limit", "--bytes"),
    ),
    "still-free": Word(
        "still_free",
        "whether these are all names of an image that is free, which commands ask before they act",
        ("ROOT", "NS", "NAME..."),
        ("--at", "--containerd"),
    ),
    "impact": Word(
        "impact", "what goes without each image, container and lease", ("ROOT", "[SIZES]"), QUESTION
    ),
    "why": Word("why", "every root that keeps a thing, and until when", ("ROOT", "WHAT"), QUESTION),
    "copy": Word(
        "copying",
        "a copy that is a state of the store",
        ("ROOT", "FILE"),
        ("--measure", "--json", "--bytes"),
    ),
    "compare": Word(
        "compare",
        "whether the daemon's collection removed too much or too little",
        ("BEFORE", "AFTER"),
        ("--at", "--containerd", "--metad", "--json", "--limit", "--bytes"),
    ),
    "doctor": Word(
        "doctor",
        "which rows go and which stay after an update of containerd",
        ("ROOT",),
        ("--at", "--containerd", "--metad", "--json", "--limit", "--bytes"),
    ),
    "forecast": Word("forecast", "what goes when, by itself", ("ROOT",), QUESTION),
    "metrics": Word("metrics", "figures for Prometheus' textfile collector", ("ROOT",), QUESTION),
    "graph": Word(
        "graph",
        "a picture of what keeps a thing, for Graphviz or as a page",
        ("ROOT", "WHAT"),
        QUESTION + ("--html",),
    ),
    "export": Word(
        "exporting",
        "the store as a script of metad, which ends in a plan",
        ("ROOT",),
        ("--at", "--containerd", "--labels", "--sizes"),
    ),
    "report": Word(
        "report",
        "the last report of metad's replies on standard input, as a page",
        ("SIZES",),
        ("--json", "--limit", "--bytes"),
    ),
    "refused": Word(
        "refused",
        "why metad refused lines of a script, by its replies on standard input",
        ("SCRIPT",),
        (),
    ),
    "completion": Word("completion", "completion for bash or zsh", ("SHELL",), ()),
}
OPERANDS = {
    "ROOT": "the daemon's folder (/var/lib/containerd), its meta.db or a copy; "
    "with --sizes a script of export",
    "WHAT": "a name, an image's short name, a pod, a digest or its beginning, or a snapshot's "
    "folder such as overlayfs/4711",
    "SIZE": "how much, such as 12GB or 500MiB",
    "NS": "a namespace",
    "NAME": "an image's name",
    "FILE": "where the copy goes; each snapshotter's file goes beside it",
    "BEFORE": "a copy of before the collection",
    "AFTER": "a copy of after it",
    "SIZES": "what `export --sizes` wrote",
    "SCRIPT": "what export wrote",
    "SHELL": "bash or zsh",
}
OPTIONS: Dict[str, Dict[str, Any]] = {
    "--at": {
        "metavar": "TIME",
        "help": "the moment of the collection, such as 2024-03-01T00:00:00Z; now without it",
    },
    "--containerd": {
        "metavar": "VERSION",
        "help": "the version whose rules count, such as 2.1.9; without it that of the daemon, "
        "as far as it is known",
    },
    "--metad": {
        "metavar": "PROGRAM",
        "help": "the program that answers; without it the built one of this pack or repository",
    },
    "--sizes": {
        "metavar": "FILE",
        "help": "the sizes of a script; export writes them there, other words read them",
    },
    "--json": {"action": "store_true", "help": "one JSON object; docs/HOST.md has its members"},
    "--limit": {"metavar": "N", "help": "at most so many lines of a kind; 0: all"},
    "--bytes": {"action": "store_true", "help": "sizes in bytes"},
    "--measure": {
        "action": "store_true",
        "help": "measures the folders of writable snapshots and the whole folder, as du does",
    },
    "--commands": {
        "action": "store_true",
        "help": "the commands that remove what is free, to paste into a shell",
    },
    "--older-than": {
        "metavar": "AGE",
        "help": "only images that were made or changed so long ago, such as 7d: made, not used",
    },
    "--leases": {
        "action": "store_true",
        "help": "with --commands those for leases too, as comments",
    },
    "--html": {"metavar": "FILE", "help": "writes the picture there as a page of its own"},
    "--labels": {
        "action": "store_true",
        "help": "all labels, not only those that the collector reads: others may hold secrets",
    },
}


def moment(text: str) -> str:
    """A time that metad reads, of the words."""
    if not is_moment(text):
        raise argparse.ArgumentTypeError("%r is no time such as 2024-03-01T00:00:00Z" % text)
    return text


def count(text: str) -> int:
    """A number of lines, of the words."""
    if not text.isascii() or not text.isdigit() or len(text) > 9:
        raise argparse.ArgumentTypeError("%r is no number such as 20" % text)
    return int(text)


def version_word(text: str) -> str:
    """A version of containerd, of the words."""
    if not line_of(text):
        raise argparse.ArgumentTypeError("%r is no version such as 2.1.9" % text)
    return text


TYPES: Dict[str, Any] = {
    "--at": moment, "--containerd": version_word, "--limit": count, "--older-than": age_of,
    "SIZE": bytes_of,
}


def parser(name: str) -> argparse.ArgumentParser:
    """The parser of all words."""
    words = argparse.ArgumentParser(
        prog=name,
        formatter_class=argparse.RawDescriptionHelpFormatter,
        epilog=listed(name),
        usage="%s WORD [OPTION]... OPERAND..." % name,
        add_help=False,
        description="What fills a containerd daemon's disk, what may go, and why it stays.",
    )
    commands = words.add_subparsers(
        dest="word", metavar="WORD", required=True, help=argparse.SUPPRESS
    )
    for word, about in WORDS.items():
        one = commands.add_parser(word, description=about.answers, prog="%s %s" % (name, word))
        for operand in about.operands:
            bare = operand.strip("[].")
            more: Dict[str, Any] = {}
            if bare != operand:
                more = {"nargs": "+" if operand.endswith("...") else "?"}
            if bare in TYPES:
                more["type"] = TYPES[bare]
            one.add_argument(attribute(word, bare), metavar=bare, help=OPERANDS[bare], **more)
        for option in about.options:
            typed: Dict[str, Any] = {"type": TYPES[option]} if option in TYPES else {}
            one.add_argument(option, **OPTIONS[option], **typed)
    return words


def attribute(word: str, operand: str) -> str:
    """What an operand is called among the parsed words."""
    if operand == "SIZES":
        return "second" if word == "impact" else "sizes"
    return {"NAME": "names"}.get(operand, operand.lower())


def listed(name: str) -> str:
    """The words with what they answer, and examples."""
    lines = ["words:"] + ["  %-11s %s" % (word, about.answers) for word, about in WORDS.items()]
    return "\n".join(
        lines
        + [
            "",
            "%s help WORD tells a word's operands and options; %s --demo asks a recorded store."
            % (name, name),
            "",
            "  sudo %s usage /var/lib/containerd" % name,
            "  sudo %s why /var/lib/containerd overlayfs/4711" % name,
        ]
    )


def version(name: str) -> str:
    """The tool's name and its commit."""
    top = os.path.dirname(os.path.dirname(os.path.dirname(os.path.realpath(__file__))))
    try:
        with open(os.path.join(top, "PACK"), encoding="utf-8") as file:
            return "%s %s" % (name, file.readline().strip())
    except OSError:
        found = subprocess.run(
            ["git", "-C", top, "rev-parse", "--short", "HEAD"],
            stdout=subprocess.PIPE,
            stderr=subprocess.DEVNULL,
        )
        return "%s %s" % (name, found.stdout.decode().strip() or "of an unknown commit")


def run(words: argparse.Namespace, name: str) -> int:
    """Runs a word; its module is loaded now, where it is wanted."""
    about = WORDS[words.word]
    module = importlib.import_module("." + about.module, __package__)
    with Progress(name) as progress:
        status: int = module.run(words, progress)
    return status


def close_output() -> None:
    """Lets what is still buffered go nowhere: the interpreter's end would write it."""
    os.dup2(os.open(os.devnull, os.O_WRONLY), sys.stdout.fileno())


def asked_help(arguments: List[str]) -> List[str]:
    """`help` and `help WORD` as the options that argparse knows."""
    if arguments[:1] == ["help"] and len(arguments) == 2:
        return [arguments[1], "--help"]
    return arguments


def main(arguments: List[str], name: str = "host") -> int:
    """Runs a word, and answers its status."""
    try:
        if arguments in (["help"], ["--help"], ["-h"]):
            sys.stdout.write(parser(name).format_help())
            sys.stdout.flush()
            return 0
        if arguments == ["--demo"]:
            return demo.run(name, lambda words: run(parser(name).parse_args(words), name))
        if arguments == ["--version"]:
            sys.stdout.write(version(name) + "\n")
            sys.stdout.flush()
            return 0
        return run(parser(name).parse_args(asked_help(arguments)), name)
    except BrokenPipeError:  # who reads has seen enough
        close_output()
        return 1
    except KeyboardInterrupt:
        close_output()
        return 130
    except Missing as bad:
        sys.stderr.write("%s: %s\n" % (name, printable(str(bad))))
        return 2
    except BadInput as bad:
        fault = str(bad)
    except OSError as bad:
        fault = "%s: %s" % (bad.filename, bad.strerror) if bad.filename else str(bad.strerror)
        if isinstance(bad, PermissionError) and os.geteuid() != 0:
            fault += ": it needs root's rights (sudo), as a daemon's files do"
        if not bad.filename:
            close_output()
    except UnicodeDecodeError:
        fault = "the input isn't UTF-8"
    except MemoryError:
        fault = "there isn't enough memory for this store"
    sys.stderr.write("%s: %s\n" % (name, printable(fault)))
    return 1
