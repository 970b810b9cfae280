"""Judges wrong bodies by checks of a copy of their crate.

Each function that a body names has to be refused by a goal of its own, and no other function may
be: a function that only calls a refused one isn't. So the crate has to be proved without the
bodies. By hand, checks begin with the work that the clone's checks have kept. In the gate there is
none, but the libraries that rt ci has built.
"""
from __future__ import annotations

import importlib
import os
import re
import shutil
import signal
import subprocess
import sys
import tempfile
import time
from typing import Any, Dict, List, NamedTuple, Optional, Set, Tuple

from bodies import Body, Check, Texts, in_checks
from checksums import TOP, below

JOBS = os.environ.get("RT_JOBS") or "2"
# a prover that holds more than this is ended, in bytes
MOST_MEMORY = 6 << 30
# of how many goals of a function a verdict tells
MOST_GOALS = 4


class Said(NamedTuple):
    """What a check came to: the refused functions with their goals, or why it judged nothing."""

    refused: Dict[str, List[str]]
    why: Optional[str]
    has_time: bool
    text: str


class Workspace:
    """A copy of the crates' sources, in which one crate at a time is checked."""

    def __init__(self, is_gate: bool) -> None:
        self.is_gate = is_gate
        self.folder = tempfile.mkdtemp(prefix="wrong-bodies-")
        for name in ("crates.txt", "HANDLES"):
            shutil.copy(f"{TOP}/{name}", self.folder)
        for crate in os.listdir(f"{TOP}/crates"):
            for part in ("src", "specs", "proofs"):
                self.copy(f"crates/{crate}/{part}")

    def copy(self, path: str, how: str = "-a") -> None:
        """Copies a folder if it is there, or links its files with -al, where they can be linked."""
        to = f"{self.folder}/{path}"
        if not os.path.isdir(f"{TOP}/{path}"):
            return
        shutil.rmtree(to, ignore_errors=True)
        os.makedirs(os.path.dirname(to), exist_ok=True)
        quiet = {"stderr": subprocess.DEVNULL} if how == "-al" else {}
        if subprocess.run(["cp", how, f"{TOP}/{path}", to], **quiet).returncode:
            shutil.rmtree(to, ignore_errors=True)
            subprocess.run(["cp", "-a", f"{TOP}/{path}", to], check=True)

    def take_work(self, crate: str) -> None:
        """Copies what checks of the clone have kept of a crate, and of those below."""
        for name in below(crate):
            if not os.path.isdir(f"{self.folder}/crates/{name}/out/rlib"):
                # a check makes a library anew and changes no file of it
                self.copy(f"crates/{name}/out/rlib", "-al")
                if self.is_gate and all(map(is_built_later, [name, *below(name)])):
                    self.note_library(name)
        self.copy(f"crates/{crate}/out/incremental")

    def note_library(self, crate: str) -> None:
        """Writes the note by which rt knows that a crate's library is of its sources. rt ci leaves
        it out, since its libraries fit one another alone; here all are of one run. Without it rt
        proves each crate below anew."""
        path = f"{self.folder}/crates/{crate}/out/rlib/stamp"
        if not os.path.exists(path):
            with open(path, "w", encoding="utf-8") as file:
                file.write(crate_of_kit(self.folder, crate).stamp())

    def drop_work(self, crate: str) -> None:
        shutil.rmtree(f"{self.folder}/crates/{crate}/out/incremental", ignore_errors=True)

    def check(self, crate: str, texts: Texts, only: Set[str], end: float) -> Said:
        """Checks a crate with these texts in place of its own, up to a moment of the clock: of all
        its functions these and what they call, or all if there are none."""
        folder = f"{self.folder}/crates/{crate}"
        for path, text in texts.items():
            shutil.copy2(f"{folder}/{path}", f"{folder}/{path}.whole")
            with open(f"{folder}/{path}", "w", encoding="utf-8") as file:
                file.write(text)
        try:
            why, has_time, said = run_check(folder, only, end)
        finally:
            for path in texts:
                os.replace(f"{folder}/{path}.whole", f"{folder}/{path}")
        judged = r"^only=\d" if only else r"^logic=(?:not-)?proved"
        if why is None and not re.search(judged, said, re.M):
            errors = " | ".join(it for it in said.split("\n") if "error" in it)
            why = f"the check judged nothing: {errors[:600]}"
        return Said({} if why else refusals(crate, said), why, has_time, said)

    def unproved(self, crate: str, end: float) -> Optional[str]:
        """Why the crate isn't proved as it is, if it isn't. In the gate rt ci has just proved it."""
        if self.is_gate or crate_of_kit(TOP, crate).is_built():
            return None
        said = self.check(crate, {}, set(), end)
        is_proved = not said.refused and re.search(r"^logic=proved", said.text, re.M)
        return None if is_proved else said.why or f"not proved: {' '.join(said.refused)}"

    def remove(self) -> None:
        shutil.rmtree(self.folder, ignore_errors=True)


def is_built_later(crate: str) -> bool:
    """Whether the clone has a library of the crate, or a program, that was built after all its
    sources changed. rt builds only what is proved."""
    folder = f"{TOP}/crates/{crate}"
    made = [f"{folder}/out/rlib/{crate}.rlib", f"{folder}/out/{crate}"]
    sources = [
        f"{found}/{name}"
        for part in ("src", "specs", "proofs")
        for found, folders, names in os.walk(f"{folder}/{part}")
        for name in [*folders, *names, ""]
    ]
    changed = max(os.stat(it).st_ctime_ns for it in sources)
    return any(os.path.exists(it) and changed < os.stat(it).st_mtime_ns for it in made)


def crate_of_kit(top: str, crate: str) -> Any:
    """A crate of a folder of crates, as the kit's own modules know it."""
    kit = os.path.dirname(os.path.realpath(shutil.which("rt") or ""))
    if kit not in sys.path:
        sys.path.append(kit)
    return importlib.import_module("rtlib").Crate(f"{top}/crates/{crate}", top, {})


# ---- a check


def run_check(folder: str, only: Set[str], end: float) -> Tuple[Optional[str], bool, str]:
    """Runs rt check in a crate's folder. Returns why it was ended, whether there was time, and what
    it said."""
    words = ["rt", "check", "--jobs", JOBS]
    for name in sorted(only):
        words += ["--only", name]
    with tempfile.TemporaryFile() as output:
        process = subprocess.Popen(
            words,
            cwd=folder,
            stdin=subprocess.DEVNULL,
            stdout=output,
            stderr=subprocess.STDOUT,
            start_new_session=True,
        )
        why, has_time = None, True
        try:
            while process.poll() is None:
                time.sleep(0.5)
                if time.time() > end:
                    why, has_time = "there was no time", False
                elif any(it > MOST_MEMORY for it in memory_below(process.pid).values()):
                    why = f"the prover took more than {MOST_MEMORY >> 30} GB"
                if why:
                    break
        finally:
            if process.poll() is None:
                end_all(process)
        output.seek(0)
        return why, has_time, output.read().decode(errors="replace")


def memory_below(pid: int) -> Dict[int, int]:
    """The memory of a process and of all that it started, in bytes, by their ids."""
    parents, sizes = {}, {}
    for name in os.listdir("/proc"):
        try:
            with open(f"/proc/{name}/stat", encoding="utf-8", errors="replace") as file:
                fields = file.read().rpartition(")")[2].split() if name.isdigit() else []
        except OSError:
            continue
        if fields:
            parents[int(name)] = int(fields[1])
            sizes[int(name)] = int(fields[21]) * os.sysconf("SC_PAGE_SIZE")
    found: Set[int] = {pid}
    more = True
    while more:
        new = {it for it, parent in parents.items() if parent in found} - found
        found |= new
        more = bool(new)
    return {it: sizes[it] for it in found if it in sizes}


def end_all(process: "subprocess.Popen[bytes]") -> None:
    """Ends a process and all that it started."""
    started = memory_below(process.pid)
    os.killpg(process.pid, signal.SIGTERM)
    try:
        process.wait(timeout=10)
    except subprocess.TimeoutExpired:
        pass
    for pid in started:
        try:
            os.kill(pid, signal.SIGKILL)
        except ProcessLookupError:
            pass
    process.wait()


def refusals(crate: str, said: str) -> Dict[str, List[str]]:
    """The functions that a check refuses by goals of their own, each with these goals."""
    found: Dict[str, Set[str]] = {}
    own = r"^fn (\S+): (?:not proved|no proof: (?!it calls))(.*)"
    for name, rest in re.findall(own, said, re.M):
        goals = found.setdefault(name.replace(f"{crate}::", "", 1), set())
        goals.update(re.findall(r"`([^`\s]+)`", rest.partition("did not prove")[2]))
    at_proof = r"^(?:\./)?proofs/(\S+)/(\w+)\.antt:\d+:\d+: error: (?:`([^`\s]+)`)?"
    for path, file, goal in re.findall(at_proof, said, re.M):
        name = path.replace("/", "::")
        if name in found:
            found[name].add(goal or file)
    return {it: sorted(goals) for it, goals in found.items()}


def unread(said: str, texts: Texts) -> Optional[str]:
    """The line by which rt ci finds that a text can't be read, as a clause of a closure that takes
    nothing any more; it then refuses the whole file."""
    cannot = (
        r"is not in scope|has no field|is no name|operand is missing|expected the end"
        r"|cannot continue"
    )
    for line in said.split("\n"):
        at = re.match(r"(?:\./)?(\S+?):\d+:\d+: error: (?:(`[^`]*`): )?(.*)", line)
        if at and (at[1] in texts or at[1].startswith(("src/", "specs/"))):
            if not at[2] or re.search(cannot, re.sub(r"`[^`]*`", "", at[3])):
                return line
    return None


# ---- bodies


class Failure(NamedTuple):
    """What is wrong with one of these bodies."""

    bodies: List[str]
    text: str


class Outcome(NamedTuple):
    """What a check said of its bodies: the verdicts, what is wrong, and whether there was time."""

    texts: Dict[str, str]
    failures: List[Failure]
    has_time: bool


def verdict_text(body: Body, refused: Dict[str, List[str]]) -> str:
    parts = []
    for name in sorted(body.functions):
        goals = refused[name]
        told = ",".join(goals[:MOST_GOALS]) or "-"
        parts.append(f"{name} by {told}")
    return "refused " + "; ".join(parts)


def judge(work: Workspace, crate: str, check: Check, end: float, is_named: bool) -> Outcome:
    """Judges the bodies of a check, by all functions of the crate, or by those that are named and
    what these call. Where together they are too much, or one can't be judged, or a function is
    refused that none names, each half is judged by itself, so that the one is named."""
    bodies = check.bodies
    named: Set[str] = set().union(*(it.functions for it in bodies))
    said = work.check(crate, check.texts, named if is_named else set(), end)
    names = [it.name for it in bodies]
    if not said.has_time:
        return Outcome({}, [], False)
    line = None if said.why else unread(said.text, check.texts)
    why = said.why or (f"rt ci can't read what it changes: {line[:300]}" if line else None)
    strange = sorted(set(said.refused) - named)
    if (why or strange) and len(bodies) > 1:
        texts: Dict[str, str] = {}
        failures: List[Failure] = []
        middle = len(bodies) // 2
        for half in (bodies[:middle], bodies[middle:]):
            for part in in_checks(half)[0]:
                found = judge(work, crate, part, end, is_named)
                texts.update(found.texts)
                failures += found.failures
                if not found.has_time:
                    return Outcome(texts, failures, False)
        return Outcome(texts, failures, True)
    if why:
        return Outcome({}, [Failure(names, f"NOT JUDGED: {why}")], True)
    failures = [Failure(names, f"{it} is refused, and it doesn't name it") for it in strange]
    texts = {}
    for body in bodies:
        missing = sorted(it for it in body.functions if not said.refused.get(it))
        failures += [Failure([body.name], f"NOT REFUSED by a goal: {it}") for it in missing]
        if not missing and not strange:
            texts[body.name] = verdict_text(body, said.refused)
    return Outcome(texts, failures, True)
