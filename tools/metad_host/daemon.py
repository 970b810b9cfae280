"""The daemon whose store is read: which process has its meta.db open, its version, its socket.

`copy` records it beside a copy, so that who asks the copy elsewhere has the rules of that version.
"""
from __future__ import annotations

import json
import os
import re
import subprocess
from typing import Any, Dict, List, NamedTuple, Tuple

from . import versions
from .faults import BadInput

BESIDE = ".daemon"  # behind the name of a copy: what was known of the daemon
ADDRESS = "/run/containerd/containerd.sock"
STATE = "/run/containerd"
DOCKER = "/var/run/docker.sock"
SECONDS = 5  # that a program may take to tell its version
SETTING = re.compile(
    r"""\s*(address|state|sandbox_image)\s*=\s*(?:"([^"\\]*)"|'([^']*)')\s*(#.*)?"""
)


class Daemon(NamedTuple):
    """What is known of the daemon; empty texts where nothing is."""

    version: str
    by: str  # who told the version: versions.RUNNING or versions.RECORDED
    socket: str
    state: str  # the folder of its running tasks
    sandbox_image: str  # which image pods' sandboxes have, by its config.toml

    def told(self) -> Tuple[str, str]:
        """The version and who told it."""
        return self.version, self.by if self.version else ""


NONE = Daemon("", "", "", "", "")


def holders(path: str) -> List[int]:
    """The processes that have a file open; none are seen without root's rights."""
    try:
        about = os.stat(path)
    except OSError:
        return []
    processes: List[int] = []
    for name in sorted((name for name in os.listdir("/proc") if name.isdigit()), key=int):
        if int(name) == os.getpid():
            continue
        folder = os.path.join("/proc", name, "fd")
        try:
            for handle in os.listdir(folder):
                link = os.path.join(folder, handle)
                if not os.readlink(link).endswith("meta.db"):
                    continue
                found = os.stat(link)
                if (found.st_dev, found.st_ino) == (about.st_dev, about.st_ino):
                    processes.append(int(name))
                    break
        except OSError:
            continue
    return processes


def version_of(process: int) -> str:
    """The version that a process's own program prints; empty where it is no containerd."""
    try:
        found = subprocess.run(
            ["/proc/%d/exe" % process, "--version"],
            stdin=subprocess.DEVNULL, stdout=subprocess.PIPE, stderr=subprocess.DEVNULL,
            timeout=SECONDS,
        )
    except (OSError, subprocess.SubprocessError):
        return ""
    return versions.reported(found.stdout.decode("utf-8", "replace"))


def words_of(process: int) -> List[str]:
    """The words of a process."""
    try:
        with open("/proc/%d/cmdline" % process, "rb") as file:
            return [word.decode("utf-8", "replace") for word in file.read().split(b"\0")[:-1]]
    except OSError:
        return []


def docker_socket() -> str:
    """The socket of the one dockerd that runs; empty where there is none, or more than one."""
    found = []
    for name in os.listdir("/proc"):
        words = words_of(int(name)) if name.isdigit() else []
        if words and os.path.basename(words[0]) == "dockerd":
            host = option(words, ("-H", "--host"))
            found.append(host[len("unix://"):] if host.startswith("unix://") else DOCKER)
    return found[0] if len(found) == 1 and os.path.exists(found[0]) else ""


def option(words: List[str], names: Tuple[str, ...]) -> str:
    """The value of an option, empty where it isn't there."""
    for place, word in enumerate(words):
        name, equals, value = word.partition("=")
        if name in names:
            return value if equals else "".join(words[place + 1:place + 2])
    return ""


def settings(config: str) -> Tuple[str, str, str]:
    """Socket, state folder and sandbox image that a config.toml names; empty where it doesn't."""
    found = {"address": "", "state": "", "sandbox_image": ""}
    table = ""
    for line in config.splitlines():
        head = re.fullmatch(r"\s*\[+\s*([^\]]*?)\s*\]+\s*(#.*)?", line)
        if head:
            table = head[1]
        pair = SETTING.fullmatch(line)
        if pair and table == {"address": "grpc", "state": ""}.get(pair[1], table):
            found[pair[1]] = pair[2] or pair[3] or ""
    return found["address"], found["state"], found["sandbox_image"]


def config_of(process: int, words: List[str]) -> str:
    """The text of a process's config.toml, empty where it can't be read."""
    path = option(words, ("-c", "--config", "-config")) or "/etc/containerd/config.toml"
    if not os.path.isabs(path):
        try:
            path = os.path.join(os.readlink("/proc/%d/cwd" % process), path)
        except OSError:
            return ""
    try:
        with open(path, encoding="utf-8", errors="replace") as file:
            return file.read(1 << 20)
    except OSError:
        return ""


def running(path: str) -> Daemon:
    """The daemon that has this file open; a copy of another name is no one's."""
    found = holders(path) if os.path.basename(path) == "meta.db" else []
    if not found:
        return NONE
    versions_of = {process: version_of(process) for process in found}
    process = next((one for one in found if versions_of[one]), found[0])
    words = words_of(process)
    socket, state, image = settings(config_of(process, words))
    socket = option(words, ("-a", "--address", "-address")) or socket or ADDRESS
    state = option(words, ("--state", "-state")) or state or STATE
    if not os.path.exists(socket):
        socket = ""
    return Daemon(versions_of[process], versions.RUNNING, socket, state, image)


def recorded(copy: str) -> Daemon:
    """What `copy` recorded of the daemon beside this copy; its socket is of another moment."""
    found = record(copy)
    return Daemon(
        str(found.get("containerd", "")), versions.RECORDED, "", "",
        str(found.get("sandbox_image", "")),
    )


def as_record(found: Daemon) -> Dict[str, Any]:
    """What a copy's record tells of a daemon."""
    members = {"containerd": found.version, "sandbox_image": found.sandbox_image}
    return {name: text for name, text in members.items() if text}


def record(copy: str) -> Dict[str, Any]:
    """The file beside a copy, empty where there is none."""
    try:
        with open(copy + BESIDE, encoding="utf-8") as file:
            found = json.load(file)
    except FileNotFoundError:
        return {}
    except (ValueError, RecursionError):
        raise BadInput("%s%s: it isn't JSON" % (copy, BESIDE)) from None
    if not isinstance(found, dict):
        raise BadInput("%s%s: no record of a daemon" % (copy, BESIDE))
    return found


def write_record(copy: str, found: Dict[str, Any]) -> None:
    """Writes the file beside a copy, or removes an earlier one where there is nothing to say."""
    path = copy + BESIDE
    if not found:
        if os.path.exists(path):
            os.unlink(path)
        return
    with open(path + ".part", "w", encoding="utf-8") as file:
        json.dump(found, file, indent=1)
        file.write("\n")
    os.replace(path + ".part", path)
