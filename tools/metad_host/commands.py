"""The command of the tool that owns a thing, safe to paste into a shell.

Each command names the socket of the daemon that holds the store; where that isn't known, `SOCKET`
stands there. Names are quoted. A name that a command line can't carry, or that a tool would take
for an option, has no command.
"""
from __future__ import annotations

import os
import shlex
import sys
from typing import List, NamedTuple, Optional

from . import daemon
from .remarks import printable
from .rows import CRI, Group, Key
from .store import Store

MOBY = "moby"
NO_LEASES = (MOBY, "buildkit")  # there a stopped container or a cache is a lease
DANGLING = "moby-dangling@"
SOCKET, ROOT = "SOCKET", "ROOT"
NERDCTL, SANDBOX = "nerdctl", "sandbox"  # who made a row, by its labels


class Command(NamedTuple):
    """A command, None where there is none, and why not."""

    text: Optional[str]
    why_not: str


def is_plain(name: str) -> bool:
    """Whether a command line can carry a name as it is."""
    return bool(name) and not name.startswith("-") and all(ord(char) > 31 for char in name) and (
        "\x7f" not in name and name.isprintable()
    )


def refused(store: Store, keys: List[Key]) -> Optional[Command]:
    """Why these rows have no command; None where they have one."""
    for key in keys:
        if key[2] in store.measure.sizes["renamed"] or not is_plain(store.text(key)):
            return Command(None, "a command line can't carry the name %s" % printable(key[2]))
    return None


def joined(words: List[str]) -> str:
    """Words of a shell, each quoted."""
    return " ".join(shlex.quote(word) for word in words)


class Commands:
    """The commands for things of a store."""

    def __init__(self, store: Store) -> None:
        self.store = store
        self.socket = store.daemon.socket or SOCKET
        self.docker = daemon.docker_socket() if store.daemon.socket else ""
        self.root = os.path.abspath(store.root) if store.daemon.socket else ROOT
        self.owners = {
            (kind, ns, name): owner for kind, ns, name, owner in store.measure.sizes["owners"]
        }

    def tool(self, ns: str, owner: Optional[str]) -> List[str]:
        """The words that a tool's command begins with."""
        if ns == CRI:
            return ["crictl", "--runtime-endpoint", self.address(self.socket)]
        if ns == MOBY:
            return ["docker", "--host", self.address(self.docker or SOCKET)]
        if owner == NERDCTL:
            return ["nerdctl", "--address", self.socket, "--namespace", ns]
        return ["ctr", "--address", self.socket, "--namespace", ns]

    @staticmethod
    def address(socket: str) -> str:
        """A socket as an address."""
        return "unix://" + socket

    def image(self, group: Group) -> Command:
        """The command that removes an image with all its names."""
        none = refused(self.store, group.keys)
        if none:
            return none
        names = self.store.group_names(group)
        owner = self.owners.get(group.keys[0])
        words = self.tool(group.ns, owner)
        if group.ns == CRI:
            identifiers = [name for name in names if name.startswith("sha256:")]
            words += ["rmi", identifiers[0] if len(identifiers) == 1 else names[0]]
        elif group.ns == MOBY:
            words += ["image", "rm"] + [dangling(name) for name in names]
        elif owner == NERDCTL:
            words += ["rmi"] + names
        else:
            words += ["images", "rm", "--sync"] + names
        return Command("%s && %s" % (self.still_free(group.ns, names), joined(words)), "")

    def still_free(self, ns: str, names: List[str]) -> str:
        """The command that reads the store again, and ends well if the image is free then too."""
        return joined([sys.argv[0] or "metad-host", "still-free", self.root, ns] + names)

    def container(self, key: Key) -> Command:
        """The command that removes a container and its writable layer."""
        none = refused(self.store, [key])
        if none:
            return none
        owner = self.owners.get(key)
        words = self.tool(key[1], owner)
        if key[1] == CRI:
            words += ["rmp" if owner == SANDBOX else "rm"]
        elif key[1] == MOBY or owner == NERDCTL:
            words += ["rm"]
        else:
            words += ["containers", "rm"]
        return Command(joined(words + [self.store.text(key)]), "")

    def lease(self, key: Key) -> Command:
        """The command that removes a lease."""
        if key[1] in NO_LEASES:
            return Command(None, "in %s a lease is a stopped container or a cache" % key[1])
        none = refused(self.store, [key])
        if none:
            return none
        words = ["ctr", "--address", self.socket, "--namespace", key[1]]
        return Command(joined(words + ["leases", "rm", "--sync", self.store.text(key)]), "")


def dangling(name: str) -> str:
    """What docker calls an image that has no tag: its digest."""
    return name[len(DANGLING):] if name.startswith(DANGLING) else name
