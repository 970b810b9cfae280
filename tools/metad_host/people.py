"""What people call a container, and which images are pinned, by the labels of their rows."""
from __future__ import annotations

from .buckets import show
from .pages import Bucket

POD = b"io.kubernetes.pod."
CONTAINER = b"io.kubernetes.container.name"
NERDCTL = b"nerdctl/name"
PINNED = b"io.cri-containerd.pinned"
KIND = b"io.cri-containerd.kind"


def label(labels: Bucket, key: bytes) -> str:
    """A label's value as a text, empty where there is none."""
    found = labels.get(key, b"")
    return show(found) if isinstance(found, bytes) else ""


def known_name(labels: Bucket) -> str:
    """The pod and the container of Kubernetes, or nerdctl's name; empty where there is neither."""
    pod, ns = label(labels, POD + b"name"), label(labels, POD + b"namespace")
    if pod:
        container = label(labels, CONTAINER)
        return "pod %s%s" % (ns + "/" + pod if ns else pod, ", " + container if container else "")
    return label(labels, NERDCTL)


def owner(labels: Bucket) -> str:
    """Who made a row: nerdctl, or CRI for a pod's sandbox; empty where its labels don't say."""
    if label(labels, KIND) == "sandbox":
        return "sandbox"
    return "nerdctl" if any(key.startswith(b"nerdctl/") for key in labels) else ""


def answers_to(known: str, what: str) -> bool:
    """Whether this is what people call a container: its pod, alone or with its namespace."""
    pod = known[len("pod "):].split(", ")[0] if known.startswith("pod ") else known
    return what in (known, pod, pod.rpartition("/")[2])


def short_name(image: str) -> str:
    """An image's name without its tag and its digest."""
    path, slash, last = image.partition("@")[0].rpartition("/")
    return path + slash + last.partition(":")[0]


def is_pinned(labels: Bucket) -> bool:
    """Whether an image's label says that no removal of the kubelet's own may take it."""
    return labels.get(PINNED) == b"pinned"
