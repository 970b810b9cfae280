"""What containerd 2 says in its metadata and a script says otherwise, for one namespace.

- A back reference, the label `gc.bref.KIND` on a row, is the reference label `gc.ref.KIND` of the
  row that it names, towards this row.
- An image that a lease holds, or that a label `gc.ref.image` leads to, stays to the later of its
  own end and of what keeps it, so its `gc.expire` is the later one.

Which of these count is a matter of the daemon's version. Where it isn't sure, each row whose stay
depends on it gets a remark, as does an image that is past its own end when a flat lease still holds
it, whose references the daemon doesn't follow any more.
"""
from __future__ import annotations

import hashlib
from typing import Dict, List, NamedTuple, Optional, Tuple

from .buckets import Metadata, Place, bucket, show
from .pages import Bucket
from .reach import NEVER, Kept, Reach
from .remarks import Remarks
from .texts import (BACK_REFERENCE, CONTENT_REFERENCE, EXPIRE, FLAT, IMAGE_REFERENCE, PREFIX,
                    SNAPSHOT_REFERENCE, Texts, is_named)

# the kinds that a back reference names, by what its key has after BACK_REFERENCE
NAMED = ("content", "image", "container")
MAY_GO = ("content", "snapshot", "image")  # the kinds of which a row goes where nothing leads to it
BY_VERSION = "whether these count depends on the daemon's version (--containerd VERSION names it)"


class Hold(NamedTuple):
    """That a lease holds an image; its end is None where it has none."""

    lease: bytes
    expiry: Optional[bytes]
    end: Optional[int]
    flat: bool


class Later:
    """What a namespace's labels are in the script; before images expire, as they stand."""

    def __init__(self, metadata: Metadata, texts: Texts, remarks: Remarks) -> None:
        self.metadata, self.texts, self.remarks = metadata, texts, remarks
        self.rules, self.is_sure = metadata.rules, metadata.choice.is_sure()
        self.start()

    def start(self) -> None:
        """Nothing is found yet."""
        self.added: Dict[Place, Dict[bytes, bytes]] = {}
        self.holds: Dict[bytes, List[Hold]] = {}
        self.expiring: Dict[bytes, bytes] = {}  # the expiry of each image that has one
        self.leads: Dict[Place, List[Place]] = {}  # back references of images that expire
        self.is_led_to = False  # whether a label leads to an image that expires
        self.kept: Dict[bytes, Kept] = {}  # what keeps an image that a label leads to

    def read(self, namespace: bytes, space: Bucket) -> None:
        """Looks through a namespace; what was found in another one goes."""
        self.start()
        if not self.rules.images_expire:
            return
        self.read_expiries(namespace, space)
        self.read_holds(namespace, space)
        for place, labels in self.metadata.labelled(namespace, space):
            for key, value in labels.items():
                if isinstance(value, bytes):
                    self.read_label(namespace, place, key, value)
        if self.is_led_to:
            self.kept = Reach(space, self.texts.end, self.leads).images()

    def read_expiries(self, namespace: bytes, space: Bucket) -> None:
        """Finds the images that expire."""
        for name, row in self.metadata.objects(namespace, space, b"images").items():
            if isinstance(row, dict):
                expiry = bucket(row, b"labels", "image").get(EXPIRE)
                if isinstance(expiry, bytes) and self.texts.end(expiry) is not None:
                    self.expiring[name] = expiry
                    if not self.is_sure:
                        self.remarks.add("images that expire: " + BY_VERSION,
                                         "image %s %s" % (show(namespace), show(name)), plan=True)

    def read_holds(self, namespace: bytes, space: Bucket) -> None:
        """Finds the leases that hold them."""
        for lease, row in self.metadata.objects(namespace, space, b"leases").items():
            if isinstance(row, dict):
                labels = bucket(row, b"labels", "lease")
                found = labels.get(EXPIRE)
                expiry = found if isinstance(found, bytes) else None
                hold = Hold(lease, expiry, self.texts.end(expiry), FLAT in labels)
                for image in bucket(row, b"images", "lease"):
                    if image in self.expiring:
                        self.holds.setdefault(image, []).append(hold)

    def read_label(self, namespace: bytes, place: Place, key: bytes, value: bytes) -> None:
        """Takes in a label of a row that references, or that is referenced by who it names."""
        example = "%s %s %s: %s" % (place.kind, show(namespace), show(place.name), show(key))
        if place.kind == "sandbox" and key.startswith(PREFIX + b"ref.") and not self.is_sure:
            self.remarks.add("labels of sandboxes: " + BY_VERSION, example, plan=True)
        if is_named(key, IMAGE_REFERENCE):
            self.is_led_to = self.is_led_to or value in self.expiring
        elif key.startswith(BACK_REFERENCE) and place.kind in MAY_GO and self.rules.back_references:
            by = self.named_by(key[len(BACK_REFERENCE):], value)
            if not self.is_sure:
                self.remarks.add("back references: " + BY_VERSION, example, plan=True)
            if by is None:
                self.remarks.add("back references of an unknown kind", example, plan=True)
            elif place.kind != "image":
                self.add(by, place)
            if by is not None:
                self.leads.setdefault(by, []).append(place)
                self.is_led_to = self.is_led_to or place.name in self.expiring

    @staticmethod
    def named_by(key: bytes, value: bytes) -> Optional[Place]:
        """The row that a back reference names, by its key's end and its value."""
        if key.startswith(b"snapshot."):
            return Place("snapshot", key[len(b"snapshot."):].split(b"/")[0], value)
        for kind in NAMED:
            if is_named(key, kind.encode()):
                return Place(kind, b"", value)
        return None

    def add(self, by: Place, to: Place) -> None:
        """Gives a row a reference label towards another one, a key of its own for each."""
        if to.kind == "content":
            key = CONTENT_REFERENCE + b"/back." + to.name
        else:
            name = hashlib.sha256(to.name).hexdigest().encode()
            key = SNAPSHOT_REFERENCE + to.within + b"/back." + name
        self.added.setdefault(by, {})[key] = to.name

    def labels(self, place: Place, labels: Bucket) -> Bucket:
        """A row's labels as the script has them."""
        added = self.added.get(place)
        expires = place.kind == "image" and place.name in self.expiring
        if not added and not expires:
            return labels
        found: Bucket = dict(labels)
        for key, value in (added or {}).items():
            while key in labels:
                key += b"-"
            found[key] = value
        if expires:
            expiry = self.expiry(place.name)
            if expiry is None:
                del found[EXPIRE]
            else:
                found[EXPIRE] = expiry
        return found

    def expiry(self, image: bytes) -> Optional[bytes]:
        """An image's last end, of itself and of all that keeps it; None where it never comes."""
        expiry = self.latest(image, self.holds.get(image, []))
        kept = self.kept.get(image)
        if kept is None or expiry is None:
            return expiry
        end = self.texts.end(expiry)
        return expiry if end is not None and end >= kept.end else kept.expiry

    def led_by(self, image: bytes) -> Optional[Place]:
        """The row whose label keeps an image longer than itself and all leases that hold it."""
        kept = self.kept.get(image)
        if kept is None or kept.by.kind == "lease" or image not in self.expiring:
            return None
        expiry = self.latest(image, self.holds.get(image, []))
        end = NEVER if expiry is None else self.texts.end(expiry)
        return kept.by if end is not None and kept.end > end else None

    def latest(self, image: bytes, holds: List[Hold]) -> Optional[bytes]:
        """The later of an image's own end and those of the leases; None where it never comes."""
        expiry = self.expiring[image]
        end = self.texts.end(expiry)
        for hold in holds:
            if hold.end is None:
                return None
            if end is None or hold.end > end:
                expiry, end = hold.expiry or b"", hold.end
        return expiry

    def without(self, image: bytes) -> Optional[Tuple[bytes, bytes]]:
        """The lease without which an image ends earlier, and its expiry then.

        There is at most one: the one that ends after the image itself and after all the others.
        """
        holds = self.holds.get(image, [])
        if not holds or self.led_by(image):
            return None
        end = self.texts.end(self.latest(image, holds))
        last = [hold for hold in holds if hold.end == end]
        if len(last) != 1 or end == self.texts.end(self.expiring[image]):
            return None
        expiry = self.latest(image, [hold for hold in holds if hold is not last[0]])
        return None if expiry is None else (last[0].lease, expiry)

    def is_flat(self, image: bytes) -> bool:
        """Whether a flat lease holds an image longer than all that holds it in full."""
        holds = self.holds.get(image, [])
        if not holds:
            return False
        full = self.latest(image, [hold for hold in holds if not hold.flat])
        return full is not None and self.latest(image, holds) != full
