"""Names, digests and labels of a daemon, said as metad allows them: docs/FORMATS.md.

What isn't allowed as it is gets another name made of it, the same one wherever it stands, so that
rows and references still meet. The sizes' file tells the old names.
"""
from __future__ import annotations

import hashlib
import re
from typing import Dict, List, Optional, Tuple

from .buckets import show
from .numbers import go_moment, is_moment, is_offset_of_go_119, moment_text
from .pages import Bucket
from .remarks import Remarks
from .versions import Choice, chosen

Label = Tuple[str, str]

NAME_BYTES = 1024
LABEL_BYTES = 4096
PREFIX = b"containerd.io/gc."
CONTENT_REFERENCE = PREFIX + b"ref.content"
SNAPSHOT_REFERENCE = PREFIX + b"ref.snapshot."
IMAGE_REFERENCE = PREFIX + b"ref.image"
BACK_REFERENCE = PREFIX + b"bref."
EXPIRE = PREFIX + b"expire"
FLAT = PREFIX + b"flat"
MEANINGS = {PREFIX + b"root": "root", FLAT: "flat", EXPIRE: "expire"}
# which meanings the collector asks of the labels of each kind
ASKED = {"image": ("content", "snapshot"), "container": ("content", "snapshot"),
         "sandbox": ("content", "snapshot"), "content": ("root", "content", "snapshot"),
         "snapshot": ("root", "content", "snapshot"), "lease": ("expire", "flat")}
ASKED_LATER = dict(ASKED, image=("expire", "content", "snapshot"))  # where images expire
SHORT_NAME = re.compile(r"[A-Za-z0-9][A-Za-z0-9._-]{0,75}", re.ASCII)
DIGEST = re.compile(r"sha256:[0-9a-f]{64}|sha512:[0-9a-f]{128}")
SHA384 = re.compile(r"sha384:[0-9a-f]{96}")
CONTROL = re.compile(rb"[\x00-\x1f\x7f]")


def is_named(key: bytes, reference: bytes) -> bool:
    """Whether a key is this reference, alone or with a name of its own after it."""
    return key.startswith(reference) and key[len(reference):][:1] in (b"", b".", b"/")


def meaning_of(kind: str, key: bytes, images_expire: bool) -> Optional[str]:
    """What a label's key says to the collector on this kind of row; None where it says nothing."""
    meaning = MEANINGS.get(key)
    if key.startswith(SNAPSHOT_REFERENCE):
        meaning = "snapshot"
    elif is_named(key, CONTENT_REFERENCE):
        meaning = "content"
    return meaning if meaning in (ASKED_LATER if images_expire else ASKED)[kind] else None


def text_of(data: bytes) -> Optional[str]:
    """The text of these bytes, None where they are no UTF-8."""
    try:
        return data.decode()
    except UnicodeDecodeError:
        return None


def hashed(data: bytes) -> str:
    """A name that stands for these bytes."""
    return "renamed-" + hashlib.sha256(data).hexdigest()


class Texts:
    """The texts of one export: `renamed` tells the old text of each new one."""

    def __init__(self, remarks: Remarks, all_labels: bool, choice: Optional[Choice] = None) -> None:
        self.remarks, self.all_labels = remarks, all_labels
        self.choice = choice or chosen(0)
        self.images_expire = self.choice.rules.images_expire
        self.renamed: Dict[str, str] = {}

    def name(self, data: bytes, what: str) -> str:
        """The name of these bytes: themselves, or one made of their hash."""
        text = text_of(data)
        if text is not None and 0 < len(data) <= NAME_BYTES and not CONTROL.search(data):
            return text
        text = hashed(data)
        self.renamed[text] = show(data)
        self.remarks.add("names over 1,024 bytes, with control bytes or not UTF-8, renamed",
                         "%s %s" % (what, text))
        return text

    def short_name(self, data: bytes, what: str) -> Optional[str]:
        """The name of a namespace or a snapshotter, None where it isn't allowed.

        The daemon allows less.
        """
        text = text_of(data)
        if text is not None and SHORT_NAME.fullmatch(text):
            return text
        self.remarks.add("namespaces and snapshotters whose names aren't allowed, left out",
                         "%s %s" % (what, show(data)), plan=True)
        return None

    def digest(self, data: bytes, what: str, is_row: bool = False) -> Optional[str]:
        """The digest of these bytes, a sha512 for a sha384.

        None for others, of which no row is carried.
        """
        text = show(data)
        if DIGEST.fullmatch(text):
            return text
        if SHA384.fullmatch(text):
            made = "sha512:" + text[7:] + "0" * 32
            self.renamed[made] = text
            self.remarks.add("sha384 digests, each a sha512 made of it", text)
            return made
        self.remarks.add("digests that are none, left out", "%s %s" % (what, text), plan=is_row)
        return None

    def labels(self, kind: str, labels: Bucket, what: str) -> Tuple[List[Label], List[Label]]:
        """The labels that the collector reads, and the others to carry."""
        read: List[Label] = []
        unread: List[Label] = []
        for key, value in labels.items():
            if isinstance(value, dict):
                self.remarks.add("unknown buckets", "%s: labels" % what, plan=True)
                continue
            meaning = meaning_of(kind, key, self.images_expire)
            if meaning is not None:
                self.read(meaning, key, value, what, read)
            elif not self.later(kind, key, what) or self.all_labels:
                self.unread(key, value, what, unread)
        return read, unread

    def later(self, kind: str, key: bytes, what: str) -> bool:
        """Whether a label is one that the daemon reads, and a script says otherwise.

        One that another version reads gets a remark, unless the daemon's own version is sure.
        """
        rules, example = self.choice.rules, "%s: %s" % (what, show(key))
        if key == EXPIRE and kind in ("content", "snapshot") and rules.images_expire:
            self.remarks.add("expiries of content and snapshots, which no version that was tried "
                             "reads", example, plan=not self.choice.is_sure())
        if not key.startswith((BACK_REFERENCE, IMAGE_REFERENCE)):
            return False
        is_read = rules.image_references
        if key.startswith(BACK_REFERENCE):
            is_read = rules.back_references
        if not is_read and not self.choice.is_sure():
            self.remarks.add("labels that later versions read", example, plan=True)
        return is_read

    def unread(self, key: bytes, value: bytes, what: str, into: List[Label]) -> None:
        """Adds a label that the collector doesn't read, where all are wanted, if it is allowed."""
        key_text, value_text = text_of(key), text_of(value)
        example = "%s: %s" % (what, show(key))
        if not self.all_labels:
            self.remarks.add("labels that no collection reads, not carried (--labels carries them)",
                             example)
        elif key_text is None or value_text is None or len(key) + len(value) > LABEL_BYTES:
            self.remarks.add("labels over 4,096 bytes or not UTF-8 that no collection reads, "
                             "left out", example)
        elif value_text:
            into.append((key_text, value_text))

    def read(self, meaning: str, key: bytes, value: bytes, what: str, into: List[Label]) -> None:
        """Adds a label that the collector reads; what it says is kept, whatever its bytes."""
        text = self.said(meaning, value, what)
        key_text = text_of(key)
        example = "%s: %s" % (what, show(key))
        if (text is not None and key_text is not None
                and 0 < len(text.encode()) <= LABEL_BYTES - len(key)):
            into.append((key_text, text))
        elif meaning in ("root", "flat", "expire"):
            # that it is there says all, and an expiry that can't be read never comes
            into.append((show(key), "x"))
            self.remarks.add("labels over 4,096 bytes, empty or not UTF-8, of which the meaning is "
                             "kept", example)
        else:
            shorter = self.shorter(meaning, key)
            if text is None or shorter is None:
                self.remarks.add("references that no row can have, left out", example)
                return
            into.append((shorter, text))
            self.remarks.add("keys of references that are long or not UTF-8, renamed",
                             "%s: %s" % (what, shorter))

    def said(self, meaning: str, value: bytes, what: str) -> Optional[str]:
        """A label's value of this meaning as metad allows it; None where it doesn't."""
        if meaning == "content":
            return self.reference(value, what)
        if meaning == "snapshot":
            return self.name(value, what + " references") if value else None
        return self.expiry(value, what) if meaning == "expire" else text_of(value)

    def reference(self, value: bytes, what: str) -> Optional[str]:
        """The digest that a label references; None where no row can have it."""
        text = show(value)
        if DIGEST.fullmatch(text) or SHA384.fullmatch(text):
            return self.digest(value, what)
        return None

    def shorter(self, meaning: str, key: bytes) -> Optional[str]:
        """Another key that says the same; None where the snapshotter in it can't be said."""
        if meaning == "content":
            return (CONTENT_REFERENCE + b"/").decode() + hashed(key)
        snapshotter = text_of(key[len(SNAPSHOT_REFERENCE):].split(b"/")[0])
        if snapshotter is None or not SHORT_NAME.fullmatch(snapshotter):
            return None
        return SNAPSHOT_REFERENCE.decode() + snapshotter + "/" + hashed(key)

    def end(self, value: Optional[bytes]) -> Optional[int]:
        """The moment of an expiry; None where it never comes, since the daemon can't read it."""
        text = None if value is None else text_of(value)
        if text is None or (self.images_expire and is_offset_of_go_119(text)):
            return None
        return go_moment(text)

    def expiry(self, value: bytes, what: str) -> Optional[str]:
        """An expiry in the form that metad reads, the same moment.

        One that the daemon can't read stays unreadable.
        """
        text = text_of(value)
        moment = None if text is None else go_moment(text)
        if text is None or moment is None or is_moment(text):
            return text
        example = "%s: %s" % (what, text)
        if text.startswith("9999"):
            self.remarks.add("expiries of the year 9999, which metad counts as unreadable (what "
                             "has it stays in both)", example)
            return text if len(value) < 100 else "9999"
        if is_offset_of_go_119(text):
            if self.images_expire:  # the daemon was built with a later Go
                return text
            self.remarks.add("expiries that Go 1.19 reads and later versions don't", example,
                             plan=True)
        self.remarks.add("expiries that Go alone reads, rewritten", example)
        return moment_text(moment)
