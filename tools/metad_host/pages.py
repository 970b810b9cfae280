"""Reads a bolt file, without a lock and without writing.

A bolt file is a tree of pages below a meta page. A transaction writes its pages where the newest
state has none, then a meta page, and only then may the next transaction begin. So a reader that
finds the same transaction newest before and after has read the state of that transaction, also
while a daemon writes.

The bytes are read in one go and parsed afterwards, so that a transaction disturbs a reading only
while they are read. A file that memory doesn't hold twice is read page by page, and its tree is
made meanwhile. No file is mapped: one that someone cuts off is a short read.
"""
from __future__ import annotations

import contextlib
import mmap
import os
import stat
import struct
from typing import BinaryIO, Callable, Dict, Iterator, List, Optional, Tuple, TypeVar, Union

from .faults import BadInput
from .remarks import Remarks

Bucket = Dict[bytes, Union[bytes, "Bucket"]]
Bytes = Union[bytes, mmap.mmap]  # a slice of either is bytes
Found = TypeVar("Found")

MAGIC = 0xED0CDAED
FORMAT = 2
BRANCH = 1
LEAF = 2
BUCKET = 1
META_BYTES = 64
PAGE_HEAD = struct.Struct("<QHHI")  # number, flags, count of elements, pages that follow
ELEMENT = struct.Struct("<IIII")
PAGE_SIZES = (4096, 16384, 65536, 8192, 32768, 1024, 2048)
DEEPEST = 64  # buckets in buckets and pages below pages
READINGS = 200
PIECE = 1 << 24  # bytes of a copy that are in memory where the file is too large for it


class Moved(Exception):
    """The file was written during the reading."""


def checksum(data: bytes) -> int:
    """FNV-1a of 64 bits, as a meta page ends with it."""
    total = 0xCBF29CE484222325
    for byte in data:
        total = ((total ^ byte) * 0x100000001B3) & 0xFFFFFFFFFFFFFFFF
    return total


class Meta:
    """A valid meta page: its transaction, a page's size, the root page, and the pages in use."""

    def __init__(self, data: bytes, offset: int) -> None:
        if len(data) < META_BYTES:
            raise BadInput("the file ends before the meta page at byte %d" % offset)
        magic, form, size, _, root, _, _, pages, transaction, check = struct.unpack("<IIII6Q", data)
        if magic != MAGIC:
            raise BadInput("no bolt file: byte %d begins no meta page" % offset)
        if form != FORMAT:
            raise BadInput("bolt format %d, where %d is known" % (form, FORMAT))
        if check != checksum(data[:56]):
            raise BadInput("the meta page at byte %d has a wrong checksum" % offset)
        if size not in PAGE_SIZES:
            raise BadInput("the meta page at byte %d names a page size of %d" % (offset, size))
        self.transaction: int = transaction
        self.size: int = size
        self.root: int = root
        self.pages: int = pages

    def bytes_in_use(self) -> int:
        """What a state takes of the file; the file may be longer."""
        return self.pages * self.size


class File:
    """The bytes of an open file, read anew each time."""

    def __init__(self, handle: int) -> None:
        self.handle = handle

    def read(self, count: int, start: int) -> bytes:
        """So many bytes from a place on, less where the file ends."""
        return os.pread(self.handle, count, start)

    def pages(self, meta: Meta, first: int, count: int) -> Tuple[Bytes, int]:
        """Pages, as bytes and the place where they begin in these."""
        return self.read(count * meta.size, first * meta.size), 0


class Whole(File):
    """The bytes of a file that were read in one go."""

    def __init__(self, data: Bytes) -> None:
        self.data = data

    def read(self, count: int, start: int) -> bytes:
        return self.data[start:start + count]

    def pages(self, meta: Meta, first: int, count: int) -> Tuple[Bytes, int]:
        return self.data, first * meta.size


def read_meta(file: File, offset: int) -> Meta:
    """The meta page of the page that begins at the offset."""
    return Meta(file.read(META_BYTES, offset + PAGE_HEAD.size), offset)


def newest_meta(file: File) -> Meta:
    """The valid meta page of the newest transaction.

    The second one begins after the first page, whatever its size.
    """
    found: List[Meta] = []
    fault = ""
    try:
        found.append(read_meta(file, 0))
    except BadInput as bad:
        fault = str(bad)
    for size in (found[0].size,) if found else PAGE_SIZES:
        try:
            found.append(read_meta(file, size))
            break
        except BadInput:
            pass
    if not found:
        raise BadInput(fault)
    return max(found, key=lambda meta: meta.transaction)


class Tree:
    """One reading of the tree below a meta page: buckets as dictionaries, by bytes."""

    def __init__(self, file: File, meta: Meta) -> None:
        self.file, self.meta = file, meta
        self.seen = bytearray(meta.pages)

    def page(self, number: int) -> Tuple[Bytes, int, int]:
        """A page with those that follow it: bytes, where it begins there, and where it ends.

        Each page is reached once.
        """
        if number < 2 or number >= self.meta.pages:
            raise BadInput("page %d is not in use" % number)
        size = self.meta.size
        data, start = self.file.pages(self.meta, number, 1)
        if len(data) < start + size:
            raise BadInput("cut off in page %d" % number)
        own, _, _, more = PAGE_HEAD.unpack_from(data, start)
        if own != number:
            raise BadInput("page %d calls itself %d" % (number, own))
        end = number + more + 1
        if end > self.meta.pages:
            raise BadInput("page %d is longer than the file" % number)
        if any(self.seen[number:end]):
            raise BadInput("page %d is reached twice" % number)
        self.seen[number:end] = b"\1" * (end - number)
        if more:
            data, start = self.file.pages(self.meta, number, more + 1)
            if len(data) < start + (more + 1) * size:
                raise BadInput("cut off in page %d" % number)
        return data, start, start + (more + 1) * size

    def bucket(self, number: int, depth: int, into: Bucket, last: Optional[bytes]
               ) -> Optional[bytes]:
        """Puts what stands on a page and below it into a dictionary.

        `last` is the key before it, and the last key is the answer.
        """
        if depth > DEEPEST:
            raise BadInput("page %d is too deep" % number)
        data, start, end = self.page(number)
        _, flags, count, _ = PAGE_HEAD.unpack_from(data, start)
        if flags == LEAF:
            return self.leaf(data, start, end, "page %d" % number, depth, into, last)
        if flags != BRANCH:
            raise BadInput("page %d is neither branch nor leaf" % number)
        head = start + PAGE_HEAD.size
        if head + ELEMENT.size * count > end:
            raise BadInput("page %d is cut off" % number)
        for place in range(count):
            below = struct.unpack_from("<Q", data, head + ELEMENT.size * place + 8)[0]
            last = self.bucket(below, depth + 1, into, last)
        return last

    def leaf(self, data: Bytes, start: int, end: int, where: str, depth: int, into: Bucket,
             last: Optional[bytes]) -> Optional[bytes]:
        """Puts the elements of a leaf into a dictionary.

        Keys ascend, and no element stands on another.
        """
        head = start + PAGE_HEAD.size
        count = PAGE_HEAD.unpack_from(data, start)[2]
        free = head + ELEMENT.size * count
        if free > end:
            raise BadInput("%s is cut off" % where)
        elements = ELEMENT.iter_unpack(data[head:free])
        for place, (flags, offset, key_bytes, value_bytes) in enumerate(elements):
            begin = head + ELEMENT.size * place + offset
            middle = begin + key_bytes
            after = middle + value_bytes
            if begin < free or after > end:
                raise BadInput("%s: element %d is out of its place" % (where, place))
            free = after
            key = data[begin:middle]
            if last is not None and key <= last:
                raise BadInput("%s: key %d is out of order" % (where, place))
            last = key
            if flags & BUCKET:
                into[key] = self.bucket_of(data, middle, after, where, depth)
            else:
                into[key] = data[middle:after]
        return last

    def bucket_of(self, data: Bytes, start: int, end: int, where: str, depth: int) -> Bucket:
        """A bucket that is an element: on pages of its own, or whole in the value."""
        if depth > DEEPEST:
            raise BadInput("%s is too deep" % where)
        if end - start < 16:
            raise BadInput("%s: a bucket without its head" % where)
        inside: Bucket = {}
        root = struct.unpack_from("<Q", data, start)[0]
        if root:
            self.bucket(root, depth + 1, inside, None)
            return inside
        if end - start < 32:
            raise BadInput("%s: a bucket without its page" % where)
        if PAGE_HEAD.unpack_from(data, start + 16)[1] != LEAF:
            raise BadInput("%s: a bucket that is no leaf" % where)
        self.leaf(data, start + 16, end, where, depth + 1, inside, None)
        return inside


def tree_below(file: File, meta: Meta) -> Bucket:
    """The buckets below a meta page."""
    root: Bucket = {}
    Tree(file, meta).bucket(meta.root, 0, root, None)
    return root


def one_state(file: File, take: Callable[[Meta], Found]) -> Found:
    """What `take` reads below the newest meta page, or Moved where another one is at the end."""
    meta = newest_meta(file)
    found: List[Found] = []
    fault = ""  # the text alone: the exception would hold all that was read until then
    try:
        found.append(take(meta))
    except BadInput as bad:
        fault = str(bad)
    now = None
    with contextlib.suppress(BadInput):
        now = newest_meta(file).transaction
    if now != meta.transaction:
        raise Moved()
    if not found:
        raise BadInput(fault)
    return found[0]


def settled(handle: int, take: Callable[[Meta], Found], readings: int) -> Found:
    """What `take` reads in the first of so many readings that no transaction disturbs."""

    def whole(meta: Meta) -> Found:
        size = os.fstat(handle).st_size
        if meta.bytes_in_use() > size:
            raise BadInput("cut off: %d pages of %d bytes are in use, the file has %d bytes"
                           % (meta.pages, meta.size, size))
        return take(meta)

    for _ in range(readings):
        try:
            return one_state(File(handle), whole)
        except Moved:
            pass
    raise BadInput("written in each of %d readings" % readings)


@contextlib.contextmanager
def opened(path: str) -> Iterator[int]:
    """A regular file, open for reading alone."""
    handle = os.open(path, os.O_RDONLY | os.O_NONBLOCK)
    try:
        if not stat.S_ISREG(os.fstat(handle).st_mode):
            raise BadInput("no regular file")
        yield handle
    finally:
        os.close(handle)


class Room:
    """Memory for the pages in use: one that is kept from try to try takes them faster."""

    def __init__(self) -> None:
        self.memory: Optional[mmap.mmap] = None
        self.used = 0

    def __enter__(self) -> Room:
        return self

    def __exit__(self, *_: object) -> None:
        if self.memory is not None:
            self.memory.close()

    def fill(self, handle: int, meta: Meta) -> mmap.mmap:
        """The pages in use, read in one go; MemoryError where there is no memory for them."""
        self.used = meta.bytes_in_use()
        if self.memory is None or len(self.memory) < self.used:
            self.__exit__()
            self.memory = self.anew(os.fstat(handle).st_size)
        done = 0
        with memoryview(self.memory) as room:
            while done < self.used:
                with room[done:self.used] as left:
                    count = os.preadv(handle, [left], done)
                if count == 0:
                    raise BadInput("cut off while it was read")
                done += count
        return self.memory

    def write(self, into: BinaryIO) -> None:
        """Writes the pages that were read last to an open file."""
        if self.memory is not None:
            with memoryview(self.memory) as room, room[:self.used] as used:
                into.write(used)

    @staticmethod
    def anew(size: int) -> mmap.mmap:
        """Memory of this size, which no one else has."""
        try:
            return mmap.mmap(-1, size, flags=mmap.MAP_PRIVATE | mmap.MAP_ANONYMOUS)
        except (OSError, OverflowError):
            raise MemoryError from None


def memory_left() -> Optional[int]:
    """How many bytes of memory the machine has to give, None where it doesn't tell."""
    with contextlib.suppress(OSError, ValueError):
        with open("/proc/meminfo", "rb") as file:
            for line in file:
                if line.startswith(b"MemAvailable:"):
                    return int(line.split()[1]) * 1024
    return None


def fits(handle: int) -> bool:
    """Whether memory holds a file and, beside it, as much again for its tree."""
    left = memory_left()
    return left is None or 2 * os.fstat(handle).st_size <= left


def read(path: str, remarks: Optional[Remarks] = None, readings: int = READINGS) -> Bucket:
    """The buckets of the file, as they stood after one transaction.

    Refused where a transaction disturbs each reading. A file that is too large for memory is read
    page by page, which takes longer, so that more of its readings are disturbed: a remark.
    """
    with opened(path) as handle:
        if fits(handle):
            with contextlib.suppress(MemoryError), Room() as room:
                whole = Whole(settled(handle, lambda meta: room.fill(handle, meta), readings))
                return tree_below(whole, newest_meta(whole))
        if remarks is not None:
            remarks.add("files that memory doesn't hold twice, read page by page", path)
        try:
            return settled(handle, lambda meta: tree_below(File(handle), meta), readings)
        except MemoryError:
            raise BadInput("its tree is too large for memory") from None


def copied(handle: int, meta: Meta, into: BinaryIO) -> None:
    """Writes the pages in use to an open file, which then ends there."""
    into.seek(0)
    into.truncate()
    for start in range(0, meta.bytes_in_use(), PIECE):
        count = min(PIECE, meta.bytes_in_use() - start)
        data = os.pread(handle, count, start)
        if len(data) < count:
            raise BadInput("cut off while it was read")
        into.write(data)


def copy_whole(path: str, into: BinaryIO, readings: int = READINGS) -> None:
    """Writes the file as it stood after one transaction to a file that is open for writing.

    Refused where a transaction disturbs each reading. The pages aren't parsed. A file that is too
    large for memory is copied in pieces, which takes longer.
    """
    with opened(path) as handle:
        if fits(handle):
            with contextlib.suppress(MemoryError), Room() as room:
                settled(handle, lambda meta: room.fill(handle, meta), readings)
                room.write(into)
                return
        settled(handle, lambda meta: copied(handle, meta, into), readings)
