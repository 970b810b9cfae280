"""Writes bolt files for the checks: a tree of dictionaries, as tools/host reads it, with each bucket on leaf pages of its own or whole in its value.

A Writer changes a file as a daemon does: a transaction's pages go where the newest state has none, then its meta page.
"""
import os
import struct

SIZE = 4096
HEAD = struct.Struct("<QHHI")
BRANCH, LEAF, META = 1, 2, 4
INLINE = SIZE // 4  # a bucket up to this size, without buckets in it, stands in its value


def checksum(data):
    total = 0xCBF29CE484222325
    for byte in data:
        total = ((total ^ byte) * 0x100000001B3) & 0xFFFFFFFFFFFFFFFF
    return total


def meta_page(number, root, pages, transaction, size=SIZE, form=2):
    body = struct.pack("<IIII6Q", 0xED0CDAED, form, size, 0, root, 0, 2, pages, transaction, 0)[:56]
    return (HEAD.pack(number, META, 0, 0) + body + struct.pack("<Q", checksum(body))).ljust(size, b"\0")


def page(number, flags, elements, body):
    """A page of elements, each a struct without its offset into the body."""
    data = HEAD.pack(number, flags, len(elements), 0) + b"".join(elements) + body
    more = (len(data) - 1) // SIZE
    data = HEAD.pack(number, flags, len(elements), more) + data[HEAD.size:]
    return data.ljust((more + 1) * SIZE, b"\0")


def leaf(number, items):
    """A leaf page of (flags, key, value)."""
    elements, body, at = [], [], 16 * len(items)
    for place, (flags, key, value) in enumerate(items):
        elements.append(struct.pack("<IIII", flags, at - 16 * place, len(key), len(value)))
        body += [key, value]
        at += len(key) + len(value)
    return page(number, LEAF, elements, b"".join(body))


class Pages:
    """The pages of one transaction, at numbers that `take` gives for so many pages."""

    def __init__(self, take):
        self.take, self.written = take, {}

    def put(self, make, bytes_needed):
        number = self.take((bytes_needed - 1) // SIZE + 1)
        self.written[number] = make(number)
        return number

    def bucket(self, tree):
        """The root page of a bucket."""
        items = [self.item(key, tree[key]) for key in sorted(tree)]
        groups, size = [[]], 0
        for item in items:
            if groups[-1] and size + 16 + len(item[1]) + len(item[2]) > SIZE - HEAD.size:
                groups.append([])
                size = 0
            groups[-1].append(item)
            size += 16 + len(item[1]) + len(item[2])
        level = [(group[0][1] if group else b"", self.put(lambda number, group=group: leaf(number, group), self.needed(group))) for group in groups]
        while len(level) > 1:
            level = [self.branch(level[at:at + 100]) for at in range(0, len(level), 100)]
        return level[0][1]

    def needed(self, group):
        return HEAD.size + sum(16 + len(key) + len(value) for _, key, value in group)

    def branch(self, below):
        elements, body, at = [], [], 16 * len(below)
        for place, (key, number) in enumerate(below):
            elements.append(struct.pack("<IIQ", at - 16 * place, len(key), number))
            body.append(key)
            at += len(key)
        return below[0][0], self.put(lambda number: page(number, BRANCH, elements, b"".join(body)), HEAD.size + at)

    def item(self, key, value):
        """An element: a value, or a bucket by its root page or whole."""
        if not isinstance(value, dict):
            return 0, key, value
        if all(not isinstance(found, dict) for found in value.values()):
            group = [(0, inner, value[inner]) for inner in sorted(value)]
            if self.needed(group) <= INLINE:
                return 1, key, struct.pack("<QQ", 0, 0) + leaf(0, group)[:self.needed(group)]
        return 1, key, struct.pack("<QQ", self.bucket(value), 0)


def write(path, tree, free=0):
    """A file whose newest state is the tree, with so many free pages before it."""
    last = [3 + free]

    def take(count):
        last[0] += count
        return last[0] - count

    pages = Pages(take)
    root = pages.bucket(tree)
    with open(path, "wb") as file:
        file.write(meta_page(0, root, last[0], 2) + meta_page(1, root, last[0], 1) + page(2, 16, [], b"") + bytes(SIZE * free))
        for number in sorted(pages.written):
            file.write(pages.written[number])


class Writer:
    """A file that changes all the time: each transaction writes the whole tree on the pages of the state before the newest."""

    def __init__(self, path, tree, room):
        self.room, self.transaction = room, 0
        self.handle = os.open(path, os.O_RDWR | os.O_CREAT)
        self.commit(tree)
        self.commit(tree)

    def commit(self, tree):
        self.transaction += 1
        last = [3 + self.room * (self.transaction % 2)]
        end = last[0] + self.room

        def take(count):
            last[0] += count
            assert last[0] <= end
            return last[0] - count

        pages = Pages(take)
        root = pages.bucket(tree)
        for number, data in pages.written.items():
            os.pwrite(self.handle, data, number * SIZE)
        os.ftruncate(self.handle, (3 + 2 * self.room) * SIZE)
        meta = self.transaction % 2
        os.pwrite(self.handle, meta_page(meta, root, 3 + 2 * self.room, self.transaction), meta * SIZE)
