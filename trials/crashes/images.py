"""What a recorded run asked of a store's files, and what a crash at any moment of it may leave."""
import os
import struct
from collections import namedtuple

HEAD = struct.Struct("<qqqqq")
NAMES = ("metad.journal", "metad.journal-wal")

Call = namedtuple("Call", "kind file at count result bytes")

# which parts of what wasn't synced are on the disk: nothing, all, a front of the calls and a part
# of the next one, any calls, or of each call any sectors, pages, pieces, words or bytes
WAYS = ("nothing", "all", "front", "calls", "sectors", "pages", "pieces", "words", "bytes")
PARTS = {"sectors": (512,), "pages": (4096,), "pieces": (16, 64, 256), "words": (8,), "bytes": (1,)}


def calls_of(path):
    """The calls of a recorded run, in order, each file by its name."""
    with open(path, "rb") as file:
        text = file.read()
    at, names, found = 0, {}, []
    while at + HEAD.size <= len(text):
        number, file, place, count, result = HEAD.unpack_from(text, at)
        at += HEAD.size
        kind = chr(number)
        length = {"o": count, "O": count, "r": count}.get(kind, max(result, 0) if kind in "wI" else 0)
        data = text[at : at + length]
        at += length
        if kind == "o":
            names[file] = os.path.basename(data.decode())
        found.append(Call(kind, names.get(file), place, count, result, data))
    return found


def put(text, at, data):
    """A file's bytes with others at a place, zeros before it where the file was shorter."""
    if len(text) < at:
        text = text + bytes(at - len(text))
    return text[:at] + data + text[at + len(data) :]


def cut(text, size):
    """A file's bytes, cut or grown by zeros to a size."""
    return text[:size] + bytes(max(0, size - len(text)))


class Disk:
    """The files of a store as they are synced, and what was asked of them since."""

    def __init__(self, files, names=NAMES):
        self.names = names
        self.synced = dict(files)
        self.waiting = {name: [] for name in names}
        self.replies = 0

    def takes(self, call):
        """One call more."""
        if call.kind == "O":
            self.replies += call.bytes.count(b"\n")
        elif call.kind == "o":
            self.waiting[call.file].append(("made", 0, b""))
        elif call.kind == "w" and call.result > 0:
            self.waiting[call.file].append(("put", call.at, call.bytes))
        elif call.kind == "t" and call.result == 0:
            self.waiting[call.file].append(("cut", call.at, b""))
        elif call.kind == "s" and call.result == 0:
            text = self.left(call.file, self.waiting[call.file])
            if text is not None:
                self.synced[call.file] = text
            self.waiting[call.file] = []

    def left(self, name, steps):
        """A file's bytes after these steps; none where it isn't there."""
        text = self.synced.get(name)
        for what, at, data in steps:
            text = text or b""
            if what == "put":
                text = put(text, at, data)
            elif what == "cut":
                text = cut(text, at)
        return text

    def crash(self, chance, way):
        """The files that a crash leaves now, in one way."""
        return {
            name: text
            for name in self.names
            for text in [self.left(name, parts(self.waiting[name], chance, way))]
            if text is not None
        }


def parts(steps, chance, way):
    """Those steps, or parts of them, that are on the disk."""
    if way == "nothing":
        return []
    if way == "all":
        return steps
    if way == "front":
        count = chance.randint(0, len(steps))
        torn = steps[count : count + 1]
        return steps[:count] + [(what, at, data[: chance.randint(0, len(data))])
                                for what, at, data in torn if what == "put"]
    if way == "calls":
        return [step for step in steps if chance.random() < 0.5]
    size, found = chance.choice(PARTS[way]), []
    for what, at, data in steps:
        if what != "put":
            found += [(what, at, data)] * (chance.random() < 0.5)
            continue
        # parts lie where the disk has them, so the first one may be shorter
        places = [0] + list(range(size - at % size, len(data), size)) + [len(data)]
        if len(places) > 2000:
            places = [0] + sorted(chance.sample(range(1, len(data)), 2000)) + [len(data)]
        for begin, end in zip(places, places[1:]):
            if begin < end and chance.random() < 0.5:
                found.append((what, at + begin, data[begin:end]))
    return found


def write_files(folder, files):
    """Makes a folder that has these files."""
    os.makedirs(folder, exist_ok=True)
    for name, text in files.items():
        with open(os.path.join(folder, name), "wb") as file:
            file.write(text)


def files_of(folder):
    """The files of a store in a folder."""
    found = {}
    for name in NAMES:
        path = os.path.join(folder, name)
        if os.path.exists(path):
            with open(path, "rb") as file:
                found[name] = file.read()
    return found
