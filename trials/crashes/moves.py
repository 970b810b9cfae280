"""Crashes of what moves a store: of `load`, which leaves no store or all of it; and of `backup`, which
leaves no file of its name, or the whole one."""
import os

from images import Disk, calls_of, write_files
from stores import (
    KEPT, Model, Told, check, check_backup, line_of, load, run, script_of, serve,
)

wants = Told.wants

FILE = "store.backup"
PART = FILE + ".part"
# what a call may do, by the kind of call
FAILURES = {
    "w": ("eio", "full", "short", "before", "half", "after"),
    "s": ("eio", "full", "lost", "before", "after"),
    "t": ("eio", "full"),
    "r": ("eio", "before"),
    "o": ("eio",),
    "O": ("eio", "short"),
}
KILLED = -9


class Moved:
    """A store that is moved, and the recorded run that moves it."""

    def __init__(self, top, name, lines, questions):
        self.name, self.questions = name, questions
        self.top = os.path.join(top, name)
        self.store = os.path.join(self.top, "store")
        os.makedirs(self.store)
        half = len(lines) // 2
        model = Model()
        for part, words in ((lines[:half], ()), (lines[half:], ("--checkpoint",))):
            done = serve(self.store, b"".join(part), *words)
            wants("a store", done.status == 0 and done.out == model.answers_of(part), name)
        self.all = model.answers_of(questions)

    def recorded(self, recorder):
        """The calls of a whole run."""
        record, folder = os.path.join(self.top, "calls"), os.path.join(self.top, "recorded")
        os.mkdir(folder)
        done = self.moves(folder, {"LD_PRELOAD": recorder, "RECORD": record})
        wants("a whole run", done.status == 0, self.name, done)
        self.recorder, self.calls = recorder, calls_of(record)
        wants("its calls are seen", any(it.kind == "s" for it in self.calls), self.name)
        return self

    def run_counted(self, folder, kind, counter):
        """A whole run, whose calls of a kind are counted."""
        os.mkdir(folder)
        self.moves(folder, self.failing(kind, "eio", 0, COUNT=counter))

    def failing(self, kind, how, at, **more):
        return {"LD_PRELOAD": self.recorder, "FAIL_ON": kind, "FAIL_HOW": how,
                "FAIL_AT": str(at), **more}

    def fails_once(self, folder, kind, how, at):
        """A run in which one call fails in one way, and what is found then."""
        os.makedirs(folder)
        done = self.moves(folder, self.failing(kind, how, at))
        wants("a failed call ends a run, or is made good", done.status in (0, 1, KILLED), self.name,
              kind, how, at, done)
        self.judge(folder, done.status == 0, kind, how, at)

    def image(self, folder, chance, way, *more):
        """The files that a crash at any call leaves, and what is made of them."""
        disk = self.disk()
        for call in self.calls[: chance.randint(0, len(self.calls))]:
            disk.takes(call)
        write_files(folder, disk.crash(chance, way))
        self.judge(folder, disk.replies > 0, way, *more)


class Load(Moved):
    """A store that is loaded from its lines."""

    def __init__(self, top, lines, questions):
        super().__init__(top, "load", lines, questions)
        text, status = script_of(self.store)
        wants("its lines", status == 0 and b"number 1\n" in text)
        self.text = b"".join(text)

    def moves(self, folder, env):
        return load(folder, self.text, env={**os.environ, **env})

    def disk(self):
        return Disk({})

    def judge(self, folder, is_done, *more):
        """No start serves a part. Where no store is, another load makes all of it."""
        done = run([KEPT, "serve", "--dir", folder], b"".join(self.questions))
        if done.status == 0:
            wants("a start has all of it", done.out == self.all, self.name, *more, done.told)
            return
        wants("a load that has ended left a store", not is_done, self.name, *more, done)
        wants("no start serves a part", done.status == 3 and done.out == b"", *more, done)
        wants("nor does a check", check(folder).status == 3, *more)
        wants("nor a script", script_of(folder) == ([], 3), *more)
        again = load(folder, self.text)
        if again.status != 0:
            wants("what it left is told", again.status == 3, *more, again)
            for name in os.listdir(folder):
                os.remove(os.path.join(folder, name))
            again = load(folder, self.text)
        out = serve(folder, b"".join(self.questions)).out
        wants("another load makes all of it", again.status == 0 and out == self.all, *more, again)


class NamedDisk(Disk):
    """The file of a backup, whose name is there for sure once its folder is synced."""

    def __init__(self):
        super().__init__({}, (PART, FILE))
        self.renamed = self.is_named = False

    def takes(self, call):
        if call.kind == "r":
            self.renamed = self.renamed or call.result == 0
        elif call.kind == "d":
            self.is_named = self.renamed
        elif call.kind == "o":
            # it is opened to be written, and later to be read
            if call.file == PART and PART not in self.synced and not self.waiting[PART]:
                super().takes(call)
        else:
            super().takes(call)

    def crash(self, chance, way):
        files = super().crash(chance, way)
        if self.is_named or self.renamed and chance.random() < 0.5:
            files[FILE] = files.pop(PART)
        return files


class Backup(Moved):
    """A store of which a backup is written."""

    def __init__(self, top, lines, questions):
        super().__init__(top, "backup", lines, questions)
        whole = os.path.join(self.top, FILE)
        wants("a backup", run([KEPT, "backup", "--dir", self.store, whole]).status == 0)
        with open(whole, "rb") as file:
            self.text = file.read()

    def moves(self, folder, env):
        words = [KEPT, "backup", "--dir", self.store, os.path.join(folder, FILE)]
        return run(words, env={**os.environ, **env})

    def disk(self):
        return NamedDisk()

    def judge(self, folder, is_done, *more):
        """What has the name is whole. Where nothing has it, another backup takes it."""
        path = os.path.join(folder, FILE)
        if not os.path.exists(path):
            wants("a backup that has ended is there", not is_done, self.name, *more)
            done = run([KEPT, "backup", "--dir", self.store, path])
            wants("another one is written", done.status == 0, self.name, *more, done)
            wants("nothing is beside it", os.listdir(folder) == [FILE], self.name, *more)
        with open(path, "rb") as file:
            wants("it is whole", file.read() == self.text, self.name, *more)
        wants("a check says so", check_backup(path).status == 0, self.name, *more)


def lines_of(chance, mixed):
    """Lines of a store that has objects, of which some are removed."""
    lines = [line_of(op="ns.add", ns="x")]
    lines += [line_of(op="snap.prepare", ns="x", snapshotter="s", key="n%d" % it) for it in range(4)]
    lines += [line_of(op="snap.remove", ns="x", snapshotter="s", key="n1")]
    return lines + mixed(chance, 60)
