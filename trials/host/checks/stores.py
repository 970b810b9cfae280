"""The stores of ../data: each is a daemon's files with facts, what containerd 1.6.20 removed of it; and its script and report.

    stores.py FOLDER         writes each store's script there, with the replies that its report expects beside it
    stores.py NAME METAD     writes NAME.script and NAME.report anew
"""
import contextlib
import gzip
import hashlib
import io
import json
import os
import re
import subprocess
import sys
import tempfile

HERE = os.path.dirname(os.path.abspath(__file__))
TOP = os.path.dirname(os.path.dirname(os.path.dirname(HERE)))
DATA = os.path.join(os.path.dirname(HERE), "data")
HOST = os.path.join(TOP, "tools", "host")  # for a release a link to the tool
TOOL = os.path.join(TOP, "tools", "metad-host")
NAMES = ("a_daemon", "without_an_image", "without_a_container", "without_a_lease", "everything_odd",
         "containerd_2", "containerd_2_without_a_lease")
LATER = ("--containerd", "2.2")  # whose back references the stores of version 4 have; no daemon of it was tried


def path(name, kind):
    return os.path.join(DATA, "%s.%s" % (name, kind))


def read(name, kind):
    with open(path(name, kind), "rb") as file:
        return file.read()


def put(file, data):
    """Writes a file, and the folders above it."""
    os.makedirs(os.path.dirname(file), exist_ok=True)
    with open(file, "wb") as out:
        out.write(data)


def make_root(name, root):
    """The daemon's folder of a store: meta.db, the snapshotters' files, and blobs and ingests of their sizes without their bytes."""
    put(os.path.join(root, "io.containerd.metadata.v1.bolt", "meta.db"), gzip.decompress(read(name, "db.gz")))
    for snapshotter in ("native", "overlayfs"):
        if os.path.exists(path(name, snapshotter + ".gz")):
            put(os.path.join(root, "io.containerd.snapshotter.v1." + snapshotter, "metadata.db"), gzip.decompress(read(name, snapshotter + ".gz")))
    content = os.path.join(root, "io.containerd.content.v1.content")
    for line in read(name, "stored").decode().splitlines():
        kind, size, what = line.split()
        if kind == "blob":
            file = os.path.join(content, "blobs", *what.split(":"))
        else:
            folder = os.path.join(content, "ingest", hashlib.sha256(what.encode()).hexdigest())
            put(os.path.join(folder, "ref"), bytes.fromhex(what))
            file = os.path.join(folder, "data")
        put(file, b"")
        os.truncate(file, int(size))


def host(*words, **more):
    """A run of tools/host."""
    return called(HOST, words, more)


def tool(*words, **more):
    """A run of tools/metad-host."""
    return called(TOOL, words, more)


def called(tool, words, more):
    """A run of the tool, without the lines that tell what it does where it takes over a second."""
    found = subprocess.run([tool] + list(words), stdout=subprocess.PIPE, stderr=subprocess.PIPE, **more)
    found.stderr = without_progress(found.stderr.decode()).encode()
    return found


def without_progress(text):
    """A text without the lines that tell what the tool does, and for how long."""
    return re.sub(r"^[a-z-]+: .* \(\d+ s\)\n", "", text, flags=re.MULTILINE)


class Output(io.StringIO):
    """Standard output of an export in this process."""

    def __init__(self):
        super().__init__()
        self.buffer = io.BytesIO()


def exported(*words):
    """The status, the output and the remarks of an export in this process: a run of its own takes as long to start as many small exports."""
    from metad_host import words as command
    out, told = Output(), io.StringIO()
    with contextlib.redirect_stdout(out), contextlib.redirect_stderr(told):
        status = command.main(["export"] + list(words))
    return status, out.buffer.getvalue(), told.getvalue()


def facts(name):
    """What containerd removed of a store of ../data."""
    return facts_of(read(name, "facts"))


def facts_of(data):
    """Facts with the texts of rows and objects as export writes them in its sizes."""
    found = json.loads(data.decode())
    found["removed"] = {kind: [[text(part) for part in row] for row in rows] for kind, rows in found["removed"].items()}
    found["backend"]["ingests"] = [text(ref) for ref in found["backend"]["ingests"]]
    found["backend"]["snapshots"] = [[snapshotter, text(key)] for snapshotter, key in found["backend"]["snapshots"]]
    return found


def text(digits):
    return bytes.fromhex(digits).decode("utf-8", "backslashreplace")


def export(name, root, sizes):
    """The export of a store's folder at the moment of its facts."""
    return host("export", "--at", facts(name)["at"], *version_of(name), "--sizes", sizes, root)


def version_of(name):
    """The words that name the version of a store's daemon."""
    return LATER if name.startswith("containerd_2") else ()


def asked(name, script, sizes=None):
    """The script of a store of ../data, with the removal where there was one.

    Without its sizes, with the lines of the removal that stand beside it.
    """
    if sizes is None and os.path.exists(path(name, "removal")):
        return script + read(name, "removal")
    return asked_of(script, facts(name)["without"], sizes or {"held": []})


def asked_of(script, gone, sizes):
    """The script, and where a row was removed by hand, that removal and one more plan.

    With a lease go the later ends of the images that it holds.
    """
    if not gone:
        return script
    kind, ns, row = gone
    lines = [{"op": kind + ".remove", "ns": ns, "id" if kind == "lease" else "name": row}]
    for space, lease, image, without, _ in sizes["held"] if kind == "lease" else ():
        if (space, lease) == (ns, row):
            lines.append({"op": "image.label", "ns": ns, "name": image, "key": "containerd.io/gc.expire", "value": without})
    plan = script.rstrip(b"\n").split(b"\n")[-1]
    return script + b"".join(json.dumps(line).encode() + b"\n" for line in lines) + plan + b"\n"


def expected(name, script):
    """All replies to what is asked: done, and the reports at the places of the plans."""
    reports = read(name, "report").splitlines(keepends=True)
    replies = [b'{"ok":true}\n'] * (len(asked(name, script).splitlines()) - len(reports))
    replies.insert(len(script.splitlines()) - 1, reports[0])
    return b"".join(replies + reports[1:])


def write_cases(folder):
    """Each store's script with its expected replies, as files of a folder."""
    for name in NAMES:
        put(os.path.join(folder, name), asked(name, read(name, "script")))
        put(os.path.join(folder, name + ".stdout"), expected(name, read(name, "script")))


def write_anew(name, metad):
    """A store's script as export writes it now, and its reports as the program writes them now."""
    with tempfile.TemporaryDirectory() as work:
        make_root(name, os.path.join(work, "root"))
        found = export(name, os.path.join(work, "root"), os.path.join(work, "sizes"))
        with open(os.path.join(work, "sizes")) as file:
            sizes = json.load(file)
    put(path(name, "script"), found.stdout)
    requests = asked(name, found.stdout, sizes)
    if sizes["held"] and requests != found.stdout:
        put(path(name, "removal"), requests[len(found.stdout):])
    answered = subprocess.run([metad, "run"], input=requests, stdout=subprocess.PIPE).stdout
    replies = answered.splitlines(keepends=True)
    put(path(name, "report"), b"".join(line for line in replies if b'"report"' in line))
    sys.stderr.write("%s: status %d, %d lines\n" % (name, found.returncode, len(found.stdout.splitlines())))


if __name__ == "__main__":
    if len(sys.argv) == 2:
        write_cases(sys.argv[1])
    else:
        write_anew(sys.argv[1], sys.argv[2])
