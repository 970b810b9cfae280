"""A file that memory doesn't hold twice: it is read page by page with a remark, or refused."""
from __future__ import annotations

import os
import subprocess
import sys

import bolt_file
import changing
import stores

ROWS = 5000
# a process that has so many bytes of addresses reads the file: what it says of it
READER = """
import resource, sys
sys.dont_write_bytecode = True
sys.path.insert(0, sys.argv[1])
from metad_host import pages
from metad_host.faults import BadInput
from metad_host.remarks import Remarks
with open("/proc/self/statm") as file:
    limit = int(file.read().split()[0]) * resource.getpagesize() + int(sys.argv[3])
resource.setrlimit(resource.RLIMIT_AS, (limit, limit))
remarks = Remarks()
try:
    print(len(pages.read(sys.argv[2], remarks)[b"rows"]), len(remarks.kinds))
except BadInput as bad:
    print(bad)
"""


def by_page(path):
    """The same tree and the same copy where the machine says that it has no memory."""
    from metad_host import pages
    from metad_host.remarks import Remarks
    told, remarks, left = pages.read(path), Remarks(), pages.memory_left
    pages.memory_left = lambda: 2 * os.stat(path).st_size - 1
    try:
        assert pages.read(path, remarks) == told
        with open(path + ".copy", "wb") as into:
            pages.copy_whole(path, into)
    finally:
        pages.memory_left = left
    assert pages.read(path + ".copy") == told
    expected = "files that memory doesn't hold twice, read page by page: 1, such as " + path
    assert remarks.texts() == [expected] and not remarks.may_change_plan(), remarks.texts()


def limited(path):
    """What processes say that have less and less memory: the tree, by pages, or that it lacks."""
    said = []
    for part in (40, 24, 18, 14, 10, 6, 2):
        words = [sys.executable, "-c", READER, os.path.join(stores.TOP, "tools"), path]
        size = os.stat(path).st_size * part // 10
        found = subprocess.run(words + [str(size)], stdout=subprocess.PIPE, stderr=subprocess.PIPE)
        assert found.returncode == 0, "%d tenths: %s" % (part, found.stderr.decode())
        said.append(found.stdout.decode().strip())
    whole, paged, short = "%d 0" % ROWS, "%d 1" % ROWS, "its tree is too large for memory"
    assert set(said) == {whole, paged, short}, said
    order = [(whole, paged, short).index(text) for text in said]
    assert order == sorted(order), said
    return len(said)


def run(work):
    path = os.path.join(work, "memory.db")
    bolt_file.write(path, changing.tree(7))
    by_page(path)
    changing.large(path + ".large", ROWS)
    return "a file read and copied page by page, and by %d processes with less and less memory" % (
        limited(path + ".large"))
