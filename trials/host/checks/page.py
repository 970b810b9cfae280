"""docs/HOST.md shows what its commands print: each block that begins with `$ ` is run, in a folder that has the repository's files."""
import os
import re
import subprocess

import stores


def blocks():
    """Each command of the page with the output that stands below it."""
    with open(os.path.join(stores.TOP, "docs", "HOST.md"), encoding="utf-8") as file:
        text = file.read()
    for block in re.findall(r"```\n(\$ .*?)```", text, re.DOTALL):
        for part in re.split(r"^\$ ", block, flags=re.MULTILINE)[1:]:
            command, _, output = part.partition("\n")
            yield command, output


def run(work):
    folder = os.path.join(work, "page")
    os.makedirs(folder)
    for name in ("crates", "crates.txt", "examples", "metad", "tools", "trials"):
        os.symlink(os.path.join(stores.TOP, name), os.path.join(folder, name))
    count = 0
    for command, output in blocks():
        found = subprocess.run(["sh", "-c", command], cwd=folder, stdout=subprocess.PIPE, stderr=subprocess.STDOUT).stdout.decode()
        found = stores.without_progress(found)
        assert found == output, "`%s` prints\n%s" % (command, found)
        count += 1
    assert count > 0
    return "%d commands of docs/HOST.md print what it shows" % count
