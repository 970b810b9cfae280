"""Each planted fault of the tool is refused by its tests: ../planted."""
import os
import subprocess
import sys

import stores

RUN = os.path.join(os.path.dirname(stores.HERE), "planted", "run")


def run(work):
    found = subprocess.run([sys.executable, RUN], stdout=subprocess.PIPE, stderr=subprocess.STDOUT)
    lines = found.stdout.decode().splitlines()
    assert found.returncode == 0 and lines, found.stdout.decode()
    return lines[-1].partition(": ")[2]
