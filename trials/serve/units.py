"""The front's own tests, beside its sources, and what Go's tools say of these."""
import os
import shutil
import subprocess

from fronts import TOP, Told

GO = os.path.join(TOP, "go")
FOLDERS = ["./cmd/metad-serve", "./internal/knows", "./internal/serve"]
wants = Told.wants


def run():
    """Tests, gofmt and go vet."""
    if shutil.which("go") is None:
        print("serve: units are left out: Go isn't there")
        return
    env = {**os.environ, "GO111MODULE": "on", "GOPROXY": "off", "CGO_ENABLED": "0"}
    for words in (["gofmt", "-l", *FOLDERS], ["go", "vet", *FOLDERS], ["go", "test", *FOLDERS]):
        done = subprocess.run(words, cwd=GO, env=env, capture_output=True, text=True)
        said = done.stdout + done.stderr
        wants(" ".join(words), done.returncode == 0, said)
        wants("gofmt has nothing to say", words[0] != "gofmt" or not said, said)
