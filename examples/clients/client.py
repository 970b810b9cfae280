"""Talks with metad line by line: a request, its reply, the next request. python3 client.py ./metad"""
import json
import subprocess
import sys


class Metad:
    def __init__(self, program):
        pipes = {"stdin": subprocess.PIPE, "stdout": subprocess.PIPE}
        self.process = subprocess.Popen([program, "run"], **pipes)

    def ask(self, op, **members):
        self.process.stdin.write(json.dumps({"op": op, **members}).encode() + b"\n")
        self.process.stdin.flush()
        reply = self.process.stdout.readline()
        return json.loads(reply) if reply else sys.exit("metad has ended")


layer, stray = "sha256:" + 64 * "1", "sha256:" + 64 * "2"
metad = Metad(sys.argv[1])
metad.ask("ns.add", ns="default")
for digest in layer, stray:
    metad.ask("content.add", ns="default", digest=digest)
metad.ask("image.add", ns="default", name="app", target=layer)
print("image tool:", metad.ask("image.get", ns="default", name="tool")["name"])
for op in "gc.plan", "gc.run":
    report = metad.ask(op, at="2024-03-01T00:00:00Z")["report"]
    print(op, json.dumps(report["backend"]["blobs"]))
print("content left:", json.dumps(metad.ask("content.list", ns="default")["names"]))
metad.process.stdin.close()
sys.exit(metad.process.wait())
