"""Talks with metad over its socket: a request, its reply, the next. python3 socket_client.py PATH"""
import json
import socket
import sys


class Metad:
    def __init__(self, path):
        self.socket = socket.socket(socket.AF_UNIX)
        self.socket.connect(path)
        self.replies = self.socket.makefile("rb")

    def ask(self, op, **members):
        self.socket.sendall(json.dumps({"op": op, **members}).encode() + b"\n")
        reply = self.replies.readline()
        # a reply without its line feed is none: the connection was cut off
        return json.loads(reply) if reply.endswith(b"\n") else sys.exit("metad has ended")


layer, stray = "sha256:" + 64 * "1", "sha256:" + 64 * "2"
metad = Metad(sys.argv[1])
metad.ask("ns.add", ns="default")
for digest in layer, stray:
    metad.ask("content.add", ns="default", digest=digest)
metad.ask("image.add", ns="default", name="app", target=layer)
print("image tool:", metad.ask("image.get", ns="default", name="tool")["name"])
for op in "gc.plan", "gc.run":
    report = metad.ask(op, at="2024-03-01T00:00:00Z")["report"]
    print(op, json.dumps(report["backend"]["blobs"]))
print("content left:", json.dumps(metad.ask("content.list", ns="default")["names"]))
