"""Each refusal of examples/ is explained with its line and member: refused.expected has them all. So is each fault that no example has."""
import glob
import os

import stores

# lines that are no requests, or that break a rule, with what is said of them; the replies are metad's
MORE = [
    (b'{"op":"ns.add","ns":"\xff"}', 5, 'line 1: not UTF-8, from byte 22 on'),
    (b'{"op":"ns.list"' + b" " * 70000 + b"}", 6, "line 1: more than 65,536 bytes"),
    (b"[" * 200, 5, "line 1: nested over 127 deep"),
    (b'{"op":"profile","v":1e999}', 5, "line 1: not JSON: a number out of range"),
    (b'{"op":"profile","v":NaN}', 5, "line 1: not JSON: NaN"),
    (b'{"op":"ns.add","ns":"\\ud800"}', 5, "line 1: not JSON: half of a surrogate pair"),
    (b'{"op":"profile","v":2.0}', 5, "line 1: profile: v: not a whole number from 0 to 2^64 - 1"),
    (b'{"ns":"x"}', 5, "line 1: op: missing"),
    (b'{"op":7}', 5, "line 1: op: not a text"),
    (b'\n\n{"op":"content.add","ns":"x","digest":"sha512:00","lease":""}', 1,
     "line 3: content.add: digest: not sha512: with 128 lower-case digits; lease: not 1 to 1,024 bytes without control characters"),
    (b'{"op":"image.add","ns":"x","name":"i","target":"sha256:00","labels":{"k":"' + b"v" * 4096 + b'"}}', 1,
     "line 1: image.add: target: not sha256: with 64 lower-case digits; labels: the key \"k\" is over 4,096 bytes with its value"),
    (b'{"op":"image.label","ns":"x","name":"i","key":"k","value":"v"}', 1, "line 1: image.label: key: new, and the row has 256 labels"),
    (b'{"op":"gc.run","at":"2024-03-01T00:00:00Z"}', 8, "line 1: gc.run: a thread couldn't be started"),
    (b'{"op":"snap.view","ns":"x","snapshotter":"s","key":"k"}', 4, "line 1: snap.view: key: no number is left for it"),
    (b'{"op":"ns.list"}', 7, "line 1: ns.list: memory was refused"),
    (b'{"op":"lease.add","ns":"x","id":"l","data":"' + b'\\n' * 24577 + b'"}', 1, "line 1: lease.add: data: over 49,152 bytes as a reply writes it"),
    (b'{"op":"image.get","ns":"x","name":"i","answer":"rows"}', 1, "line 1: image.get: answer: not row"),
    (b'{"op":"image.list","ns":"x","answer":"row"}', 1, "line 1: image.list: answer: not rows"),
    (b'{"op":"content.remove","ns":"x","digest":"sha512:00","drop":""}', 1,
     "line 1: content.remove: digest: not sha512: with 128 lower-case digits; drop: not 1 to 1,024 bytes without control characters"),
    (b'{"op":"snap.view","ns":"x","snapshotter":"s","key":"k","there":"take"}', 1,
     "line 1: snap.view: there: not hold; lease: missing beside there"),
    (b'{"op":"image.set","ns":"x","name":"i","put":{"":"v"}}', 1, "line 1: image.set: put: a key is empty"),
    (b'{"op":"image.set","ns":"x","name":"i","put":[]}', 5, "line 1: image.set: put: not an object of texts"),
    (b'{"op":"image.set","ns":"x","name":"i","put":{"k":"v"}}', 1, "line 1: image.set: put: the row would have over 256 labels"),
    (b'{"op":"ingest.open","ns":"x","ref":"r","at":"2024-03-01T00:00:00Z"}', 4, "line 1: ingest.open: ref: no number is left for it"),
]
NAMES = {1: "InvalidArgument", 4: "FailedPrecondition", 5: "BadLine", 6: "TooLong", 7: "OutOfMemory", 8: "NoWorker"}


def run(work):
    with open(os.path.join(stores.HERE, "refused.expected"), encoding="utf-8") as file:
        expected = file.read()
    told, count = explained()
    assert told == expected, "other explanations than in refused.expected"
    script = os.path.join(work, "refused.script")
    for line, fault, why in MORE:
        stores.put(script, line + b"\n")
        found = stores.host("refused", script, input=b'{"fault":%d,"name":"%s"}\n' % (fault, NAMES[fault].encode()))
        assert (found.returncode, found.stdout.decode()) == (0, why + "\n"), "%s: %s%s" % (line[:80], found.stdout.decode(), found.stderr.decode())
    for replies in (b"", b'{"ok":true}\n{"ok":true}\n', b"no\n", b"[]\n"):
        found = stores.host("refused", script, input=replies)
        assert (found.returncode, found.stdout, found.stderr.count(b"\n")) == (1, b"", 1), replies
    return "%d refusals of the examples and %d more explained" % (count, len(MORE))


def explained():
    """What is said of each script of examples/, as the text of refused.expected; and how many refusals these are."""
    told, count = [], 0
    for script in sorted(glob.glob(os.path.join(stores.TOP, "examples", "*.script"))):
        with open(script[:-len("script")] + "expected", "rb") as file:
            replies = file.read()
        found = stores.host("refused", script, input=replies)
        assert found.returncode == 0, found.stderr.decode()
        lines = found.stdout.decode().splitlines()
        assert len(lines) == replies.count(b'"fault":'), "%s: %d refusals, %d explained" % (script, replies.count(b'"fault":'), len(lines))
        assert not any("isn't known here" in line for line in lines), script
        count += len(lines)
        told += ["%s: %s\n" % (os.path.basename(script)[:-len(".script")], line) for line in lines]
    return "".join(told), count


if __name__ == "__main__":
    with open(os.path.join(stores.HERE, "refused.expected"), "w", encoding="utf-8") as out:
        out.write(explained()[0])
