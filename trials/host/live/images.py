#!/usr/bin/env python3
"""images.py OUT APP MB: archives for `ctr images import`, OUT/NAME.tar for each of 13 images: layers of random bytes over shared bases of MB megabytes, with the program APP as /bin/app.

Prints a line an image: its file, name, config and manifest.
"""
import gzip
import hashlib
import io
import json
import os
import random
import sys
import tarfile

OCI = "application/vnd.oci.image."


def digest(data):
    return "sha256:" + hashlib.sha256(data).hexdigest()


def packed(members):
    """An archive of (name, data)."""
    out = io.BytesIO()
    with tarfile.open(fileobj=out, mode="w") as tar:
        for name, data in members:
            about = tarfile.TarInfo(name)
            about.size, about.mode = len(data), 0o755
            tar.addfile(about, io.BytesIO(data))
    return out.getvalue()


def layer(rng, name, megabytes, app=None):
    """A layer as it is stored, and the digest of what is in it."""
    members = [("opt/%s/%d" % (name, place), rng.getrandbits(megabytes << 21).to_bytes(megabytes << 18, "big")) for place in range(4)]
    raw = packed(members + ([("bin/app", app)] if app else []))
    return gzip.compress(raw, 1, mtime=0), digest(raw)


def write(out, name, layers):
    """Writes an image's archive, and prints its line."""
    config = json.dumps({"architecture": "amd64", "os": "linux", "config": {}, "rootfs": {"type": "layers", "diff_ids": [inner for _, inner in layers]}}).encode()
    parts = [{"mediaType": OCI + "layer.v1.tar+gzip", "digest": digest(data), "size": len(data)} for data, _ in layers]
    manifest = json.dumps({"schemaVersion": 2, "mediaType": OCI + "manifest.v1+json", "layers": parts,
                           "config": {"mediaType": OCI + "config.v1+json", "digest": digest(config), "size": len(config)}}).encode()
    index = json.dumps({"schemaVersion": 2, "manifests": [{"mediaType": OCI + "manifest.v1+json", "digest": digest(manifest), "size": len(manifest),
                                                           "annotations": {"io.containerd.image.name": name}}]}).encode()
    blobs = [("blobs/sha256/" + digest(data)[7:], data) for data in [config, manifest] + [data for data, _ in layers]]
    path = os.path.join(out, name.split("/")[-1].replace(":", "_") + ".tar")
    with open(path, "wb") as file:
        file.write(packed([("oci-layout", b'{"imageLayoutVersion":"1.0.0"}'), ("index.json", index)] + blobs))
    print(path, name, digest(config), digest(manifest), flush=True)


def main(out, program, megabytes):
    os.makedirs(out, exist_ok=True)
    rng = random.Random(7)
    with open(program, "rb") as file:
        app = file.read()
    bases = [layer(rng, "base%d" % place, megabytes) for place in range(3)]
    below = [(base, layer(rng, "runtime%d" % place, max(megabytes // 2, 1))) for place, base in enumerate(bases + bases[:1])]
    for place in range(12):
        top = layer(rng, "app%d" % place, max(megabytes // 4, 1) * (1 + place % 3), app)
        write(out, "registry.example/team%d/app-%02d:v%d" % (place % 3, place, place % 2 + 1), list(below[place % 4]) + [top])
    write(out, "registry.k8s.io/pause:3.9", [layer(rng, "pause", 1, app)])


if __name__ == "__main__":
    main(sys.argv[1], sys.argv[2], int(sys.argv[3]))
