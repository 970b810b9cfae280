"""By the built program: --json of each word has the members that docs/HOST.md states; lists keep to --limit; the picture is the page's."""
import contextlib
import json
import os
import re
import subprocess
import xml.dom.minidom

import stores

AT = "2024-03-02T03:26:39Z"
HEAD = {"word": "text", "at": "text", "remarks": ["text"]}
KINDS = {"count": (int,), "bytes": (int,), "number": (int, float), "text": (str,), "flag": (bool,)}
ASKED = {"usage": ["host.db"], "ingests": ["host.db"], "plan": ["host.db"], "prune": ["host.db"], "impact": ["host.db"], "why": ["host.db", "native/9"], "forecast": ["host.db"],
         "metrics": ["host.db"], "graph": ["host.db", "native/9"], "compare": ["host.db", "after.db"], "doctor": ["--containerd", "2.1.9", "host.db"]}


def schema():
    """The members of each word's object, as the page states them."""
    with open(os.path.join(stores.TOP, "docs", "HOST.md"), encoding="utf-8") as file:
        found = json.loads(re.search(r"```json\n(.*?)```", file.read(), re.DOTALL)[1])
    return found


def check(value, form, where, forms):
    """Whether a value has this form, with no member more or less."""
    if isinstance(form, str) and form.rstrip("?") in forms:
        if form.endswith("?") and value is None:
            return
        form = forms[form.rstrip("?")]
    if isinstance(form, list):
        assert isinstance(value, list), "%s is no list" % where
        for place, item in enumerate(value):
            check(item, form[0], "%s[%d]" % (where, place), forms)
    elif isinstance(form, dict):
        assert isinstance(value, dict), "%s is no object" % where
        if "*" not in form:
            assert set(value) == set(form), "%s has %s, where the page has %s" % (where, sorted(value), sorted(form))
        for key, item in value.items():
            check(item, form.get("*", form.get(key)), "%s.%s" % (where, key), forms)
    elif form.endswith("?") and value is None:
        pass
    else:
        kinds = KINDS[form.rstrip("?")]
        right = isinstance(value, kinds) and (bool in kinds or not isinstance(value, bool))
        assert right and (form[:5] not in ("count", "bytes") or value >= 0), "%s is %r, where the page has %s" % (where, value, form)


def make_files(folder):
    """The files of the page."""
    for name, source in (("host.db", "a_daemon.db"), ("after.db", "a_daemon.after"), ("host.db.snapshots.native", "a_daemon.native"),
                         ("host.db.snapshots.overlayfs", "a_daemon.overlayfs")):
        stores.put(os.path.join(folder, name), subprocess.run(["gunzip", "-c", stores.path(source, "gz")], stdout=subprocess.PIPE, check=True).stdout)


def asked(folder, metad, word, *more):
    """The output of a word in the folder of the files."""
    options = [] if word in ("copy", "report") else ["--at", AT] if word == "ingests" else ["--at", AT, "--metad", metad]
    found = subprocess.run([stores.TOOL, word] + options + list(more), cwd=folder, stdout=subprocess.PIPE, stderr=subprocess.PIPE)
    assert found.returncode == 0, "%s: %d %s" % (word, found.returncode, found.stderr.decode())
    return found.stdout.decode()


def run(work, metad):
    folder, forms = os.path.join(work, "objects"), schema()
    make_files(folder)
    for word, operands in ASKED.items():
        found = json.loads(asked(folder, metad, word, "--json", *operands))
        check(found, dict(HEAD, **forms[word]), word, forms)
        assert found["word"] == word and found["at"] == AT
    found = json.loads(asked(folder, metad, "copy", "--json", "host.db", "copied.db"))
    check(found, forms["copy"], "copy", forms)
    for word, operands in (("commands", ["prune", "--commands", "--leases", "host.db"]), ("free", ["free", "30kB", "host.db"])):
        found = json.loads(asked(folder, metad, operands[0], "--json", *operands[1:]))
        check(found, dict(HEAD, **forms[word]), word, forms)
        assert found["word"] == word and found["images"]
    assert set(forms) == set(ASKED) | {"copy", "commands", "free", "STEP", "DISK", "ORDER"}, "the page states other words"
    demo(metad)
    limits(folder, metad)
    lines(folder, metad)
    pictures(folder, metad)
    steps(folder, metad)
    measured(os.path.join(folder, "root"), metad)
    return "objects of %d words as docs/HOST.md states them" % (len(ASKED) + 1)


def demo(metad):
    """--demo asks the recorded store each of its questions, and leaves the folder as it was."""
    from metad_host import demo as tried, words
    out = stores.Output()
    before = os.getcwd()
    with contextlib.redirect_stdout(out):
        status = tried.run("metad-host", lambda line: words.main([line[0], "--metad", metad] + line[1:], "metad-host"))
    text = out.getvalue()
    assert status == 0 and os.getcwd() == before and text.count("$ metad-host ") == len(tried.ASKED), text
    assert "51.9 kB more" in text and "still-free" in text and "nothing else" not in text and "native/9" in text, text


def limits(folder, metad):
    """Lists have at most so many items, and all with 0; totals don't change."""
    for word, member in (("usage", "holders"), ("prune", "images"), ("impact", "rows"), ("plan", "objects")):
        whole = json.loads(asked(folder, metad, word, "--json", "--limit", "0", "host.db"))
        few = json.loads(asked(folder, metad, word, "--json", "--limit", "2", "host.db"))
        total = [member + "_total", len(whole[member])]
        assert few[member + "_total"] == whole[member + "_total"] == len(whole[member]) > 2 == len(few[member]), total
        assert few[member] == whole[member][:2], "%s: others with a limit" % word
    few = json.loads(asked(folder, metad, "why", "--json", "--limit", "1", "host.db", "native/9"))["things"][0]
    assert len(few["paths"]) == 1 and not few["complete"], few


def lines(folder, metad):
    """Sizes in bytes, metrics as Prometheus reads them, with labels that no pull changes, and no line of a file is cut."""
    raw, units = (asked(folder, metad, "prune", *more, "host.db") for more in (["--bytes"], []))
    assert "51862" in raw and "51.9 kB" in units, raw
    for line in asked(folder, metad, "metrics", "host.db").splitlines():
        labels = dict(re.findall(r'([a-z]+)="([^"]*)"', line)) if not line.startswith("#") else {}
        assert set(labels) <= {"kind", "namespace", "state"} and labels.get("namespace") in (None, "default", "k8s.io", "moby"), line
        assert re.fullmatch(r'# (HELP|TYPE) metad_host_[a-z_]+ .+|metad_host_[a-z_]+(\{([a-z]+="[^"\\\n]*",?)+\})? [0-9.]+', line), line
    assert max(map(len, asked(folder, metad, "why", "host.db", "native/9").splitlines())) > 100


def pictures(folder, metad):
    """The page parses, has each node and nothing from elsewhere, and its picture is that of docs/HOST.md."""
    asked(folder, metad, "graph", "--html", "kept.html", "host.db", "native/9")
    with open(os.path.join(folder, "kept.html"), encoding="utf-8") as file:
        text = file.read()
    document = xml.dom.minidom.parseString(text[text.index("<html"):].replace('<meta charset="utf-8">', ""))
    nodes = json.loads(asked(folder, metad, "graph", "--json", "host.db", "native/9"))["nodes"]
    assert len(document.getElementsByTagName("rect")) == len(nodes) > 4
    assert not document.getElementsByTagName("script") and not re.search(r"(src|href)=|@import", text), "something from elsewhere"
    assert set(re.findall(r"https?://[^\"' ]+", text)) == {"http://www.w3.org/2000/svg"}
    with open(os.path.join(stores.TOP, "docs", "host-graph.svg"), encoding="utf-8") as file:
        assert file.read() == text[text.index("<svg"):text.index("</svg>") + 6] + "\n", "docs/host-graph.svg is another picture"
    dot = asked(folder, metad, "graph", "host.db", "native/9")
    assert dot.count("label=") == len(nodes) + dot.count(" -> ") and dot.startswith("digraph"), dot


def measured(root, metad):
    """--measure gives a writable snapshot of unknown size the bytes of its folder."""
    stores.make_root("a_daemon", root)
    before = json.loads(asked(root, metad, "usage", "--json", root))["kinds"]["writable"]
    things = json.loads(asked(root, metad, "why", "--json", root, "run-20"))["things"]
    folder, = [thing["folder"] for thing in things if thing["folder"]]
    snapshotter, number = folder.split("/")
    path = os.path.join(root, "io.containerd.snapshotter.v1." + snapshotter, "snapshots", number, "fs", "file")
    stores.put(path, b"x" * 100000)
    after = json.loads(asked(root, metad, "usage", "--json", "--measure", root))["kinds"]["writable"]
    assert after["unknown"] == before["unknown"] - 1 and after["bytes"] >= before["bytes"] + 100000, (before, after)


def steps(folder, metad):
    """What is asked of a script and its sizes is what is asked of its store."""
    with open(os.path.join(folder, "host.script"), "wb") as out:
        words = ["export", "--at", AT, "--sizes", "host.sizes", "host.db"]
        subprocess.run([stores.TOOL] + words, cwd=folder, stdout=out, stderr=subprocess.DEVNULL, check=True)
    for word in ("usage", "plan", "prune", "impact", "forecast"):
        direct = asked(folder, metad, word, "host.db")
        assert asked(folder, metad, word, "--sizes", "host.sizes", "host.script") == direct, "%s: of the script otherwise" % word
    assert asked(folder, metad, "impact", "host.script", "host.sizes") == asked(folder, metad, "impact", "host.db")
    with open(os.path.join(folder, "host.script"), "rb") as script:
        replies = subprocess.run([metad, "run"], stdin=script, stdout=subprocess.PIPE, check=True).stdout
    page = subprocess.run([stores.TOOL, "report", "host.sizes"], cwd=folder, input=replies, stdout=subprocess.PIPE, check=True).stdout.decode()
    assert page == asked(folder, metad, "plan", "host.db"), "report and plan differ"
