"""Instructions of both programs, for bench/side/run: what no other work on the machine changes.

Each phase is what a run with it takes beyond one without it, as `valgrind --tool=callgrind` counts.
Memory that is cleared or copied stands apart, since there a byte may count as an instruction.
Functions have their own instructions, not those of what they call.
"""

import os
import re
import subprocess

import shapes

# functions of the C library that clear or copy memory
BLOCKS = re.compile(r"mem(set|cpy|move)")


class Failed(Exception):
    """A program that ended otherwise than it should, or no valgrind."""


def counted(path, workers, lines, folder):
    """The instructions of a run over these lines by function, and its replies."""
    found = os.path.join(folder, "callgrind")
    words = ["valgrind", "--tool=callgrind", "--callgrind-out-file=" + found, path, "run",
             "--workers", str(workers)]
    try:
        run = subprocess.run(words, input=lines, stdout=subprocess.PIPE, stderr=subprocess.PIPE)
    except FileNotFoundError:
        raise Failed("no valgrind on the path") from None
    if run.returncode != 0:
        raise Failed("%s ended with status %d" % (path, run.returncode))
    names, by_function = {}, {}
    function, called = None, False
    with open(found) as out:
        for line in out:
            head, equals, rest = line.rstrip("\n").partition("=")
            if equals and head in ("fn", "cfn"):
                number, _, name = rest.partition(" ")
                names.setdefault(number, name)
                if head == "fn":
                    function = names[number]
            elif head == "calls":
                called = True
            elif line[0] in "+-*0123456789":
                if not called:
                    by_function[function] = by_function.get(function, 0) + int(line.split()[1])
                called = False
    os.remove(found)
    return by_function, run.stdout


def beyond(more, less):
    """What each function takes in one run beyond another."""
    return {name: count - less.get(name, 0) for name, count in more.items()}


def total(functions, blocks):
    """All instructions, of such functions alone or of all others."""
    return sum(count for name, count in functions.items() if bool(BLOCKS.search(name)) == blocks)


def phases(path, workers, script, folder):
    """Each phase's instructions by function, and all replies."""
    with open(script, "rb") as lines:
        requests = lines.read()
    start, _ = counted(path, workers, b"", folder)
    made, first = counted(path, workers, requests, folder)
    dry, second = counted(path, workers, requests + shapes.DRY_RUN, folder)
    whole, third = counted(path, workers, requests + shapes.COLLECTION, folder)
    found = {"requests": beyond(made, start), "dry run": beyond(dry, made), "collection": beyond(whole, made)}
    return found, first + second + third


def steady_phase(path, script, folder):
    """The instructions of a script's requests by function, and its replies."""
    with open(script, "rb") as lines:
        requests = lines.read()
    start, _ = counted(path, 1, b"", folder)
    made, replies = counted(path, 1, requests, folder)
    return {"requests": beyond(made, start)}, replies


def table(found, units, shown):
    """Lines: each phase by request or row, metad beside plain; then the functions with most."""
    for phase, unit in units.items():
        metad, plain = found["metad"][phase], found["plain"][phase]
        own, other = total(metad, False) / unit, total(plain, False) / unit
        yield "  %-12s%10.0f%10.0f%8.2f%12.0f%10.0f" % (
            phase, own, other, own / other, total(metad, True) / unit, total(plain, True) / unit)
    for name in ("metad", "plain") if shown else ():
        requests, unit = found[name]["requests"], units["requests"]
        most = sorted(requests.items(), key=lambda pair: -pair[1])[:shown]
        yield "  of a request, %s:" % name
        for function, count in most:
            yield "%10.0f  %s" % (count / unit, function)


def measure(programs, given, folder):
    """Lines of the table, as they come; at the end whether all replies were the same."""
    yield "instructions, %d rows, %d workers: a request; a row of the dry run and of the collection" % (
        given.rows[0], given.workers[0])
    yield "  %-12s%10s%10s%8s%12s%10s" % ("", "metad", "plain", "ratio", "blocks metad", "plain")
    for shape in given.shapes + list(shapes.STEADY):
        script = os.path.join(folder, shape)
        count = shapes.write(script, shape, given.rows[0])
        units = {"requests": count}
        if shape not in shapes.STEADY:
            units.update({"dry run": given.rows[0], "collection": given.rows[0]})
        found, replies = {}, {}
        for name, path in programs.items():
            if shape in shapes.STEADY:
                found[name], replies[name] = steady_phase(path, script, folder)
            else:
                found[name], replies[name] = phases(path, given.workers[0], script, folder)
        os.remove(script)
        yield shape
        yield from table(found, units, given.functions)
        if replies["metad"] != replies["plain"]:
            raise Failed("%s: another reply" % shape)
