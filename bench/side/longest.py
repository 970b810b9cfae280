"""The longest reply against the median, for bench/side/run: requests sent one by one.

Each request's time is the least of all runs, so that a pause of the machine isn't taken for one of
the program. A request that came when its table held just as many rows as fill a hash table (seven
eighths of a power of two) or its list of entries (a power of two) is called a growth. What tables
hold is counted twice: rows that stand, and all that ever came, as blobs stay until a collection.
A snapshot's commit replaces its key, and replaced keys fill a hash table too until it is laid out
anew: so up to a thirtieth below such a number an addition or commit of a snapshot is near a growth.
"""

import statistics

from pipes import reply_times, sizes_around
from shapes import content, digest, request

SHOWN = 6


def lines_over(rows):
    """Additions of so many rows, then half as many requests again that change few of them."""
    lines = [request("ns.add", "n")]
    for number in range(rows // 12):
        for part in range(6):
            lines.append(content("n", "c%d.%d" % (number, part)))
        for part in range(3):
            name = "s%d.%d" % (number, part)
            above = {"parent": "s%d.%d" % (number, part - 1)} if part else {}
            lines.append(request("snap.prepare", "n", snapshotter="overlayfs", key="k" + name, **above))
            lines.append(request("snap.commit", "n", snapshotter="overlayfs", key="k" + name, name=name))
        lines.append(request("image.add", "n", name="i%d" % number, target=digest("c%d.0" % number)))
        lines.append(request("lease.add", "n", id="l%d" % number))
        lines.append(request("container.add", "n", name="r%d" % number, snapshotter="overlayfs",
                             key="s%d.2" % number))
    for number in range(rows // 12):
        old = digest("c%d.5" % number)
        lines += [request("content.get", "n", digest=old), request("content.remove", "n", digest=old),
                  content("n", "again %d" % number), request("image.remove", "n", name="i%d" % number),
                  request("image.add", "n", name="j%d" % number, target=old),
                  request("content.label", "n", digest=digest("c%d.0" % number), key="note", value="x"),
                  request("lease.hold", "n", id="l0", type="content", resource=old),
                  request("snap.prepare", "n", snapshotter="native", key="w%d" % number),
                  request("snap.remove", "n", snapshotter="native", key="w%d" % number),
                  request("image.get", "n", name="j%d" % number), request("ns.list", "n")[:-10] + "}\n",
                  request("lease.remove", "n", id="l%d" % (number + 1)),
                  request("lease.add", "n", id="m%d" % number)]
    return [line.encode() for line in lines]


def held_before(lines):
    """For each line its operation, and what its table held: the rows that stood and all that came."""
    standing, came, notes = {}, {}, []
    for line in lines:
        operation = line[7:line.index(b'"', 7)].decode()
        kind, verb = operation.split(".")
        if operation == "lease.hold":
            kind = "held"
        notes.append((operation, standing.get(kind, 0), came.get(kind, 0)))
        if verb in ("add", "prepare", "hold"):
            standing[kind] = standing.get(kind, 0) + 1
            came[kind] = came.get(kind, 0) + 1
        elif verb == "remove":
            standing[kind] = standing.get(kind, 0) - 1
    return notes


def fills_a_table(count):
    """Whether it is a power of two, or seven eighths of one."""
    odd = count // (count & -count) if count else 0
    return odd == 1 or odd == 7


def growth_of(note):
    """` (a growth)`, ` (near a growth)` or nothing."""
    operation, standing, came = note
    if not operation.endswith((".add", ".prepare", ".hold", ".commit")):
        return ""
    if fills_a_table(standing) or fills_a_table(came):
        return " (a growth)"
    if operation.startswith("snap.") and any(map(fills_a_table, range(standing, standing * 30 // 29 + 1))):
        return " (near a growth)"
    return ""


def measure(programs, rows, times, replies):
    """Lines of text that say each program's longest replies."""
    lines = lines_over(rows)
    notes = held_before(lines)
    least = {}
    for turn in range(times):
        for name, path in programs.items():
            found = reply_times(path, lines, replies)
            least[name] = [min(pair) for pair in zip(least.get(name, found), found)]
    # at least a nanosecond: a program that only starts another has no processor time of its own
    medians = {name: max(1, statistics.median(nanoseconds)) for name, nanoseconds in least.items()}
    text = ["longest reply against the median: %d requests one by one over %d rows, each by its least time"
            % (len(lines), rows)]
    for name, path in programs.items():
        nanoseconds = least[name]
        median = medians[name]
        places = sorted(range(len(lines)), key=lambda place: -nanoseconds[place])
        apart = next(place for place in places if not growth_of(notes[place]))
        text.append("  %s: %.0f times the median; growths of hash tables apart, %.0f times"
                    % (name, nanoseconds[places[0]] / median, nanoseconds[apart] / median))
        shown = sorted(set(places[:SHOWN] + [apart]), key=lambda place: -nanoseconds[place])
        grown = sizes_around(path, lines, set(shown))
        for place in shown:
            operation, standing, came = notes[place]
            text.append("    %6.0f times  request %d, %s: %d rows stood, %d came, memory grew by %d KiB%s" % (
                nanoseconds[place] / median, place + 1, operation, standing, came, grown[place],
                growth_of(notes[place])))
    text.append("  the plain program's median to metad's: 1 to %.2f, the pipe's time in both"
                % (medians["metad"] / medians["plain"]))
    return text
