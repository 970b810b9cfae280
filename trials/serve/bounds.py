"""What a client may cost the others: memory, turns, and how long it may be quiet."""
import fcntl
import os
import select
import shlex
import signal
import struct
import termios
import threading
import time

from fronts import STAND_IN, TERM, Front, Told, all_of, ask, lines_of, until

MIB = 1 << 20
ROW = 1_049_714  # bytes of a row with 256 labels of 4,096 bytes
DATA = 50_000  # bytes of a row with the longest data
TURN = 8192  # bytes of lines that a client hands on in a turn
OWED = 512  # lines that it may be owed replies to
# ways to ask for a reply that may be long: each is handed on alone
LONG = (
    b'{"op":"content.get","ns":" reply=%d"}',
    b'{"op":"image.list","ns":" reply=%d"}',
    b'{"op":"gc.plan","at":" reply=%d"}',
    b'{"op":"lease.resources","ns":" reply=%d"}',
    b'{"ns":"x","sync":"2024-03-01T00:00:00Z","op":"image.remove","name":" reply=%d"}',
    b'{"op":"image.l\\u0069st","ns":" reply=%d"}',
    b'{"op":"content.add","\\u006fp":"content.list","ns":" reply=%d"}',
    b'{"op":"content.add","labels":{"a}":"\\\\\\"{"},"op":"content.list","ns":" reply=%d"}',
    b'\t{ "ns" : "y", "op" : "content.list", "z":" reply=%d"}',
    b'{"op":"content.add","answer":"row","ns":" reply=%d"}',
    b'{"op":"one.of.tomorrow","ns":" reply=%d"}',
)
wants = Told.wants


def noted(folder):
    """The stand-in, with the lines that it gets in a file."""
    order = os.path.join(folder, "order")
    return order, ["/bin/sh", "-c", "tee %s | %s" % (shlex.quote(order), shlex.join(STAND_IN))]


def service(front):
    """The stand-in's process, behind tee."""
    with open("/proc/%d/task/%d/children" % (front.service(), front.service())) as file:
        numbers = [int(word) for word in file.read().split()]
    for number in numbers:
        with open("/proc/%d/cmdline" % number, "rb") as file:
            if b"stand_in" in file.read():
                return number
    raise SystemExit("serve: the stand-in isn't found")


def rows(front):
    """Clients that ask for rows of 1 MiB, or listings, and don't read."""
    for line in LONG:
        text = line % ROW
        with front.connect() as other:
            before = front.kilobytes()
            clients = [front.connect() for _ in range(4)]
            for client in clients:
                client.sendall((text + b"\n") * 200)
            began = time.monotonic()
            wants("another is served meanwhile", ask(other, b"=other") == b"=other\n")
            waited = time.monotonic() - began
            wants("and soon", waited < 5, waited)
            time.sleep(0.5)
            more = (front.kilobytes() - before) / 1024
            # at most 1 MiB waits and one reply, as far as the socket hasn't taken it
            wants("rows that aren't read: 4 clients", more < 4 * 2.2 + 8, text, more)
            for client in clients:
                client.close()
    with front.connect() as client:
        client.sendall((LONG[0] % ROW + b"\n") * 20)
        wants("who reads gets all of them", len(lines_of(client, 20)) == 20 * (ROW + 1))


def data(front):
    """Clients that ask for rows of ingests, whose data has a bound, and don't read."""
    text = b'{"op":"ingest.get","ns":" reply=%d"}\n' % DATA
    with front.connect() as other:
        before = front.kilobytes()
        clients = [front.connect() for _ in range(4)]
        for client in clients:
            client.sendall(text * 1000)
        wants("another is served meanwhile", ask(other, b"=other") == b"=other\n")
        time.sleep(0.5)
        more = (front.kilobytes() - before) / 1024
        wants("data that isn't read: 4 clients", more < 4 * 2.2 + 8, more)
        for client in clients:
            client.close()
    with front.connect() as client:
        client.sendall(text * 200)
        wants("who reads gets all of it", len(lines_of(client, 200)) == 200 * (DATA + 1))


def handed_on():
    """Of rows that nobody reads few are asked of the service, so others wait for few."""
    with Front() as folder:
        order, command = noted(folder.folder)
        with Front(command) as front, front.connect() as client, front.connect() as other:
            client.sendall((LONG[0] % ROW + b"\n") * 200)
            time.sleep(1)
            ask(other, b"=other")
            with open(order, "rb") as file:
                count = file.read().count(b"content.get")
            wants("rows that are asked for and not read", 1 <= count <= 3, count)


def owed():
    """A client that sends far ahead: another waits for the lines that it is owed, not for all."""
    with Front() as front, front.connect() as client, front.connect() as other:
        count, pause = 3000, 0.002
        client.sendall(b"sleep=%g\n" % pause * count)
        time.sleep(0.2)
        began = time.monotonic()
        wants("another is served", ask(other, b"=other") == b"=other\n")
        waited = time.monotonic() - began
        lines_of(client, count)
        whole = time.monotonic() - began
        # of 3,000 lines it waits for those of two bounds at most
        wants("it waits for few of another's lines", waited < whole / 2, waited, whole)


def served_order(count, line, all_waits):
    """The clients, by their numbers, in the order in which the service gets their lines. It gets
    none until they have sent; with all_waits, until the front has read all of their lines."""
    with Front() as folder:
        order, command = noted(folder.folder)
        with Front(command) as front:
            stopped = service(front)
            os.kill(stopped, signal.SIGSTOP)
            fillers = [front.connect() for _ in range(8)]
            for client in fillers:  # the pipes, and what is on its way to them
                client.sendall(b"=" + b"f" * 60000 + b"\n")
            time.sleep(0.5)
            clients = [front.connect() for _ in range(5)]
            senders = [threading.Thread(target=client.sendall, args=(line % at * count,))
                       for at, client in enumerate(clients)]
            for sender in senders:
                sender.start()
            time.sleep(0.5)
            if all_waits:
                for sender in senders:
                    sender.join()
                wants("the front reads what may wait in it",
                      until(lambda: not any(map(sent_and_unread, clients))))
            os.kill(stopped, signal.SIGCONT)
            got = [0] * len(clients)
            threads = [threading.Thread(target=lambda at: got.__setitem__(
                at, lines_of(clients[at], count).count(b"\n")), args=(at,)) for at in range(5)]
            for thread in threads:
                thread.start()
            for thread in threads + senders:
                thread.join()
            wants("each gets all", got == [count] * 5, got)
        with open(order, "rb") as file:
            return [int(it[1:2]) for it in file.read().split(b"\n") if it[2:3] == b"."]


def sent_and_unread(client):
    """How many bytes it has sent that the front hasn't read."""
    return struct.unpack("i", fcntl.ioctl(client, termios.TIOCOUTQ, bytes(4)))[0]


def turns():
    """Clients with many lines each: the service gets some of each in turn, and a turn's bytes."""
    line = b"=%d." + b"x" * 98 + b"\n"
    turn = TURN // len(line % 0)
    count = 1500
    served = served_order(count, line, all_waits=False)
    counts, most = [0] * 5, 0
    for at in served[: 5 * count // 2]:
        counts[at] += 1
        most = max(most, max(counts) - min(counts))
    wants("they are served in turn", most <= 2 * turn + 2, most, turn)
    # Whole turns of fewer lines than a client may be owed replies to: none of the five ever waits
    # for anything but its turn, so no two turns of one client may stand one behind the other.
    count = OWED // turn * turn
    served = served_order(count, line, all_waits=True)
    longest, run = 0, 0
    # that holds while all five have lines: from the last one's first line to the first one's last
    begun = max(served.index(at) for at in range(5))
    ended = min(len(served) - 1 - served[::-1].index(at) for at in range(5))
    wants("all five have lines for some turns", ended - begun > 5 * turn, begun, ended)
    for at in range(begun, ended + 1):
        run = run + 1 if at > begun and served[at] == served[at - 1] else 1
        longest = max(longest, run)
    wants("a turn has its bytes", turn // 2 <= longest <= turn, longest, turn)


def stopped_service():
    """A service that takes nothing: what clients send waits in their sockets, not in the front."""
    with Front() as front:
        with front.connect() as client:
            ask(client, b"=here")
        os.kill(front.service(), signal.SIGSTOP)
        before = front.kilobytes()
        clients = [front.connect() for _ in range(32)]
        line = b"=" + b"s" * 5000 + b"\n"
        for client in clients:
            client.setblocking(False)
        sent, last = 0, time.monotonic()
        while time.monotonic() - last < 1:
            for client in select.select([], clients, [], 0.1)[1]:
                try:
                    sent += client.send(line * 20)
                    last = time.monotonic()
                except BlockingIOError:
                    pass
        more = front.kilobytes() - before
        wants("what waits for a stopped service is bounded", more < 32 * 200 + 4096, more, sent)
        os.kill(front.service(), signal.SIGCONT)
        for client in clients:
            client.close()


def idle():
    """--idle cuts off who neither sends nor takes anything, and nobody else."""
    with Front(words=["--idle", "1"]) as front:
        began = time.monotonic()
        quiet, half, waits, speaks, deaf = (front.connect() for _ in range(5))
        half.sendall(b"=half")
        waits.sendall(b"sleep=4\n")
        deaf.sendall(b'{"op":"x.list","ns":" reply=3000000"}\n')
        ends, said = {}, []

        def end(name, client):
            try:
                client.recv(10)
            except OSError:
                pass
            ends[name] = time.monotonic() - began

        def speak():
            for _ in range(12):
                said.append(ask(speaks, b"=here") == b"=here\n")
                time.sleep(0.4)

        threads = [threading.Thread(target=end, args=it)
                   for it in (("quiet", quiet), ("half", half))]
        threads.append(threading.Thread(target=speak))
        for thread in threads:
            thread.start()
        for thread in threads:
            thread.join()
        for name in ("quiet", "half"):
            wants("%s is cut off in time" % name, 0.7 < ends[name] < 4, ends)
        wants("who waits for a reply isn't", lines_of(waits, 1) == b'{"ok":true}\n')
        wants("who speaks isn't", said == [True] * 12, said)
        got = all_of(deaf)
        wants("who takes no reply is cut off", 0 < len(got) < 3_000_000, len(got))
        wants("it ends with 0", front.ends(TERM) == 0)
    for wrong in ("0", "-1", "x", "nan", "1e99"):
        with Front(words=["--idle", wrong]) as front:
            wants("--idle %s is refused" % wrong, front.ends() == 2)


def run():
    """All of them."""
    with Front() as front:
        rows(front)
        data(front)
        wants("it ends with 0", front.ends(TERM) == 0)
    for trial in (handed_on, owed, turns, stopped_service, idle):
        trial()
