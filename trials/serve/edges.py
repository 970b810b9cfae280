"""What clients may do: lines in parts, lines too long, ends in the middle, reading late or never."""
import random
import resource
import select
import socket
import threading
import time

from fronts import Front, Told, all_of, ask, lines_of, until

LINE = 65536
REPLIES = 1 << 20
CLIENTS = 1024
wants = Told.wants


def lines(front):
    """Lines split anywhere, empty ones, lines too long, and a line without its line feed."""
    with front.connect() as client:
        for part in (b"=a", b"b", b"c\n=d\n=", b"e\n"):
            client.sendall(part)
            time.sleep(0.02)
        wants("parts of lines", lines_of(client, 3) == b"=abc\n=d\n=e\n")
        client.sendall(b"\n\n=f\n\n=g\n\n")
        wants("empty lines have no reply", lines_of(client, 2) == b"=f\n=g\n")
        for length in (1, 8191, 8192, 8193, LINE - 1, LINE, LINE + 1, LINE + 2, 5 * LINE):
            reply = ask(client, b"=" + b"x" * (length - 1))
            kept = min(length, LINE + 1)
            wants("a line of %d bytes" % length, len(reply) == kept + 1, len(reply))
        mixed = [b"=" + bytes([97 + n % 26]) * random.Random(n).choice((0, 1, 90, LINE, 2 * LINE))
                 for n in range(40)]
        sent = threading.Thread(target=client.sendall, args=(b"\n".join(mixed) + b"\n",))
        sent.start()
        replies = lines_of(client, len(mixed))
        sent.join()
        wants("lines of all lengths at once",
              replies == b"".join(line[: LINE + 1] + b"\n" for line in mixed))
    with front.connect() as client:
        client.sendall(b"=whole\n=half")
        client.shutdown(socket.SHUT_WR)
        wants("a half line at the end has no reply", all_of(client) == b"=whole\n")
    with front.connect() as client:
        before = front.kilobytes()
        for _ in range(50):
            client.sendall(b"x" * 1_000_000)
        wants("an endless line takes little memory", front.kilobytes() < before + 8 * 1024)
        client.shutdown(socket.SHUT_WR)
        wants("an endless line", all_of(client) == b"")


def gone(front):
    """Clients that leave without reading."""
    for number in range(200):
        client = front.connect()
        client.sendall(b"=gone\n" * 2000 + b"=half"[: number % 6])
        client.close()
    with front.connect() as client:
        wants("others after clients that left", ask(client, b"=still") == b"=still\n")


def late(front):
    """A client that doesn't read is stopped, the others aren't, and it gets all in the end."""
    line = b"=" + b"y" * 998 + b"\n"
    with front.connect() as client, front.connect() as other:
        before = front.kilobytes()
        client.setblocking(False)
        sent, last = 0, time.monotonic()
        while time.monotonic() - last < 1 and sent < 64 * REPLIES:
            if select.select([], [client], [], 0.1)[1]:
                try:
                    sent += client.send((line * 65)[sent % 1000 :][:64000])
                    last = time.monotonic()
                except BlockingIOError:
                    pass
        wants("a client that doesn't read is stopped", sent < 8 * REPLIES, sent)
        wants("its replies take little memory", front.kilobytes() < before + 8 * 1024,
              before, front.kilobytes())
        ticks = front.ticks()
        time.sleep(1)
        wants("the front rests meanwhile", front.ticks() - ticks < 10, front.ticks() - ticks)
        wants("others are served meanwhile", ask(other, b"=other") == b"=other\n")
        client.settimeout(60)
        got = len(lines_of(client, sent // 1000))
        if sent % 1000:
            client.sendall(line[sent % 1000 :])
            sent += 1000 - sent % 1000
        while got < sent and (part := client.recv(1 << 20)):
            got += len(part)
        wants("all of its replies come once it reads", got == sent, got, sent)
        wants("it is served again", ask(client, b"=again") == b"=again\n")


def long_replies(front):
    """Long replies that nobody reads take the memory of one."""
    size = 4_000_000
    with front.connect() as client, front.connect() as other:
        before = front.kilobytes()
        client.sendall((b'{"op":"x.list"} reply=%d\n' % size) * 100)
        time.sleep(2)
        wants("others are served beside long replies", ask(other, b"=other") == b"=other\n")
        more = front.kilobytes() - before
        wants("a hundred long replies that aren't read", more < 4 * size // 1024, more)
        count = 0
        while count < 100:
            part = client.recv(1 << 20)
            if not part:
                break
            count += part.count(b"\n")
        wants("a hundred long replies that are read late", count == 100, count)


def may_open(files):
    """Whether this process and a front may have so many files open."""
    soft, hard = resource.getrlimit(resource.RLIMIT_NOFILE)
    if hard != resource.RLIM_INFINITY and hard < files:
        return False
    if soft != resource.RLIM_INFINITY and soft < files:
        resource.setrlimit(resource.RLIMIT_NOFILE, (files, hard))
    return True


def many(front):
    """As many clients as may be; each one more is told so, at once."""
    if not may_open(2 * CLIENTS):
        print("serve: 1,024 clients are left out: so many files can't be open")
        return
    clients = [front.connect() for _ in range(CLIENTS)]
    for number, client in enumerate(clients):
        client.sendall(b"=%d\n" % number)
    served = [lines_of(client, 1) == b"=%d\n" % number for number, client in enumerate(clients)]
    wants("1,024 clients are served", all(served), served.count(False))
    told = []
    for _ in range(76):
        with front.connect() as client:
            try:
                client.sendall(b"=never\n")
            except ConnectionError:
                pass
            told.append(all_of(client))
    wants("each one more is told", told == [b'{"fault":100,"name":"TooManyClients"}\n'] * 76, told)
    wants("the others are served all the same", ask(clients[7], b"=7") == b"=7\n")
    for client in clients[:76]:
        client.close()
    wants("connections are closed", until(lambda: front.descriptors() <= CLIENTS - 60))
    later = [front.connect() for _ in range(76)]
    wants("when some leave others are served",
          all(ask(client, b"=x") == b"=x\n" for client in later))
    for client in clients[76:] + later:
        client.close()


def own(front):
    """Sixty clients at once get their own replies in their own order."""
    wrong = []

    def talk(number):
        with front.connect() as client:
            for turn in range(40):
                text = b"".join(b"=%d.%d.%d\n" % (number, turn, at) for at in range(25))
                client.sendall(text)
                if lines_of(client, 25) != text:
                    wrong.append(number)

    threads = [threading.Thread(target=talk, args=(number,)) for number in range(60)]
    for thread in threads:
        thread.start()
    for thread in threads:
        thread.join()
    wants("sixty clients get their own replies", not wrong, wrong)


def run():
    """All of them on one front, which is none the worse for it."""
    with Front() as front:
        with front.connect() as client:
            wants("a reply", ask(client, b"x") == b'{"ok":true}\n')
        wants("no client is left", until(lambda: front.descriptors() < 16))
        files = front.descriptors()
        for trial in (lines, gone, late, long_replies, many, own):
            trial(front)
        wants("each connection is closed", until(lambda: front.descriptors() <= files),
              files, front.descriptors())
        wants("it ends well", front.ends(15) == 0)
