"""Whose reply is whose: each client asks for a secret of its own, among lines of all kinds that are
empty or broken, and gets every reply that it is owed, and no other."""
import random
import shlex
import socket
import subprocess
import tempfile
import threading

from fronts import STAND_IN, Front, Told, all_of, ask, knows

LINE = 65536
CLIENTS = 6
ROUNDS = 30
DIGEST = "sha256:" + "5" * 64
BAD, LONG, DONE = b'{"fault":5,"name":"BadLine"}', b'{"fault":6,"name":"TooLong"}', b'{"ok":true}'
EMPTY = (b"", b"\n", b"\n\n", b"\n\n\n\n\n")  # what may stand before, between and behind lines
AT = 40  # the reply that a filter takes away, doubles, or puts behind the next
FILTERS = ("%dd" % AT, "%dp" % AT, "%d{h;d};%dG" % (AT, AT + 1))
wants = Told.wants


class OfStandIn:
    """Lines that the stand-in answers, each with its reply."""

    command, words = STAND_IN, ()
    numbered = STAND_IN + ["--numbered"]

    def __init__(self, program=None):
        pass

    @staticmethod
    def begin(front, secrets):
        """Nothing is made before."""

    @staticmethod
    def line(chance, secret):
        """A line, and what it is answered."""
        kind = chance.randrange(6)
        if kind < 3:
            line = b"=%s %d" % (secret, chance.randrange(1000))
            return line, line
        if kind == 3:
            line = b"=%s" % secret + b"z" * chance.choice((LINE, LINE + 1, 3 * LINE))
            return line, line[: LINE + 1]
        return chance.choice((b"\r", b" ", b"\t\r", b"\0", b"{", b"\xff" * 9, b"x" * LINE)), DONE


class OfProgram(OfStandIn):
    """Lines that the built program answers."""

    def __init__(self, program):
        self.command = [program, "run"]

    @staticmethod
    def begin(front, secrets):
        """Each secret is an image's name and label."""
        with front.connect() as client:
            ask(client, b'{"op":"ns.add","ns":"x"}')
            for secret in secrets:
                line = (b'{"op":"image.add","ns":"x","name":"%s","target":"%s",'
                        b'"labels":{"its":"%s"}}')
                ask(client, line % (secret, DIGEST.encode(), secret))

    @staticmethod
    def line(chance, secret):
        kind = chance.randrange(6)
        if kind < 3:
            line = b'{"op":"image.get","ns":"x","name":"%s"}' % secret
            line = chance.choice((b"", b" ", b"\t")) + line + chance.choice((b"", b"\r", b"  "))
            row = b'{"ok":true,"row":{"labels":{"its":"%s"},"name":"%s","target":"%s"}}'
            return line, row % (secret, secret, DIGEST.encode())
        if kind == 3:
            return b"{" + b"z" * chance.choice((LINE, LINE + 1, 3 * LINE)), LONG
        if kind == 4:
            whole = b'{"op":"image.get","ns":"x","name":"%s"}' % secret
            return whole[: chance.randrange(1, len(whole))], BAD
        return chance.choice((b"\r", b" ", b"\t\r", b"\0", b"{", b"\xff" * 9, b"x" * LINE)), BAD


class OfStore(OfProgram):
    """Lines that the program of serve answers over a new store. The front starts it, and has it
    number its replies if it can."""

    def __init__(self, program):
        store = tempfile.mkdtemp(prefix="metad-serve-")
        subprocess.run([program, "new", "--dir", store], check=True)
        self.command, self.words = None, ["--program", program, "--dir", store]
        self.numbered = [program, "serve", "--numbered", "--dir", store]


def exchange(front, lines, secret, seed):
    """Sends lines, empty ones between them, cut anywhere. All that comes, and what should."""
    chance = random.Random(seed)
    pairs = [lines.line(chance, secret) for _ in range(chance.randrange(1, 40))]
    text = chance.choice(EMPTY)
    for line, _ in pairs:
        text += line + b"\n" + chance.choice(EMPTY)
    text += chance.choice((b"", b"\n", secret, b'{"op":"image.list","ns":"x"}', b" "))
    wanted = b"".join(reply + b"\n" for _, reply in pairs)

    def send(client):
        at = 0
        try:
            while at < len(text):
                count = chance.choice((1, 2, 30, 3000, 100000))
                client.sendall(text[at : at + count])
                at += count
            client.shutdown(socket.SHUT_WR)
        except OSError:
            pass  # the front has ended: what came tells

    with front.connect() as client:
        sender = threading.Thread(target=send, args=(client,))
        sender.start()
        got = all_of(client)
        sender.join()
    return got, wanted


def talk(front, lines, secret, seed, wrong):
    """An exchange, whose replies have to be all that are owed, and no other."""
    got, wanted = exchange(front, lines, secret, seed)
    if got != wanted:
        wrong.append((seed, len(got), len(wanted)))


def leave(front, seed):
    """A client that leaves in the middle, with replies owed."""
    chance = random.Random(seed)
    with front.connect() as client:
        client.sendall(b"\n" * chance.randrange(3) + b"=gone\n" * chance.randrange(300) + b"=hal")


def secrets_of_clients():
    """A secret for each client."""
    return [b"secret-%d-of-%d" % (number * 7919, number) for number in range(CLIENTS)]


def compare(lines):
    """Rounds of clients at once, on one front: a reply too many or too few stays in it."""
    secrets = secrets_of_clients()
    with Front(lines.command, words=lines.words) as front:
        lines.begin(front, secrets)
        for turn in range(ROUNDS):
            wrong = []
            threads = [threading.Thread(target=talk, args=(front, lines, secret, turn * 100 + at,
                                                           wrong))
                       for at, secret in enumerate(secrets)]
            threads.append(threading.Thread(target=leave, args=(front, turn)))
            for thread in threads:
                thread.start()
            for thread in threads:
                thread.join()
            if not wants("each client gets its own replies", not wrong, wrong):
                break
        wants("it ends well", front.ends(15) == 0)


def compare_stand_in():
    """Rounds over the stand-in."""
    compare(OfStandIn())


def one_behind_another():
    """A client that begins with one empty line, and another one behind it."""
    for empty in (b"\n", b"\n\n", b"\n\n\n", b"\r\n", b" \n"):
        with Front() as front, front.connect() as first, front.connect() as second:
            first.sendall(empty + b"=of the first\n")
            wanted = (b"" if empty.strip(b"\n") == b"" else DONE + b"\n") + b"=of the first\n"
            got = b""
            while len(got) < len(wanted):
                got += first.recv(1000)
            wants("the first gets its own", got == wanted, empty, got)
            wants("the second gets its own",
                  ask(second, b"=secret of the second") == b"=secret of the second\n", empty)
            first.shutdown(socket.SHUT_WR)
            wants("the first gets nothing more", all_of(first) == b"", empty)


def numbered():
    """A service that tells the number of each line: the front checks it, and hands none on."""
    words = ["--numbered"]
    with Front(STAND_IN + words, words=words) as front:
        with front.connect() as client:
            text = b"".join(b"\n=%d\n" % at for at in range(20000))
            sender = threading.Thread(target=client.sendall, args=(text,))
            sender.start()
            wanted, got = text.replace(b"\n\n", b"\n")[1:], b""
            while len(got) < len(wanted):
                got += client.recv(1 << 20)
            sender.join()
            wants("replies come without their numbers", got == wanted)
            size = 300000
            wants("a long one too", len(ask(client, b"reply=%d" % size)) == size + 1)
        with front.connect() as client, front.connect() as other:
            client.sendall(b"=before\n")
            wants("a reply before", client.recv(100) == b"=before\n")
            other.sendall(b"skip\n=never\n")
            wants("no reply of another line comes", all_of(other) == b"")
            wants("all are cut off", all_of(client) == b"")
            wants("a number of another line ends the front with 1", front.ends() == 1)
            wants("it says why", front.says(b"came where that to line"))
    for command in (STAND_IN, ["/bin/sh", "-c", "cat | " + shlex.join(STAND_IN)]):
        with Front(command, words=words) as front:
            wants("replies without a number end it with 1", front.ends() == 1, command)
    with Front(STAND_IN + words) as front, front.connect() as client:
        wants("who doesn't ask for numbers gets the reply as it is",
              ask(client, b"=x") == b"2 =x\n")


def shifted(lines):
    """A reply of a service that numbers is lost, doubled or late on its way to the front: then the
    front ends, and each client has got the first of its own replies, and no other."""
    secrets = secrets_of_clients()
    for text in FILTERS:
        command = "%s | sed -u %s" % (shlex.join(lines.numbered), shlex.quote(text))
        got = [(b"", b"?")] * CLIENTS

        def talks(at, front):
            try:
                got[at] = exchange(front, lines, secrets[at], 100 + at)
            except OSError:
                pass  # the front had ended before it connected: it got nothing

        with Front(["/bin/sh", "-c", command], words=["--numbered"]) as front:
            lines.begin(front, secrets)
            threads = [threading.Thread(target=talks, args=(at, front)) for at in range(CLIENTS)]
            for thread in threads:
                thread.start()
            for thread in threads:
                thread.join()
            wants("a client gets replies of its own alone",
                  all(wanted.startswith(text) for text, wanted in got), text)
            wants("not all of them", any(text != wanted for text, wanted in got), text)
            wants("a reply in another's place ends the front with 1", front.ends() == 1, text)
            wants("it says why", front.says(b"came where that to line") or
                  front.says(b"a reply came that no line asked for"), text)


def shifted_stand_in():
    """A reply of the stand-in in another's place."""
    shifted(OfStandIn())


def compare_store(program):
    """Rounds over the program of serve, which numbers its replies if it can."""
    lines = OfStore(program)
    compare(lines)
    if not knows(program, "--numbered"):
        print("not run: trials/serve: numbers of the replies of the program, since its serve has "
              "no word --numbered")
        return
    shifted(lines)
    with Front(None, words=lines.words) as front:
        with open("/proc/%d/cmdline" % front.service(), "rb") as file:
            wants("the program is told to number", b"--numbered" in file.read().split(b"\0"))
        wants("it ends with 0", front.ends(15) == 0)


def run(program=None, of_store=None):
    """All of them, over the stand-in and over the programs."""
    one_behind_another()
    numbered()
    compare_stand_in()
    shifted_stand_in()
    if program:
        compare(OfProgram(program))
    if of_store:
        compare_store(of_store)
