"""Eight clients, each fifty lines ahead of its replies: all is answered; and how fast."""
import multiprocessing
import subprocess
import time

from fronts import Front, Told, ask, connect

CLIENTS = 8
LINES = 8000
AHEAD = 50
LINE = b'{"op":"content.add","ns":"x","digest":"sha256:%032d%032d"}\n'
DONE = b'{"ok":true}\n'
wants = Told.wants


def client(path, number, queue):
    """Adds content of its own; how many replies were another than done."""
    sent = got = wrong = 0
    rest = b""
    with connect(path) as sock:
        while got < LINES:
            count = min(LINES, got + AHEAD) - sent
            sock.sendall(b"".join(LINE % (number, sent + at) for at in range(count)))
            sent += count
            rest += sock.recv(1 << 16)
            count = rest.count(b"\n")
            whole = rest.rfind(b"\n") + 1
            wrong += rest[:whole] != DONE * count
            got += count
            rest = rest[whole:]
    queue.put(wrong)


def run(program):
    """The load, and the same lines by the program alone."""
    space = b'{"op":"ns.add","ns":"x"}\n'
    text = space + b"".join(LINE % (number, at)
                            for number in range(CLIENTS) for at in range(LINES))
    began = time.monotonic()
    alone = subprocess.run([program, "run"], input=text, capture_output=True).stdout
    alone_time = time.monotonic() - began
    wants("the program alone", alone == DONE * (CLIENTS * LINES + 1))
    with Front([program, "run"]) as front:
        with front.connect() as sock:
            ask(sock, space[:-1])
        queue = multiprocessing.Queue()
        clients = [multiprocessing.Process(target=client, args=(front.path, number, queue))
                   for number in range(CLIENTS)]
        began = time.monotonic()
        for one in clients:
            one.start()
        wrong = [queue.get(timeout=100) for _ in clients]
        took = time.monotonic() - began
        for one in clients:
            one.join()
        wants("each line of a load is done", not any(wrong), wrong)
        wants("a front ends with 0 after a load", front.ends(15) == 0)
    told = (CLIENTS, AHEAD, CLIENTS * LINES / took, alone_time / took)
    print("serve: %d clients %d lines ahead: %.0f lines a second, %.2f of the program alone" % told)
