#!/usr/bin/env python3
"""Stands before a metad program, and ends at a line: ending.py LINE WHO WHEN MARK PROGRAM WORD..

WHO is metad (this process and PROGRAM end) or daemon (the process that started this one is
killed, and PROGRAM then ends with its input). WHEN is before (the line isn't done), kept (it is
done, its reply isn't handed on) or replied. MARK is a file that is made before the end. Words that
ask for a new store go to PROGRAM as they are.
"""
import os
import signal
import subprocess
import sys


def main() -> None:
    line, who, when, mark = int(sys.argv[1]), sys.argv[2], sys.argv[3], sys.argv[4]
    command = sys.argv[5:]
    if '--new' in command:
        os.execv(command[0], command)
    child = subprocess.Popen(command, stdin=subprocess.PIPE, stdout=subprocess.PIPE)
    assert child.stdin is not None and child.stdout is not None
    count = 0

    def end(now: str) -> None:
        if count != line or now != when:
            return
        with open(mark, 'w'):
            pass
        if who == 'daemon':
            os.kill(os.getppid(), signal.SIGKILL)
        child.kill()
        child.wait()
        os._exit(0)

    for text in iter(sys.stdin.buffer.readline, b''):
        count += 1
        end('before')
        child.stdin.write(text)
        child.stdin.flush()
        reply = child.stdout.readline()
        end('kept')
        sys.stdout.buffer.write(reply)
        sys.stdout.buffer.flush()
        end('replied')


main()
