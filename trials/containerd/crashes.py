"""Ends metad or the daemon while clients pull and remove, and compares rows and files behind the
next start."""
import os
import random
import shutil
import signal
import subprocess
import sys
import time
from typing import List, Sequence

from daemons import Checks, Daemon, Registry, compare

HERE = os.path.dirname(os.path.abspath(__file__))
NAMESPACES = ('n1', 'n2', 'n3')
# As many lines as a pull and a removal may have at most.
MOST_LINES = 3000


def agree(daemon: Daemon, snapshotters: Sequence[str],
        namespaces: Sequence[str] = ('default',)) -> str:
    """What compare says once no collection runs beside it: a start begins one, and so do many
    changes."""
    until = time.monotonic() + 60
    while True:
        wrong = compare(daemon, snapshotters, namespaces)
        if not wrong or time.monotonic() > until:
            return wrong
        time.sleep(0.2)


def ends(work: str, program: str, metad: str, registry: Registry, snapshotter: str, step: int,
        who: str,
         when: str) -> Checks:
    """An end at each of these lines of a pull and of the removal behind it."""
    check = Checks()
    ref = registry.ref('v4')
    for line in range(1, MOST_LINES, step):
        shutil.rmtree(work, ignore_errors=True)
        mark = os.path.join(work, 'ended')
        daemon = Daemon(work, program, [sys.executable, os.path.join(HERE, 'ending.py'), str(line),
                who, when, mark, metad, 'serve'])
        if daemon.start():
            daemon.pull(ref, snapshotter)
            if not daemon.is_ended():
                daemon.ctr('images', 'rm', '--sync', ref)
            if not daemon.is_ended():
                time.sleep(0.1)
        text = 'the %s ended %s line %d' % (who, when, line)
        is_ended = daemon.is_ended()
        if os.path.exists(mark):
            check(daemon.has_ended(60), text + ': the daemon goes on')
        else:
            check(not is_ended, '%s: the daemon ended before: %s' % (text, daemon.told()[-800:]))
            daemon.end()
            break
        daemon.configure([metad, 'serve'])
        daemon.start_again()
        wrong = agree(daemon, [snapshotter])
        check(not wrong, '%s: %s' % (text, wrong))
        status, told = daemon.pull(ref, snapshotter)
        check(status == 0, '%s: the next pull: %s' % (text, told[-200:]))
        for lease in [row.split()[0] for row in daemon.ctr('leases', 'ls')[1].splitlines()[1:]]:
            daemon.ctr('leases', 'rm', lease)
        status, told = daemon.ctr('images', 'rm', '--sync', ref)
        wrong = compare(daemon, [snapshotter])
        left = [len(it) for it in (daemon.rows(), daemon.keys(snapshotter), daemon.ingests())]
        check(not wrong and not any(left),
              '%s: at the end: %s; %d rows, %d snapshots, %d ingests; the removal: %d %s'
              % (text, wrong, *left, status, told[-200:]))
        daemon.end()
        daemon.start_again('--forget')
        files = daemon.left(snapshotter)
        check(not files, '%s: left once the lost files are forgotten: %s' % (text, files))
        daemon.end()
    return check


def kills(work: str, program: str, metad: str, registry: Registry, snapshotters: Sequence[str],
        rounds: int,
          seed: int) -> Checks:
    """Kills the daemon, its metad, or both by -9 under eight clients that pull, and others that
    remove."""
    check, choose = Checks(), random.Random(seed)
    daemon = Daemon(work, program, [metad, 'serve'])
    daemon.start_again()
    for i in range(rounds):
        clients: List['subprocess.Popen[bytes]'] = []
        for _ in range(8):
            clients.append(daemon.begin_ctr('images', 'pull', '--plain-http', '--snapshotter',
                    choose.choice(snapshotters),
                                            registry.ref('v%d'
                                                    % choose.randint(1, 4)),
                                                    ns=choose.choice(NAMESPACES)))
            if choose.random() < 0.4:
                clients.append(daemon.begin_ctr('images', 'rm', '--sync',
                        registry.ref('v%d' % choose.randint(1, 4)),
                                                ns=choose.choice(NAMESPACES)))
        time.sleep(choose.uniform(0, 2))
        who = choose.choice(('daemon', 'metad', 'both'))
        pids = daemon.metad() if who != 'daemon' else []
        if who != 'metad':
            daemon.kill()
        for pid in pids:
            os.kill(pid, signal.SIGKILL)
        assert daemon.process is not None
        daemon.process.wait()
        for client in clients:
            try:
                client.communicate(timeout=2)
            except subprocess.TimeoutExpired:
                client.kill()
                client.communicate()
        daemon.start_again()
        time.sleep(0.3)
        wrong = agree(daemon, snapshotters, NAMESPACES)
        check(not wrong, 'round %d, seed %d, %s killed: %s' % (i, seed, who, wrong))
    all_goes(daemon, registry, snapshotters, check)
    daemon.end()
    return check


def all_goes(daemon: Daemon, registry: Registry, snapshotters: Sequence[str],
        check: Checks) -> None:
    """All can still be pulled, and all goes."""
    for ns in NAMESPACES:
        for tag in ('v1', 'v2', 'v3', 'v4'):
            for name in snapshotters:
                status, text = daemon.pull(registry.ref(tag), name, ns=ns)
                check(status == 0, 'pull at the end: ' + text[-200:])
    wrong = agree(daemon, snapshotters, NAMESPACES)
    check(not wrong, 'after all pulls: ' + wrong)
    for ns in NAMESPACES:
        for lease in [row.split()[0] for row in daemon.ctr('leases', 'ls',
                ns=ns)[1].splitlines()[1:]]:
            daemon.ctr('leases', 'rm', lease, ns=ns)
        for tag in ('v1', 'v2', 'v3', 'v4'):
            daemon.ctr('images', 'rm', '--sync', registry.ref(tag), ns=ns)
    check(not daemon.blobs() and not any(daemon.keys(name,
            ns) for name in snapshotters for ns in NAMESPACES),
          'something is left at the end')


def crowd(work: str, program: str, metad: str, registry: Registry, snapshotters: Sequence[str],
        rounds: int) -> Checks:
    """Eight clients pull while others remove, and nothing is killed."""
    check, choose = Checks(), random.Random(rounds)
    daemon = Daemon(work, program, [metad, 'serve'])
    daemon.start_again()
    for i in range(rounds):
        clients = []
        for _ in range(8):
            clients.append(daemon.begin_ctr('images', 'pull', '--plain-http', '--snapshotter',
                    choose.choice(snapshotters),
                                            registry.ref('v%d'
                                                    % choose.randint(1, 4)),
                                                    ns=choose.choice(NAMESPACES)))
            if choose.random() < 0.4:
                clients.append(daemon.begin_ctr('images', 'rm', '--sync',
                        registry.ref('v%d' % choose.randint(1, 4)),
                                                ns=choose.choice(NAMESPACES)))
        for client in clients:
            text = client.communicate(timeout=300)[0].decode(errors='replace')
            check(client.returncode == 0 or 'not found' in text, 'round %d: %s' % (i, text[-300:]))
        daemon.collect('n1')
        wrong = compare(daemon, snapshotters, NAMESPACES)
        check(not wrong, 'round %d: %s' % (i, wrong))
    all_goes(daemon, registry, snapshotters, check)
    daemon.end()
    check('DATA RACE' not in daemon.told(), 'the race detector told a race: ' + daemon.log)
    return check
