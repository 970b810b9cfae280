"""The parts of the trial that aren't crashes: Go's tests, containerd's tests, wrong folders,
clients, planted faults."""
import json
import os
import re
import shutil
import subprocess
import time
from typing import Dict, List, Tuple

from daemons import CONTENT, Checks, Daemon, Registry

HERE = os.path.dirname(os.path.abspath(__file__))
TOP = os.path.dirname(os.path.dirname(HERE))
DEBIAN = '/usr/share/gocode'
PACKAGES = ['metad/internal/knows', 'metad/internal/scan', 'metad/metad', 'metad/store', 'metad/metadata',
        'metad/cmd/metad-why']


def go_environment(work: str, sources: str = os.path.join(TOP, 'go')) -> Dict[str, str]:
    """An environment in which Debian's packages and these sources have their import paths."""
    path = os.path.join(work, 'gopath-%d' % len(os.listdir(work)))
    os.makedirs(os.path.join(path, 'src'))
    os.symlink(sources, os.path.join(path, 'src', 'metad'))
    return dict(os.environ, GO111MODULE='off', GOFLAGS='-trimpath', GOPATH='%s:%s' % (path, DEBIAN))


def can_mount(work: str) -> bool:
    """Whether overlayfs may be mounted here."""
    folders = [os.path.join(work, 'mount', name) for name in ('lower', 'upper', 'work', 'at')]
    for folder in folders:
        os.makedirs(folder)
    lower, upper, inner, at = folders
    mounted = subprocess.run(['mount', '-t', 'overlay', 'overlay', '-o',
            'lowerdir=%s,upperdir=%s,workdir=%s'
                              % (lower, upper,
                                      inner), at], stderr=subprocess.DEVNULL).returncode == 0
    if mounted:
        subprocess.run(['umount', at], check=True)
    return mounted


def count_tests(text: str, check: Checks, known: Tuple[str, ...] = ()) -> List[str]:
    """Counts tests by the lines of go test -v, and returns those that were skipped."""
    skipped = []
    for how, name in re.findall(r'--- (PASS|FAIL|SKIP): (\S+)', text):
        if how == 'SKIP':
            skipped.append(name)
        elif how == 'PASS' or name in known:
            check.good += 1
        else:
            check(False, name)
    return skipped


def units(work: str, metad: str) -> Checks:
    check = Checks()
    environment = dict(go_environment(work), METAD=metad)
    sources = subprocess.run(['git', 'ls-files', 'go/*.go', 'trials/containerd/*.go'], cwd=TOP,
            stdout=subprocess.PIPE)
    unformatted = subprocess.run(['gofmt', '-l', *sources.stdout.decode().split()], cwd=TOP,
            stdout=subprocess.PIPE)
    check(not unformatted.stdout, 'gofmt: ' + unformatted.stdout.decode())
    vetted = subprocess.run(['go', 'vet', *PACKAGES], env=environment, stderr=subprocess.PIPE,
            cwd=work)
    check(vetted.returncode == 0, 'go vet: ' + vetted.stderr.decode()[-1000:])
    skipped: List[str] = []
    for words in (['metad/metad', 'metad/metadata'], ['metad/store', '-test.root']):
        ran = subprocess.run(['go', 'test', '-count=1', '-timeout', '1h', '-v', *words],
                             env=environment, cwd=work,
                             stdout=subprocess.PIPE, stderr=subprocess.STDOUT)
        text = ran.stdout.decode(errors='replace')
        skipped += count_tests(text, check)
        check(ran.returncode == 0, 'go test: ' + text[-1500:])
    print('containerd: units: skipped:', ', '.join(skipped) or 'none')
    return check


# What of containerd's tests of its metadata reads bolt's buckets: functions that the shim has in
# their place, and
# tests that are about the buckets alone.
CUT = {'content_test.go': ['checkContentLeased', 'checkIngestLeased'],
       'db_test.go': ['TestInit', 'TestMigrations', 'runMigrationTest', 'readDBVersion']}
# Two namespaces share one snapshot of a remote snapshotter there; here a backend's snapshot has one
# row.
KNOWN = ('TestSnapshotterWithRef',)

PREPARED = ('\t\t\t\t_, err = db.Snapshotter("native").Prepare(ctx, "key", "")\n'
            '\t\t\t\trequire.NoError(t, err)\n')


def without_bolt(name: str, text: str) -> str:
    for function in CUT.get(name, []):
        text = re.sub(r'(?ms)^func ' + function + r'\(.*?^}\n', '', text)
    if name == 'namespaces_test.go':  # a snapshot by the snapshotter, not by a bucket
        text = re.sub(r'(?ms)^\t{4}db\.Update\(func\(tx \*bbolt\.Tx\) error \{\n'
                      r'\t{5}ns, err :=.*?^\t{4}\}\)\n',
                      PREPARED.replace('\t', '\\t').replace('\n', '\\n'), text)
        text = text.replace('\\"testss\\"', '\\"native\\"').replace('"testss"', '"native"')
    body = text[text.index(')\n', text.index('import (')):]
    kept = []
    for line in text.split('\n'):
        used = re.match(r'\t(?:(\w+) )?"([^"]+)"$', line)
        if used:
            package = used.group(1) or re.sub(r'^go-', '', used.group(2).split('/')[-1])
            if not re.search(r'\b' + package + r'\.', body):
                continue  # an import that nothing uses any more
        kept.append(line)
    return '\n'.join(kept)


def metadata(work: str, metad: str) -> Checks:
    """Containerd's own tests of its metadata, over this store."""
    check = Checks()
    environment = dict(go_environment(work), METAD=metad)
    folder = os.path.join(environment['GOPATH'].split(':')[0], 'src', 'tests', 'metadata')
    os.makedirs(folder)
    environment['TMPDIR'] = os.path.join(work, 'stores')  # so they go with the trial
    os.mkdir(environment['TMPDIR'])
    shutil.copy(os.path.join(HERE, 'metadata', 'shim.go'), folder)
    source = os.path.join(DEBIAN, 'src/github.com/containerd/containerd/metadata')
    for name in sorted(os.listdir(source)):
        if name.endswith('_test.go') and name != 'gc_test.go':
            with open(os.path.join(source, name), encoding='utf-8') as file:
                text = without_bolt(name, file.read())
            with open(os.path.join(folder, name), 'w', encoding='utf-8') as file:
                file.write(text)
    ran = subprocess.run(['go', 'test', '-count=1', '-timeout', '1h', '-v', '.', '-test.root'],
                         env=environment, cwd=folder,
                         stdout=subprocess.PIPE, stderr=subprocess.STDOUT)
    text = ran.stdout.decode(errors='replace')
    skipped = count_tests(text, check, KNOWN)
    check('--- PASS' in text, 'containerd\'s tests: ' + text[-1500:])
    print('containerd: metadata: %s fails as it may; skipped: %s; '
          'about bolt alone, not run: TestInit, TestMigrations '
          'of db_test.go, gc_test.go' % (' '.join(KNOWN), ', '.join(skipped) or 'none'))
    return check


def last_number(daemon: Daemon) -> int:
    """The greatest number that the daemon's folder of content has seen."""
    with open(os.path.join(daemon.root, CONTENT, 'metad.number'), encoding='utf-8') as file:
        return int(file.read())


def folders(work: str, program: str, metad: str, registry: Registry) -> Checks:
    """An older backup, another store, a store that is gone, a full disk: a start refuses or goes
    on, and loses nothing."""
    check = Checks()
    daemon = Daemon(work, program, [metad, 'serve'])
    rows, backup = os.path.join(daemon.root, 'metad'), os.path.join(work, 'backup')
    daemon.start_again()
    daemon.pull(registry.ref('v1'), 'native')
    daemon.end()
    shutil.copytree(rows, backup)
    before = last_number(daemon)
    daemon.start_again()
    daemon.pull(registry.ref('v3'), 'native')
    daemon.end()
    behind = last_number(daemon) - before
    blobs, snapshots = daemon.blobs(), daemon.snapshots('native')
    newest = os.path.join(work, 'newest')
    os.rename(rows, newest)

    def refused(text: str) -> None:
        check(not daemon.start() and text in daemon.told()[-2000:], 'not refused: ' + text)
        check(daemon.blobs() == blobs and daemon.snapshots('native') == snapshots
                and not daemon.lost(),
              'a refused start changed files: ' + text)

    shutil.copytree(backup, rows)
    check(behind > 0, 'a pull gives numbers')
    for _ in range(behind + 1):  # no start makes the store younger
        refused('older than its files')
    shutil.rmtree(rows)
    refused('has no store')
    identities = [path for path in (os.path.join(daemon.root, folder, 'metad.id')
            for folder in os.listdir(daemon.root)) if os.path.exists(path)]
    for path in identities:  # the files alone tell that a store was there
        os.rename(path, path + '.away')
    refused('has no store')
    check(not os.path.exists(rows), 'a refused start made a store')
    for path in identities:
        os.rename(path + '.away', path)
    other = Daemon(os.path.join(work, 'other'), program, [metad, 'serve'])
    other.start_again()
    other.pull(registry.ref('v2'), 'native')
    other.end()
    shutil.copytree(os.path.join(other.root, 'metad'), rows, dirs_exist_ok=True)
    refused('and this is store')
    shutil.rmtree(rows)
    os.rename(newest, rows)
    content = os.path.join(daemon.root, CONTENT)
    os.rename(content, content + '.away')
    check(not daemon.start() and 'is it mounted?' in daemon.told()[-2000:],
            'not refused: a folder that is not mounted')
    shutil.rmtree(content)
    os.rename(content + '.away', content)
    daemon.start_again()
    check(daemon.blobs() == blobs and daemon.rows() == blobs, 'the newest store has all')
    daemon.end()
    full_disk(os.path.join(work, 'full'), program, metad, registry, check)
    return check


def full_disk(work: str, program: str, metad: str, registry: Registry, check: Checks) -> None:
    """On a small file system: a pull that finds no room fails, what is there stays, and removals
    make room."""
    os.makedirs(work)
    if subprocess.run(['mount', '-t', 'tmpfs', '-o', 'size=24m', 'tmpfs', work],
            stderr=subprocess.DEVNULL).returncode:
        print('containerd: folders: no file system can be mounted here: a full disk is not tried')
        return
    daemon = Daemon(work, program, [metad, 'serve'])
    try:
        daemon.start_again()
        status, text = daemon.pull(registry.ref('v3'), 'native')
        check(status == 0, 'a pull with room: ' + text[-300:])
        blobs = daemon.blobs()
        filler = os.path.join(work, 'filler')
        subprocess.run(['dd', 'if=/dev/zero', 'of=' + filler, 'bs=64k'], stderr=subprocess.DEVNULL)
        for tag in ('v1', 'v2', 'v4'):
            check(daemon.pull(registry.ref(tag), 'native')[0] != 0, 'a pull without room')
        check(not daemon.is_ended(), 'the daemon ended: ' + daemon.told()[-500:])
        check(daemon.ctr('images', 'check', '--snapshotter', 'native')[1].count('complete') >= 1,
                'the image is whole')
        check(blobs <= daemon.blobs() and not daemon.broken(), 'a blob went or broke')
        for lease in [row.split()[0] for row in daemon.ctr('leases', 'ls')[1].splitlines()[1:]]:
            daemon.ctr('leases', 'rm', lease)
        for tag in ('v1', 'v2', 'v3', 'v4'):
            daemon.ctr('images', 'rm', '--sync', registry.ref(tag))
        check(not daemon.rows() and not daemon.blobs(), 'removals make room on a full disk')
        os.remove(filler)
        status, text = daemon.pull(registry.ref('v1'), 'native')
        check(status == 0, 'a pull with room again: ' + text[-300:])
        daemon.end()
        daemon.start_again()
        check(daemon.rows() == daemon.blobs() and len(daemon.rows()) == 6, 'a start behind it')
    finally:
        daemon.end()
        time.sleep(0.2)
        subprocess.run(['umount', '-l', work])


def client(work: str, program: str, metad: str, registry: Registry, snapshotter: str) -> Checks:
    """Containerd's Go client against both daemons: the same steps, and what it prints but for
    times is the same."""
    check = Checks()
    environment = go_environment(work)
    for name in ('client', 'open'):
        built = os.path.join(environment['GOPATH'].split(':')[0], 'src', 'trial-' + name)
        shutil.copytree(os.path.join(HERE, name), built)
        subprocess.run(['go', 'build', '-o', os.path.join(work, 'go-' + name), '.'], cwd=built,
                env=environment, check=True)
    told: Dict[str, List[str]] = {'client': [], 'open': []}
    for path, words in ((program, [metad, 'serve']), (shutil.which('containerd') or '', [])):
        daemon = Daemon(os.path.join(work, 'client-' + os.path.basename(path)), path, words)
        daemon.start_again()
        for name, arguments in (('client', [registry.ref('v4'), snapshotter, '200']), ('open', [])):
            ran = subprocess.run([os.path.join(work, 'go-' + name), daemon.socket, *arguments],
                    stdout=subprocess.PIPE,
                                 stderr=subprocess.STDOUT)
            text = ran.stdout.decode()
            check(ran.returncode == 0, '%s of %s: %s' % (name, path, text[-400:]))
            told[name].append(re.sub(r' +\d+ ms', '', text))
        daemon.end()
    for name, (ours, theirs) in ((name, texts) for name, texts in told.items()):
        check(ours == theirs, '%s: containerd-metad printed\n%s\ncontainerd\n%s'
                % (name, ours, theirs))
    return check


def docker(work: str, program: str, metad: str, registry: Registry) -> Checks:
    """Docker over this containerd: pull, run, exec, rm, and a container that outlives a killed
    daemon."""
    check = Checks()
    absent = [word for word in ('dockerd', 'docker', 'runc',
            '/bin/busybox') if shutil.which(word) is None]
    if absent:
        print('not run: containerd: docker: these words are missing:', ', '.join(absent))
        return check
    registry.shell()
    daemon = Daemon(work, program, [metad, 'serve'])
    daemon.start_again()
    socket = 'unix://' + os.path.join(work, 'docker.sock')
    with open(os.path.join(work, 'docker.log'), 'wb') as log:
        dockerd = subprocess.Popen(['dockerd', '--containerd', daemon.socket, '-H', socket,
                '--data-root',
                                    os.path.join(work, 'docker'), '--exec-root', os.path.join(work,
                                            'exec'), '--pidfile',
                                    os.path.join(work,
                                            'pid'), '--bridge=none', '--iptables=false',
                                            '--ip-forward=false',
                                    '--live-restore', '--insecure-registry', registry.address],
                                   stdout=log, stderr=log)

    def run(*words: str) -> Tuple[int, str]:
        ran = subprocess.run(['docker', '-H', socket, *words], stdout=subprocess.PIPE,
                stderr=subprocess.STDOUT, timeout=120)
        return ran.returncode, ran.stdout.decode(errors='replace')

    def works(*words: str, prints: str = '') -> None:
        status, text = run(*words)
        check(status == 0 and prints in text, 'docker %s: %d %s'
                % (' '.join(words), status, text[-300:]))

    try:
        until = time.monotonic() + 120
        while run('info')[0] and dockerd.poll() is None and time.monotonic() < until:
            time.sleep(0.1)
        ref = registry.ref('shell')
        works('pull', ref)
        works('run', '--rm', '--net=none', ref, '/bin/sh', '-c', 'echo hello', prints='hello')
        works('run', '-d', '--net=none', '--name', 'web', ref, '/bin/sleep', '1000')
        works('exec', 'web', '/bin/echo', 'inside', prints='inside')
        daemon.collect('moby')
        works('exec', 'web', '/bin/echo', 'still', prints='still')
        daemon.kill()
        time.sleep(0.5)
        daemon.start_again()
        time.sleep(3)
        until = time.monotonic() + 60  # dockerd finds the new daemon by itself
        while run('exec', 'web', '/bin/echo', 'again')[0] and time.monotonic() < until:
            time.sleep(0.5)
        works('exec', 'web', '/bin/echo', 'again', prints='again')
        works('rm', '-f', 'web')
        works('rmi', ref)
    finally:
        run('rm', '-f', 'web')
        dockerd.terminate()
        dockerd.wait()
        daemon.end()
    return check


def faults(work: str, metad: str) -> Checks:
    """Plants each fault of `faults.json` in a copy of the sources, and wants the test that it
    names to fail."""
    check = Checks()
    with open(os.path.join(HERE, 'faults.json'), encoding='utf-8') as file:
        planted = json.load(file)
    for i, fault in enumerate(planted):
        folder = os.path.join(work, 'fault-%d' % i)
        shutil.copytree(os.path.join(TOP, 'go'), folder, ignore=shutil.ignore_patterns('out'))
        path = os.path.join(folder, fault['file'])
        with open(path, encoding='utf-8') as file:
            text = file.read()
        check(text.count(fault['old']) == 1, 'a fault finds its text %d times: %s'
                % (text.count(fault['old']), fault['is']))
        with open(path, 'w', encoding='utf-8') as file:
            file.write(text.replace(fault['old'], fault['new']))
        ran = subprocess.run(['go', 'test', '-count=1', '-v', '-run', '^%s$' % fault['test'],
                'metad/store'],
                             env=dict(go_environment(work, folder),
                                     METAD=metad), cwd=work, stdout=subprocess.PIPE,
                             stderr=subprocess.STDOUT)
        text = ran.stdout.decode(errors='replace')
        seen = '--- FAIL: ' + fault['test'] in text
        check(seen, '%s isn\'t seen by %s: %s' % (fault['is'], fault['test'], text[-600:]))
        print('containerd: faults: %s: %s' % (fault['is'], 'seen' if seen else 'NOT SEEN'),
                flush=True)
    return check


def speed(work: str, program: str, metad: str, registry: Registry, snapshotter: str) -> Checks:
    """Both daemons in turn: an image of 50 layers pulled, pulled again, and removed, in ms;
    metad's lines of it; and 2,000 images."""
    check, rounds = Checks(), int(os.environ.get('ROUNDS', '6'))
    registry.deep(50)
    ref = registry.ref('deep')
    steps = {'pull': ('images', 'pull', '--plain-http', '--snapshotter', snapshotter, ref),
             'pull again': ('images', 'pull', '--plain-http', '--snapshotter', snapshotter, ref),
             'list': ('content', 'ls', '-q'), 'rm --sync': ('images', 'rm', '--sync', ref)}
    daemons = [Daemon(os.path.join(work, 'speed-metad'), program, [metad, 'serve']),
               Daemon(os.path.join(work, 'speed-containerd'), shutil.which('containerd') or '')]
    took: Dict[Tuple[Daemon, str], List[float]] = {}
    for daemon in daemons:
        daemon.start_again()
    for i in range(rounds):
        for daemon in daemons if i % 2 else daemons[::-1]:
            for step, words in steps.items():
                began = time.perf_counter()
                status, text = daemon.ctr(*words)
                took.setdefault((daemon, step), []).append((time.perf_counter() - began) * 1000)
                check(status == 0, text[-300:])
    print('containerd: speed: %s, %d rounds, load %.1f; '
          'containerd-metad and containerd, least and median in ms'
          % (snapshotter, rounds, os.getloadavg()[0]))
    for step in steps:
        ours, theirs = (sorted(took[daemon, step]) for daemon in daemons)
        print('  %-10s %6.0f %6.0f   %6.0f %6.0f   ratio of medians %.2f'
              % (step, ours[0], ours[len(ours) // 2], theirs[0], theirs[len(theirs) // 2],
                 ours[len(ours) // 2] / theirs[len(theirs) // 2]))
    for daemon in daemons:
        daemon.end()
    count_lines(work, program, metad, steps['pull'], check)
    images(work, program, metad, registry, snapshotter, rounds)
    return check


# A pull of 50 layers has at most so many lines, in so many groups.
MOST_LINES, MOST_GROUPS = 900, 750


def count_lines(work: str, program: str, metad: str, pull: Tuple[str, ...],
        check: Checks) -> None:
    """Metad's lines of a pull of 50 layers. With --debug ctr shows no progress, and asks for
    none."""
    counts = {}
    for name, words in (('start', ()), ('pull', ('--debug', *pull)), ('polled', pull)):
        counted = Daemon(os.path.join(work, 'speed-' + name), program, [metad, 'serve'])
        counted.start_again()
        if words:
            counted.ctr(*words)
        time.sleep(0.5)
        counted.end()
        lines, groups = re.findall(r'(\d+) lines were sent to metad, in (\d+) groups',
                counted.told())[-1]
        counts[name] = int(lines), int(groups)
    start, pulled, polled = (counts[name] for name in ('start', 'pull', 'polled'))
    lines, groups = pulled[0] - start[0], pulled[1] - start[1]
    check(lines <= MOST_LINES and groups <= MOST_GROUPS,
          'a pull of 50 layers: %d lines in %d groups' % (lines, groups))
    print('  a pull of 50 layers: %d lines in %d groups; %d and %d more as ctr shows its progress; '
          '%d in %d of a start and its end'
          % (lines, groups, polled[0] - pulled[0], polled[1] - pulled[1], *start))


def images(work: str, program: str, metad: str, registry: Registry, snapshotter: str,
        rounds: int) -> None:
    """Both daemons in turn, by containerd's Go client: 2,000 images made, listed, labelled,
    deleted."""
    environment = go_environment(work)
    built = os.path.join(environment['GOPATH'].split(':')[0], 'src', 'trial-images')
    shutil.copytree(os.path.join(HERE, 'client'), built)
    driver = os.path.join(work, 'go-images')
    subprocess.run(['go', 'build', '-o', driver, '.'], cwd=built, env=environment, check=True)
    took: Dict[str, Dict[str, List[int]]] = {}
    for i in range(rounds):
        both = [('metad', program, [metad, 'serve']),
                ('containerd', shutil.which('containerd') or '', [])]
        for name, path, words in both if i % 2 else both[::-1]:
            folder = os.path.join(work, 'images-' + name)
            daemon = Daemon(folder, path, words)
            daemon.start_again()
            ran = subprocess.run([driver, daemon.socket, registry.ref('v4'), snapshotter, '2000'],
                    stdout=subprocess.PIPE, check=True)
            daemon.end()
            shutil.rmtree(folder)
            for step, ms in re.findall(r'(?m)^(.*\S) +(\d+) ms$', ran.stdout.decode()):
                took.setdefault(step, {}).setdefault(name, []).append(int(ms))
    for step in ('2000 images made', '2001 images listed', '1 of them by a label',
            'a label for each', 'all deleted'):
        ours, theirs = (sorted(took[step][name]) for name in ('metad', 'containerd'))
        print('  %-20s %6d %6d   %6d %6d   ratio of medians %.2f'
              % (step, ours[0], ours[len(ours) // 2], theirs[0], theirs[len(theirs) // 2],
                 ours[len(ours) // 2] / max(1, theirs[len(theirs) // 2])))
