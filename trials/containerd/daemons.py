"""A registry with small images, and daemons with folders of their own, for the trials of
containerd-metad."""
import hashlib
import os
import signal
import socket
import subprocess
import time
from typing import Dict, List, Optional, Sequence, Set, Tuple

TOP = os.path.dirname(os.path.dirname(os.path.dirname(os.path.abspath(__file__))))
CONTENT = 'io.containerd.content.v1.content'


def free_port() -> int:
    with socket.socket() as s:
        s.bind(('127.0.0.1', 0))
        return int(s.getsockname()[1])


class Registry:
    """Debian's registry over a folder, with app:v1 to app:v4. v1 and v2 share three layers of 200
    files, v3 and v4 share two others; v1, v3 and v4 remove a file in their last layer.
    `app:deep` has as many layers as it is asked."""

    def __init__(self, work: str) -> None:
        self.work = work
        self.address = '127.0.0.1:%d' % free_port()
        os.makedirs(work)
        config = os.path.join(work, 'registry.yml')
        with open(config, 'w') as file:
            file.write('version: 0.1\nlog:\n  level: error\n'
                       'storage:\n  filesystem:\n    rootdirectory: %s\n'
                       'http:\n  addr: %s\n' % (os.path.join(work, 'registry'), self.address))
        self.log = open(os.path.join(work, 'registry.log'), 'wb')
        self.process = subprocess.Popen(['docker-registry', 'serve', config], stdout=self.log,
                stderr=self.log)
        until = time.monotonic() + 120
        while self.process.poll() is None and time.monotonic() < until:
            with socket.socket() as s:
                host, port = self.address.split(':')
                if s.connect_ex((host, int(port))) == 0:
                    return
            time.sleep(0.05)
        raise SystemExit('trials/containerd: the registry does not start')

    def ref(self, tag: str) -> str:
        return '%s/app:%s' % (self.address, tag)

    def umoci(self, *words: str) -> None:
        subprocess.run(['umoci', *words], cwd=self.work, check=True, stdout=subprocess.DEVNULL,
                       stderr=subprocess.DEVNULL)

    def new(self, tag: str) -> None:
        if not os.path.isdir(os.path.join(self.work, 'oci')):
            self.umoci('init', '--layout', 'oci')
        self.umoci('new', '--image', 'oci:' + tag)
        self.umoci('config', '--image', 'oci:' + tag, '--config.cmd', '/bin/sh', '--architecture',
                'amd64', '--os',
                   'linux')

    def layer(self, tag: str, name: str, files: int, size: int) -> None:
        folder = os.path.join(self.work, 'src', name)
        os.makedirs(folder)
        for i in range(files):
            with open(os.path.join(folder, 'f%d' % (i + 1)), 'wb') as file:
                file.write(os.urandom(size))
        self.umoci('insert', '--image', 'oci:' + tag, folder, '/data/' + name)

    def push(self, tag: str) -> None:
        subprocess.run(['skopeo', 'copy', '-q', '--dest-tls-verify=false', 'oci:oci:' + tag,
                        'docker://' + self.ref(tag)], cwd=self.work, check=True)

    def small(self) -> None:
        self.new('v1')
        for i in (1, 2, 3):
            self.layer('v1', 'l%d' % i, 200, 4000)
        self.umoci('tag', '--image', 'oci:v1', 'v2')
        self.layer('v2', 'l4', 1, 3000000)
        self.umoci('insert', '--image', 'oci:v1', '--whiteout', '/data/l1/f1')
        self.new('v3')
        for i in (5, 6):
            self.layer('v3', 'l%d' % i, 50, 20000)
        self.umoci('tag', '--image', 'oci:v3', 'v4')
        for i in (7, 8, 9):
            self.layer('v4', 'l%d' % i, 20, 1000)
        self.umoci('insert', '--image', 'oci:v3', '--whiteout', '/data/l5/f1')
        self.umoci('insert', '--image', 'oci:v4', '--whiteout', '/data/l5/f2')
        for tag in ('v1', 'v2', 'v3', 'v4'):
            self.push(tag)

    def deep(self, layers: int) -> None:
        self.new('deep')
        for i in range(layers):
            self.layer('deep', 'd%d' % i, 3, 2000)
        self.push('deep')

    def shell(self) -> None:
        """app:shell has Debian's static busybox."""
        self.new('shell')
        folder = os.path.join(self.work, 'src', 'bin')
        os.makedirs(folder)
        subprocess.run(['cp', '/bin/busybox', os.path.join(folder, 'busybox')], check=True)
        for name in ('sh', 'echo', 'sleep', 'cat'):
            os.symlink('busybox', os.path.join(folder, name))
        self.umoci('insert', '--image', 'oci:shell', folder, '/bin')
        self.push('shell')

    def end(self) -> None:
        self.process.terminate()
        self.process.wait()


class Daemon:
    """A containerd with a folder of its own: containerd-metad over a metad program, or Debian's
    containerd."""

    def __init__(self, work: str, program: str, metad: Sequence[str] = ()) -> None:
        self.work, self.program = work, program
        self.root, self.socket = os.path.join(work, 'root'), os.path.join(work, 'sock')
        self.log = os.path.join(work, 'log')
        self.process: Optional[subprocess.Popen[bytes]] = None
        os.makedirs(work, exist_ok=True)
        self.configure(metad)

    def configure(self, metad: Sequence[str]) -> None:
        lines = ['version = 2', 'root = "%s"' % self.root, 'state = "%s/state"' % self.work,
                '[grpc]',
                 'address = "%s"' % self.socket]
        if metad:
            lines += ['[plugins."io.metad.v1.store"]',
                      'command = [%s]' % ', '.join('"%s"' % word for word in metad)]
        with open(os.path.join(self.work, 'config.toml'), 'w') as file:
            file.write('\n'.join(lines) + '\n')

    def start(self, *words: str, wait: bool = True) -> bool:
        """Starts it, and returns whether it serves."""
        log = open(self.log, 'ab')
        mark = log.seek(0, 2)
        self.process = subprocess.Popen([self.program, '-c', os.path.join(self.work, 'config.toml'),
                *words],
                                        stdout=log, stderr=log)
        log.close()
        while wait and self.process.poll() is None:
            with open(self.log, 'rb') as file:
                file.seek(mark)
                if b'successfully booted' in file.read():
                    return True
            time.sleep(0.02)
        return not wait

    def start_again(self, *words: str) -> None:
        """Starts it once its store isn't locked any more by the metad before."""
        for _ in range(100):
            if self.start(*words):
                return
            time.sleep(0.1)
        raise SystemExit('trials/containerd: no start: ' + self.told()[-800:])

    def told(self) -> str:
        with open(self.log, encoding='utf-8', errors='replace') as file:
            return file.read()

    def is_ended(self) -> bool:
        return self.process is None or self.process.poll() is not None

    def has_ended(self, seconds: float) -> bool:
        """Whether it ends within so many seconds."""
        assert self.process is not None
        try:
            self.process.wait(seconds)
        except subprocess.TimeoutExpired:
            return False
        return True

    def metad(self) -> List[int]:
        """The process of metad beneath it."""
        assert self.process is not None
        found = []
        tasks = '/proc/%d/task' % self.process.pid
        for task in os.listdir(tasks):
            with open(os.path.join(tasks, task, 'children')) as file:
                found += [int(pid) for pid in file.read().split()]
        if not found:
            raise SystemExit('trials/containerd: the daemon has no metad beneath it')
        return found

    def end(self) -> None:
        if self.process is not None and self.process.poll() is None:
            self.process.send_signal(signal.SIGTERM)
            self.process.wait()

    def kill(self) -> None:
        assert self.process is not None
        self.process.kill()
        self.process.wait()

    def begin_ctr(self, *words: str, ns: str = 'default',
            env: Optional[Dict[str, str]] = None) -> 'subprocess.Popen[bytes]':
        return subprocess.Popen(['ctr', '-a', self.socket, '--connect-timeout', '20s', '-n', ns,
                *words],
                                stdin=subprocess.DEVNULL, stdout=subprocess.PIPE,
                                stderr=subprocess.STDOUT,
                                env=dict(os.environ, **(env or {})))

    def ctr(self, *words: str, ns: str = 'default', stdin: Optional[bytes] = None,
            env: Optional[Dict[str, str]] = None, seconds: float = 180) -> Tuple[int, str]:
        """Status and output. A daemon that ends beneath it ends it too, since ctr would wait."""
        process = subprocess.Popen(['ctr', '-a', self.socket, '--connect-timeout', '20s', '-n', ns,
                *words],
                                   stdin=subprocess.PIPE, stdout=subprocess.PIPE,
                                   stderr=subprocess.STDOUT,
                                   env=dict(os.environ, **(env or {})))
        until = time.monotonic() + seconds
        while True:
            try:
                text = process.communicate(input=stdin, timeout=0.3)[0]
                return process.returncode, text.decode(errors='replace')
            except subprocess.TimeoutExpired:
                stdin = None
                if self.is_ended() or time.monotonic() > until:
                    process.kill()
                    return -1, process.communicate()[0].decode(errors='replace')

    def pull(self, ref: str, snapshotter: str, **more: str) -> Tuple[int, str]:
        return self.ctr('images', 'pull', '--plain-http', '--snapshotter', snapshotter, ref,
                **more)  # type: ignore

    # ---- its files, and its rows by ctr

    def blobs(self) -> Set[str]:
        folder = os.path.join(self.root, CONTENT, 'blobs', 'sha256')
        return {'sha256:' + name for name in (os.listdir(folder) if os.path.isdir(folder) else [])}

    def broken(self) -> List[str]:
        """Blobs whose bytes aren't those of their names."""
        found = []
        for blob in self.blobs():
            with open(os.path.join(self.root, CONTENT, 'blobs', *blob.split(':')), 'rb') as file:
                if hashlib.sha256(file.read()).hexdigest() != blob[7:]:
                    found.append(blob)
        return found

    def ingests(self) -> List[str]:
        folder = os.path.join(self.root, CONTENT, 'ingest')
        return os.listdir(folder) if os.path.isdir(folder) else []

    def lost(self) -> List[str]:
        return [os.path.join(folder, name) for folder, _, names in
                os.walk(os.path.join(self.root, CONTENT, 'lost')) for name in names]

    def snapshots(self, snapshotter: str) -> Set[str]:
        folder = os.path.join(self.root, 'io.containerd.snapshotter.v1.' + snapshotter, 'snapshots')
        return {name for name in (os.listdir(folder) if os.path.isdir(folder) else [])
                if not name.startswith(('rm-', 'new-'))}

    def left(self, snapshotter: str) -> str:
        """Which files are there, and with them the rows; an empty text if there is no file."""
        files = {'lost': sorted(os.path.relpath(path, os.path.join(self.root, CONTENT, 'lost'))
                                for path in self.lost()),
                 'blobs': sorted(self.blobs()), 'ingests': sorted(self.ingests()),
                 'snapshots': sorted(self.snapshots(snapshotter))}
        if not any(files.values()):
            return ''
        rows = {'rows of content': sorted(self.rows()),
                'rows of snapshots': self.keys(snapshotter)}
        return '; '.join('%s: %s' % (kind, ' '.join(names) or 'none')
                         for kind, names in {**files, **rows}.items())

    def rows(self, ns: str = 'default') -> Set[str]:
        return set(self.ctr('content', 'ls', '-q', ns=ns)[1].split())

    def keys(self, snapshotter: str, ns: str = 'default') -> List[str]:
        text = self.ctr('snapshots', '--snapshotter', snapshotter, 'ls', ns=ns)[1]
        return [line.split()[0] for line in text.splitlines()[1:] if line.strip()]

    def usage(self, snapshotter: str, ns: str = 'default') -> int:
        """How many snapshots of rows the snapshotter has."""
        return len(self.ctr('snapshots', '--snapshotter', snapshotter, 'usage',
                ns=ns)[1].splitlines()) - 1

    def collect(self, ns: str = 'default') -> None:
        """A collection: a lease that is removed with sync."""
        self.ctr('leases', 'create', '--id', 'for-gc', ns=ns)
        self.ctr('leases', 'rm', '--sync', 'for-gc', ns=ns)


def compare(daemon: Daemon, snapshotters: Sequence[str],
        namespaces: Sequence[str] = ('default',)) -> str:
    """What of rows and files doesn't agree; an empty text if all does. A snapshot in lost/ has no
    row. Containerd's native snapshotter makes a folder before it commits its own database, and
    a crash between leaves it there."""
    wrong = []
    rows: Set[str] = set()
    for ns in namespaces:
        rows |= daemon.rows(ns)
    blobs = daemon.blobs()
    if rows != blobs:
        wrong.append('%d rows without a blob, %d blobs without a row'
                % (len(rows - blobs), len(blobs - rows)))
    if daemon.broken():
        wrong.append('%d blobs are broken' % len(daemon.broken()))
    for name in snapshotters:
        keys = sum(len(daemon.keys(name, ns)) for ns in namespaces)
        has = sum(daemon.usage(name, ns) for ns in namespaces)
        lost = sum('/snapshots/%s/' % name in path for path in daemon.lost())
        folders = len(daemon.snapshots(name))
        if keys != has or keys + lost > folders or keys + lost < folders and name != 'native':
            wrong.append('%s: %d rows, %d in the backend, %d folders, %d lost'
                         % (name, keys, has, folders, lost))
    return '; '.join(wrong)


class Checks:
    """Counts what is so and what isn't."""

    def __init__(self) -> None:
        self.good = self.failed = 0

    def __call__(self, good: bool, text: str) -> None:
        if good:
            self.good += 1
        else:
            self.failed += 1
            print('FAIL', text, flush=True)
