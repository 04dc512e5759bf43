"""Fleets, as `fleet` uses them: an etcd on the loopback, and hosts with a server and a follower each, which are started again where they end."""
import json
import os
import shutil
import signal
import socket
import subprocess
import tempfile
import threading
import time
import urllib.request

import hosts

FOLLOW, ROLLOUT = (f'{hosts.ROOT}/examples/fleet/{name}' for name in ('follow', 'rollout'))
TYPES = "[types]\n"
# The row of types that a host which is followed has besides.
REVISION = '"settings.fleet.revision" = "int 0 9223372036854775807"\n'
# Programs of the services: each notes its words, and the one of motd takes a second, or fails, where the file says so.
TOOLS = {name: f'echo "{name}${{*:+ $*}}" >> runs' for name in ('systemctl', 'sysctl')}
TOOLS['motd-reload'] = 'echo motd-reload >> runs; grep -q slow etc/motd && sleep 1; ! grep -q fails etc/motd'
KEYS = {('motd',): 'settings.motd', ('ntp', 'time-servers'): 'settings.ntp.time-servers', ('kernel', 'sysctl', 'a'): 'settings.kernel.sysctl.a',
        ('kernel', 'sysctl', 'x.y'): 'settings.kernel.sysctl."x.y"'}


def start(words, folder, log, **options):
    """A program with a group of its own, in the folder."""
    with open(log, 'ab') as file:
        return subprocess.Popen(words, cwd=folder, stdin=subprocess.DEVNULL, stdout=file, stderr=file, start_new_session=True, **options)


def kill(child):
    """Kills the program with all that it started, at this moment."""
    if child and child.poll() is None:
        os.killpg(child.pid, signal.SIGKILL)
        child.wait()


def until(tells, seconds, step=0.05):
    """Whether it tells so before the time is up."""
    end = time.monotonic() + seconds
    while not tells():
        if time.monotonic() > end:
            return False
        time.sleep(step)
    return True


def free_port():
    with socket.socket() as one:
        one.bind(('127.0.0.1', 0))
        return one.getsockname()[1]


def memory(child):
    """Resident memory in KB, none where it has ended."""
    try:
        with open(f'/proc/{child}/statm', encoding='ascii') as file:
            return int(file.read().split()[1]) * os.sysconf('SC_PAGESIZE') // 1024
    except OSError:
        return 0


def seconds_of(child, waited=False):
    """Time of the processor that it took, with that of its children that ended where these are wanted."""
    with open(f'/proc/{child}/stat', encoding='ascii') as file:
        fields = file.read().rpartition(')')[2].split()
    return sum(map(int, fields[11:15 if waited else 13])) / os.sysconf('SC_CLK_TCK')


class Etcd:
    """An etcd of one member."""

    def __init__(self, folder):
        self.folder, self.child = folder, None
        self.client, peer = (f'http://127.0.0.1:{free_port()}' for _ in range(2))
        self.words = ['etcd', '--data-dir', 'etcd', '--listen-client-urls', self.client, '--advertise-client-urls', self.client, '--listen-peer-urls', peer,
                      '--initial-advertise-peer-urls', peer, '--initial-cluster', f'default={peer}']
        self.environment = {**os.environ, 'ETCDCTL_API': '3', 'ETCDCTL_ENDPOINTS': self.client}

    def start(self):
        self.child = start(self.words, self.folder, f'{self.folder}/etcd.log')

    def ask(self, *words, **options):
        """What etcdctl answers, as JSON. None where it fails."""
        done = subprocess.run(['etcdctl', *words, '-w', 'json'], env=self.environment, stdout=subprocess.PIPE, stderr=subprocess.DEVNULL, check=False,
                              encoding='utf-8', **options)
        return json.loads(done.stdout or '{}') if not done.returncode else None

    def change(self, pairs):
        """Puts texts, and removes where there is None, in one transaction, however long it takes. Its revision."""
        orders = [f'del {json.dumps(key)}' if text is None else f'put {json.dumps(key)} -- {json.dumps(text)}' for key, text in pairs.items()]
        came = []
        until(lambda: came.append(self.ask('txn', input='\n'.join(('', *orders, '', '', '')))) or came[-1], 60)
        return came[-1]['header']['revision']

    def count(self, prefix):
        """How many keys begin so."""
        return len(self.ask('get', '--prefix', '--keys-only', prefix).get('kvs', []))

    def compact(self, revision):
        """Drops the history before the revision. Whether it did."""
        return not subprocess.run(['etcdctl', 'compaction', str(revision)], env=self.environment, stdout=subprocess.DEVNULL, stderr=subprocess.DEVNULL,
                                  check=False).returncode

    def metrics(self):
        """What etcd counts of itself, row by row."""
        with urllib.request.urlopen(f'{self.client}/metrics', timeout=30) as reply:
            return {name: float(count) for name, count in (line.rsplit(' ', 1) for line in reply.read().decode().splitlines() if line[0] != '#')}

    def metric(self, name):
        return self.metrics()[name]

    def figures(self):
        """Requests by method, and bytes of messages both ways."""
        rows = self.metrics()
        names = {name: f'grpc_server_started_total{{grpc_method="{name}",grpc_service="etcdserverpb.{service}"'
                 for service, name in (('KV', 'Range'), ('KV', 'Put'), ('KV', 'Txn'), ('Watch', 'Watch'))}
        names.update({name: f'etcd_network_client_grpc_{name}_bytes_total' for name in ('received', 'sent')})
        return {name: sum(count for row, count in rows.items() if row.startswith(begin)) for name, begin in names.items()}


class Host:
    """A host of examples/host, with a server and a follower."""

    def __init__(self, fleet, name):
        self.fleet, self.name, self.folder = fleet, name, f'{fleet.folder}/{name}'
        hosts.lay(self.folder, tools=TOOLS)
        with open(f'{self.folder}/image/model.toml', encoding='utf-8') as file:
            model = file.read()
        with open(f'{self.folder}/image/model.toml', 'w', encoding='utf-8') as file:
            file.write(model.replace(TYPES, TYPES + REVISION))
        os.symlink(fleet.client, f'{self.folder}/bin/settingsctl')
        self.environment = {**fleet.etcd.environment, 'PATH': hosts.environment(self.folder)['PATH']}
        self.begun, self.server, self.follower, self.log = hosts.run(fleet.program, self.folder, 'init', '--version', '1.5.2'), None, None, f'{self.folder}/log'

    def serve(self, *options):
        words = [self.fleet.program, 'serve', *options]
        self.server = start(words, self.folder, os.devnull, env=self.environment)

    def follow(self):
        self.follower = start([FOLLOW, '--every', str(self.fleet.every), self.name], self.folder, self.log, env=self.environment)

    def reported(self):
        """What the follower reported last."""
        lines = [line for line in (hosts.bytes_of(self.log) or b'').splitlines() if line.startswith(b'{"cause":') and line.endswith(b'}')]
        return json.loads(lines[-1]) if lines else {'state': 'silent', 'revision': 0}

    def live(self):
        """The live settings, and the revision that was applied last."""
        values = hosts.leaves(json.loads(hosts.ask(self.folder, 'GET', '/settings')[1]))
        return values, values.pop(('fleet', 'revision'), 0)

    def runs(self):
        """The programs that ran since this was asked before."""
        lines = sorted((hosts.bytes_of(f'{self.folder}/runs') or b'').decode().splitlines())
        if lines:
            os.remove(f'{self.folder}/runs')
        return lines


class Fleet:
    """Etcd and the hosts. What ends is started again while it is minded, as the system's manager does."""

    def __init__(self, program, client, count):
        self.program, self.client = map(os.path.abspath, (program, client))
        self.folder = tempfile.mkdtemp(prefix='fleet-')
        self.every, self.minded, self.restarts, self.options, self.closed = 600, True, 0, (), False
        self.etcd = Etcd(self.folder)
        self.hosts = [Host(self, f'host{number}') for number in range(count)]
        self.lock = threading.Lock()
        self.thread = threading.Thread(target=self.mind)

    def mind(self):
        """Starts again what has ended, each tenth of a second."""
        while not self.closed:
            with self.lock:
                for one in (self.etcd, *self.hosts) if self.minded else ():
                    self.start_again(one)
            time.sleep(0.1)

    def start_again(self, one):
        if one is self.etcd:
            if one.child is None or one.child.poll() is not None:
                one.start()
            return
        if one.server is None or one.server.poll() is not None:
            one.serve(*self.options)
        if one.follower is None or one.follower.poll() is not None:
            self.restarts += one.follower is not None
            one.follow()

    def kill(self, children):
        """Kills these; whether they are started again is as it is minded."""
        with self.lock:
            for child in children:
                kill(child)

    def all(self):
        return [self.etcd.child, *(child for host in self.hosts for child in (host.server, host.follower))]

    def __enter__(self):
        self.thread.start()
        return self

    def __exit__(self, *_):
        self.closed = True
        self.thread.join()
        for child in self.all():
            kill(child)
        shutil.rmtree(self.folder)
