"""Hosts in folders of their own, as the scripts here use them: images, programs, servers, and requests over the socket."""
import json
import os
import re
import shutil
import signal
import socket
import stat
import subprocess
import time

ROOT = os.path.dirname(os.path.dirname(os.path.dirname(os.path.abspath(__file__))))
BARE = re.compile(r'[A-Za-z0-9_-]+\Z')
# The configuration files of examples/host, each with its service and the keys that affect it.
FILES = {'chrony.conf': ('chronyd', ('ntp',)), 'motd': ('motd', ('motd',)), 'sysctl': ('sysctl', ('kernel', 'sysctl'))}
DEFAULTS = {('motd',): 'Welcome', ('ntp', 'time-servers'): ['a.example', 'b.example']}


class Lost(Exception):
    """A connection ended without a whole reply."""


class BadReply(Exception):
    """What came is no reply of docs/API.md."""


def lay(folder, image='host', tools=None):
    """The image in the folder, and programs for its services in front of the path: those of examples/bin, or these."""
    shutil.copytree(f'{ROOT}/examples/{image}', f'{folder}/image')
    shutil.copytree(f'{ROOT}/examples/bin', f'{folder}/bin')
    for name, body in (tools or {}).items():
        with open(f'{folder}/bin/{name}', 'w', encoding='utf-8') as file:
            file.write(f'#!/bin/sh\n{body}\n')
        os.chmod(f'{folder}/bin/{name}', stat.S_IRWXU)


def environment(folder):
    """The system's environment, with the programs of the folder in front."""
    return {**os.environ, 'PATH': f'{folder}/bin:' + os.environ['PATH']}


def run(program, folder, *words, before=(), **options):
    """Status and standard output of a whole run, which is killed with all that it started if it takes too long."""
    with subprocess.Popen([*before, program, *words], cwd=folder, env=environment(folder), start_new_session=True, stdout=subprocess.PIPE,
                          stderr=subprocess.DEVNULL, **options) as child:
        try:
            printed = child.communicate(timeout=120)[0]
        except BaseException:
            os.killpg(child.pid, signal.SIGKILL)
            raise
    return child.returncode, printed.decode()


def parse_reply(data):
    """Status, fields and body of a reply as docs/API.md has it. `Lost` where it is cut short."""
    head, end, body = data.partition(b'\r\n\r\n')
    if not end:
        raise Lost(data)
    line, *rows = head.decode('latin-1').split('\r\n')
    found = re.fullmatch(r'HTTP/1\.1 ([1-5]\d\d) [A-Z][A-Za-z ]+', line)
    fields = dict(row.split(': ', 1) for row in rows)
    if not found or fields.get('Connection') != 'close':
        raise BadReply(data)
    status = int(found.group(1))
    length = int(fields.get('Content-Length', '0'))
    if (status == 204) == ('Content-Length' in fields) or len(body) > length:
        raise BadReply(data)
    if len(body) < length:
        raise Lost(data)
    return status, fields, body.decode()


def connect(folder, timeout=30):
    client = socket.socket(socket.AF_UNIX)
    client.settimeout(timeout)
    try:
        client.connect(f'{folder}/api.sock')
    except OSError:
        client.close()
        raise
    return client


def read_all(client):
    pieces = []
    while piece := client.recv(65536):
        pieces.append(piece)
    return b''.join(pieces)


def request(method, target, body=None):
    """The bytes of a request."""
    length = '' if body is None else f'Content-Length: {len(body.encode())}\r\n'
    return f'{method} {target} HTTP/1.1\r\nHost: localhost\r\n{length}\r\n{body or ""}'.encode()


def ask(folder, method, target, body=None, timeout=30):
    """Status and body of the reply. `Lost` where no whole reply came."""
    try:
        with connect(folder, timeout) as client:
            client.sendall(request(method, target, body))
            status, _, text = parse_reply(read_all(client))
            return status, text
    except OSError as error:
        raise Lost(error) from error


class Server:
    """A server of the folder, in a group of processes of its own, with which it is killed. Its log is nowhere, or goes to a file."""

    def __init__(self, program, folder, *options, before=(), log=subprocess.DEVNULL, **other):
        self.folder = folder
        self.child = subprocess.Popen([*before, program, 'serve', *options], cwd=folder, env=environment(folder), start_new_session=True,
                                      stdout=subprocess.PIPE, stderr=log, **other)

    def ready(self, seconds=20):
        """Waits until it answers. Tells whether it does."""
        end = time.monotonic() + seconds
        while time.monotonic() < end and self.child.poll() is None:
            try:
                return ask(self.folder, 'GET', '/job')[0] == 200
            except Lost:
                time.sleep(0.005)
        return False

    def ended(self, seconds=60):
        """Its status and standard output, once it has ended by itself."""
        printed = self.child.communicate(timeout=seconds)[0]
        return self.child.returncode, printed.decode()

    def kill(self):
        """Kills it with the programs that it runs, at this moment, if it hasn't ended."""
        if self.child.stdout.closed:
            return
        try:
            os.killpg(self.child.pid, signal.SIGKILL)
        except ProcessLookupError:
            pass
        self.child.communicate()

    def __enter__(self):
        return self

    def __exit__(self, *_):
        self.kill()


# ---- settings of examples/host, as maps from the names below `settings` to values

def printed(path, under=('settings',)):
    """A key as the core prints it."""
    return '.'.join(name if BARE.match(name) else f'"{name}"' for name in (*under, *path))


def compact(value):
    return json.dumps(value, separators=(',', ':'), ensure_ascii=False)


def tree(values):
    """The tree of a map."""
    root = {}
    for path in sorted(values, key=lambda path: [name.encode() for name in path]):
        below = root
        for name in path[:-1]:
            below = below.setdefault(name, {})
        below[path[-1]] = values[path]
    return root


def leaves(root, above=()):
    """The map of a tree."""
    found = {}
    for name, value in root.items():
        if isinstance(value, dict):
            found.update(leaves(value, (*above, name)))
        else:
            found[(*above, name)] = value
    return found


def rendered(live):
    """The configuration files of examples/host; none where the template refuses."""
    pools = ''.join(f'pool {server} iburst\n' for server in live[('ntp', 'time-servers')])
    lines = ''.join(f'{path[-1]}={live[path]}\n' for path in sorted(live) if path[:2] == ('kernel', 'sysctl'))
    files = {'chrony.conf': pools + 'driftfile /var/lib/chrony/drift\n', 'sysctl': lines}
    return files if ('motd',) not in live else {**files, 'motd': live[('motd',)] + '\n'}


def bytes_of(path):
    """The bytes of the file, None where there is none."""
    try:
        with open(path, 'rb') as file:
            return file.read()
    except FileNotFoundError:
        return None


def stale(folder, live):
    """The configuration files that are not as they are rendered."""
    return [name for name, text in rendered(live).items() if bytes_of(f'{folder}/etc/{name}') != text.encode()]


def concerned(owed, name):
    """Whether the owed keys, as `GET /job` has them, affect the file."""
    begin = printed(FILES[name][1])
    return owed == 'all' or any(key == begin or key.startswith(begin + '.') for key in owed)
