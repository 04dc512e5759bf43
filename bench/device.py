#!/usr/bin/env python3
"""device.py PROGRAM [ROUNDS]: what the program `settings` adds to the system calls that it makes, on the real disk and the real socket.

For stores of 100, 1,000 and 10,000 settings, of which all are defaults or none is, it measures ROUNDS rounds (1,000) over the socket, one
connection for each request: a PATCH of one setting, its commit, a plan of what is owed then, a `POST /set` of the setting, a `GET /verify`, which
reads and renders one file of one line, and a GET of the setting; the opening of the store, by `get` of one setting; and `migrate`. Each is traced once
by strace, over a copy of the store. Then the program does it again, a small program in C makes the same calls, each over a fresh copy, and both are
timed: request by request in turn, of which the median is taken, and runs in turn, three of each, of which the least is taken. GET is also measured
against a bare loop of accept, read, write and close; the memory of a server that was asked for settings is measured where these are texts of
10, 100 and 1,000 bytes; and SQLite is measured besides. Tables are printed. Wants strace and a C compiler, and
works in a new folder below the system's folder for such files, or below BENCH_FOLDER."""
import json
import os
import shutil
import socket
import subprocess
import sys
import tempfile
import time

from peers import sqlite_rows
from traces import built_in, list_of, traced

COUNTS = (100, 1000, 10000)
SIZES = (10, 100, 1000)
RUNS = 3
KINDS = ('PATCH', 'commit', 'plan', 'set', 'verify', 'GET')
RELEASE = 'version = "1.0.1"\n\n[migrations]\n"(1.0.0, 1.0.1)" = ["other"]\n\n[migration.other]\nkind = "replace-string"\nsetting = "settings.word"\nold = "old"\nnew = "new"\n'
# A file that no setting affects but `word`.
FILE = '''
[services.word]
configuration-files = ["word"]
restart-commands = []
[configuration-files.word]
path = "/etc/word"
template-path = "word"
[metadata.settings.word]
affected-services = ["word"]
'''


def model_of(count, size):
    """A model with so many settings, each with a default: a number, or a text of so many bytes."""
    if size is None:
        kind, values = 'int 0 999999', '\n'.join(f'k{i} = {i}' for i in range(count))
    else:
        kind, values = 'line', '\n'.join(f'k{i} = "{i:0{size}}"' for i in range(count))
    return f'[types]\n"settings.load.*" = "{kind}"\n"settings.word" = "line"\n\n[settings]\nword = "old"\n\n[settings.load]\n{values}\n{FILE}'


def run(program, folder, *words, before=()):
    """Runs the program to its end, and answers the seconds."""
    start = time.monotonic()
    ended = subprocess.run([*before, program, *words], cwd=folder, capture_output=True, check=False)
    seconds = time.monotonic() - start
    if ended.returncode != 0:
        sys.exit(f'{words}: status {ended.returncode}, {ended.stdout!r} {ended.stderr!r}')
    return seconds


def seed_of(program, folder, count, size=None):
    """A folder with a store of so many settings: numbers, or texts of so many bytes."""
    os.makedirs(f'{folder}/image/templates')
    for name, text in (('model.toml', model_of(count, size)), ('release.toml', RELEASE), ('templates/word', '{{settings.word}}\n')):
        with open(f'{folder}/image/{name}', 'w', encoding='utf-8') as file:
            file.write(text)
    run(program, folder, 'init', '--version', '1.0.0')
    run(program, folder, 'get', 'settings.word')


def held_in(folder):
    """How many bytes the files below a folder hold, with their paths."""
    places = (os.path.join(above, name) for above, _, names in os.walk(folder) for name in names)
    return sum(os.lstat(place).st_size + len(place) - len(folder) for place in places)


def resident_of(process):
    """The memory that a process has, and the most that it has had, in bytes."""
    with open(f'/proc/{process}/status', encoding='utf-8') as file:
        kept = dict(line.split(':', 1) for line in file)
    return tuple(int(kept[name].split()[0]) * 1024 for name in ('VmRSS', 'VmHWM'))


def ask(place, line='GET /job', body=''):
    """One request, which changes nothing if none is given."""
    with socket.socket(socket.AF_UNIX) as client:
        client.connect(place)
        client.sendall(f'{line} HTTP/1.1\r\nContent-Length: {len(body)}\r\n\r\n{body}'.encode())
        while client.recv(65536):
            pass


class Bench:
    """The folder of all copies, the programs, and how many rounds of requests there are."""

    def __init__(self, program, rounds, base):
        self.program = program
        self.rounds = rounds
        self.base = base
        self.replay, self.client, self.bare = (built_in(base, name) for name in ('replay', 'client', 'bare'))
        self.copies = 0
        self.resident = self.most = 0

    def copy(self, seed):
        """A fresh copy of the seed, which is on the disk."""
        self.copies += 1
        folder = f'{self.base}/{self.copies}'
        shutil.copytree(seed, folder, symlinks=True)
        os.sync()
        return folder

    def started(self, command, folder):
        """A server of this command in the folder, once its socket is there."""
        with open(f'{folder}.log', 'wb') as log:
            server = subprocess.Popen(command, cwd=folder, stdout=log, stderr=log)
        while not os.path.exists(f'{folder}/api.sock') and server.poll() is None:
            time.sleep(0.02)
        return server

    def asked(self, commands, seed, count, how):
        """Asks the servers of two commands in turn, and answers for each kind of request the microseconds of the one, of the other, and of the
        one's first and last tenth. Each server then gets one request more, and ends."""
        folders = [self.copy(seed) for _ in commands]
        servers = [self.started(command, folder) for command, folder in zip(commands, folders)]
        places = [f'{folder}/api.sock' for folder in folders]
        told = subprocess.run([self.client, *places, str(self.rounds), str(count), how], capture_output=True, text=True, check=False)
        if told.returncode:
            for server in servers:
                server.kill()
            sys.exit(f'{commands}: {told.stderr}')
        self.resident, self.most = resident_of(servers[0].pid)
        for place, server in zip(places, servers):
            ask(place)
            server.wait(60)
        times = [float(word) for word in told.stdout.split()]
        return list(zip(*(times[at::4] for at in range(4))))

    def set_before(self, seed, count):
        """A copy of the seed in which each setting was set, to the value that it had, so that none is a default."""
        folder = self.copy(seed)
        server = self.started([self.program, 'serve', '--connections', '2'], folder)
        ask(f'{folder}/api.sock', 'PATCH /settings?tx=bench', json.dumps({'load': {f'k{at}': at for at in range(count)}}))
        ask(f'{folder}/api.sock', 'POST /tx/commit?tx=bench')
        server.wait(60)
        os.remove(f'{folder}/api.sock')
        return folder

    def requests(self, seed, count, which):
        """The rows of requests: what the program takes, and what its calls take."""
        trace, calls = f'{self.base}/trace', f'{self.base}/calls'
        serve = [self.program, 'serve', '--connections', str(len(KINDS) * self.rounds + 1)]
        bare = [self.bare, 'api.sock', serve[-1], '128']
        self.asked([[*traced(trace), *serve], bare], seed, count, 'all')
        many = list_of(trace, calls, 'A')
        for name, (mine, least, early, late) in zip(KINDS, self.asked([serve, [self.replay, calls, 'api.sock']], seed, count, 'all')):
            row = f'{many / len(KINDS) / self.rounds:.0f} | {mine:.0f} | {least:.0f} | {mine / least:.2f} | {late / early:.2f}'
            print(f'| {name}, {count} {which} | {row} |', flush=True)

    def gets(self, seed, count):
        """The row of GET alone, against the bare loop."""
        serve = [self.program, 'serve', '--connections', str(self.rounds + 1)]
        bare = [self.bare, 'api.sock', serve[-1], '128']
        ((mine, least, early, late),) = self.asked([serve, bare], seed, count, 'get')
        row = f'{mine:.0f} | {least:.0f} | {mine / least:.2f} | {late / early:.2f} | {self.most / 1e6:.1f} | {held_in(seed) / 1e6:.1f}'
        print(f'| GET alone, {count} settings | {row} |', flush=True)

    def memory(self, size):
        """The row of memory of a server of 10,000 settings, each a text of so many bytes: what it has, and the most that it had."""
        seed = f'{self.base}/texts-{size}'
        seed_of(self.program, seed, COUNTS[-1], size)
        serve = [self.program, 'serve', '--connections', str(self.rounds + 1)]
        self.asked([serve, [self.bare, 'api.sock', serve[-1], '128']], seed, COUNTS[-1], 'get')
        held = held_in(seed)
        ratios = f'{self.resident / held:.1f} | {self.most / held:.1f}'
        print(f'| {size} | {held / 1e6:.1f} | {self.resident / 1e6:.1f} | {self.most / 1e6:.1f} | {ratios} |', flush=True)

    def command(self, seed, name, words):
        """The row of a run of the program, against its calls."""
        trace, calls = f'{self.base}/trace', f'{self.base}/calls'
        run(self.program, self.copy(seed), *words, before=traced(trace))
        many = list_of(trace, calls)
        by, alone = [], []
        for _ in range(RUNS):
            by.append(run(self.program, self.copy(seed), *words))
            alone.append(run(self.replay, self.copy(seed), calls))
        print(f'| {name} | {many} | {min(by):.3f} | {min(alone):.3f} | {min(by) / min(alone):.2f} |', flush=True)


def main():
    if len(sys.argv) < 2:
        sys.exit(__doc__)
    rounds = int(sys.argv[2]) if len(sys.argv) > 2 else 1000
    program = os.path.abspath(sys.argv[1])
    with tempfile.TemporaryDirectory(dir=os.environ.get('BENCH_FOLDER')) as base:
        bench = Bench(program, rounds, base)
        seeds = {count: f'{base}/seed-{count}' for count in COUNTS}
        for count, seed in seeds.items():
            seed_of(program, seed, count)
        print('| Request | System calls, all kinds | Program, us | The calls alone, us | Ratio | Last tenth to first |\n|---|---:|---:|---:|---:|---:|')
        for count, seed in seeds.items():
            bench.requests(seed, count, 'defaults')
        for count, seed in seeds.items():
            bench.requests(bench.set_before(seed, count), count, 'set before')
        print('\n| Request | Program, us | A bare loop, us | Ratio | Last tenth to first | Resident, MB | Store and image, MB |\n|---|---:|---:|---:|---:|---:|---:|')
        for count, seed in seeds.items():
            bench.gets(seed, count)
        print('\n| Bytes of each setting | Store and image, MB | Resident, MB | At most, MB | Ratio | Ratio at most |\n|---:|---:|---:|---:|---:|---:|')
        for size in SIZES:
            bench.memory(size)
        print('\n| Run | System calls | Program, s | The calls alone, s | Ratio |\n|---|---:|---:|---:|---:|')
        for count, seed in seeds.items():
            bench.command(seed, f'open, {count} settings', ('get', 'settings.word'))
            bench.command(seed, f'migrate, {count} settings', ('migrate', '--to', '1.0.1'))
        print('\n| SQLite, 10,000 rows | us |\n|---|---:|')
        for name, taken in sqlite_rows(base, COUNTS[-1], rounds):
            print(f'| {name} | {taken:.0f} |', flush=True)


if __name__ == '__main__':
    main()
