"""A host that is spoiled, and what a person reads of it: what `mistakes` and `edges` share. DISK.. are lines of the programs."""
import os
import shutil
import subprocess
import tempfile
import time

ROOT = os.path.dirname(os.path.dirname(os.path.dirname(os.path.abspath(__file__))))
# A user of no name, as whom a program is run that may not do all.
OTHER = 54321
DIRECTORY = 'store/v1.0.0_0000000000000000'
SET = ['set', 'settings.motd="new"']
OLD, NEW = '{"settings":{"motd":"old"}}', '{"settings":{"motd":"new"}}'
DISK, USAGE = 'settings: disk', 'settings: usage'
AT_WORK = 'settings: a server is at work in this folder: use settingsctl'
# With the programs of the host in front of the path.
HERE = ('sh', '-c', 'PATH=$PWD:$PATH exec "$@"', 'sh')


# ---- ways to spoil a host

def write(path, text):
    with open(path, 'w', encoding='utf-8') as file:
        file.write(text)


def replace(path, old, new):
    with open(path, encoding='utf-8') as file:
        text = file.read()
    assert old in text, path
    write(path, text.replace(old, new))


def link(place):
    """Moves what is at the place aside, and lays a symbolic link to it there."""
    def spoil(host):
        os.rename(f'{host}/{place}', f'{host}/aside')
        os.symlink(f'{host}/aside', f'{host}/{place}')
    return spoil


def pipe(place):
    def spoil(host):
        if os.path.exists(f'{host}/{place}'):
            os.remove(f'{host}/{place}')
        os.mkfifo(f'{host}/{place}')
    return spoil


def dangle(place):
    """Lays a symbolic link to a file that is not there, which a program that follows it would make."""
    def spoil(host):
        if os.path.exists(f'{host}/{place}'):
            os.remove(f'{host}/{place}')
        os.symlink(f'{host}/victim', f'{host}/{place}')
    return spoil


def lay(place, text=''):
    def spoil(host):
        write(f'{host}/{place}', text)
    return spoil


def lay_bytes(place):
    def spoil(host):
        with open(os.fsencode(host) + b'/' + place, 'w', encoding='utf-8'):
            pass
    return spoil


def folder_at_motd(host):
    os.remove(f'{host}/etc/motd')
    os.makedirs(f'{host}/etc/motd/below')
    write(f'{host}/etc/motd/below/file', '')


def give_away(host):
    """All of the host belongs to the other user."""
    for folder, folders, files in os.walk(host):
        for name in ('', *folders, *files):
            os.lchown(os.path.join(folder, name), OTHER, OTHER)


def close(place, mode):
    """All of the host belongs to the other user, but for this, which root alone may use."""
    def spoil(host):
        give_away(host)
        os.chown(f'{host}/{place}', 0, 0)
        os.chmod(f'{host}/{place}', mode)
    return spoil


def file_at_work(host):
    shutil.rmtree(f'{host}/.work')
    write(f'{host}/.work', '')


def pending_of(value):
    """A transaction has the value pending, and the image takes the present one alone."""
    def spoil(host):
        model('"line"', '"choice old"')(host)
        os.makedirs(f'{host}/{DIRECTORY}/pending/t/settings')
        write(f'{host}/{DIRECTORY}/pending/t/settings/motd', value)
    return spoil


def script(host, name, text):
    """A program of the host."""
    write(f'{host}/{name}', f'#!/bin/sh\n{text}\n')
    os.chmod(f'{host}/{name}', 0o755)


def model(old, new):
    return lambda host: replace(f'{host}/image/model.toml', old, new)


def generator(line):
    def spoil(host):
        model('[types]\n', '[types]\n"settings.name" = "line"\n')(host)
        write(f'{host}/image/generators.toml', line)
    return spoil


def leaving(host):
    """The generator leaves a program that has its output open for two seconds."""
    generator('"settings.name" = "leaves"\n')(host)
    script(host, 'leaves', 'sleep 2 &\necho \'"n1"\'')


def release(words):
    return lay('image/release.toml', f'[migrations]\n"(1.0.0, 1.1.0)" = ["ask"]\n[migration.ask]\nkind = "program"\nwords = "{words}"\n')


def nothing(host):
    pass


# ---- a host, and what comes of it

def wait_for(place):
    for _ in range(200):
        if os.path.exists(place):
            return
        time.sleep(0.05)


def lines_of(place):
    """The lines of the file, none where there is none."""
    if not os.path.exists(place):
        return []
    with open(place, encoding='utf-8') as file:
        return file.read().splitlines()


def slow_host(table, seconds=2):
    """A host with a restart command that takes so many seconds."""
    host = table.fresh()
    model('restart-commands = []', 'restart-commands = ["slow"]')(host)
    script(host, 'slow', f'echo "$WORD" >> begun; echo said >&2; sleep {seconds}; echo >> ended')
    return host


def copied(base, program):
    """A copy of the program where each user may run it."""
    place = f'{base}/{os.path.basename(program)}'
    shutil.copy(program, place)
    os.chmod(place, 0o755)
    return place


class Table:
    """Programs, rows that were compared, and how many differed."""

    def __init__(self, base, program):
        self.base, self.program, self.rows, self.wrong = base, program, 0, 0

    def tell(self, what, came, wanted):
        self.rows += 1
        self.wrong += came != wanted
        print(f'{"" if came == wanted else "WRONG "}{what}: {came}', *([f'  wanted {wanted}'] if came != wanted else []), sep='\n', flush=True)

    def compare(self, what, words, host, wanted, user=None, before=(), out=subprocess.PIPE):
        """Runs the words as the user, and compares what came."""
        other = {'user': user, 'group': user, 'extra_groups': []} if user else {}
        try:
            ran = subprocess.run([*before, *words], cwd=host, stdin=subprocess.DEVNULL, stdout=out, stderr=subprocess.PIPE, timeout=20, check=False,
                                 **other)
        except subprocess.TimeoutExpired:
            self.tell(what, 'it does not end', wanted)
            return
        first = lambda text: (text or b'').decode().split('\n')[0]
        self.tell(what, (ran.returncode, first(ran.stdout), first(ran.stderr)), wanted)

    def fresh(self, begun=True):
        """The folder of a new host of one setting."""
        host = tempfile.mkdtemp(dir=self.base)
        os.chmod(host, 0o755)
        shutil.copytree(f'{ROOT}/examples/motd', f'{host}/image')
        for words in (['init', '--version', '1.0.0'], ['set', 'settings.motd="old"']) if begun else ():
            subprocess.run([self.program, *words], cwd=host, stdout=subprocess.DEVNULL, check=True)
        return host
