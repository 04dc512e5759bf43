#!/usr/bin/env python3
"""set_faults.py PROGRAM: fails each system call of `set` in turn, with strace, and looks at the setting and its file.

PROGRAM is the program `settings`. After each fault `get` has to answer the text of before or the new one, and the new one where
`set` had ended with exit status 0; then `apply` ends with 0 and `etc/motd` is the text, rendered. Wants strace."""
import collections
import os
import re
import shutil
import subprocess
import sys
import tempfile

HERE = os.path.dirname(os.path.dirname(os.path.dirname(os.path.abspath(__file__))))
CALLS = ('openat', 'read', 'write', 'fsync', 'rename', 'unlink', 'statx', 'mkdir', 'flock', 'getdents64')
ERRORS = ('EIO', 'ENOSPC')
TEXTS = {'{"settings":{"motd":"%s"}}\n' % text: text for text in ('old', 'new')}
SET = ('set', 'settings.motd="new"')


def run(program, folder, words, before=()):
    """Status and output of a whole run."""
    ended = subprocess.run([*before, program, *words], cwd=folder, capture_output=True, text=True, check=False, timeout=60)
    return ended.returncode, ended.stdout


def counts_of(program, base, folder):
    """How often `set` makes each call."""
    trace = f'{base}/trace'
    run(program, folder, SET, ('strace', '-f', '-o', trace, '-e', 'trace=' + ','.join(CALLS)))
    with open(trace, encoding='utf-8') as file:
        return collections.Counter(found.group(1) for line in file if (found := re.match(r'\d+ +(\w+)\(', line)))


def fault_of(program, folder, call, number, error):
    """The exit status of `set` where that call fails, and what is wrong after it, or None."""
    inject = f'inject={call}:error={error}:when={number}'
    status, _ = run(program, folder, SET, ('strace', '-f', '-o', '/dev/null', '-e', f'trace={call}', '-e', inject))
    # Before main the loader opens libraries: a fault there is none of the program's.
    if status == 127:
        return status, None
    code, line = run(program, folder, ('get', 'settings.motd'))
    text = TEXTS.get(line)
    if code != 0 or text is None or (status == 0 and text != 'new'):
        return status, f'status {status}, and get ended with {code}: {line!r}'
    code, _ = run(program, folder, ('apply',))
    with open(f'{folder}/etc/motd', encoding='utf-8') as file:
        written = file.read()
    if code != 0 or written != text + '\n':
        return status, f'status {status}, apply ended with {code}, and the file is {written!r}'
    return status, None if status in (0, 1, 3, 12) else f'status {status}'


def main():
    program = os.path.abspath(sys.argv[1])
    base = tempfile.mkdtemp()
    seed = f'{base}/seed'
    shutil.copytree(f'{HERE}/examples/motd', f'{seed}/image')
    run(program, seed, ('init', '--version', '1.0.0'))
    run(program, seed, ('set', 'settings.motd="old"'))

    def copy():
        shutil.rmtree(f'{base}/host', ignore_errors=True)
        subprocess.run(['cp', '-a', seed, f'{base}/host'], check=True)
        return f'{base}/host'

    ends, faults = collections.Counter(), []
    counts = counts_of(program, base, copy())
    for call, number, error in ((c, n, e) for c in CALLS for n in range(1, counts[c] + 1) for e in ERRORS):
        status, fault = fault_of(program, copy(), call, number, error)
        ends[status] += 1
        if fault:
            faults.append(f'{call} {number} {error}: {fault}')
    shutil.rmtree(base)
    print('\n'.join(faults))
    print(f'set_faults: {sum(ends.values()) - ends[127]} faults, {len(faults)} wrong; statuses {dict(ends)}')
    sys.exit(1 if faults or not ends else 0)


main()
