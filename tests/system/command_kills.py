#!/usr/bin/env python3
"""command_kills.py PROGRAM [N]: kills init, migrate, prune and get at random moments and looks at the store each time.

PROGRAM is the program `settings`. After each kill the store has to be there whole, in the old version or in the new one: `init`
tells its version, and `get` the text of the day, which is `Welcome` in 1.5.2 and `Hello` in 1.5.3. Where a command had ended with
exit status 0 before the kill, the store has to be in its version."""
import os
import random
import shutil
import subprocess
import sys
import tempfile
import time

HERE = os.path.dirname(os.path.dirname(os.path.dirname(os.path.abspath(__file__))))
TEXTS = {'1.5.2': 'Welcome', '1.5.3': 'Hello'}


def run(program, folder, *words):
    ended = subprocess.run([program, *words], cwd=folder, capture_output=True, text=True, check=False)
    return ended.returncode, ended.stdout.strip()


def killed(program, folder, most, *words):
    """Runs the words and kills the program after a random part of the time; its status, or None where it was killed."""
    child = subprocess.Popen([program, *words], cwd=folder, stdout=subprocess.DEVNULL)
    time.sleep(random.random() * most)
    child.kill()
    status = child.wait()
    return None if status < 0 else status


def seconds_of(program, folder, *words):
    """How long the whole run of the words takes."""
    began = time.monotonic()
    run(program, folder, *words)
    return time.monotonic() - began


def version_of(program, folder):
    """The version of the store; None where there is none, which begins one."""
    status, line = run(program, folder, 'init', '--version', '1.5.2')
    if status == 0:
        return None
    assert status == 14, (status, line)
    return line.split()[-1]


def main(program, rounds):
    counts = {'killed': 0, 'moved': 0, 'begun again': 0}
    folder = tempfile.mkdtemp(prefix='command-kills-')
    shutil.copytree(f'{HERE}/examples/host', f'{folder}/image')
    shutil.copy(f'{HERE}/examples/release/release.toml', f'{folder}/image')
    begin = seconds_of(program, folder, 'init', '--version', '1.5.2')
    move = seconds_of(program, folder, 'migrate', '--to', '1.5.3')
    for number in range(rounds):
        if number % 25 == 0:
            shutil.rmtree(f'{folder}/store', ignore_errors=True)
            shutil.rmtree(f'{folder}/.links', ignore_errors=True)
            status = killed(program, folder, 3 * begin, 'init', '--version', '1.5.2')
            counts['killed'] += status is None
            version = version_of(program, folder)
            assert version == '1.5.2' if status == 0 else version in (None, '1.5.2'), (status, version)
            counts['begun again'] += version is None
            # (the first opening lays the defaults)
            run(program, folder, 'get')
        before = version_of(program, folder)
        to = '1.5.3' if before == '1.5.2' else '1.5.2'
        words = random.choice([('migrate', '--to', to), ('migrate', '--to', to), ('prune',), ('get',)])
        status = killed(program, folder, 3 * move, *words)
        after = version_of(program, folder)
        wanted = {before, to} if words[0] == 'migrate' and status is None else {to} if words[0] == 'migrate' and status == 0 else {before}
        assert after in wanted, (words, status, before, after)
        told = run(program, folder, 'get', 'settings.motd')
        assert told == (0, f'{{"settings":{{"motd":"{TEXTS[after]}"}}}}'), (words, status, after, told)
        counts['killed'] += status is None
        counts['moved'] += after != before
    shutil.rmtree(folder)
    print(f'{rounds} rounds, none wrong:', ', '.join(f'{name} {count}' for name, count in counts.items()))


main(os.path.abspath(sys.argv[1]), int(sys.argv[2]) if len(sys.argv) > 2 else 300)
