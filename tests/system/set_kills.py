#!/usr/bin/env python3
"""set_kills.py PROGRAM [N]: kills `set` and then `apply` at random moments, N times, and looks at the setting and its file each time.

PROGRAM is the program `settings`. After each kill of `set` `get` has to answer the text of before or the new one, and the new one where
`set` had ended with exit status 0; then `apply` is killed, and the next one ends with 0 and `etc/motd` is the text, rendered."""
import os
import random
import shutil
import statistics
import subprocess
import sys
import tempfile
import time

HERE = os.path.dirname(os.path.dirname(os.path.dirname(os.path.abspath(__file__))))


def run(program, folder, *words):
    """Status and output of a whole run."""
    ended = subprocess.run([program, *words], cwd=folder, capture_output=True, text=True, check=False)
    return ended.returncode, ended.stdout.strip()


def killed(program, folder, most, *words):
    """Runs the words and kills the program after a random part of the time; its status, or None where it was killed."""
    child = subprocess.Popen([program, *words], cwd=folder, stdout=subprocess.DEVNULL)
    time.sleep(random.random() * most)
    child.kill()
    status = child.wait()
    return None if status < 0 else status


def seconds_of(program, folder):
    """How long one whole `set` takes."""
    began = time.monotonic()
    run(program, folder, 'set', 'settings.motd="0"')
    return time.monotonic() - began


def fault_of(program, folder, old, new, status, most):
    """What is wrong after `set` of the new text, and after an `apply` that is killed, or None; and the text that is there."""
    code, line = run(program, folder, 'get', 'settings.motd')
    texts = {'{"settings":{"motd":"%s"}}' % text: text for text in (old, new)}
    if code != 0 or line not in texts:
        return f'get ended with {code}: {line}', old
    text = texts[line]
    if status == 0 and text != new:
        return f'set ended with 0, and the text is {text}', text
    killed(program, folder, most, 'apply')
    code, line = run(program, folder, 'apply')
    with open(f'{folder}/etc/motd', encoding='utf-8') as file:
        written = file.read()
    if code != 0 or written != text + '\n':
        return f'apply ended with {code}, and the file is {written!r}', text
    return None, text


def main():
    program = os.path.abspath(sys.argv[1])
    rounds = int(sys.argv[2]) if len(sys.argv) > 2 else 300
    folder = tempfile.mkdtemp()
    shutil.copytree(f'{HERE}/examples/motd', f'{folder}/image')
    run(program, folder, 'init', '--version', '1.0.0')
    most = statistics.median(seconds_of(program, folder) for _ in range(9))
    text, ends, new_texts, faults = '0', [], 0, []
    for number in range(1, rounds + 1):
        status = killed(program, folder, most, 'set', f'settings.motd="{number}"')
        fault, now = fault_of(program, folder, text, str(number), status, most)
        ends.append(status)
        new_texts += status is None and now == str(number)
        text = now
        if fault:
            faults.append(f'{number}: {fault}')
    shutil.rmtree(folder)
    print('\n'.join(faults))
    print(f'set_kills: {rounds} rounds, {ends.count(None)} killed, of which {new_texts} had the new text; {len(faults)} wrong')
    sys.exit(1 if faults else 0)


main()
