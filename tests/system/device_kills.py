#!/usr/bin/env python3
"""Kills the beginning of a store at random moments, and looks at what it leaves.

Usage: device_kills.py PROGRAM [HOW MANY]. Each run is stopped by SIGKILL after some microseconds. The store must be
absent or whole, an exit status 0 must have come with it, and the next run must end as it should. It fails where one does not."""
import os, random, shutil, signal, subprocess, sys, tempfile, time

HERE = os.path.dirname(os.path.dirname(os.path.dirname(os.path.abspath(__file__))))
WORDS = ["init", "--version", "1.5.2"]


def check(program, base, wait):
    folder = tempfile.mkdtemp(dir=base)
    child = subprocess.Popen([program, *WORDS], cwd=folder, stdout=subprocess.PIPE)
    time.sleep(wait)
    child.send_signal(signal.SIGKILL)
    said = child.communicate()[0].decode()
    hit = child.returncode == -signal.SIGKILL
    whole = os.path.exists(os.path.join(folder, ".links", "store", "current"))
    if said and not whole:
        return hit, "a line without a store"
    again = subprocess.run([program, *WORDS], cwd=folder, stdout=subprocess.PIPE).returncode
    if again != (14 if whole else 0):
        return hit, f"the next run ends with {again}"
    shutil.copytree(f"{HERE}/examples/host", f"{folder}/image")
    opened = subprocess.run([program, "get", "settings.motd"], cwd=folder, stdout=subprocess.PIPE)
    if (opened.returncode, opened.stdout) != (0, b'{"settings":{"motd":"Welcome"}}\n'):
        return hit, f"the store opens with {opened.returncode} and {opened.stdout!r}"
    shutil.rmtree(folder)
    return hit, None


def main():
    program = os.path.abspath(sys.argv[1])
    times = int(sys.argv[2]) if len(sys.argv) > 2 else 300
    base = tempfile.mkdtemp(prefix="device_kills")
    began = time.time()
    check(program, base, 5)
    longest = 0.03
    hits, wrong = 0, 0
    for _ in range(times):
        hit, fault = check(program, base, random.random() * longest)
        hits += hit
        if fault:
            wrong += 1
            print(fault)
    shutil.rmtree(base, ignore_errors=True)
    print(f"device_kills: {times} runs, {hits} killed before their end, {wrong} wrong, {time.time() - began:.0f} s")
    sys.exit(1 if wrong or not hits else 0)


main()
