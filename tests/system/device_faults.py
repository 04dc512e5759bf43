#!/usr/bin/env python3
"""Fault injection: fails each system call of the beginning of a store in turn, with strace, and looks at what the program says and leaves.

Usage: device_faults.py PROGRAM. Wants strace. It works in a new folder below the system's folder for such files.
Each fault must end with an exit status of docs/FORMATS.md and its line, and leave a store that is whole or not there, so that the
next run ends as it should, and the store opens with its defaults. It fails where one does not."""
import os, re, shutil, subprocess, sys, tempfile

CALLS = ["mkdir", "openat", "write", "fsync", "rename", "unlink", "statx", "flock"]
ERRORS = ["EIO", "ENOSPC", "ENOMEM", "EINTR"]
HERE = os.path.dirname(os.path.dirname(os.path.dirname(os.path.abspath(__file__))))
LINES = {0: "1.5.2\n", 1: "settings: memory\n", 3: "settings: disk\n"}
WORDS = ["init", "--version", "1.5.2"]


def run(program, folder, *before):
    command = [*before, program, *WORDS]
    done = subprocess.run(command, cwd=folder, stdout=subprocess.PIPE, stderr=subprocess.PIPE, timeout=60)
    return done.returncode, done.stdout.decode()


def calls_of(program, base):
    """How often the run makes each call, after the start of the program."""
    folder = tempfile.mkdtemp(dir=base)
    trace = os.path.join(base, "trace")
    run(program, folder, "strace", "-f", "-o", trace, "-e", "trace=" + ",".join(CALLS))
    counts = dict.fromkeys(CALLS, 0)
    for line in open(trace):
        name = re.match(r"\d+ +(\w+)\(", line)
        if name and name.group(1) in counts:
            counts[name.group(1)] += 1
    return counts


def check(program, base, call, number, error):
    folder = tempfile.mkdtemp(dir=base)
    inject = f"inject={call}:error={error}:when={number}"
    status, said = run(program, folder, "strace", "-f", "-o", "/dev/null", "-e", f"trace={call}", "-e", inject)
    whole = os.path.exists(os.path.join(folder, ".links", "store", "current"))
    if status == 127 or (status not in LINES and status != 12):
        return f"status {status}"
    if status in LINES and said != LINES[status]:
        return f"status {status} with {said!r}"
    if status == 0 and not whole:
        return "status 0 without a store"
    again, _ = run(program, folder)
    if again != (14 if whole else 0):
        return f"status {status}, and the next run {again} where a store is {'' if whole else 'not '}there"
    shutil.copytree(f"{HERE}/examples/host", f"{folder}/image")
    opened = subprocess.run([program, "get", "settings.motd"], cwd=folder, stdout=subprocess.PIPE, timeout=60)
    if (opened.returncode, opened.stdout.decode()) != (0, '{"settings":{"motd":"Welcome"}}\n'):
        return f"status {status}, and the store opens with {opened.returncode} and {opened.stdout!r}"
    shutil.rmtree(folder)
    return None


def main():
    program = os.path.abspath(sys.argv[1])
    base = tempfile.mkdtemp(prefix="device_faults")
    tried, wrong = 0, 0
    for call, count in calls_of(program, base).items():
        for number in range(1, count + 1):
            for error in ERRORS:
                fault = check(program, base, call, number, error)
                # Before main the loader opens libraries: a fault there is none of the program's.
                if fault == "status 127":
                    continue
                tried += 1
                if fault:
                    wrong += 1
                    print(f"{call} {number} {error}: {fault}")
    shutil.rmtree(base)
    print(f"device_faults: {tried} faults tried, {wrong} wrong")
    sys.exit(1 if wrong or not tried else 0)


main()
