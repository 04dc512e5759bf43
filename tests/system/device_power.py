#!/usr/bin/env python3
"""Cuts the power of a small disk beneath the beginning of a store, and looks at what is on it.

Usage: device_power.py PROGRAM, as root. Wants strace, mkfs.ext4, e2fsck and loop devices. The disk is a file with ext4
without a journal. A run of `init` is killed at each of its calls that changes something or flushes something. Then the
power goes, or a second run ends first. The power goes by a copy of the file, as it is, which is checked and mounted: there
the store is absent or opens with its defaults, and it opens where a run has ended with 0. It fails where one is not so."""
import os, shutil, signal, subprocess, sys, tempfile

HERE = os.path.dirname(os.path.dirname(os.path.dirname(os.path.abspath(__file__))))
WORDS = ["init", "--version", "1.5.2"]
CALLS = ["mkdir", "fsync", "rename", "write"]
OPENS = (0, b'{"settings":{"motd":"Welcome"}}\n')
ABSENT = (6, b"settings: no store\n")


def quiet(*command, wanted=(0,)):
    done = subprocess.run(command, stdout=subprocess.DEVNULL, stderr=subprocess.DEVNULL)
    if done.returncode not in wanted:
        raise SystemExit(f"{' '.join(command)}: status {done.returncode}")


def lay_image(folder):
    """Lays the image of a host into the folder, in place of what a cut has left of it."""
    shutil.rmtree(f"{folder}/image", ignore_errors=True)
    shutil.copytree(f"{HERE}/examples/host", f"{folder}/image")


def after_cut(program, base, disk):
    """What `get` comes to after the cut."""
    copy, folder = os.path.join(base, "copy"), os.path.join(base, "after")
    shutil.copyfile(disk, copy)
    quiet("e2fsck", "-fy", copy, wanted=(0, 1, 2))
    os.makedirs(folder, exist_ok=True)
    quiet("mount", "-o", "loop", copy, folder)
    try:
        lay_image(folder)
        done = subprocess.run([program, "get", "settings.motd"], cwd=folder, stdout=subprocess.PIPE)
        return done.returncode, done.stdout
    finally:
        quiet("umount", folder)


def check(program, base, call, number, second):
    disk, folder = os.path.join(base, "disk"), os.path.join(base, "before")
    with open(disk, "wb") as file:
        file.truncate(16 << 20)
    quiet("mkfs.ext4", "-q", "-O", "^has_journal", disk)
    os.makedirs(folder, exist_ok=True)
    quiet("mount", "-o", "loop", disk, folder)
    try:
        lay_image(folder)
        kill = f"inject={call}:signal=KILL:when={number}"
        command = ["strace", "-o", "/dev/null", "-e", f"trace={call}", "-e", kill, program, *WORDS]
        first = subprocess.run(command, cwd=folder, stdout=subprocess.PIPE)
        status = None
        if second:
            status = subprocess.run([program, *WORDS], cwd=folder, stdout=subprocess.DEVNULL).returncode
        left = after_cut(program, base, disk)
    finally:
        quiet("umount", folder)
    killed = first.returncode == -signal.SIGKILL
    if left not in (ABSENT, OPENS):
        return killed, f"torn: {left!r}"
    if (first.stdout or status == 0) and left != OPENS:
        return killed, "an acknowledged store went"
    return killed, None


def main():
    program = os.path.abspath(sys.argv[1])
    base = tempfile.mkdtemp(prefix="device_power")
    tried, wrong = 0, 0
    for call in CALLS:
        killed = True
        number = 0
        while killed:
            number += 1
            for second in (False, True):
                killed, fault = check(program, base, call, number, second)
                tried += killed
                if fault:
                    wrong += 1
                    print(f"{call} {number}, {'second' if second else 'first'} run: {fault}")
    shutil.rmtree(base)
    print(f"device_power: {tried} cuts, {wrong} wrong")
    sys.exit(1 if wrong else 0)


main()
