"""The system calls of a program, read off a trace of strace, as a list for replay.c."""
import os
import re
import subprocess

HERE = os.path.dirname(os.path.abspath(__file__))
CALLS = ('openat', 'open', 'read', 'write', 'pread64', 'recvfrom', 'sendto', 'fsync', 'fdatasync', 'close', 'rename', 'renameat', 'renameat2', 'unlink',
         'unlinkat', 'mkdir', 'mkdirat', 'rmdir', 'stat', 'lstat', 'newfstatat', 'statx', 'getdents64', 'accept', 'accept4', 'shutdown', 'setsockopt')
FLAGS = {name: getattr(os, name) for name in ('O_RDONLY', 'O_WRONLY', 'O_RDWR', 'O_CREAT', 'O_EXCL', 'O_TRUNC', 'O_APPEND', 'O_CLOEXEC', 'O_DIRECTORY',
                                              'O_NOFOLLOW', 'O_NONBLOCK')}
LINE = re.compile(r'^(?:\d+ +)?(\w+)\((.*)\) += (-?\d+)')
SOME = {'read': 'R', 'pread64': 'R', 'recvfrom': 'R', 'write': 'W', 'sendto': 'W', 'getdents64': 'G'}
ONE = {'fsync': 'F', 'fdatasync': 'F', 'close': 'C', 'setsockopt': 'P'}
AT = {'unlink': 'U', 'unlinkat': 'U', 'mkdir': 'M', 'mkdirat': 'M', 'rmdir': 'D', 'stat': 'S', 'lstat': 'S', 'newfstatat': 'S', 'statx': 'S'}


def traced(trace):
    """The words that begin a command whose calls are to be traced into this file."""
    return ['strace', '-f', '-s', '4096', '-o', trace, '-e', 'trace=' + ','.join(CALLS)]


def numbers_of(operands):
    """The numbers that are alone among the operands."""
    return [int(number) for number in re.findall(r'(?:^|, )(\d+)(?=,|$)', re.sub(r'"(?:[^"\\]|\\.)*"(?:\.\.\.)?', '""', operands))]


def line_of(call, operands, result):
    """The line of one call, or None for one that isn't made again."""
    paths = re.findall(r'"((?:[^"\\]|\\.)*)"', operands)
    if call in ('accept', 'accept4'):
        return f'A\t{result}' if result >= 0 else None
    if call in ('open', 'openat'):
        flags = sum(FLAGS.get(name, 0) for name in set(re.findall(r'O_\w+', operands)))
        return f'O\t{result}\t{flags}\t{paths[0]}' if result >= 0 else f'S\t{paths[0]}'
    if call in SOME:
        # What was asked for in reading, what was taken in writing.
        size = result if SOME[call] == 'W' else numbers_of(operands)[1]
        return f'{SOME[call]}\t{numbers_of(operands)[0]}\t{max(size, 0)}'
    if call in ONE:
        return f'{ONE[call]}\t{numbers_of(operands)[0]}'
    if call == 'shutdown':
        return f'H\t{numbers_of(operands)[0]}\t{1 if "SHUT_WR" in operands else 2}'
    if call.startswith('rename'):
        return f'N\t{paths[0]}\t{paths[1]}'
    return f'{AT[call]}\t{paths[0]}' if paths and paths[0] else None


def list_of(trace, target, begins=None):
    """Writes the list of a trace, from the first call with this letter on if one is given, and answers how many calls it has."""
    lines = []
    with open(trace, encoding='utf-8', errors='replace') as file:
        for line in file:
            found = LINE.match(line)
            made = line_of(found.group(1), found.group(2), int(found.group(3))) if found and found.group(1) in CALLS else None
            if made and (lines or begins is None or made.startswith(begins)):
                lines.append(made)
    with open(target, 'w', encoding='utf-8') as file:
        file.write('\n'.join(lines) + '\n')
    return len(lines)


def built_in(base, name, *flags):
    """The program of this name, built below this folder."""
    program = f'{base}/{name}'
    subprocess.run(['cc', '-O2', *flags, '-o', program, f'{HERE}/{name}.c'], check=True)
    return program
