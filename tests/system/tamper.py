#!/usr/bin/env python3
"""tamper.py cut MOST WORD.. | close NUMBER ERROR WORD..: runs the words in its own place, as far as their status goes, and tampers with
their system calls, in ways that strace has not.

With `cut` each read and write is given at most so many bytes, from the first lock or connection on. With `close` the `close` of this
number closes what it should and answers the error, as Linux has it. For `faults`. Wants Linux on x86-64."""
import ctypes
import errno
import os
import signal
import struct
import sys

READS_AND_WRITES = {0, 1, 17, 18, 44, 45}
BEGINS = {42, 73, 288}
CLOSE = 3
TRACEME, CONT_SYSCALL, GETREGS, SETREGS, SETOPTIONS = 0, 24, 12, 13, 0x4200
STOPPED_AT_CALL = signal.SIGTRAP | 0x80
# The places in the registers of the answer of a call, of its third argument, and of its number.
ANSWER, THIRD, NUMBER = 10 * 8, 12 * 8, 15 * 8


def cutting(most):
    """Cuts what each read and write asks for."""
    begun = False

    def tamper(registers, entering):
        nonlocal begun
        number, third = (struct.unpack_from('<Q', registers, place)[0] for place in (NUMBER, THIRD))
        begun = begun or number in BEGINS
        if not (entering and begun and number in READS_AND_WRITES and third > most):
            return False
        struct.pack_into('<Q', registers, THIRD, most)
        return True
    return tamper


def closing(wanted, error):
    """Answers the error for the wanted `close`, once it is done."""
    count = 0

    def tamper(registers, entering):
        nonlocal count
        if entering or struct.unpack_from('<Q', registers, NUMBER)[0] != CLOSE:
            return False
        count += 1
        if count == wanted:
            struct.pack_into('<q', registers, ANSWER, -error)
        return count == wanted
    return tamper


def run(tamper, words):
    """Runs the words; `tamper` is given the registers at each call, and tells whether it changed them."""
    libc = ctypes.CDLL(None, use_errno=True)
    libc.ptrace.argtypes = [ctypes.c_long, ctypes.c_long, ctypes.c_void_p, ctypes.c_void_p]
    child = os.fork()
    if child == 0:
        libc.ptrace(TRACEME, 0, None, None)
        os.execvp(words[0], words)
    os.waitpid(child, 0)
    # (the child goes with this program, and its stops at calls are distinguished from signals)
    libc.ptrace(SETOPTIONS, child, None, 0x100001)
    registers = ctypes.create_string_buffer(27 * 8)
    signal_number, entering = 0, False
    while True:
        libc.ptrace(CONT_SYSCALL, child, None, signal_number)
        _, state = os.waitpid(child, 0)
        if not os.WIFSTOPPED(state):
            sys.exit(os.WEXITSTATUS(state) if os.WIFEXITED(state) else 128 + os.WTERMSIG(state))
        at_call = os.WSTOPSIG(state) == STOPPED_AT_CALL
        signal_number = 0 if at_call else os.WSTOPSIG(state)
        if not at_call:
            continue
        entering = not entering
        libc.ptrace(GETREGS, child, None, ctypes.addressof(registers))
        if tamper(registers, entering):
            libc.ptrace(SETREGS, child, None, ctypes.addressof(registers))


def main(kind='', *words):
    if kind == 'cut' and len(words) > 1:
        run(cutting(int(words[0])), words[1:])
    elif kind == 'close' and len(words) > 2:
        run(closing(int(words[0]), getattr(errno, words[1])), words[2:])
    sys.exit(__doc__)


main(*sys.argv[1:])
