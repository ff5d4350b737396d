#!/usr/bin/env python3
"""injected.py CALL STREAM TIMES ERRNO CMD..: runs a program of x86-64 whose first calls of one kind fail.

The first TIMES calls of CALL (read or write, and getrandom and fsync, of which STREAM says nothing) on the stream with that
number answer ERRNO in place of being done. It ends with the status of the program, or with 99 where the system does not let one
process trace another.
"""
import ctypes
import errno
import os
import signal
import sys

CALLS = {'read': 0, 'write': 1, 'fsync': 74, 'getrandom': 318}
# Calls that are counted on each stream.
ON_EACH = {CALLS['fsync'], CALLS['getrandom']}
TRACE_ME, SYSCALL, GET_REGISTERS, SET_REGISTERS, SET_OPTIONS = 0, 24, 12, 13, 0x4200
# A stop at a call of the system is told from one by a signal.
TELL_CALLS = 1
NAMES = ('r15 r14 r13 r12 rbp rbx r11 r10 r9 r8 rax rcx rdx rsi rdi orig_rax rip cs eflags rsp ss fs_base gs_base '
         'ds es fs gs').split()


class Registers(ctypes.Structure):
    _fields_ = [(name, ctypes.c_ulonglong) for name in NAMES]


libc = ctypes.CDLL(None, use_errno=True)
libc.ptrace.argtypes = [ctypes.c_long, ctypes.c_long, ctypes.c_void_p, ctypes.c_void_p]
libc.ptrace.restype = ctypes.c_long


def trace(request, child, data=None):
    if libc.ptrace(request, child, None, data) < 0:
        raise OSError(ctypes.get_errno(), os.strerror(ctypes.get_errno()))


def started(command):
    child = os.fork()
    if child == 0:
        try:
            trace(TRACE_ME, 0)
        except OSError:
            os._exit(99)
        os.execvp(command[0], command)
    return child


def main():
    call, stream, times = CALLS[sys.argv[1]], int(sys.argv[2]), int(sys.argv[3])
    failure = getattr(errno, sys.argv[4])
    child = started(sys.argv[5:])
    _, status = os.waitpid(child, 0)
    if os.WIFEXITED(status):
        return os.WEXITSTATUS(status)
    trace(SET_OPTIONS, child, TELL_CALLS)
    begins, fails, pending = True, False, 0
    while True:
        trace(SYSCALL, child, pending)
        _, status = os.waitpid(child, 0)
        if os.WIFEXITED(status):
            return os.WEXITSTATUS(status)
        if os.WIFSIGNALED(status):
            return 128 + os.WTERMSIG(status)
        pending = 0
        if os.WSTOPSIG(status) != signal.SIGTRAP | 0x80:
            pending = os.WSTOPSIG(status)
            continue
        registers = Registers()
        trace(GET_REGISTERS, child, ctypes.addressof(registers))
        if begins:
            of_stream = call in ON_EACH or registers.rdi == stream
            fails = times > 0 and registers.orig_rax == call and of_stream
            if fails:
                times -= 1
                registers.orig_rax = ctypes.c_ulonglong(-1).value
                trace(SET_REGISTERS, child, ctypes.addressof(registers))
        elif fails:
            registers.rax = ctypes.c_ulonglong(-failure).value
            trace(SET_REGISTERS, child, ctypes.addressof(registers))
        begins = not begins


sys.exit(main())
