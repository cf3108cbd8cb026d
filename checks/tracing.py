"""Calls of ptrace(2), by which a check sees the calls of a program to the system, or stops a thread of it. They want Linux on x86-64."""
import ctypes
import os

# Numbers of ptrace.
TRACEME, GETREGS, SETREGS, ATTACH, DETACH, SYSCALL, SETOPTIONS = 0, 12, 13, 16, 17, 24, 0x4200
# What waitpid wants for a thread that is no process (__WALL).
ANY_THREAD = 0x40000000

LIBRARY = ctypes.CDLL(None, use_errno=True)
LIBRARY.ptrace.argtypes = [ctypes.c_long, ctypes.c_long, ctypes.c_void_p, ctypes.c_void_p]
LIBRARY.ptrace.restype = ctypes.c_long


def ptrace(request, process, data=None):
    if LIBRARY.ptrace(request, process, None, data) == -1:
        raise OSError(ctypes.get_errno(), f"ptrace: {os.strerror(ctypes.get_errno())}")
