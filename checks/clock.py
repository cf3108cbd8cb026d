"""Puts the clock of one running process forward or back, for checks/machine.py. It wants Linux on x86-64 that allows it.

A process reads the clock by code that the system has put into it (vdso(7)). Into that of this process other code is written, which
asks the system and adds so many seconds where the clock is the one of the day (CLOCK_REALTIME).
"""
import os
import pathlib
import platform
import signal
import struct
import time

NAME = b"__vdso_clock_gettime"
# Where a header of ELF has the place of the sections, how many there are and how long each is; and the kind of a section of dynamic symbols.
SECTIONS, COUNTS, OF_SYMBOLS, SYMBOL = 0x28, 0x3A, 11, 24
# How often a process is stopped anew that was in this code.
TRIES = 100


def code(seconds):
    """clock_gettime by the system, and so many seconds more where the first word, the clock, is 0."""
    asks = b"\xb8\xe4\x00\x00\x00\x0f\x05"  # mov eax, 228; syscall
    skips = b"\x85\xff\x75\x07"  # test edi, edi; jnz over what comes
    adds = b"\x48\x81\x06" + struct.pack("<i", seconds)  # add qword [rsi], seconds
    return asks + skips + adds + b"\xc3"  # ret


def place_in(image):
    """Where the code stands in an image of the system's, by its table of symbols."""
    (table,) = struct.unpack_from("<Q", image, SECTIONS)
    length, count, _ = struct.unpack_from("<HHH", image, COUNTS)
    sections = [struct.unpack_from("<IIQQQQIIQQ", image, table + length * it) for it in range(count)]
    for _, kind, _, _, begins, size, names, _, _, _ in sections:
        for at in range(begins, begins + size, SYMBOL) if kind == OF_SYMBOLS else ():
            name, _, _, _, place, _ = struct.unpack_from("<IBBHQQ", image, at)
            text = sections[names][4] + name
            if image[text : image.index(b"\0", text)] == NAME:
                return place
    return None


def range_of(process):
    """Where a process has this image."""
    for line in pathlib.Path(f"/proc/{process}/maps").read_text(encoding="utf-8").splitlines():
        if line.endswith("[vdso]"):
            return [int(it, 16) for it in line.split()[0].split("-")]
    return None


def is_in(process, begins, ends):
    """Whether a thread of a process that is stopped is within this code."""
    for task in pathlib.Path(f"/proc/{process}/task").iterdir():
        words = (task / "syscall").read_text(encoding="ascii").split()
        if words[0] == "running" or (words[0] == "-1" and begins <= int(words[-1], 16) < ends):
            return True
    return False


def step(process, seconds):
    """Has a process see a clock that is so many seconds ahead of that of the machine. Says whether that can be done here."""
    found = range_of(process)
    if platform.machine() != "x86_64" or found is None:
        return False
    try:
        with open(f"/proc/{process}/mem", "r+b", buffering=0) as memory:
            place = place_in(os.pread(memory.fileno(), found[1] - found[0], found[0]))
            if place is None:
                return False
            for _ in range(TRIES):
                os.kill(process, signal.SIGSTOP)
                time.sleep(0.002)
                if not is_in(process, *found):
                    os.pwrite(memory.fileno(), code(seconds), found[0] + place)
                    return True
                os.kill(process, signal.SIGCONT)
                time.sleep(0.002)
        return False
    except (OSError, struct.error, ValueError):
        return False
    finally:
        os.kill(process, signal.SIGCONT)
