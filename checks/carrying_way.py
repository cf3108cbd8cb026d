"""A way between a leader and a standby on one machine, for checks/carrying.py: as ssh is, two processes with a line between them.

    carrying_way.py FOLDER COMMAND..

The near end copies its input to the line and what comes over the line to its output. The far end, which is in a session of its own
as on another machine, begins COMMAND and copies the line to its input, and its output to the line. Each writes its number into
FOLDER, as `near` and `far`. A far end that is stopped is a network that hangs; a near one that is killed is a connection that is lost.
"""
import os
import pathlib
import socket
import subprocess
import sys
import threading


def copy(source, target, behind):
    """Copies octets from one descriptor to another until one has ended, and does then what is to be done behind that."""
    try:
        while octets := os.read(source, 1 << 16):
            while octets:
                octets = octets[os.write(target, octets) :]
    except OSError:
        pass
    behind()


def note(folder, name):
    beside = pathlib.Path(folder) / f".{name}.{os.getpid()}"
    beside.write_text(f"{os.getpid()}\n", encoding="ascii")
    os.replace(beside, pathlib.Path(folder) / name)


def ends(line):
    """Ends the half of the line that is written, where it is still there."""
    try:
        line.shutdown(socket.SHUT_WR)
    except OSError:
        pass


def far(folder, line, words):
    note(folder, "far")
    with subprocess.Popen(words, stdin=subprocess.PIPE, stdout=subprocess.PIPE) as child:
        into = threading.Thread(target=copy, args=(line.fileno(), child.stdin.fileno(), child.stdin.close), daemon=True)
        into.start()
        copy(child.stdout.fileno(), line.fileno(), lambda: None)
        status = child.wait()
    # As ssh, the near end ends with the status of the command.
    (pathlib.Path(folder) / f"status-{os.getppid()}").write_text(f"{status}\n", encoding="ascii")
    ends(line)
    os._exit(0)


def near(folder, words):
    note(folder, "near")
    ours, theirs = socket.socketpair()
    subprocess.Popen([sys.executable, "-B", __file__, folder, "--far", str(theirs.fileno()), *words], pass_fds=[theirs.fileno()], start_new_session=True)
    theirs.close()
    threading.Thread(target=copy, args=(0, ours.fileno(), lambda: ends(ours)), daemon=True).start()
    copy(ours.fileno(), 1, lambda: None)
    told = pathlib.Path(folder) / f"status-{os.getpid()}"
    os._exit(int(told.read_text(encoding="ascii")) % 256 if told.exists() else 255)


if __name__ == "__main__":
    if sys.argv[2] == "--far":
        far(sys.argv[1], socket.socket(fileno=int(sys.argv[3])), sys.argv[4:])
    else:
        near(sys.argv[1], sys.argv[2:])
