"""A way between two machines of checks/two-machines where sshd isn't installed: a connection, at whose other end a command stands.

    two_machines_way.py far PORT COMMAND..    begins the command for each connection that comes to a port, as sshd does
    two_machines_way.py near HOST PORT        copies its input to such a connection, and what comes back to its output

Nobody is asked who comes, and nothing is hidden: it is for a network that has nobody else.
"""
import os
import socket
import subprocess
import sys
import threading


def far(port, words):
    with socket.create_server(("", port)) as server:
        while True:
            line = server.accept()[0]
            with line:
                # It ends by itself where its input does, or where nothing comes.
                subprocess.Popen(words, stdin=line.fileno(), stdout=line.fileno())


def near(host, port):
    with socket.create_connection((host, port)) as line:
        threading.Thread(target=give, args=(line,), daemon=True).start()
        while octets := line.recv(1 << 16):
            os.write(1, octets)


def give(line):
    while octets := os.read(0, 1 << 16):
        line.sendall(octets)
    line.shutdown(socket.SHUT_WR)


if __name__ == "__main__":
    if sys.argv[1] == "far":
        far(int(sys.argv[2]), sys.argv[3:])
    else:
        near(sys.argv[2], int(sys.argv[3]))
