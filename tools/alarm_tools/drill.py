"""Tries a takeover without taking over: serves a copy of a standby's journal, asks it, and ends it (`alarm-server drill`).

The server runs in a network of its own, where there is nobody else, so that none of its notifications reaches anybody. Where no
such network can be made it is bound to 127.0.0.1, from where nothing leaves this machine.
"""
import array
import fcntl
import os
import pathlib
import random
import re
import shutil
import socket
import struct
import subprocess
import sys
import tempfile
import time

from . import journal, journal_command
from .words import Ends

HOST, SECONDS, FAILED = "127.0.0.1", 60, 1
# To ask for and to set the flags of a network's interface (SIOCGIFFLAGS, SIOCSIFFLAGS), and that it is up.
ASK_FLAGS, SET_FLAGS, UP = 0x8913, 0x8914, 1
CLIENT = pathlib.Path(__file__).resolve().parent.parent / "alarm-client"


def copy_of(standby, folder):
    """A copy of a standby's journal, which may be in use."""
    copy = folder / "copy"
    with journal_command.opened(standby) as it:
        journal_command.write_copy(copy, journal.copy_octets(it, it.settled()))
    return copy


def events_in(command, site, copy):
    """How many events a session finds in the copy."""
    ended = subprocess.run([command, "session", site, copy], stdin=subprocess.DEVNULL, capture_output=True, text=True, check=False)
    found = re.fullmatch(r"open (\d+)\nend 0 \1\n", ended.stdout)
    if ended.returncode or not found:
        raise Ends(ended.returncode or FAILED, f"the copy doesn't open: {(ended.stderr or ended.stdout).strip()}")
    return int(found[1])


def own_network():
    """The words before a command that give it a network of its own, or none where there is no such network."""
    words = ["unshare", "--net", *([] if os.geteuid() == 0 else ["--map-root-user"])]
    if not shutil.which("unshare"):
        return []
    tried = subprocess.run([*words, "true"], stdin=subprocess.DEVNULL, capture_output=True, check=False)
    return [] if tried.returncode else words


def bring_up():
    """Brings up the loopback of this network, where this may."""
    with socket.socket(socket.AF_INET, socket.SOCK_DGRAM) as any_socket:
        asked = array.array("b", struct.pack("16sh14x", b"lo", 0))
        fcntl.ioctl(any_socket, ASK_FLAGS, asked)
        flags = struct.unpack("16sh14x", asked.tobytes())[1]
        fcntl.ioctl(any_socket, SET_FLAGS, struct.pack("16sh14x", b"lo", flags | UP))


def free_port():
    while True:
        port = random.SystemRandom().randrange(20_000, 32_768)
        with socket.socket(socket.AF_INET, socket.SOCK_DGRAM) as tried:
            try:
                tried.bind((HOST, port))
                return port
            except OSError:
                pass


def serve(command, site, copy):
    """Serves the copy, and asks it who it is and what is in alarm."""
    port = str(free_port())
    told = {**os.environ, "ALARM_SERVER_ADDRESS": HOST, "ALARM_SERVER_PORT": port}
    errors = pathlib.Path(copy).with_name("errors")
    with open(errors, "wb") as file:
        server = subprocess.Popen([command, "serve", site, copy], env=told, stdin=subprocess.DEVNULL, stdout=subprocess.DEVNULL, stderr=file)
    try:
        await_server(server, errors)
        for asked in ("whois", "list"):
            ended = subprocess.run([sys.executable, CLIENT, asked, "--to", f"{HOST}:{port}"], capture_output=True, text=True, check=False)
            if ended.returncode:
                raise Ends(FAILED, f"alarm-client {asked} ended with {ended.returncode}: {ended.stderr.strip()}")
            print("".join(f"    {line}\n" for line in ended.stdout.splitlines()), end="", flush=True)
    finally:
        server.terminate()
        server.wait()


def await_server(server, errors):
    """Waits until the server listens."""
    until = time.monotonic() + SECONDS
    while "listening on" not in (said := errors.read_text(encoding="utf-8", errors="replace")):
        if server.poll() is not None:
            raise Ends(server.returncode if server.returncode > 0 else FAILED, f"the server ended with {server.returncode}: {said.strip()}")
        if time.monotonic() > until:
            raise Ends(FAILED, f"the server doesn't listen within {SECONDS} seconds: {said.strip()}")
        time.sleep(0.05)


def drill(program, command, site, standby):
    with tempfile.TemporaryDirectory(prefix="alarm-server-drill-") as name:
        copy = copy_of(standby, pathlib.Path(name))
        events = events_in(command, site, copy)
        print(f"A copy of {standby} opens with {events:,} events. A server on it answers:", flush=True)
        network = own_network()
        if not network:
            print(f"(no network of its own can be made: it is at {HOST}, and tells recipients on this machine alone)", flush=True)
        words = [*network, sys.executable, "-IB", program, "inside" if network else "here", command, site, copy]
        status = subprocess.run(words, check=False).returncode
    if status:
        raise Ends(status, "a takeover would fail here: see what stands above")
    print(f"A takeover from {standby} would serve {events:,} events. Nothing was changed, and nobody was told.")
    return 0


def main(words):
    """Does `PROGRAM COMMAND SITE STANDBY`, or within it the part that serves."""
    program, *given = words
    try:
        if given[0] not in ("inside", "here"):
            return drill(program, *given)
        if given[0] == "inside":
            bring_up()
        serve(*given[1:])
        return 0
    except Ends as end:
        print(f"alarm-server: {end}", file=sys.stderr)
        return end.status
    except OSError as error:
        print(f"alarm-server: {error.filename or ''}{': ' if error.filename else ''}{error.strerror}", file=sys.stderr)
        return FAILED
