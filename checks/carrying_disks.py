"""The part of checks/standby whose disks are full: the standby's, and the leader's. carrying_disks.py PROGRAM FOLDER

Who begins it gives it a mount namespace of its own. Each disk is a small one in a file, on which something else fills what is left;
the journals on them have holes, as files of a disk that promises more room than it has. Nothing but that room brings them on again.
"""
import os
import pathlib
import subprocess
import sys

sys.dont_write_bytecode = True
import carrying
from carrying import Scene, Writer, until

# A disk's octets; how many writes a second fill its last block; and how many seconds the pause between two tries comes to, which is
# twice as long each time.
ROOM, RATE, PAUSE = 1 << 22, 400, 3


class Disk:
    """A small disk at a folder, and what else lies on it."""

    def __init__(self, folder):
        self.other, image = folder / "something-else", folder.with_name(f"{folder.name}.image")
        image.touch()
        os.truncate(image, ROOM)
        subprocess.run(["mkfs.ext4", "-q", "-m", "0", "-O", "^has_journal", image], check=True)
        folder.mkdir()
        subprocess.run(["mount", "-o", "loop", image, folder], check=True)

    def fill(self):
        with open(self.other, "wb", buffering=0) as file:
            try:
                while file.write(bytes(4096)):
                    pass
            except OSError:
                pass

    def make_room(self):
        self.other.unlink()


def sparse(path):
    """Gives a journal's zeros back to its disk."""
    size = path.stat().st_size
    path.write_bytes(b"")
    os.truncate(path, size)


def begin(it):
    """A leader and a standby that has all of a beginning."""
    for path in (it.leader, it.standby):
        sparse(path)
    it.serve()
    it.write(50, 51)
    it.carry()
    it.await_level()


def try_standby(told, program, folder):
    """A standby whose disk is full is tried again and again, which is told; once there is room it has all."""
    disk = Disk(folder / "follower")
    with Scene(told, program, folder) as it:
        begin(it)
        disk.fill()
        writer = Writer(it.port, RATE)
        until(lambda: "is full, or fails" in it.stands().get("text", ""), "that the standby's disk is full", it.stands)
        writer.end()
        until(lambda: it.stands()["pause_seconds"] > PAUSE, "a pause that has grown", it.stands)
        known = it.stands()["standby_events"]
        told.want(it.carrier.poll() is None, f"the carrying has ended with {it.carrier.poll()}")
        status, text = it.check()
        told.want(status == 9 and "is full, or fails" in text, f"--check while the standby's disk is full: {status}, {text}")
        said = it.said.read_text(encoding="utf-8")
        told.want(f"the disk of {it.standby} is full" in said or f"{it.standby} can't be written: No space left" in said, f"the standby says {said[-300:]}")
        told.want(it.events(it.standby) >= known, f"of {known} events that were acknowledged {it.events(it.standby)} are there")
        disk.make_room()
        it.await_level()
        told.same("same, behind a standby's disk that was full", it.same(), 0)
        told.same("--check behind a standby's disk that was full", it.check()[0], 0)
        print(f"{it.events(it.standby)} events, {it.events(it.standby) - known} of them behind a standby's disk that was full", flush=True)


def try_leader(told, program, folder):
    """A leader whose disk is full ends its server, and not the carrying, whose own files are there too."""
    disk = Disk(folder / "leader")
    with Scene(told, program, folder) as it:
        it.state, it.textfile, it.said = (it.leader.parent / name for name in ("state", "carry.prom", "carry.out"))
        begin(it)
        disk.fill()
        writer = Writer(it.port, RATE)
        until(lambda: not it.server.runs(), "the end of the leader's server")
        writer.end()
        told.same("the end of the leader's server", it.server.said()[0], 7)
        # What it kept is carried, though nothing can be written of that.
        until(lambda: it.events(it.standby) == it.events(it.leader), "what the leader kept", lambda: it.said.read_text(encoding="utf-8"))
        until(lambda: "not written: " in it.said.read_text(encoding="utf-8"), "that nothing can be written", lambda: it.said.read_text(encoding="utf-8"))
        told.want(it.carrier.poll() is None, f"the carrying has ended with {it.carrier.poll()}")
        disk.make_room()
        it.serve()
        it.write(60, 61)
        it.await_level()
        told.same("same, behind a leader's disk that was full", it.same(), 0)


class Told:
    def __init__(self):
        self.passed = self.failed = 0

    def want(self, holds, text):
        self.passed += bool(holds)
        self.failed += not holds
        if not holds:
            print(f"FAILED: {text}", flush=True)

    def same(self, what, found, wanted):
        self.want(found == wanted, f"{what}: {found}, and not {wanted}")


def main(program, folder):
    told = Told()
    for name, play in {"full-standby": try_standby, "full-leader": try_leader}.items():
        carrying.try_play(told, program, folder / name, name, play)
    print(f"{told.passed} passed, {told.failed} failed")


if __name__ == "__main__":
    main(str(pathlib.Path(sys.argv[1]).resolve()), pathlib.Path(sys.argv[2]))
