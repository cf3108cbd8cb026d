"""One recipient that is dead, and a contact that chatters, beside an alarm that has to be told: with flush_silent and without, for checks/endurance.

    silent.py PROGRAM SECONDS

Two servers run side by side for SECONDS, at 180 the most. The site of each tells two who confirm, of whom one is dead; its outbox has room for 64. A
contact without a delay changes four times a second, and each two seconds the oxygen pressure goes low, or comes back. With the key no write is
refused, and the one who lives is told of each move, how late at the most is printed; without the key writes have to be refused: else the scene
wouldn't show anything.
"""
import pathlib
import subprocess
import sys
import tempfile
import threading
import time

sys.dont_write_bytecode = True
import bacnet
import serving
from serving import MANY, Client, Server, Told

CONTACT, OXYGEN, CLASS = (5, 1), (48, 1), 7
LOW, WELL, OUTBOX = 300, 420, 64
# So often the contact changes in a second, and so many of its changes come to one of the oxygen.
OFTEN, BETWEEN, LONGEST = 4, 8, 180
# So many seconds the outbox wants to be full without the key, at most: 64 notes, at four changes and a half a second; and for how long it is played at least.
FULL, LEAST, PATIENT = 16, 20, 400


def sections(client, dead, flush):
    contact = "[[object]]", {"kind": "binary-value", "instance": 1, "name": "Nurse call failure", "value": "inactive", "class": CLASS, "alarm_value": "active"}
    oxygen = "[[object]]", {"kind": "positive-integer-value", "instance": 1, "name": "Oxygen pressure", "value": WELL, "class": CLASS, "low": 350, "high": 500}
    device = serving.device(outbox=OUTBOX, **({"flush_silent": True} if flush else {}))
    return [device, serving.of_class(CLASS, False), serving.told_at(client.port, CLASS, True), serving.told_at(dead, CLASS, True), contact, oxygen]


class Scene:
    """What was written and refused, and how late the oxygen was told."""

    def __init__(self, told, client):
        self.told, self.client = told, client
        self.writes, self.refused, self.moves, self.latest, self.seen = 0, 0, [], 0.0, 0

    def write(self, of, value):
        """Writes a value, and says whether it was taken; the other answer is an Abort 0."""
        answer = self.client.write(of, value)
        self.writes += 1
        if answer.kind == "abort":
            self.told.same("the answer to a write that doesn't fit", answer.number, 0)
            self.refused += 1
            return False
        self.told.same("the answer to a write", answer[::2], ("simple-ack", bacnet.WRITE_PROPERTY))
        return True

    def play(self, seconds, until_refused):
        """For so long; and where a write is to be refused, until one is, on a machine that is too busy to fill the outbox in that time."""
        begun, number, low = time.monotonic(), 0, False
        while time.monotonic() < begun + (PATIENT if until_refused and not self.refused else seconds):
            number += 1
            if number % BETWEEN == 0 and self.write(OXYGEN, bacnet.application(bacnet.UNSIGNED, WELL if low else LOW)):
                low = not low
                self.moves.append((time.monotonic(), bacnet.LOW_LIMIT if low else bacnet.NORMAL))
            self.write(CONTACT, bacnet.application(bacnet.ENUMERATED, number % 2))
            until = begun + number / OFTEN
            while (left := until - time.monotonic()) > 0:
                bacnet.want(self.client.receive(time.monotonic() + min(left, 0.1)) is None, "an answer to nothing")
                self.look()
        self.end()

    def look(self):
        """How late each move of the oxygen was told, of those that were told since the last look."""
        notes = [note.to_state for _, _, message, note in self.client.notes if message.kind == "request" and note.object == OXYGEN]
        for place in range(self.seen, min(len(notes), len(self.moves))):
            self.told.same("what the oxygen tells", notes[place], self.moves[place][1])
            self.latest = max(self.latest, time.monotonic() - self.moves[place][0])
        self.seen = len(notes)

    def end(self):
        """Waits until the last move is told."""
        until = time.monotonic() + serving.ANSWER
        while self.seen < len(self.moves) and time.monotonic() < until:
            bacnet.want(self.client.receive(time.monotonic() + 0.1) is None, "an answer to nothing")
            self.look()


def run(told, program, seconds, flush):
    """A scene with the key or without it."""
    what = f"flush_silent = {str(flush).lower()}"
    with tempfile.TemporaryDirectory(dir="/dev/shm" if pathlib.Path("/dev/shm").is_dir() else None) as folder, Client() as client:
        dead = serving.free_port()
        site, journal = serving.blank(program, pathlib.Path(folder), *sections(client, dead, flush))
        with Server(program, site, journal, client.server_port, MANY):
            scene = Scene(told, client)
            scene.play(seconds, not flush)
    told.want((scene.refused == 0) is flush, f"{what}: {scene.refused} of {scene.writes} writes were refused")
    told.same(f"{what}: moves of the oxygen that are told", scene.seen, len(scene.moves))
    if flush:
        told.want(scene.moves, f"{what}: the oxygen moved {len(scene.moves)} times alone")
    print(f"{what}: {scene.writes} writes, {scene.refused} refused; the oxygen moved {len(scene.moves)} times, and was told after {scene.latest:.1f} s at the latest", flush=True)


def try_run(told, program, seconds, flush):
    try:
        run(told, program, seconds, flush)
    except (OSError, ValueError, subprocess.SubprocessError) as error:
        told.want(False, f"flush_silent = {flush}: {type(error).__name__}: {error}")


def main():
    program, seconds = sys.argv[1], max(LEAST, min(float(sys.argv[2]), LONGEST))
    serving.SECONDS, serving.ANSWER = int(3 * seconds) + 600, 60
    told = Told()
    both = [threading.Thread(target=try_run, args=(told, program, seconds if flush else min(seconds, 4 * FULL), flush)) for flush in (True, False)]
    for it in both:
        it.start()
    for it in both:
        it.join()
    print(f"the silent recipient: {len(both)} scenes, {told.failed} failed")
    return 1 if told.failed else 0


if __name__ == "__main__":
    sys.exit(main())
