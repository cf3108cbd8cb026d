"""What a machine may do to a server, for checks/endurance: its clock, a stop, its disk, its descriptors, its standard error.

    checks/machine.py PROGRAM SECONDS

A server is stopped for so many seconds. What comes is what docs/OPERATE.md says. Each fault is a line with FAILED; the last line tells how many
parts there were, and the status is 1 where one failed.
"""
import os
import pathlib
import resource
import signal
import subprocess
import sys
import tempfile
import time

sys.dont_write_bytecode = True
import bacnet
import clock
import serving
from serving import MANY, Client, Server, Told

VALUE, TANK = (bacnet.INTEGER_VALUE, 1), (bacnet.INTEGER_VALUE, 2)
HOUR = 3600
# By so many seconds a stamp may differ from a clock that is read beside it.
BESIDE = 2
# How many descriptors are too few to open a site, a journal and a port, and how many are enough.
FEW, ENOUGH = 4, 16
# How long it is before something is believed not to come.
QUIET = 3


def blank(program, folder, client, delay=0):
    return (program, *serving.blank(
        program, folder, serving.device(), serving.of_class(7, acknowledged=False), serving.told_at(client.port, 7, False),
        serving.integer(1), serving.tank(2, 7, time_delay=delay),
    ))


def play(files, *lines):
    """Plays lines in a session, which has to end well."""
    words = [files[0], "session", *map(str, files[1:])]
    ended = subprocess.run(words, input="".join(f"{it}\n" for it in lines).encode(), capture_output=True, timeout=serving.SECONDS, check=False)
    bacnet.want(ended.returncode == 0 and not ended.stderr, f"a session ended with {ended.returncode}, {ended.stderr!r}")


def write(told, client, the_object, number):
    told.same("the answer to a write", client.write(the_object, bacnet.signed(number))[::2], ("simple-ack", bacnet.WRITE_PROPERTY))


def see_stamp(told, what, client, number, state, moment):
    """A notification tells a state, with the stamp of a moment in seconds."""
    note = client.await_note(number)[3]
    told.same(f"the state {what}", note.to_state, state)
    told.want(abs(bacnet.seconds_of(note.stamp) - moment) < BESIDE, f"{what} a stamp is {note.stamp.hex()}, and {bacnet.stamp_of(moment).hex()} is wanted")


def see_quiet(told, what, client):
    """Nothing is told for some seconds."""
    before = len(client.notes)
    told.same(f"an answer {what}", client.receive(time.monotonic() + QUIET), None)
    told.same(f"notifications {what}", len(client.notes), before)


# The clock.


def try_ahead(told, program, folder, client, _):
    """A journal is an hour ahead: an event is told, and its stamp is that of the last one."""
    files, last = blank(program, folder, client), int((time.time() + HOUR) * 1000)
    play(files, f"set {last} integer-value:1 signed:51")
    with Server(*files, client.server_port, MANY):
        write(told, client, TANK, 90)
        told.same("the stamp with a journal that is ahead", client.await_note(1)[3].stamp, bacnet.stamp_of(last / 1000))
        told.same("the value in a journal that is ahead", client.number_read(VALUE), 51)


def try_held(told, program, folder, client, _):
    """The same with a delay of a second: it doesn't end while the clock is behind, and all else is answered."""
    files = blank(program, folder, client, delay=1)
    play(files, f"set {int((time.time() + HOUR) * 1000)} integer-value:2 signed:90")
    with Server(*files, client.server_port, MANY):
        see_quiet(told, "with a journal that is ahead", client)
        told.same("the state with a journal that is ahead", client.number_read(TANK, bacnet.EVENT_STATE), bacnet.NORMAL)


def try_behind(told, program, folder, client, _):
    """A journal is an hour behind: a delay of an hour has ended, and that is told by itself."""
    files = blank(program, folder, client, delay=HOUR)
    play(files, f"set {int((time.time() - HOUR - 1) * 1000)} integer-value:2 signed:90")
    with Server(*files, client.server_port, MANY):
        see_stamp(told, "with a journal that is behind", client, 1, bacnet.HIGH_LIMIT, time.time())


def try_steps(told, program, folder, client, _):
    """The clock of a running server is put forward by an hour, so that a delay of an hour ends, and back: then another doesn't, and stamps stand still."""
    files = blank(program, folder, client, delay=HOUR)
    with Server(*files, client.server_port, MANY) as server:
        write(told, client, TANK, 90)
        see_quiet(told, "before a delay of an hour ends", client)
        if not clock.step(server.child.pid, HOUR):
            return print("the clock of a running server isn't stepped: this machine doesn't allow it")
        see_stamp(told, "with a clock that is put forward", client, 1, bacnet.HIGH_LIMIT, time.time() + HOUR)
        ahead = time.time() + HOUR
        bacnet.want(clock.step(server.child.pid, 0), "the clock can't be put back")
        write(told, client, TANK, 50)
        see_quiet(told, "with a clock that is put back", client)
        told.same("the state with a clock that is put back", client.number_read(TANK, bacnet.EVENT_STATE), bacnet.HIGH_LIMIT)
        bacnet.want(clock.step(server.child.pid, 3 * HOUR), "the clock can't be put forward again")
        see_stamp(told, "with a clock that is put forward again", client, 2, bacnet.NORMAL, time.time() + 3 * HOUR)
        told.want(ahead < bacnet.seconds_of(client.notes[1][3].stamp), "a stamp runs backwards")


# The machine.


def try_stopped(told, program, folder, client, seconds):
    """A server that is stopped answers what came meanwhile, tells a delay that ended, and goes on."""
    files = blank(program, folder, client, delay=1)
    with Server(*files, client.server_port, MANY) as server:
        write(told, client, TANK, 90)
        server.child.send_signal(signal.SIGSTOP)
        stopped = time.time()
        client.send_request(lambda it: bacnet.write_property(it, VALUE, bacnet.PRESENT_VALUE, bacnet.signed(7)))
        time.sleep(seconds)
        server.child.send_signal(signal.SIGCONT)
        answer = client.receive(time.monotonic() + serving.ANSWER)
        told.same("the answer to what came while it was stopped", answer and answer[::2], ("simple-ack", bacnet.WRITE_PROPERTY))
        note = client.await_note(1)[3]
        told.want(note.to_state == bacnet.HIGH_LIMIT and bacnet.seconds_of(note.stamp) >= stopped, f"a delay ended at {note.stamp.hex()}")
        told.same("the value behind a stop", client.number_read(VALUE), 7)
        write(told, client, TANK, 50)
        see_stamp(told, "behind a stop", client, 2, bacnet.NORMAL, time.time())


def try_full_disk(told, program, folder, client, _):
    """A disk is full, which ends the server; then it isn't, a session opens the journal, and another server goes on from what was answered."""
    files = blank(program, folder, client)
    with Server(*files, client.server_port, MANY):
        write(told, client, VALUE, 60)
    # The gate of the event that comes next is the first octet that can't be written.
    last = 27 + files[1].stat().st_size
    with Server(*files, client.server_port, MANY, most=last) as server:
        client.send_request(lambda it: bacnet.write_property(it, VALUE, bacnet.PRESENT_VALUE, bacnet.signed(61)))
        status, _, errors = server.ended()
        told.want(status == 7 and errors.endswith(b"\ndisk fault\n"), f"with a full disk it ended with {status}, {errors!r}")
        told.same("the answer with a full disk", client.receive(time.monotonic() + 0.1), None)
    told.same("the events behind a full disk", serving.events_in(*files), 1)
    with Server(*files, client.server_port, MANY):
        told.same("the value behind a full disk", client.number_read(VALUE), 60)
        write(told, client, VALUE, 62)
    told.same("the events once the disk isn't full", serving.events_in(*files), 2)


def limited(port, files, errors, how):
    """A server for two datagrams whose process is changed before it begins. It needn't say that it listens."""
    words = [files[0], "serve", *map(str, files[1:]), "2"]
    return subprocess.Popen(words, env=serving.environment(port), stdin=subprocess.DEVNULL, stdout=subprocess.PIPE, stderr=errors, preexec_fn=how)


def ask_until_answered(told, client, times):
    """Reads a value so often, and asks again while nobody listens yet."""
    until = time.monotonic() + serving.ANSWER
    for _ in range(times):
        answer = None
        while answer is None and time.monotonic() < until:
            client.send_request(lambda it: bacnet.read_property(it, VALUE, bacnet.PRESENT_VALUE))
            answer = client.receive(time.monotonic() + 1)
        told.same("the value of a server that says nothing", answer and bacnet.value_read(answer)[2], 50)


def try_descriptors(told, program, folder, client, _):
    """With too few descriptors it can't open, and says so; with some it serves."""
    files = blank(program, folder, client)
    for number, status, text in ((FEW, 1, "cannot open\n"), (ENOUGH, 0, f"listening on {serving.HOST}:{client.server_port}\n")):
        how = lambda number=number: resource.setrlimit(resource.RLIMIT_NOFILE, (number, number))
        with limited(client.server_port, files, subprocess.PIPE, how) as child:
            try:
                if status == 0:
                    ask_until_answered(told, client, 2)
                child.wait(serving.ANSWER)
                told.same(f"the end with {number} descriptors", (child.returncode, child.stderr.read().decode()), (status, text))
            finally:
                child.kill()


def try_closed_error(told, program, folder, client, _):
    """Its standard error is closed: it serves, and ends as always."""
    files = blank(program, folder, client)
    with limited(client.server_port, files, subprocess.DEVNULL, lambda: os.close(2)) as child:
        try:
            ask_until_answered(told, client, 2)
            said = child.communicate(timeout=serving.ANSWER)[0]
            told.same("the end without a standard error", (child.returncode, said), (0, b"served 2 0 0 0\n"))
        finally:
            child.kill()


def main():
    program, seconds = sys.argv[1], float(sys.argv[2])
    serving.SECONDS, serving.ANSWER = int(seconds) + 600, 60
    told, parts = Told(), [try_ahead, try_held, try_behind, try_steps, try_stopped, try_full_disk, try_descriptors, try_closed_error]
    for part in parts:
        with tempfile.TemporaryDirectory() as name, Client() as client:
            try:
                part(told, program, pathlib.Path(name), client, seconds)
            except (OSError, ValueError, subprocess.SubprocessError) as error:
                told.want(False, f"{part.__name__}: {type(error).__name__}: {error}")
    print(f"the machine: {len(parts)} parts, {told.failed} failed")
    return 1 if told.failed else 0


if __name__ == "__main__":
    sys.exit(main())
