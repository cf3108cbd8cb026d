"""Plays sessions to a site at the limits, and compares what they say with the second reading, for checks/limits."""
import re
import subprocess
import time

import bacnet
import serving
from alarm_tools.journal import Journal
from limits_site import KINDS, RETURN_DELAY, long_text

TICK = serving.START + 5000
STATES = {bacnet.NORMAL: "normal", bacnet.FAULT: "fault", bacnet.OFFNORMAL: "offnormal", bacnet.HIGH_LIMIT: "high-limit", bacnet.LOW_LIMIT: "low-limit"}
# A journal of any site is smaller (docs/JOURNAL.md).
DEVICE_BOUND = 72_000_000


def name_of(the_object):
    return f"{KINDS[the_object[0]]}:{the_object[1]}"


def same_list(told, what, found, wanted):
    """Compares two lists, and tells where they first differ."""
    place = next((it for it, pair in enumerate(zip(found, wanted)) if pair[0] != pair[1]), min(len(found), len(wanted)))
    first = [rows[place] if place < len(rows) else "nothing" for rows in (found, wanted)]
    told.want(found == wanted, f"{what}: {len(found)} of {len(wanted)}, at place {place} {first[0]}, and not {first[1]}")


class Play:
    """Lines of a session, and of each what the second reading says: its first line behind the number, its moves, and what it sends."""

    def __init__(self):
        self.lines, self.wanted = [], []

    def add(self, line, said, moves=(), sends=()):
        self.lines.append(line)
        self.wanted.append((said, list(moves), list(sends)))

    def set(self, the_object, moment, value):
        """Sets a value, which is an event and moves nothing."""
        self.add(f"set {moment} {name_of(the_object)} {value}", f"entered EVENT {moment}")

    def pump(self, moment, sends):
        self.add(f"pump {moment}", f"entered EVENT {moment}" if sends else "idle", (), sends)

    def script(self):
        return "".join(f"{line}\n" for line in self.lines).encode()

    def see(self, told, what, report):
        """Compares a report, as far as it was written, and gives the number of the last event."""
        rows = report.decode().splitlines()
        opened = re.fullmatch(r"open ([0-9]+)", rows[0] if rows else "")
        told.want(opened, f"{what}: a report begins with {rows[:1]}")
        events, blocks = int(opened[1]) if opened else 0, [[] for _ in self.lines]
        for row in rows[1:]:
            number, _, rest = row.partition(" ")
            if number.isdigit() and 1 <= int(number) <= len(blocks):
                blocks[int(number) - 1].append(rest)
            else:
                told.want(number == "end", f"{what}: {row}")
        heads = []
        for said, _, _ in self.wanted:
            events += said.startswith("entered")
            heads.append([said.replace("EVENT", str(events))])
        same_list(told, f"{what}: the lines", [block[:1] for block in blocks], heads)
        moves = [f"change {name_of(it.object)} {STATES[it.before]} {STATES[it.after]}" for _, of, _ in self.wanted for it in of]
        same_list(told, f"{what}: the moves", [row for block in blocks for row in block if row.startswith("change ")], moves)
        sent = [row for block in blocks for row in block if row.startswith("send ")]
        same_list(told, f"{what}: what is sent", list(map(read_send, sent)), [(it.address, *rest) for _, _, of in self.wanted for it, *rest in of])
        return events


def read_send(row):
    """The address, the invoke ID and the notification of a `send` line."""
    _, address, octets = row.split()
    message = bacnet.read(bytes.fromhex(octets))
    return address, message.invoke, bacnet.notification_of(message)


def play_whole(told, what, files, play):
    """Plays a session to its end."""
    program, site, journal = files
    words = [program, "session", str(site), str(journal)]
    ended = subprocess.run(words, input=play.script(), capture_output=True, timeout=serving.SECONDS, check=False)
    events = play.see(told, what, ended.stdout)
    last = f"\nend {len(play.lines)} {events}\n".encode()
    told.want((ended.returncode, ended.stderr) == (0, b"") and ended.stdout.endswith(last), f"{what} ended with {ended.returncode}, {ended.stderr[-200:]!r}, {ended.stdout[-80:]!r}")
    return events


def play_killed(told, what, files, play, last):
    """Plays a session whose last line says just `last`, and kills it once that was said."""
    program, site, journal = files
    with subprocess.Popen([program, "session", str(site), str(journal)], stdin=subprocess.PIPE, stdout=subprocess.PIPE) as child:
        child.stdin.write(play.script())
        child.stdin.flush()
        rows = []
        for row in child.stdout:
            rows.append(row)
            if row == last:
                break
        child.kill()
    return play.see(told, what, b"".join(rows))


# The lines of a session.


def add_tick(play, site, moment, calm):
    play.add(f"tick {moment}", f"entered EVENT {moment}", site.tick(moment, calm))


def add_full(play, site, moment):
    """One more notification than there is room for: what would tell it is refused, by the number that would then wait."""
    limit = site.unfinished()
    full = next(it for it in site.objects if it[0] == 45 and site.class_of[it] and site.is_high(it))
    play.add(f"set {moment} {name_of(full)} signed:10", f"full {limit + len(site.recipients[site.class_of[full]])} {limit}")


def add_return(play, site, moment):
    """Each value is set back, and all is back by one tick, whose moment is given."""
    for it in site.objects:
        if it[0] != 9:
            play.set(it, moment, site.line_value(it, True))
    due = moment + 1000 * RETURN_DELAY
    play.add(f"tick {due - 1}", "idle")
    add_tick(play, site, due, True)
    return due


def add_filling(play, files, text, moment, word):
    """Sets a text anew, by which nothing moves, until what comes of it fills an area of the journal. The moment behind it is given."""
    count = files[2].stat().st_size // 2 // len(long_text(""))
    for number in range(count):
        play.set(text, moment + number, "text:" + long_text(f"{word} {number} ").encode().hex())
    play.set(text, moment + count, "text:" + long_text(word).encode().hex())
    return moment + count + 1


def see_snapshot(told, journal, site):
    """The area in use is the second one, and its snapshot is as long as what waits and what is logged, at least."""
    with Journal(journal) as it:
        area = it.settled()
    least = site.LEAST * (site.unfinished() + sum(len(site.kept(log)[0]) for log in site.logged))
    told.want(area.number == 1 and area.snapshot.length > least, f"area {area.number} has a snapshot of {area.snapshot.length} octets, and more than {least} are wanted")
    told.snapshot = area.snapshot.length


# The sessions. Each gives its last event, and how many notifications it sent, or the moment behind it.


def play_alarms(told, files, site, fills):
    """All are in alarm by one tick; one more notification doesn't fit; and the area of the journal is filled."""
    play, moment = Play(), TICK + 2
    add_tick(play, site, TICK, False)
    add_full(play, site, TICK + 1)
    if fills:
        text = next(it for it in site.objects if it[0] == 40 and not site.class_of[it])
        moment = add_filling(play, files, text, moment, "fire")
    events = play_whole(told, "the alarms", files, play)
    if fills:
        see_snapshot(told, files[2], site)
    return events, moment


def play_pump(told, files, site, moment):
    """All is sent that may be, and the session killed."""
    play, sends = Play(), list(site.pump())
    play.pump(moment, sends)
    play.pump(moment, [])
    return play_killed(told, "the pump", files, play, b"2 idle\n"), len(sends)


def play_back(told, files, site):
    """What waits is confirmed, all values are set back, and all is back by one tick and told."""
    play, sent, moment = Play(), 0, int(time.time() * 1000) + 60_000
    while confirmed := list(site.confirm()):
        for it, invoke in confirmed:
            octets = bacnet.simple_ack(invoke, bacnet.CONFIRMED_EVENT_NOTIFICATION)
            play.add(f"from {moment} {it.address} {octets.hex()}", f"entered EVENT {moment}")
        sends = list(site.pump())
        sent += len(sends)
        play.pump(moment, sends)
    due = add_return(play, site, moment)
    sends = list(site.pump())
    play.pump(due, sends)
    return play_whole(told, "the way back", files, play), sent + len(sends)


def play_both_ways(told, files, site, fills):
    """All are in alarm and told; then all are back, which fills the outbox and the logs; and the area of the journal is filled."""
    play = Play()
    add_tick(play, site, TICK, False)
    sends = list(site.pump())
    play.pump(TICK + 1, sends)
    due = add_return(play, site, TICK + 2)
    if fills:
        add_filling(play, files, site.moving[0], due, "calm")
    events = play_whole(told, "there and back", files, play)
    if fills:
        see_snapshot(told, files[2], site)
    return events, len(sends)
