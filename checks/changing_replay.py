"""The parts of checks/replay that play histories to changed texts."""
import collections
import random
import subprocess
import time
import unittest.mock

import bacnet
import changing_reads
import serving
from alarm_tools import archive, journal, names, replay, replay_lines, replay_words, words
from changing_sites import START, TOOL, History, change, change_nothing, draw_site, play, text_of
from tooling import environment, words_of

TANK = (bacnet.INTEGER_VALUE, 1)
# For how long a tool may run: long enough for a machine that has much else to do.
SECONDS = 600


def run(name, *given, **keys):
    """How a tool ended: its status, its standard output and its standard error."""
    ended = subprocess.run(words_of(name, *given), stdin=subprocess.DEVNULL, capture_output=True, timeout=SECONDS, check=False, text=True, env=environment(**keys))
    return ended.returncode, ended.stdout, ended.stderr


def octets_of(path):
    """The octets of each record of a journal that was never folded."""
    with journal.Journal(path) as it:
        area = it.settled()
    return [octets for place, body in journal.batches_in(area) for _, octets, _ in archive.records_in(body, 1, place)]


def played(program, kept, text, folder, **options):
    """The outcome of a replay, and its journal, which stays in the folder."""
    folder.mkdir(exist_ok=True)
    for it in folder.iterdir():
        it.unlink()
    with replay.Run(program, kept, text, folder, replay.Options(**options)) as it:
        it.catch_up()
        return it.finish(), it.journal


def told_in(outcome):
    return [replay_words.text_of(line) for line in outcome.lines]


def small(folder, program, *sections, name="old"):
    """A journal of a small site, with a tank, its class and its recipient."""
    site, kept = folder / f"{name}.toml", folder / name
    site.write_text(serving.site_text(*sections), encoding="utf-8")
    serving.make_journal(program, site, kept)
    return site, kept


def sections(*more, **keys):
    return serving.device(outbox=64), serving.of_class(7), serving.told_at(47000, 7, True), serving.tank(1, 7, name="Tank", **keys), *more


# Acts, and the very text.


def try_acts(told, program, folder, given):
    """Random histories to their very text are the same octets; and all seven acts are among them."""
    acts = collections.Counter()
    for number in range(3):
        of = folder / str(number)
        of.mkdir()
        draw = random.Random(f"{given.seed} acts {number}")
        it = History(program, of, draw_site(draw), draw).rounds(4, 15)
        outcome, made = played(program, it.kept, text_of(it.document), of / "work", most_lines=9 if number == 2 else 900_000)
        told.same(f"what history {number} tells", told_in(outcome), [])
        told.want(made.read_bytes() == it.kept.read_bytes(), f"history {number} isn't the same octets")
        acts.update(journal.record_at(octets, 0, 0)[0].act for octets in octets_of(it.kept))
    site, kept = small(folder, program, *sections())
    stamp, one = bacnet.stamp_of(START / 1000 + 1), bacnet.destination(bacnet.Destination("1111100", bytes(4), bytes([23, 59, 59, 99]), (0, bytes([10, 0, 0, 8, 1, 1])), 2, True, "101"))
    play(program, site, kept, [
        f"set {START + 1000} integer-value:1 signed:90", f"pump {START + 1000}", f"from {START + 1001} 127.0.0.1:47000 {bacnet.simple_ack(0, 2).hex()}",
        f"from {START + 1002} {TOOL} {bacnet.acknowledge_alarm(1, 1, TANK, 3, stamp, stamp).hex()}", f"fault {START + 1003} integer-value:1 7",
        f"from {START + 1004} {TOOL} {bacnet.edit_list(1, 8, (15, 7), 102, one).hex()}", f"from {START + 1005} {TOOL} {bacnet.edit_list(1, 9, (15, 7), 102, one).hex()}",
        f"from {START + 1006} {TOOL} {bacnet.write_property(1, TANK, 113, bacnet.application(bacnet.UNSIGNED, 5)).hex()}",
        f"set {START + 1007} integer-value:1 signed:50", f"fault {START + 1007} integer-value:1 0", f"tick {START + 9000}",
    ])
    _, made = played(program, kept, site.read_bytes(), folder / "each")
    told.want(made.read_bytes() == kept.read_bytes(), "a history of each act isn't the same octets")
    acts.update(journal.record_at(octets, 0, 0)[0].act for octets in octets_of(kept))
    told.same("the acts", sorted(acts), list(range(1, 8)))


# Changes.


def try_nothing(told, program, folder, given):
    for number in range(given.count):
        draw = random.Random(f"{given.seed} nothing {number}")
        it = History(program, folder, draw_site(draw), draw).rounds(3, 8)
        text = change_nothing(draw, it.document)
        outcome, made = played(program, it.kept, text, folder / "work")
        told.same(f"what change {number} to nothing tells", (told_in(outcome), outcome.end["of_change"]), ([], 0))
        told.want(octets_of(made) == octets_of(it.kept), f"change {number} to nothing has other records")
        site = folder / "new.toml"
        site.write_bytes(text)
        found = [changing_reads.read(program, *of, it.document) for of in ((it.site, it.kept), (site, made))]
        told.want(found[0] == found[1], f"change {number} to nothing reads otherwise")


def document_of(text):
    import tomllib
    found = tomllib.loads(text.decode())
    return {key: found.get(key, []) for key in ("class", "object", "enrollment", "log")}


def try_changes(told, program, folder, given):
    for number in range(given.count):
        draw = random.Random(f"{given.seed} change {number}")
        it = History(program, folder, draw_site(draw), draw).rounds(3, 8)
        text, done = change(draw, it.document)
        site, documents = folder / "new.toml", (it.document, document_of(text))
        site.write_bytes(text)

        def want(holds, what, number=number, done=done):
            told.want(holds, f"change {number} ({', '.join(done)}): {what}")

        see_as_if(want, program, it, text, site, folder)
        outcome, made = played(program, it.kept, text, folder / "work")
        firsts = [first_reading(program, of, document, folder) for of, document in zip((it.site, site), documents)]
        reads = [changing_reads.read(program, of, kept, document) for of, kept, document in ((it.site, it.kept, documents[0]), (site, made, documents[1]))]
        changing_reads.see(want, documents, reads + firsts, outcome.lines)


def first_reading(program, site, document, folder):
    """What a client reads of a blank journal of a text."""
    kept = folder / "first"
    serving.make_journal(program, site, kept)
    return changing_reads.read(program, site, kept, document)


def as_written(line):
    """A `set` as a WriteProperty, which a changed text takes also where the object is out of service there."""
    what, moment, *rest = line.split()
    if what != "set":
        return line
    of, kind = names.object_from(rest[0]), rest[1].partition(":")
    tag = {"signed": bacnet.SIGNED, "unsigned": bacnet.UNSIGNED}.get(kind[0], bacnet.ENUMERATED)
    value = int(kind[2]) if kind[2] else int(kind[0] == "active")
    return f"from {moment} {TOOL} {bacnet.write_property(4, of, 85, bacnet.application(tag, value)).hex()}"


def is_look(line):
    """Whether the objects are looked at by a line: by one that writes."""
    words_of_line = line.split()
    return words_of_line[0] == "fault" or words_of_line[0] == "from" and bytes.fromhex(words_of_line[3])[6:10:3] == bytes([0, bacnet.WRITE_PROPERTY])


def see_as_if(want, program, it, text, site, folder):
    """As if the text had always been in force: the moves are those of a session of it with the same lines, where nothing is held."""
    outcome, _ = played(program, it.kept, text, folder / "work", as_if=True)
    moves = collections.Counter(it.moves)
    for line in outcome.lines:
        if line["kind"] in ("gone", "come"):
            moves[line["moment"], line["object"], line["from"], line["to"]] += 1 if line["kind"] == "come" else -1
    plain = folder / "plain"
    serving.make_journal(program, site, plain)
    wanted = collections.Counter()
    # Those that were events alone, since an idle tick has no record; and time goes by where a write is none here.
    lines = [one for line in map(as_written, it.entered) for one in ([line, f"tick {it.moment_of(line)}"] if is_look(line) else [line])]
    for head, changes, _ in play(program, site, plain, lines):
        wanted.update((int(head[2]), *of) for of in changes)
    want(+moves == wanted, f"as if it had always been in force it moves {dict(moves - wanted)} more, and {dict(wanted - moves)} less")


# Wrong tools.


def caught(call):
    """Whether a wrong tool is caught: by the replay itself, or by what a call finds of it."""
    try:
        return not call()
    except words.Ends as end:
        return end.status == replay.PARTED


def try_wrong_tools(told, program, folder, _):
    """Each way to be wrong, by a history that shows it: what is right is found with the tool as it is, and not with the wrong one."""
    for name, case, wrong in WRONG:
        of = folder / name.replace(" ", "-")
        of.mkdir()
        call = case(program, of)
        told.want(not caught(call), f"the right tool fails where one is to {name}")
        with wrong():
            told.want(caught(call), f"a tool isn't caught that would {name}")


def patched(of, name, value):
    return lambda: unittest.mock.patch.object(of, name, value)


def set_line(record):
    if record.act == 2 and record.fields["property"] == 85:
        return f"set {record.moment} integer-value:{record.fields['object'][1]} signed:{record.fields['value'][1]}"
    return RIGHT_PLAIN(record)


RIGHT_PLAIN = replay_lines.plain


def out_of_service_case(program, of):
    site, kept = small(of, program, *sections(out_of_service=True))
    play(program, site, kept, [f"from {START + 1000} {TOOL} {bacnet.write_property(1, TANK, 85, bacnet.signed(90)).hex()}"])
    return lambda: told_in(played(program, kept, site.read_bytes() + b"# changed\n", of / "work")[0]) == []


def another_transition_case(program, of):
    """The alarm comes at another moment as if the limit had been lower, so its acknowledgement is of another transition."""
    site, kept = small(of, program, *sections())
    stamp = bacnet.stamp_of(START / 1000 + 2)
    play(program, site, kept, [
        f"set {START + 1000} integer-value:1 signed:70", f"set {START + 2000} integer-value:1 signed:90",
        f"from {START + 3000} {TOOL} {bacnet.acknowledge_alarm(1, 1, TANK, 3, stamp, stamp).hex()}",
    ])
    text = site.read_bytes().replace(b"high = 80", b"high = 60")
    return lambda: any("another transition" in it for it in told_in(played(program, kept, text, of / "work", as_if=True)[0]))


def acknowledge_any(self, event):
    record, of = event.record, event.record.fields
    for side in (self.old, self.new):
        side.put(replay_lines.asked(record.moment, replay_lines.acknowledgement(of, side.stamp(record))), replay.Given(event))


def gone_object_case(program, of):
    """The delay of one object ends at the event of another one, which is gone in the changed text."""
    other = serving.integer(2, name="Other")
    site, kept = small(of, program, *sections(other, time_delay=10))
    play(program, site, kept, [f"set {START + 1000} integer-value:1 signed:90", f"set {START + 11_000} integer-value:2 signed:3", f"tick {START + 60_000}", f"set {START + 60_000} integer-value:1 signed:91"])
    text = serving.site_text(*sections(time_delay=10)).encode()
    return lambda: not any(it.startswith(("gone", "come")) for it in told_in(played(program, kept, text, of / "work")[0]))


def plain_without_tick(self, event):
    record, of = event.record, event.record.fields.get("object")
    self.old.put(replay_lines.plain(record), replay.Given(event))
    if of in self.gone:
        self.tell_left(replay.Given(event), "unknown-object")
    else:
        self.new.put(replay_lines.plain(record), replay.Given(event))


def start_case(program, of):
    """An object is in alarm from its beginning, so its first look has to stay that of the first event."""
    site, kept = small(of, program, *sections(serving.tank(2, 7, name="Hot", value=95)))
    play(program, site, kept, [f"set {START + 5000} integer-value:1 signed:60"])
    text = site.read_bytes().replace(b"deadband = 5", b"deadband = 4", 1)
    return lambda: not any(it.startswith(("gone", "come")) for it in told_in(played(program, kept, text, of / "work")[0]))


def full_case(program, of):
    """A recipient more whom nobody answers for would fill an outbox of 64."""
    told = serving.told_at(47001, 7, False)
    site, kept = small(of, program, serving.device(outbox=64), serving.of_class(7), told, serving.tank(1, 7, name="Tank"))
    play(program, site, kept, [line for it in range(60) for line in (
        f"set {START + 1000 * it + 1000} integer-value:1 signed:{90 if it % 2 else 50}", f"pump {START + 1000 * it + 1000}")])
    dead = serving.told_at(47002, 7, True), serving.told_at(47003, 7, True)
    text = serving.site_text(serving.device(outbox=64, apdu_timeout=600_000), serving.of_class(7), told, *dead, serving.tank(1, 7, name="Tank")).encode()
    return lambda: not any("full" in it for it in told_in(played(program, kept, text, of / "work", as_if=True)[0]))


def list_case(program, of):
    """A workstation entered itself, and the changed text has another recipient: as if it had always been there both are told."""
    site, kept = small(of, program, *sections())
    one = bacnet.destination(bacnet.Destination("1111111", bytes(4), bytes([23, 59, 59, 99]), (0, bytes([10, 0, 0, 8, 1, 1])), 2, True, "111"))
    play(program, site, kept, [f"from {START + 1000} {TOOL} {bacnet.edit_list(1, 8, (15, 7), 102, one).hex()}"])
    text = site.read_bytes() + serving.site_text(serving.told_at(47005, 7, True)).encode()

    def call():
        _, made = played(program, kept, text, of / "work", as_if=True)
        (of / "new.toml").write_bytes(text)
        _, _, sends = play(program, of / "new.toml", made, [f"from {START + 9000} {TOOL} {bacnet.read_property(1, (15, 7), 102).hex()}"])[0]
        return len(bacnet.destinations_of(bacnet.values_read(bacnet.read(sends[0][1]))[3])) == 3

    return call


def edit_replacing(self, event):
    record, of_class = event.record, event.record.fields["class"]
    wanted = [replay_lines.destination(it) for it in record.fields["recipients"]]
    for side in (self.old, self.new):
        for request in replay_lines.edits(of_class, side.list_now(record.moment, of_class), wanted):
            side.put(replay_lines.asked(record.moment, request), replay.Given(event))


WRONG = [
    ("set in place of writing", out_of_service_case, patched(replay_lines, "plain", set_line)),
    ("acknowledge another transition", another_transition_case, patched(replay.Replay, "acknowledge", acknowledge_any)),
    ("let no time pass for an object that is gone", gone_object_case, patched(replay.Replay, "plain", plain_without_tick)),
    ("hold at a start that moves something", start_case, patched(replay.Replay, "is_quiet", lambda self: True)),
    ("let the outbox fill", full_case, patched(replay.Replay, "drain", lambda self: None)),
    ("replace lists", list_case, patched(replay.Replay, "edit", edit_replacing)),
    ("miss a write of the old text", out_of_service_case, patched(replay_lines, "plain", lambda record: f"tick {record.moment}")),
]


# Words.


def try_words(told, program, folder, _):
    """The words of the command, its statuses, and its lines word for word."""
    site, kept = small(folder, program, *sections(serving.integer(2, name="Return")))
    keys = {"ALARM_SERVER_PROGRAM": program}
    write = bacnet.write_property(1, TANK, 45, bacnet.signed(85)).hex()
    play(program, site, kept, [f"set {START + 1000} integer-value:1 signed:90", f"from {START + 2000} {TOOL} {write}", f"set {START + 3000} integer-value:2 signed:7"])
    changed = folder / "changed.toml"
    more = serving.tank(3, 7, name="Freezer"), serving.told_at(47009, 7, False)
    changed.write_text(serving.site_text(serving.device(outbox=64), ("[[class]]", {"instance": 7, "priority": [1, 2, 3], "ack_required": [True, True, False]}),
                                         serving.told_at(47000, 7, True), serving.tank(1, 7, name="Tank", **{"high": 75, "time_delay": 4}), *more))
    new = folder / "new"
    wanted = [
        'left out: event 3, 2023-11-14 22:13:23, write of integer-value:2 "Return" present-value = 7: unknown-object',
        'stays: integer-value:1 "Tank" high-limit 85, written by event 2; the text has 75 in place of 80',
        "not as it was: notification-class:7 priority holds for the past too",
        'from now on: integer-value:1 "Tank" time-delay 4 in place of 0', 'from now on: integer-value:3 "Freezer" is there',
        'from now on: integer-value:2 "Return" is gone', "from now on: notification-class:7 tells 127.0.0.1:47009 process 7",
    ]
    status, output, said = run("alarm-journal", "replay", kept, changed, new, "--dry-run", **keys)
    told.same("a dry run", (status, output.splitlines()[:-1], said, new.exists()), (4, wanted, "", False))
    told.want(output.splitlines()[-1].startswith(f"nothing was made: {new} would have 9 events, 2 of {kept} and 7 of the change; 1 left out, 1 stays as it was written"), output.splitlines()[-1])
    status, output, said = run("alarm-journal", "replay", kept, changed, new, **keys)
    told.same("a replay", (status, output.splitlines()[:-1], said), (4, wanted, ""))
    told.want(output.splitlines()[-1].startswith(f"{new}: 9 events, 2 of {kept} and 7 of the change"), output)
    told.same("a journal that is there", run("alarm-journal", "replay", kept, changed, new, **keys)[0], 1)
    told.same("what opens of it", serving.events_in(program, changed, new), 9)
    status, output, _ = run("alarm-journal", "replay", kept, changed, "--dry-run", "--set", "integer-value:1.high", **keys)
    told.want('from now on: integer-value:1 "Tank" high-limit 75 in place of 85\n' in output and "stays" not in output, f"--set told {output}")
    changed.write_text("[device]\ninstance = nonsense\n")
    status, _, said = run("alarm-journal", "replay", kept, changed, "--dry-run", **keys)
    told.want(status == 3 and said.startswith(f"alarm-journal: {changed}:2: site refused: not-toml"), f"no site: {status}, {said!r}")
    changed.write_text(site.read_text().replace(f"start = {START}", f"start = {START + 2000}"))
    status, _, said = run("alarm-journal", "replay", kept, changed, "--dry-run", **keys)
    told.want(status == 8 and "behind the first event" in said, f"a later start: {status}, {said!r}")
    told.same("a key that is none", run("alarm-journal", "replay", kept, site, "--dry-run", "--set", "high", **keys)[0], 2)
    told.same("no program", run("alarm-journal", "replay", kept, site, "--dry-run", ALARM_SERVER_PROGRAM="none")[0], 1)
    told.same("NEW that is missing", run("alarm-journal", "replay", kept, site, **keys)[0], 2)
    status, output, _ = run("alarm-journal", "replay", kept, site, folder / "again", **keys)
    told.same("the very text", (status, octets_of(folder / "again") == octets_of(kept)), (0, True))
    see_there_and_back(told, program, folder, site, kept)


def see_there_and_back(told, program, folder, site, kept):
    """A point more and away again: a client reads what it read before."""
    text = site.read_bytes() + serving.site_text(serving.tank(4, 7, name="More")).encode()
    _, there = played(program, kept, text, folder / "there")
    _, back = played(program, there, site.read_bytes(), folder / "back")
    document = document_of(site.read_bytes())
    told.want(changing_reads.read(program, site, kept, document) == changing_reads.read(program, site, back, document), "there and back reads otherwise")


# Kills.


def try_kills(told, program, folder, _):
    """A replay that is killed leaves no new journal, or the whole one; and the next one makes it."""
    site, kept = small(folder, program, *sections())
    play(program, site, kept, [f"set {START + 1000 + it} integer-value:1 signed:{it % 100}" for it in range(300)])
    changed, new, before = folder / "changed.toml", folder / "new", kept.read_bytes()
    changed.write_bytes(site.read_bytes().replace(b"deadband = 5", b"deadband = 4"))
    seen = collections.Counter()
    for number in range(6):
        child = subprocess.Popen(words_of("alarm-journal", "replay", kept, changed, new), stdout=subprocess.DEVNULL, stderr=subprocess.DEVNULL, env=environment(ALARM_SERVER_PROGRAM=program))
        time.sleep(0.1 * number)
        child.kill()
        child.wait()
        seen[new.exists()] += 1
        if new.exists():
            told.want(serving.events_in(program, changed, new) >= 300, "a journal of a replay that was killed isn't whole")
            new.unlink()
    status, output, said = run("alarm-journal", "replay", kept, changed, new, ALARM_SERVER_PROGRAM=program)
    told.want(status == 0 and new.exists(), f"behind the kills: {status}, {output[-200:]}, {said}")
    told.want(kept.read_bytes() == before and seen[False], f"the old journal is another one, or none was killed in time: {seen}")
