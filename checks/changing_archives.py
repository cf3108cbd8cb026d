"""The parts of checks/replay for histories that were folded: archives, and a state that is translated."""
import json
import random
import unittest.mock

import bacnet
import changing_reads
import changing_replay
import serving
from alarm_tools import archive_search, journal, replay_packets, replay_source
from changing_replay import run
from changing_sites import START, TOOL, History, draw_site, play
from tooling import lines_of_json

LONG = 250
NOTE = (40, 1)


def sections(*more):
    note = "[[object]]", {"kind": "characterstring-value", "instance": 1, "value": "ok", "name": "Note"}
    return *changing_replay.sections(), note, ("[[log]]", {"instance": 1, "size": 20, "classes": [7]}), *more


class Writing:
    """Ever more events of a site: long texts, so that an area is soon full, and what else happens."""

    def __init__(self, program, site, kept):
        self.program, self.site, self.kept, self.number = program, site, kept, 0

    def give(self, count):
        lines = []
        for _ in range(count):
            self.number += 1
            moment = START + 1000 * self.number
            pick = self.number % 7
            if pick == 0:
                lines += [f"set {moment} integer-value:1 signed:{self.number * 37 % 100}", f"pump {moment}"]
            else:
                lines.append(f"set {moment} characterstring-value:1 text:{f'{self.number:0{LONG}}'.encode().hex()}")
        return play(self.program, self.site, self.kept, lines)

    def until_folded(self):
        """Writes until the journal has changed its area once more."""
        before = self.area()
        while self.area() == before:
            self.give(100)

    def area(self):
        with journal.Journal(self.kept) as it:
            return it.settled().number if not it.header.blank else 0


def try_archive(told, program, folder, _):
    site, kept = changing_replay.small(folder, program, *sections())
    keys, kept_in = {"ALARM_SERVER_PROGRAM": program}, folder / "archive"
    it = Writing(program, site, kept)
    it.give(50)
    told.same("a first archive", run("alarm-journal", "archive", kept, kept_in, **keys)[0], 0)
    it.until_folded()
    status, output, said = run("alarm-journal", "archive", kept, kept_in, "--json", **keys)
    found = json.loads(output) if status == 0 else {}
    told.want(len(found.get("found", [])) == 1 and not found.get("missing"), f"over a fold: {status}, {output!r}, {said!r}")
    shown = json.loads(run("alarm-journal", "show", kept, "--json")[1])
    told.same("show of a folded journal", (shown["whole"], found.get("events")), (False, shown["events"]))
    see_again(told, program, folder, site, kept, kept_in)
    see_report(told, program, folder)
    see_frames(told, kept, kept_in, keys)
    it.until_folded()
    it.until_folded()
    status, output, said = run("alarm-journal", "archive", kept, kept_in, **keys)
    told.want(status == 8 and "are in a snapshot alone" in said, f"over two folds: {status}, {output!r}, {said!r}")
    told.same("behind the gap", run("alarm-journal", "archive", kept, kept_in, **keys)[0], 0)
    told.want("came with a snapshot" in run("alarm-journal", "events", kept_in)[2], "the events of an archive don't tell its gap")
    status, _, said = run("alarm-journal", "replay", kept_in, site, folder / "gone", **keys)
    told.want(status == 8 and "in a snapshot alone" in said, f"a replay over a gap: {status}, {said!r}")
    other = folder / "other.toml"
    other.write_bytes(site.read_bytes() + b"# another\n")
    serving.make_journal(program, other, folder / "other")
    play(program, other, folder / "other", [f"tick {START}"])
    told.same("an archive of another text", run("alarm-journal", "archive", folder / "other", kept_in, **keys)[0], 8)
    told.same("an archive behind it", run("alarm-journal", "archive", folder / "other", folder / "next", "--behind", kept_in, **keys)[0], 0)
    see_unchanged(told, program, folder)


def see_unchanged(told, program, folder):
    """An event that came with a snapshot and changed nothing is found as one that a session makes too, so that it can be played."""
    site, kept = changing_replay.small(folder, program, *sections(), name="unchanged")
    play(program, site, kept, [f"set {START + 1000} integer-value:1 signed:90"])
    moment = fill_up(kept, START + 1000)
    play(program, site, kept, [f"set {moment + 1} integer-value:1 signed:90", f"set {moment + 2} integer-value:1 signed:50"])
    with journal.Journal(kept) as it:
        told.want(it.settled().snapshot.events, "the journal isn't folded by a write of the value that is there")
    changed = folder / "unchanged-next.toml"
    changed.write_text(site.read_text(encoding="utf-8").replace("deadband = 5", "deadband = 6"), encoding="utf-8")
    status, output, said = run("alarm-journal", "replay", kept, changed, folder / "unchanged-new", ALARM_SERVER_PROGRAM=program)
    told.want(status == 0, f"a replay over a write of the value that is there: {status}, {output!r}, {said!r}")


def fill_up(kept, moment):
    """Fills an area to its last octet by writes of the note, one in each batch, as a session's are. Gives the last moment."""
    with journal.Journal(kept) as it:
        area = it.settled()
        place, left = area.place + len(area.octets), it.header.area_octets - len(area.octets)
    head, written = 5 + len(archive_search.write_of(moment, NOTE, 85, archive_search.value_octets(7, ""))), b""
    while left:
        length = min(LONG, left - head)
        # What is left behind it has room for another one, or there is nothing left.
        length -= 2 * head if 0 < left - head - length <= head else 0
        moment += 1
        record = archive_search.write_of(moment, NOTE, 85, archive_search.value_octets(7, f"{moment:0{length}}"[-length:]))
        written += b"\x01" + len(record).to_bytes(4, "big") + record
        left -= head + length
    with open(kept, "r+b") as file:
        file.seek(place)
        file.write(written)
    return moment


def see_again(told, program, folder, site, kept, kept_in):
    """The archive's events are those of the journal, and its replay goes on as the journal does."""
    keys = {"ALARM_SERVER_PROGRAM": program}
    rows, last = (lines_of_json(run("alarm-journal", "events", it)[1]) for it in (kept_in, kept))
    told.same("the numbers of an archive's events", [row["event"] for row in rows], list(range(1, len(rows) + 1)))
    told.want(rows[-len(last):][-1] == last[-1] and {row["event"]: row for row in rows}[last[0]["event"]] == last[0], "an archive has other events than its journal")
    status, _, said = run("alarm-journal", "replay", kept, site, folder / "folded", **keys)
    told.want(status == 0, f"the replay of a journal whose first area is there ended with {status}, {said!r}")
    status, _, said = run("alarm-journal", "replay", kept_in, site, folder / "again", **keys)
    document = changing_replay.document_of(site.read_bytes())
    same = status == 0 and changing_reads.read(program, site, kept, document) == changing_reads.read(program, site, folder / "again", document)
    told.want(same, f"the replay of an archive reads otherwise, or ended with {status}, {said!r}")
    see_many_standbys(told, program, folder, site, kept_in)


def see_many_standbys(told, program, folder, site, kept_in):
    """A history of more packets than a script has lines goes to several standbys, one after the other."""
    events = [event.octets for event in replay_source.Source(kept_in).more()]
    serving.make_journal(program, site, folder / "many", 16_000_000)
    with unittest.mock.patch.object(replay_packets, "MOST_LINES", 60), replay_packets.Standby(program, site, folder / "many") as standby:
        told.want(all(standby.add(octets) for octets in events) and standby.flush(), "a packet to one of many standbys wasn't taken")
        told.want(standby.lines < 60 < len(events) * LONG / replay_packets.MOST, f"{len(events)} events went to one standby")
        standby.end()
    told.same("the events behind many standbys", [event.octets for event in replay_source.Source(folder / "many").more()], events)


def see_report(told, program, folder):
    """The report of an archive is that of the session that made the events."""
    of = folder / "reported"
    of.mkdir()
    draw = random.Random("reported")
    it = History(program, of, draw_site(draw), draw).rounds(2, 12)
    run("alarm-journal", "archive", it.kept, of / "archive", ALARM_SERVER_PROGRAM=program)
    status, output, said = run("alarm-report", of / "archive", "--json", ALARM_SERVER_PROGRAM=program)
    rows = lines_of_json(output)
    moves, moment = [], None
    for row in rows:
        moment = row.get("moment", moment)
        moves += [(moment, row["object"], row["from"], row["to"])] if row["kind"] == "change" else []
    told.same("how the report of an archive ends", (status, said), (0, ""))
    told.same("the moves in the report of an archive", moves, it.moves)


def see_frames(told, kept, kept_in, keys):
    """A frame that is cut is written again; one that stands twice, or is damaged, is no archive's."""
    whole = kept_in.read_bytes()
    kept_in.write_bytes(whole[:-3])
    status, output, said = run("alarm-journal", "archive", kept, kept_in, **keys)
    told.want(status == 0 and len(kept_in.read_bytes()) >= len(whole) - 3, f"a frame that was cut: {status}, {output}, {said}")
    again = [row["event"] for row in lines_of_json(run("alarm-journal", "events", kept_in)[1])]
    told.same("the events behind a cut", again, list(range(1, len(again) + 1)))
    kept_in.with_name("archive.end").unlink()
    told.same("an archive whose end isn't known", run("alarm-journal", "archive", kept, kept_in, **keys)[0], 0)


# States.


def try_states(told, program, folder, _):
    """A folded journal is moved by its state to a text with a point more: a server of that has all that there was."""
    site, kept = changing_replay.small(folder, program, *sections())
    keys, it = {"ALARM_SERVER_PROGRAM": program}, Writing(program, site, kept)
    stamp = bacnet.stamp_of(START / 1000 + 0.5)
    play(program, site, kept, [
        f"set {START + 500} integer-value:1 signed:95", f"from {START + 510} {TOOL} {bacnet.acknowledge_alarm(1, 1, changing_replay.TANK, 3, stamp, stamp).hex()}",
        f"from {START + 520} {TOOL} {bacnet.write_property(1, changing_replay.TANK, 59, bacnet.signed(11)).hex()}",
    ])
    it.until_folded()
    it.until_folded()
    it.give(10)
    new, text = folder / "new.toml", site.read_bytes() + serving.site_text(serving.tank(9, 7, name="More")).encode()
    new.write_bytes(text)
    told.same("without a history", run("alarm-journal", "replay", kept, new, folder / "none", **keys)[0], 8)
    status, output, said = run("alarm-journal", "replay", kept, new, folder / "moved", "--from-state", **keys)
    told.want(status == 0 and "integer-value:9" in output, f"a state that is translated: {status}, {output!r}, {said!r}")
    documents = [changing_replay.document_of(of.read_bytes()) for of in (site, new)]
    before = changing_reads.read(program, site, kept, documents[0])
    after = changing_reads.read(program, new, folder / "moved", documents[1])
    for of, read in before.items():
        told.same(f"what is read of {of} behind it", after.get(of), read)
    told.same("the events of a state that is translated", serving.events_in(program, new, folder / "moved"), serving.events_in(program, site, kept))
    status, _, said = run("alarm-journal", "replay", kept, site, folder / "very", "--from-state", **keys)
    told.same("the very text from its state", status, 0)
