"""The part of checks/tools that sees what is told of notifications that were given up, with flush_silent and without."""
import json
import random
import subprocess
import time

import bacnet
import serving
import tooling
from tooling import lines_of_json, run

from alarm_tools import delivery, given_up, journal

START, TANK, LABEL = serving.START, (bacnet.INTEGER_VALUE, 1), "characterstring-value:1"
DEAD, ALIVE = 47001, 47002
EVENT_ENABLE = 35
# What is done to a delivery of 3 s, and one retry: a note to be confirmed or one that isn't is queued, an answer comes, or a pump at a second. Behind
# a pump stands what it sends and gives up, counted by hand by docs/PROFILE.md, without the key and with it.
BY_HAND = [
    ("nothing waits", ["pump 0"], [(0, 0)], [(0, 0)]),
    ("an unconfirmed one goes at once", ["plain", "plain", "pump 0", "pump 1"], [(2, 0), (0, 0)], [(2, 0), (0, 0)]),
    ("one is awaited up to its deadline, and sent again at it", ["confirmed", "pump 0", "pump 2.999", "pump 3"], [(1, 0), (0, 0), (1, 0)], [(1, 0), (0, 0), (1, 0)]),
    ("it is given up at the last one alone", ["confirmed", "pump 0", "pump 3", "pump 5.999", "pump 6", "pump 9"], [(1, 0), (1, 0), (0, 0), (0, 1), (0, 0)],
     [(1, 0), (1, 0), (0, 0), (0, 1), (0, 0)]),
    ("what stands behind it", ["confirmed", "plain", "confirmed", "plain", "pump 0", "pump 3", "pump 6", "pump 9", "pump 12", "pump 15"],
     [(1, 0), (1, 0), (2, 1), (1, 0), (1, 1), (0, 0)], [(1, 0), (1, 0), (0, 4), (0, 0), (0, 0), (0, 0)]),
    ("what comes behind a giving up", ["confirmed", "confirmed", "pump 0", "pump 3", "pump 6", "confirmed", "pump 6"], [(1, 0), (1, 0), (1, 1), (0, 0)],
     [(1, 0), (1, 0), (0, 2), (1, 0)]),
    ("an answer lets the next one go", ["confirmed", "confirmed", "pump 0", "answer", "pump 1", "pump 4", "pump 7"], [(1, 0), (1, 0), (1, 0), (0, 1)], [(1, 0), (1, 0), (1, 0), (0, 1)]),
    ("256 of them", [*["confirmed"] * 256, "pump 0", "pump 3", "pump 6", "answer", "pump 7"], [(1, 0), (1, 0), (1, 1), (1, 0)], [(1, 0), (1, 0), (0, 256), (0, 0)]),
]


def see_by_hand(told):
    for what, lines, *wanted in BY_HAND:
        for flush in (False, True):
            it, found = delivery.Delivery(), []
            for line in lines:
                word, _, second = line.partition(" ")
                if word == "pump":
                    found.append(tuple(it.pump(START + round(1000 * float(second)), delivery.Timing(3000, 1, flush))))
                elif word == "answer":
                    it.answer()
                else:
                    it.queue(word == "confirmed")
            told.same(f"{what}{', with flush_silent' if flush else ''}", found, wanted[flush])


def sections(flush):
    """A tank whose alarms are told to one who is dead, who also gets each without a confirmation, and to one who answers; and a label."""
    label = "[[object]]", {"kind": "characterstring-value", "instance": 1, "value": "ok"}
    plain = "[[destination]]", {"class": 7, "address": f"{serving.HOST}:{DEAD}", "process": 8, "confirmed": False}
    return [
        serving.device(outbox=64, **flush_of(flush)), serving.of_class(7), serving.told_at(DEAD, 7, True), plain, serving.told_at(ALIVE, 7, True), serving.tank(1, 7, name="Tank"), label,
    ]


def flush_of(flush):
    return {"flush_silent": True} if flush else {}


def script(start, labels=0):
    """Three moves of the tank within two seconds, and a pump each second; the one who answers does so half a second behind each."""
    for second in range(41):
        moment = start + 1000 * second
        if second < 3:
            yield f"set {moment} integer-value:1 signed:{50 if second % 2 else 90}"
        yield f"pump {moment}"
        if second < 3:
            yield f"from {moment + 500} {serving.HOST}:{ALIVE} {bacnet.simple_ack(second, bacnet.CONFIRMED_EVENT_NOTIFICATION).hex()}"
        if second == 5:
            yield from (f"set {moment} {LABEL} text:{f'{number:0256}'.encode().hex()}" for number in range(labels))


# The first note is sent four times, at 0, 3, 6 and 9 s, so it is given up at 12 s; without the key the second one goes out then, and the third at 24 s. With
# the key all six that wait for that recipient go with the first. By the second of the pump: how many.
WANTED = {False: {12: 1, 24: 1, 36: 1}, True: {12: 6}}


def played(program, folder, flush, lines, *parts):
    """A journal to which a script was played."""
    folder.mkdir()
    site, kept = serving.blank(program, folder, *(parts or sections(flush)))
    ended = subprocess.run([program, "session", site, kept], input="".join(f"{line}\n" for line in lines).encode(), capture_output=True, timeout=600, check=False)
    bacnet.want(ended.returncode == 0, f"a session ended with {ended.returncode}, {ended.stderr}")
    return kept


def try_given_up(told, program, folder):
    """What each pump gave up is told, also over a snapshot and of an archive; and where that can't be known it isn't told."""
    see_by_hand(told)
    for flush in (False, True):
        what = f"with flush_silent = {flush}"
        kept = played(program, folder / f"plain-{flush}", flush, script(START))
        wanted = [(START + 1000 * second, [{"peer": f"{serving.HOST}:{DEAD}", "notifications": count}]) for second, count in WANTED[flush].items()]
        see_told(told, program, kept, wanted, what)
        long = played(program, folder / f"long-{flush}", flush, script(START, 1600))
        shown = json.loads(run("alarm-journal", "show", long, "--json")[1])
        told.want(shown["snapshot_events"] > 20, f"the journal has no snapshot: {shown}")
        see_told(told, program, long, wanted, f"{what}, over a snapshot")
        run("alarm-journal", "archive", kept, folder / f"archive-{flush}")
        see_told(told, program, folder / f"archive-{flush}", wanted, f"{what}, of an archive")
        see_random(told, program, folder, flush)
        see_metric(told, program, folder, flush)
    see_unknown(told, program, folder / "plain-False" / "journal")


def see_told(told, program, kept, wanted, what):
    """Each pump that gave something up, and no other event, says so; and all other lines are as without a program."""
    status, output, said = run("alarm-journal", "events", kept, "--program", program)
    rows = lines_of_json(output)
    told.same(f"what is given up {what}", (status, [(row["moment"], row["given_up"]) for row in rows if "given_up" in row]), (0, wanted))
    told.want("isn't told" not in said and all(row["act"] == "pump" for row in rows if "given_up" in row), f"{what}: {said}")
    without = lines_of_json(run("alarm-journal", "events", kept, "--program", "none")[1])
    told.same(f"the events {what}", [{key: it for key, it in row.items() if key != "given_up"} for row in rows], without)
    alone = lines_of_json(run("alarm-journal", "events", kept, "--given-up", "--program", program)[1])
    told.same(f"--given-up {what}", alone, [row for row in rows if "given_up" in row])


def see_metric(told, program, folder, flush):
    """The sum of the last hour, and no older one."""
    now = int(1000 * time.time())
    site = [(head, keys | {"start": START - 100_000_000}) if head == "[device]" else (head, keys) for head, keys in sections(flush)]
    kept = played(program, folder / f"metric-{flush}", flush, [*script(now - 7_200_000), *script(now - 600_000)], *site)
    words = ["alarm-client", "metrics", "--to", f"127.0.0.1:{serving.free_port()}", "--wait", "0.1", "--retries", "0", "--journal", kept, "--given-up"]
    # The second script moves the tank twice, which stood above its limit, and its answers have the invoke IDs of the first, so nobody confirms: two notes to
    # each of both, and with the key the two plain ones too.
    found = [json.loads(run(*words, "--json", "--program", program)[1]).get("given_up_last_hour"), given_up.since(program, kept, now - 7_200_000)]
    told.same("what is given up in the last hour, and ever", found, [{False: 4, True: 6}[flush], {False: 7, True: 12}[flush]])
    status, output, said = run(*words, "--json", "--program", "none")
    told.want(status == 0 and "given_up_last_hour" not in json.loads(output) and "no program" in said, f"without a program: {status}, {output}, {said}")
    told.same("--given-up without a journal", run(*words[:-3], "--given-up")[0], 2)


def see_unknown(told, program, kept):
    """Rules that are wrong are seen by what the program sends, and tell nothing then; and without a program it isn't told."""
    was = delivery.Delivery.give_up
    delivery.Delivery.give_up = lambda it, flush: was(it, True)
    try:
        with journal.Journal(kept) as of:
            it = given_up.Told(program, of.header.text)
            found = [one for _, given in it.over(given_up.rows_of_journal(*of.history())) for one in given]
    finally:
        delivery.Delivery.give_up = was
    told.want(it.fault and "by the rules it is" in it.fault and not found, f"rules that give up all where the site doesn't say so aren't seen: {it.fault}, {found}")
    status, _, said = run("alarm-journal", "events", kept, "--given-up", "--program", "none")
    told.want(status == 1 and "there is no program" in said, f"--given-up without a program: {status}, {said}")


# Random histories, whose pumps have to send what the rules say.


def see_random(told, program, folder, flush):
    draw = random.Random(f"given up {flush}")
    count = 0
    for number in range(6):
        kept = played(program, folder / f"random-{flush}-{number}", flush, random_script(draw), *random_sections(draw, flush))
        with journal.Journal(kept) as of:
            it = given_up.Told(program, of.header.text)
            count += sum(one.count for _, found in it.over(given_up.rows_of_journal(*of.history())) for one in found)
        told.same(f"what can't be told of a random history, flush_silent = {flush}", it.fault, None)
    told.want(count > 20, f"random histories gave up {count}")


def random_sections(draw, flush):
    """A site with two classes, whose five recipients are told at some times of the day, of some transitions, and confirm or don't."""
    them = [
        ("[[destination]]", {
            "class": draw.choice([7, 8]), "address": f"10.0.0.{draw.randrange(5, 8)}:47808", "process": number, "confirmed": draw.random() < 0.7,
            "transitions": draw.choice(["111", "111", "101", "110"]), "days": draw.choice(["1111111", "1111111", "0100000", "1011111"]),
            **draw.choice([{}, {}, {"from": "22:13:30.00"}, {"to": "22:14:10.25"}]),
        }) for number in range(5)
    ]
    zone = draw.choice([{}, {"zone_minutes": -60}, {"zone_rule": "CET-1CEST,M3.5.0,M10.5.0/3"}])
    device = serving.device(outbox=draw.choice([64, 512]), apdu_timeout=draw.choice([1000, 3000]), retries=draw.choice([0, 1, 3]), **zone, **flush_of(flush))
    return [device, serving.of_class(7), serving.of_class(8), *them, *(serving.tank(number, draw.choice([7, 8]), time_delay=draw.choice([0, 0, 2])) for number in (1, 2, 3))]


def random_script(draw):
    """Moves, pumps, faults, answers, acknowledgements, writes of Event_Enable and edits of a list, at moments that go on."""
    moment, moved = START, START
    for _ in range(160):
        moment += draw.choice([0, 10, 500, 1000, 1000])
        of = bacnet.INTEGER_VALUE, draw.randrange(1, 4)
        peer = f"10.0.0.{draw.randrange(5, 8)}:47808"
        kind = draw.choice(["set", "set", "set", "pump", "pump", "pump", "tick", "fault", "answer", "acknowledge", "enable", "edit"])
        asked = f"from {moment} 10.0.0.20:47808 "
        if kind == "set":
            moved = moment
            yield f"set {moment} integer-value:{of[1]} signed:{draw.choice([10, 50, 90])}"
        elif kind == "fault":
            yield f"fault {moment} integer-value:{of[1]} {draw.choice([0, 0, 7])}"
        elif kind == "answer":
            yield from (f"from {moment} {peer} {bacnet.simple_ack(invoke, bacnet.CONFIRMED_EVENT_NOTIFICATION).hex()}" for invoke in range(12))
        elif kind == "acknowledge":
            stamp = bacnet.stamp_of(moved / 1000)
            yield asked + bacnet.acknowledge_alarm(1, 1, of, draw.choice([3, 4, 0]), stamp, stamp).hex()
        elif kind == "enable":
            yield asked + bacnet.write_property(1, of, EVENT_ENABLE, bacnet.bits(draw.choice(["111", "101", "011"]))).hex()
        elif kind == "edit":
            station = bytes([10, 0, 0, draw.randrange(5, 8)]) + (47808).to_bytes(2, "big")
            one = bacnet.destination(bacnet.Destination("1111111", bytes(4), b"\x17\x3b\x3b\x63", (0, station), draw.randrange(5, 7), draw.random() < 0.5, "111"))
            yield asked + bacnet.edit_list(1, draw.choice([bacnet.ADD_LIST_ELEMENT, bacnet.REMOVE_LIST_ELEMENT]), (15, draw.choice([7, 8])), bacnet.RECIPIENT_LIST, one).hex()
        else:
            yield f"{kind} {moment}"
