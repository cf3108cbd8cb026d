"""The part of checks/change that brings a ward with a dead recipient into use of flush_silent."""
import json

import changing
import tooling
from changing import Desk, ward
from changing_parts import asked, see_to_alarms, see_ward, until_done


# What the ward's past and its people tell of the class Vital: four alarms, and two acknowledgements. All of it waits for the one who is dead.
WAITING = 6


def with_key(unit):
    """The file of the ward's text with the key."""
    path = unit.folder / "next.toml"
    path.write_text(unit.text().replace("[device]\n", "[device]\nflush_silent = true\n", 1), encoding="utf-8")
    return path


def given_up(unit):
    """What was given up, by the journal in force: the address and how many, in turn."""
    status, said = unit.run("alarm-journal", "events", "state/current/journal", "--given-up", "--program", "libexec/alarm-server/alarm_server")
    if status:
        raise ValueError(f"alarm-journal ended with {status}: {said}")
    return [(it["peer"], it["notifications"]) for line in said.splitlines() if line.startswith("{") for it in json.loads(line)["given_up"]]


def try_silent(told, program, folder):
    """By the change alone the ward comes into use of the key: all that happened is as before, and what waits for the dead one goes with one giving up."""
    with ward(folder / "unit", program) as unit, Desk(unit.desk):
        unit.begin()
        see_to_alarms(unit)
        before, old = asked(unit), unit.text()
        status, said = until_done(unit, with_key(unit), "--yes")
        told.want(status == 0 and 'device:7002 "Ward 7B" flush-silent holds for the past too' in said, f"the change told {status}, {said}")
        told.same("the text in force", unit.text(), old.replace("[device]\n", "[device]\nflush_silent = true\n", 1))
        see_ward(told, "with the key", unit, before)
        tooling.until(lambda: sum(count for _, count in given_up(unit)) >= WAITING, changing.SECONDS)
        found = given_up(unit)
        told.want(sum(count for _, count in found) == WAITING and len({peer for peer, _ in found}) == 1, f"{WAITING} wait for one who is dead, and given up are {found}")
        # One who acknowledges late may find that the first ones are given up already.
        told.want(len(found) < WAITING, f"each is given up by itself: {found}")
        see_ward(told, "behind the giving up", unit, before)
