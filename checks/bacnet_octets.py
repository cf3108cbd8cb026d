"""Holds what checks/bacnet.py writes and reads against octets that stand in docs/WIRE.md and in cases/, written from the standard."""
import pathlib

import bacnet
from bacnet import Message, Notification, Summary

TOP = pathlib.Path(__file__).resolve().parent.parent
WIRE = "docs/WIRE.md"
TANK, PLANT = (bacnet.INTEGER_VALUE, 1), (bacnet.DEVICE, 1001)
# 2023-11-14, a Tuesday, 22:13:30.00 UTC, and ten seconds behind it.
ALARM, BEHIND = 1_700_000_010, 1_700_000_020
STAMP, NEVER = bytes.fromhex("7b0b0e02 160d1e00"), b"\xff" * 8

# What is written: the page or the case, its octets, and what comes to them.
WRITTEN = [
    (WIRE, "810a0008 0100 1008", bacnet.who_is()),
    (WIRE, "810a000c 0100 1008 0901 1902", bacnet.who_is(1, 2)),
    ("cases/who-is-is-answered-within-its-range", "810a000e010010080a03e91a03e9", bacnet.who_is(1001, 1001)),
    (WIRE, "810a0011 0104 0005010c 0c0b400001 1924", bacnet.read_property(1, TANK, bacnet.EVENT_STATE)),
    (WIRE, "810a0015 0104 0005010f 0c0b400001 1a0162 3e113f", bacnet.write_property(1, TANK, bacnet.EVENT_ALGORITHM_INHIBIT, bacnet.boolean(True))),
    ("cases/a-request-whose-notes-do-not-fit-is-aborted", "810a001501040005010f0c0b40000219553e315a3f",
     bacnet.write_property(1, (bacnet.INTEGER_VALUE, 2), bacnet.PRESENT_VALUE, bacnet.signed(90))),
    ("cases/limits-and-values-keep-what-was-written", "810a001501040005010f0c0b400001192d3e31f93f", bacnet.write_property(1, TANK, 45, bacnet.signed(-7))),
    ("cases/alarm-is-acknowledged-once", "810a003301040005070009011c0b40000129023e2ea47b0b0e02b4160d1e002f3f4b006f705e2ea47b0b0e02b4160d28002f5f",
     bacnet.acknowledge_alarm(7, 1, TANK, bacnet.OFFNORMAL, bacnet.stamp_of(ALARM), bacnet.stamp_of(BEHIND))),
    (WIRE, "810a000a 0104 0005011b", bacnet.request(1, 27, b"")),
    (WIRE, "810a0009 0100 200002", bacnet.simple_ack(0, bacnet.CONFIRMED_EVENT_NOTIFICATION)),
]


def message_of(message):
    return message


def alarm_of(message):
    """The head of a notification and what it tells, without its event values, of which the numbers are told."""
    told = bacnet.notification_of(message)
    values = told.values and [(it.number, [(part.number, part.content.hex()) for part in it.content]) for it in told.values]
    return message[:3], told._replace(values=values)


# What is read: the page or the case, its octets, the call that reads it, and what it comes to.
READ = [
    (WIRE, "810a0009 0100 20010f", message_of, Message("simple-ack", 1, bacnet.WRITE_PROPERTY, b"")),
    (WIRE, "810a0009 0100 600105", message_of, Message("reject", 1, 5, b"")),
    (WIRE, "810a0009 0100 710104", message_of, Message("abort", 1, 4, b"")),
    (WIRE, "810a000d 0100 50010c 9101 911f", bacnet.error_of, (1, 31)),
    (WIRE, "810a0014 0100 30010c 0c0b400001 1924 3e91003f", bacnet.value_read, (TANK, bacnet.EVENT_STATE, bacnet.NORMAL)),
    (WIRE, "810a0015 0100 1000 c4020003e9 2205c4 9103 2203e7", bacnet.device_of, (PLANT, 1476, 3, 999)),
    (WIRE, "810a004a 0100 30011d 0e 0c0b400001 1903 2a0560 3e 2ea47b0b0e02b4160d1e002f 2ea4ffffffffb4ffffffff2f 2ea4ffffffffb4ffffffff2f 3f "
     "4900 5a05e0 6e216421 5a21c86f 0f 1901", bacnet.summaries_of,
     ([Summary(TANK, 3, (False, True, True), [STAMP, NEVER, NEVER], bacnet.ALARM, (True, True, True), [100, 90, 200])], True)),
    ("cases/an-alarm-and-its-acknowledgement-are-told.stdout",
     "810a004101040005000209011c020003e92c0b4000013e2ea47b0b0e02b4160d1e002f3f49075964690f89009901a900b903cefe0f095a1a048029053950ff0fcf", alarm_of,
     (("request", 0, 2), Notification(1, PLANT, TANK, STAMP, 7, 100, 15, bacnet.ALARM, 1, 0, 3, [(15, [(0, "5a"), (1, "0480"), (2, "05"), (3, "50")])]))),
    ("cases/an-alarm-and-its-acknowledgement-are-told.stdout",
     "810a002e01040005010209011c020003e92c0b4000013e2ea47b0b0e02b4160d28002f3f49075964690f8902b902", alarm_of,
     (("request", 1, 2), Notification(1, PLANT, TANK, bacnet.stamp_of(BEHIND), 7, 100, 15, bacnet.ACKNOWLEDGED, None, None, 2, None))),
    ("cases/each-algorithm-tells-its-values.stdout",
     "810a00400100100309011c020003e92c0b4000013e2ea47b0b0e02b4160d14002f3f49075964690f89009901a900b904cefe0f0aff7f1a048029053914ff0fcf", alarm_of,
     (("unconfirmed", None, 3), Notification(1, PLANT, TANK, bacnet.stamp_of(1_700_000_000), 7, 100, 15, bacnet.ALARM, 1, 0, 4,
                                             [(15, [(0, "ff7f"), (1, "0480"), (2, "05"), (3, "14")])]))),
]


def stands_in(page, octets):
    """Whether octets stand in a page or a case, whose blanks are for reading alone."""
    text = (TOP / page).read_text(encoding="utf-8")
    return octets in text.replace(" ", "").replace("`", "")


def is_refused(call, octets):
    """Whether octets are refused by a call."""
    try:
        call(bacnet.read(octets))
    except ValueError:
        return True
    return False


def test_octets(want):
    """Holds all of them, gives what isn't as it should be to `want`, and says how many octet strings there are."""
    for page, spelled, written in WRITTEN:
        octets = spelled.replace(" ", "")
        want(stands_in(page, octets), f"{page} doesn't have {octets}")
        want(written.hex() == octets, f"{octets} of {page} is written {written.hex()}")
    for page, spelled, call, wanted in READ:
        octets = bytes.fromhex(spelled)
        want(stands_in(page, octets.hex()), f"{page} doesn't have {octets.hex()}")
        found = call(bacnet.read(octets))
        want(found == wanted, f"{octets.hex()} of {page} is read as {found}, and not {wanted}")
        # What lacks its last octet has to be refused, also where the length is mended.
        cut = octets[:2] + (len(octets) - 1).to_bytes(2, "big") + octets[4:-1]
        want(is_refused(call, octets[:-1]) and is_refused(call, cut), f"{octets.hex()} is read without its last octet")
    return len(WRITTEN) + len(READ)
