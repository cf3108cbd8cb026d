"""How large an outbox is to be, by the rules of delivery, and after how long a silent recipient fills it (docs/OPERATE.md, How large an outbox).

What waits for a recipient that has answered nothing since T was queued within (retries + 1) * (apdu_timeout + g) + g of now, where g is the longest
gap between pumps and the site has `flush_silent`: by then each of its sendings had its time, and giving up took all that stood behind.
"""
import collections
import math

from . import site_text, week

# The largest outbox that a site may have.
MOST_NOTES = 16384
# What is asked: changes of objects in a second, silent recipients, within how many seconds the others answer, and the longest gap between pumps.
Load = collections.namedtuple("Load", "changes silent within gap", defaults=[1, 0.1, 0.1])
# A recipient of a class: how many notifications it has of one transition of each kind, at most, and whether it is to confirm one.
Recipient = collections.namedtuple("Recipient", "address notes confirms")
# What an outbox has to hold: the class, how much of it each part is, (what, count, each), whether the recipients are quick enough, and after how many
# seconds the silent ones fill it where each notification is given up by itself.
Room = collections.namedtuple("Room", "of_class parts quick full_after")


def recipients(destinations):
    """The recipients of a class, the one with most notifications first."""
    of_address = {}
    for it in destinations:
        if not week.is_never(it):
            of_address.setdefault(it["address"], []).append(it)
    found = [Recipient(address, tuple(most_open(them, place) for place in range(3)), any(it["confirmed"] for it in them)) for address, them in of_address.items()]
    return sorted(found, key=lambda it: (-max(it.notes), it.address))


def most_open(destinations, place):
    """How many of them are told of a transition at once, at most."""
    return max(max(cells) for _, _, cells in week.rows_of(destinations, place, len))


def given_up_after(device):
    """How long a notification that nobody confirms stands before it is given up, in seconds."""
    return (device["retries"] + 1) * device["apdu_timeout"] / 1000


def longest(device, gap):
    """How long before now what waits for a silent recipient may have been queued, in seconds."""
    return (device["retries"] + 1) * (device["apdu_timeout"] / 1000 + gap) + gap


def full_after(device, notes, silent=1):
    """After how many seconds the outbox is full, where so many notifications a second wait for recipients that are silent; None where they don't fill it.

    Each is given up by itself here, as without `flush_silent`.
    """
    rate = notes - silent / given_up_after(device)
    return math.ceil(device["outbox"] / rate) if rate > 0 else None


def queued(changes, seconds):
    """How many changes fall into so many seconds, where no second has more."""
    return max(1, math.ceil(changes)) + math.floor(changes * seconds)


def room(site, load):
    """What an outbox has to hold for the class that wants most: all objects at once, and what waits while objects change."""
    rows = [room_of(site, it["instance"], destinations, load) for it in site.classes if (destinations := site_text.lists(site)[it["instance"]])]
    return max(rows, key=lambda it: (not it.quick, total(it)), default=Room(None, [], True, None))


def room_of(site, of_class, destinations, load):
    all_of_them = recipients(destinations)
    confirm, others = ([it for it in all_of_them if it.confirms is which] for which in (True, False))
    silent, answer = confirm[: load.silent], confirm[load.silent :]
    burst, changes = queued(load.changes, 0), queued(load.changes, longest(site.device, load.gap))
    quick = all(load.changes * max(it.notes) * (load.within + load.gap) <= 1 for it in answer)
    parts = [("all objects at once", 1, site_text.notes_at_once(site))]
    for what, them, count in [
        ("recipients that are silent", silent, changes), (f"recipients that answer within {load.within:g} s", answer, burst),
        ("recipients that don't confirm", others, queued(load.changes, load.gap)),
    ]:
        parts += [(what, sum(max(it.notes) == notes for it in them), notes * count) for notes in sorted({max(it.notes) for it in them}, reverse=True)]
    waits = load.changes * sum(max(it.notes) for it in silent)
    return Room(of_class, parts, quick, full_after(site.device, waits, len(silent)) if silent else None)


def total(of):
    return sum(count * each for _, count, each in of.parts)
