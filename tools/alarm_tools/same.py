"""Whether two journals are of one history: one text of the site, and one record for each number that both have.

A journal has the records since its last snapshot, and those before it as long as the area that isn't in use still has them. What
stands in a snapshot alone has no record here. Of a journal on another machine its digest is asked: sums of the records of ranges
of numbers, which lie side by side, so that the other journal can make the same sums of its own records.
"""
import collections
import hashlib
import sys

from . import journal, words
from .words import Ends

PARTED, OTHER_SITE, UNTOLD = 10, 11, 12
# How many records a range has, and how many of the last ones have a range of their own.
RANGE, SINGLE = 4_096, 64
BLANK = "-"

# A journal as it is compared: the sum of its text, its number of events, that of its last record or None, ranges of records as
# (first, last, sum), and its snapshots as {events: sum}.
Digest = collections.namedtuple("Digest", "site events last ranges snapshots")
# What a comparison came to: a status, and a text for people.
Verdict = collections.namedtuple("Verdict", "status text")


def sum_of(octets):
    return hashlib.sha256(octets).hexdigest()


# The records of a journal.


def records_in(area):
    """Each record of an area as octets, with its number."""
    octets, at, number = area.octets, area.batches, area.snapshot.events
    while at + 5 <= len(octets):
        behind = at + 5 + int.from_bytes(octets[at + 1 : at + 5], "big")
        at += 5
        while at < behind:
            end, number = at + octets_of(octets, at, area.place), number + 1
            yield number, octets[at:end]
            at = end


def octets_of(octets, at, before=0):
    """How many octets the record at a place has."""
    try:
        return journal.OCTETS.get(octets[at + 8]) or journal.octets_of_record(octets, at)
    except (IndexError, KeyError):
        raise journal.NoJournal("no record", before + at) from None


def areas_of(it):
    """The areas of an opened journal that have one history, the older one first."""
    return [] if it.header.blank else [area for area in it.history() if area]


def numbered(areas):
    for area in areas:
        yield from records_in(area)


def snapshots_in(areas):
    """The sum of each snapshot, by the number of events of which it tells."""
    return {it.snapshot.events: sum_of(it.octets[4 : 4 + it.snapshot.length]) for it in areas if it.snapshot.length}


# Digests.


def ranges_of(areas):
    """The ranges into which the records of areas fall: whole ones by their number, and each of the last records for itself."""
    if not areas:
        return []
    events, spans, found = journal.events_in(areas[-1]), [], []
    for area in areas:
        spans.append((area.snapshot.events + 1, journal.events_in(area)))
    for first, last in spans:
        while first <= last:
            alone = first > events - SINGLE
            end = first if alone else min(last, events - SINGLE, (first - 1) // RANGE * RANGE + RANGE)
            found.append((first, end))
            first = end + 1
    return found


def sums_over(records, ranges):
    """The sum of each range, or None where a record of it is missing. Both ascend."""
    sums, place, made, next_number = [None] * len(ranges), 0, None, 0
    for number, octets in records:
        while place < len(ranges) and ranges[place][1] < number:
            place, made = place + 1, None
        if place == len(ranges):
            break
        first, last = ranges[place][:2]
        if number == first:
            made = hashlib.sha256()
        elif number != next_number:
            made = None
        next_number = number + 1
        if made and number >= first:
            made.update(octets)
            if number == last:
                sums[place] = made.hexdigest()
    return sums


def digest_in(it):
    """The digest of an opened journal."""
    areas = areas_of(it)
    if not areas:
        return Digest(BLANK, 0, None, [], {})
    ranges, events = ranges_of(areas), journal.events_in(areas[-1])
    sums = sums_over(numbered(areas), ranges)
    told = [(first, last, made) for (first, last), made in zip(ranges, sums) if made]
    last = next((made for first, end, made in reversed(told) if first == end == events), None)
    return Digest(sum_of(it.header.text), events, last, told, snapshots_in(areas))


def digest_of(path):
    with journal.Journal(path) as it:
        return digest_in(it)


def digest_lines(digest):
    """The digest as lines, which `digest_from` reads again."""
    yield f"site {digest.site}"
    yield f"events {digest.events}"
    yield from (f"range {first} {last} {made}" for first, last, made in digest.ranges)
    yield from (f"snapshot {events} {made}" for events, made in sorted(digest.snapshots.items()))


def digest_from(lines):
    """The digest that lines tell. What isn't one of them is a ValueError."""
    site, events, ranges, snapshots = BLANK, 0, [], {}
    for line in lines:
        word, *rest = line.split(" ")
        if word == "site" and len(rest) == 1:
            site = rest[0]
        elif word == "events" and len(rest) == 1:
            events = int(rest[0])
        elif word == "range" and len(rest) == 3:
            ranges.append((int(rest[0]), int(rest[1]), rest[2]))
        elif word == "snapshot" and len(rest) == 2:
            snapshots[int(rest[0])] = rest[1]
        else:
            raise ValueError(f"{line!r} is no line of a digest")
    last = next((made for first, end, made in reversed(ranges) if first == end == events), None)
    return Digest(site, events, last, ranges, snapshots)


# Comparing.


def other_site(ours, theirs):
    return Verdict(OTHER_SITE, f"the texts of the sites differ: their sums are {ours} and {theirs}")


def compared(it, theirs):
    """Whether an opened journal and another one, of which the digest is known, are of one history."""
    areas = areas_of(it)
    if not areas or theirs.site == BLANK or theirs.events == 0:
        site = BLANK if it.header.blank else sum_of(it.header.text)
        return other_site(site, theirs.site) if BLANK not in (site, theirs.site) and site != theirs.site else Verdict(0, "one of them has no events yet")
    if sum_of(it.header.text) != theirs.site:
        return other_site(sum_of(it.header.text), theirs.site)
    shared = 0
    for (first, last, wanted), made in zip(theirs.ranges, sums_over(numbered(areas), theirs.ranges)):
        if made and made != wanted:
            which = f"event {first} isn't" if first == last else f"events {first} to {last} aren't"
            return Verdict(PARTED, f"they have parted: {which} the same in both")
        shared += last - first + 1 if made else 0
    for events, made in snapshots_in(areas).items():
        if theirs.snapshots.get(events, made) != made:
            return Verdict(PARTED, f"they have parted: their snapshots of {events} events differ")
        shared += events in theirs.snapshots
    return agreed(shared)


def agreed(shared):
    if shared:
        return Verdict(0, "one site, and one record for each number that both have")
    return Verdict(UNTOLD, "it can't be told: they share neither a record nor a snapshot")


def same(one, other):
    """Whether two opened journals are of one history: record by record."""
    ours, theirs = areas_of(one), areas_of(other)
    if one.header.text != other.header.text and ours and theirs:
        return other_site(sum_of(one.header.text), sum_of(other.header.text))
    if not all(areas and journal.events_in(areas[-1]) for areas in (ours, theirs)):
        return Verdict(0, "one of them has no events yet")
    place, shared = first_that_differs(numbered(ours), numbered(theirs))
    if place:
        return Verdict(PARTED, f"they have parted: event {place} isn't the same in both")
    snapshots = snapshots_in(theirs)
    for events, made in snapshots_in(ours).items():
        if snapshots.get(events, made) != made:
            return Verdict(PARTED, f"they have parted: their snapshots of {events} events differ")
        shared += events in snapshots
    return agreed(shared)


def first_that_differs(ours, theirs):
    """The first number whose records differ, or None, and how many numbers both have."""
    shared, one, other = 0, next(ours, None), next(theirs, None)
    while one and other:
        if one[0] < other[0]:
            one = next(ours, None)
        elif other[0] < one[0]:
            other = next(theirs, None)
        elif one[1] != other[1]:
            return one[0], shared
        else:
            shared, one, other = shared + 1, next(ours, None), next(theirs, None)
    return None, shared


# The commands.


def add_commands(commands, opened):
    """Adds `digest` and `same` to alarm-journal, which opens a journal by `opened`."""
    digest = words.command_of(commands, "digest", "tells a journal by sums, to compare it with one on another machine", lambda given: show_digest(given, opened))
    digest.add_argument("journal", metavar="JOURNAL")
    digest.add_argument("--ranges", action="store_true", help="the sums of its records too, range by range, a line each")
    both = words.command_of(commands, "same", "says whether two journals are of one history", lambda given: show_same(given, opened))
    both.add_argument("journal", metavar="A")
    both.add_argument("other", nargs="?", metavar="B")
    both.add_argument("--digest", metavar="FILE", help="in place of B, the lines of `digest --ranges` of it, also behind `# `; - is standard input")
    for command in (digest, both):
        command.add_argument("--json", action="store_true", help="as one line of JSON")


def show_digest(given, opened):
    with opened(given.journal, blank=True) as it:
        found = digest_in(it)
    if given.json:
        words.put(words.json_line({"journal": given.journal, **found._asdict()}))
    elif given.ranges:
        words.put("\n".join(digest_lines(found)))
    else:
        words.put(f"site {found.site} events {found.events} last {found.last or BLANK}")
    return 0


def digest_of_lines(path):
    """The digest that a file tells, each line as it is or behind `# `, and nothing of its other lines."""
    try:
        with (sys.stdin if path == "-" else words.opened(path)) as file:
            lines = [line.rstrip("\n").removeprefix("# ") for line in file]
        return digest_from([line for line in lines if line.split(" ")[0] in ("site", "events", "range", "snapshot")])
    except ValueError as fault:
        raise Ends(words.USAGE, f"{path}: {fault}") from None


def show_same(given, opened):
    if bool(given.other) == bool(given.digest):
        raise Ends(words.USAGE, "one of these is wanted behind A: B, or --digest FILE")
    with opened(given.journal, blank=True) as one:
        if given.digest:
            theirs = digest_of_lines(given.digest)
            verdict, counts = compared(one, theirs), [events_of(one), theirs.events]
        else:
            with opened(given.other, blank=True) as other:
                verdict, counts = same(one, other), [events_of(it) for it in (one, other)]
    told = f"{verdict.text} ({given.journal} has {counts[0]:,} events, {given.other or 'the other one'} {counts[1]:,})"
    if given.json:
        words.put(words.json_line({"same": verdict.status == 0, "status": verdict.status, "text": verdict.text, "events": counts}))
        return verdict.status
    if verdict.status:
        raise Ends(verdict.status, told)
    words.put(told)
    return 0


def events_of(it):
    return 0 if it.header.blank else journal.events_in(it.settled())
