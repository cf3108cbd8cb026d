"""Asks servers of a site at the limits for all of it, and compares the answers with the second reading, for checks/limits."""
import bacnet
import serving
from limits_play import same_list
from limits_site import CLASS, DEVICE, LOG
from serving import MANY, Client, Server

# So many summaries of 61 octets have room in an answer beside seven; so many octets an answer and a datagram may have.
PAGE, ANSWER, DATAGRAM = 24, 1476, 1497
# How many peers may be known, and the address of one that no site has.
MOST_PEERS, OTHER = 8192, (0, bytes([192, 0, 2, 9, 0xBA, 0xC0]))
LENGTH, OBJECT_IDENTIFIER = 0, 75
ALARM_VALUES, FAULT_VALUES = 7, 39
# How an element of each kind of value is read.
READERS = {19: bacnet.number_of, 39: bacnet.bits_of, 40: bacnet.text_of}


def values_of(client, the_object, number, index=None):
    """The elements of a property."""
    return bacnet.values_read(client.ask(lambda invoke: bacnet.read_property(invoke, the_object, number, index)))[3]


def see_summaries(told, client, site):
    """Each page has as many summaries as fit, and says whether there are more."""
    wanted, found, behind = site.summaries(), [], None
    while True:
        rows, more = bacnet.summaries_of(client.ask(lambda invoke: bacnet.get_event_information(invoke, behind)))
        found += rows
        left = len(wanted) - len(found)
        told.want(more == (left > 0) and (len(rows) == PAGE or left <= 0), f"a page of {len(rows)} summaries, {left} before the end, says {more}")
        if not more or not rows or left < 0:
            break
        behind = rows[-1].object
    same_list(told, "the summaries", found, wanted)


def see_objects(told, client, site):
    """The Object_List by each of its indices; as a whole it is too long."""
    wanted, device = site.object_list(), (DEVICE, 1001)
    read = lambda index: client.ask(lambda invoke: bacnet.read_property(invoke, device, bacnet.OBJECT_LIST, index))
    told.same("the length of the Object_List", bacnet.number_of(bacnet.values_read(read(LENGTH))[3][0]), len(wanted))
    found = [bacnet.object_of(bacnet.values_read(read(it + 1))[3][0]) for it in range(len(wanted))]
    same_list(told, "the Object_List", found, wanted)
    told.same("behind the Object_List", bacnet.error_of(read(len(wanted) + 1)), (2, 42))
    if len(wanted) > ANSWER // 5:
        told.same("the whole Object_List", read(None)[::2], ("abort", 4))


def see_values(told, client, site):
    """The longest lists of values, and values and names of the greatest length."""
    for kind in (19, 39, 40):
        it = next((it for it in site.moving if it[0] == kind and site.class_of[it]), None)
        if it is None:
            continue
        read = lambda number, it=it: list(map(READERS[it[0]], values_of(client, it, number)))
        told.same(f"the alarm values of {it}", read(ALARM_VALUES), site.alarm_values(it))
        if kind != 39:
            told.same(f"the fault values of {it}", read(FAULT_VALUES), site.fault_values(it))
        told.same(f"the value of {it}", read(bacnet.PRESENT_VALUE), [site.value(it, site.is_calm())])
    for it, name in site.names.items():
        told.same(f"the name of {it}", bacnet.text_of(values_of(client, it, bacnet.OBJECT_NAME)[0]), name)


def see_recipients(told, client, site):
    """The Recipient_List of each class."""
    for of in range(site.classes):
        found = bacnet.destinations_of(values_of(client, (CLASS, of), bacnet.RECIPIENT_LIST))
        same_list(told, f"the recipients of class {of}", found, site.destinations(of))


def see_edits(told, client, site):
    """All recipients of a class are taken out of its list, and put into it again, by one request each. A program without these services rejects them.

    Where as many are known as may be, one that isn't has no space, also in a list that has none.
    """
    of = site.classes - 1
    known = {it.address for of_class in range(site.classes) for it in site.destinations(of_class)}
    octets = b"".join(map(bacnet.destination, site.destinations(of)))
    for service, left in ((bacnet.REMOVE_LIST_ELEMENT, []), (bacnet.ADD_LIST_ELEMENT, site.destinations(of))):
        answer = client.ask(lambda invoke, service=service: bacnet.edit_list(invoke, service, (CLASS, of), bacnet.RECIPIENT_LIST, octets))
        if (answer.kind, answer.number) == ("reject", 9):
            told.unbuilt.add("AddListElement and RemoveListElement")
            return
        told.same("the answer to an edit", answer[::2], ("simple-ack", service))
        same_list(told, "the recipients behind an edit", bacnet.destinations_of(values_of(client, (CLASS, of), bacnet.RECIPIENT_LIST)), left)
        if len(known) == MOST_PEERS and not left:
            other = bacnet.destination(site.destinations(of)[0]._replace(address=OTHER))
            refused = client.ask(lambda invoke, other=other: bacnet.edit_list(invoke, bacnet.ADD_LIST_ELEMENT, (CLASS, of), bacnet.RECIPIENT_LIST, other))
            told.same("the answer to one peer more than may be known", tuple(bacnet.list_error_of(refused)), (3, 19, 1))


def see_log(told, client, site, log, whole):
    """The counts of a log, and its records from the first to the last, or its last one."""
    wanted, total = site.kept(log)
    counts = [client.number_read((LOG, log), of) for of in (bacnet.RECORD_COUNT, bacnet.TOTAL_RECORD_COUNT)]
    told.same(f"the counts of log {log}", counts, [len(wanted), wanted[-1][0] if wanted else total])
    if not wanted:
        return
    found, last = [], wanted[-1][0]
    number = first = wanted[0][0] if whole else last
    while number <= last:
        page = bacnet.range_read(client.ask(lambda invoke: bacnet.read_range(invoke, (LOG, log), number, last - number + 1)))
        flags = (number == wanted[0][0], number + len(page.records) > last, number + len(page.records) <= last)
        told.same(f"the flags at record {number} of log {log}", (page.first, page.last, page.more), flags)
        if not page.records:
            break
        found, number = found + page.records, number + len(page.records)
    same_list(told, f"log {log}", found, [(it, note.stamp, note) for it, note in wanted if it >= first])


def see_longest(told, client, site):
    """A request of as many octets as a datagram may have is answered, and one of one more isn't."""
    text = next(it for it in site.moving if it[0] == 40)
    write = lambda invoke, count: bacnet.write_property(invoke, text, bacnet.PRESENT_VALUE, bacnet.text("x" * count))
    count = 1000 + DATAGRAM - len(write(0, 1000))
    told.same("the octets of the longest datagram", len(write(0, count)), DATAGRAM)
    told.same("the answer to the longest datagram", bacnet.error_of(client.ask(lambda invoke: write(invoke, count))), (3, 20))
    client.send_request(lambda invoke: write(invoke, count + 1))
    told.same("the value behind a datagram that is too long", bacnet.text_of(values_of(client, text, bacnet.PRESENT_VALUE)[0]), site.value(text, site.is_calm()))


def see_logs(told, client, site):
    """The counts of each log and its last record, or all of its records."""
    for log in site.logged:
        see_log(told, client, site, log, log in site.READ)


# What a server is asked for.
PARTS = {
    "the summaries": see_summaries, "the Object_List": see_objects, "lists of values and names": see_values, "the recipients": see_recipients,
    "the logs": see_logs, "the longest datagram": see_longest, "edits of a list": see_edits,
}


def see_part(what, see, *of):
    """A part of it; where an answer isn't what can be read, it says of which."""
    try:
        see(*of)
    except ValueError as error:
        raise ValueError(f"{what}: {error}") from None


def ask_server(told, files, site):
    """Asks a server for all of it, which is then killed, and another one for the summaries."""
    with Client() as client:
        with Server(*files, client.server_port, MANY):
            for what, see in PARTS.items():
                see_part(what, see, told, client, site)
        with Server(*files, client.server_port, MANY):
            see_part("the summaries of the next server", see_summaries, told, client, site)
        told.replies += client.replies


def close_server(told, files):
    """A server that answers once and ends by itself, with all events kept. Gives their number."""
    with Client() as client, Server(*files, client.server_port, 1) as server:
        told.same("the device's number", bacnet.object_of(values_of(client, (DEVICE, 1001), OBJECT_IDENTIFIER)[0]), (DEVICE, 1001))
        status, said, _ = server.ended()
    events = serving.events_in(*files)
    told.same("the end of a server", (status, said), (0, f"served 1 {events} {events} 0\n".encode()))
    return events
