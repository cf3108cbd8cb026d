"""An event of a journal as a line of a script that makes the same event (docs/JOURNAL.md, docs/SCRIPT.md)."""
from . import names, octets

# Who asks for what a record tells: no recipient, so that nothing of the state knows of it.
TOOL = "127.0.0.1:9"
EVENT_TIME_STAMPS = 130
# The answers of a recipient to a confirmed notification, by the number of the PDU.
ANSWERS = {
    2: lambda invoke: bytes([0x20, invoke, octets.CONFIRMED_EVENT_NOTIFICATION]),
    5: lambda invoke: bytes([0x50, invoke, octets.CONFIRMED_EVENT_NOTIFICATION, 0x91, 0, 0x91, 0]),
    6: lambda invoke: bytes([0x60, invoke, 0]),
    7: lambda invoke: bytes([0x71, invoke, 0]),
}


def asked(moment, datagram, peer=TOOL):
    return f"from {moment} {peer} {datagram.hex()}"


def plain(record):
    """The line of a record that needs no look at the state: of all but an acknowledgement and an edit."""
    moment, of = record.moment, record.fields
    if record.act == 1:
        return f"tick {moment}"
    if record.act == 5:
        return f"pump {moment}"
    if record.act == 3:
        return f"fault {moment} {names.object_text(of['object'])} {of['reliability']}"
    if record.act == 2:
        # Never `set`, which is refused where Out_Of_Service is TRUE: a WriteProperty takes all that it takes.
        return asked(moment, octets.write_property(0, of["object"], of["property"], octets.application(*of["value"])))
    return answer(moment, of["peer"], of["invoke"], of["answer"])


def answer(moment, peer, invoke, pdu):
    return asked(moment, octets.datagram(ANSWERS.get(pdu, ANSWERS[7])(invoke)), peer)


def acknowledgement(of, stamp):
    """The request by which a transition was acknowledged, with its stamp as it is read."""
    return octets.acknowledge_alarm_by(0, (0, "replay", stamp), of["object"], of["state"], stamp)


def destination(of):
    """A recipient of a record, or of a site's text, as an element of Recipient_List."""
    address, port = of["peer"].split(":")
    station = bytes(int(it) for it in address.split(".")) + int(port).to_bytes(2, "big")
    when = [clock(of[it]) for it in ("from", "to")]
    return octets.destination(octets.Destination(of["days"], *when, (0, station), of["process"], of["confirmed"], of["transitions"]))


def clock(text):
    """A time of the day as its four octets."""
    return bytes(int(it) for it in text.replace(".", ":").split(":"))


def edit(service, of_class, elements):
    """A request that adds elements to the list of a class, or takes them out."""
    return octets.edit_list(0, service, (15, of_class), octets.RECIPIENT_LIST, b"".join(elements))


def edits(of_class, old, new):
    """The requests that make a list of elements of another one: what is taken out, and what is added."""
    gone, come = [it for it in old if it not in new], [it for it in new if it not in old]
    made = [(octets.REMOVE_LIST_ELEMENT, gone)] if gone else []
    made += [(octets.ADD_LIST_ELEMENT, come)] if come else []
    return [edit(service, of_class, them) for service, them in made]
