"""The packets that a leader offers a standby, made of a journal by docs/STANDBY.md."""

RECORDS, PIECE = 1, 2
# How many octets of records, or of a snapshot, a packet has at most.
MOST = 1_400


def of_records(before, records):
    """The packet of records behind so many events."""
    octets = b"".join(records)
    return bytes([RECORDS]) + before.to_bytes(8, "big") + len(records).to_bytes(2, "big") + len(octets).to_bytes(2, "big") + octets


def of_piece(events, whole, place, octets):
    """The packet of a piece of a snapshot that has so many octets as a whole."""
    head = bytes([PIECE]) + events.to_bytes(8, "big") + whole.to_bytes(4, "big") + place.to_bytes(4, "big")
    return head + len(octets).to_bytes(2, "big") + octets


def of_snapshot(events, snapshot):
    """The packets of a whole snapshot."""
    return (of_piece(events, len(snapshot), place, snapshot[place : place + MOST]) for place in range(0, len(snapshot), MOST))


def packed(before, records):
    """The packets of records behind so many events, each with the number of its last one: as many whole ones in each as fit."""
    made, octets, last = [], 0, before
    for record in records:
        if made and octets + len(record) > MOST:
            yield last, of_records(last - len(made), made)
            made, octets = [], 0
        made.append(record)
        octets, last = octets + len(record), last + 1
    if made:
        yield last, of_records(last - len(made), made)


def line_of(packet):
    return b"packet " + packet.hex().encode() + b"\n"
