"""Has tshark, whose reader of BACnet/IP was written by others, decode datagrams, and compares what it reads with checks/bacnet.py."""
import shutil
import struct
import subprocess

import bacnet

FIELDS = [
    "frame.protocols", "_ws.malformed", "_ws.expert.message", "bacapp.type", "bacapp.invoke_id",
    "bacapp.confirmed_service", "bacapp.unconfirmed_service", "bacapp.reject_reason", "bacapp.abort_reason",
]
NUMBERS = {kind: str(number) for number, kind in bacnet.KINDS.items()}
SECONDS = 300


def packet(number, was_sent, octets):
    """A packet of a capture: a datagram between two hosts, of which the server has the port that tshark knows as BACnet's."""
    ports = (40000, 47808) if was_sent else (47808, 40000)
    of_udp = struct.pack(">HHHH", *ports, 8 + len(octets), 0) + octets
    hosts = (1, 2) if was_sent else (2, 1)
    of_ip = struct.pack(">BBHHHBBH4B4B", 0x45, 0, 20 + len(of_udp), number % 65536, 0, 64, 17, 0, 10, 0, 0, hosts[0], 10, 0, 0, hosts[1])
    return struct.pack("<IIII", number, 0, 20 + len(of_udp), 20 + len(of_udp)) + of_ip + of_udp


def row_wanted(octets):
    """What the fields are to be, but for the first three."""
    message = bacnet.read(octets)
    row = dict.fromkeys(FIELDS[3:], "")
    row |= {"bacapp.type": NUMBERS[message.kind], "bacapp.invoke_id": str(message.invoke)}
    if message.kind == "unconfirmed":
        row |= {"bacapp.invoke_id": "", "bacapp.unconfirmed_service": str(message.number)}
    elif message.kind in ("reject", "abort"):
        row |= {f"bacapp.{message.kind}_reason": str(message.number)}
    else:
        row |= {"bacapp.confirmed_service": str(message.number)}
    return list(row.values())


def rows_read(tshark, capture):
    """The fields of each packet of a capture, as tshark reads them."""
    words = [tshark, "-n", "-r", str(capture), "-T", "fields", "-E", "occurrence=f"] + [word for field in FIELDS for word in ("-e", field)]
    ran = subprocess.run(words, stdin=subprocess.DEVNULL, capture_output=True, timeout=SECONDS, check=False, text=True)
    bacnet.want(ran.returncode == 0, f"tshark ended with {ran.returncode}, {ran.stderr[-200:]}")
    return [line.split("\t") for line in ran.stdout.splitlines()]


def decode(want, datagrams, folder):
    """Decodes datagrams, each with whether it was sent to the server. Says how many were, or None where there is no tshark."""
    tshark = shutil.which("tshark")
    if not tshark:
        return None
    capture = folder / "capture.pcap"
    head = struct.pack("<IHHiIII", 0xA1B2C3D4, 2, 4, 0, 0, 65535, 101)
    capture.write_bytes(head + b"".join(packet(number, *it) for number, it in enumerate(datagrams)))
    rows = rows_read(tshark, capture)
    want(len(rows) == len(datagrams), f"tshark reads {len(rows)} of {len(datagrams)} datagrams")
    for (_, octets), row in zip(datagrams, rows):
        of_bacnet = row[0].endswith("bvlc:bacnet:bacapp")
        want(of_bacnet and not any(row[1:3]), f"tshark reads {octets.hex()} as {row[0]} {row[1]} {row[2]}")
        want(row[3:] == row_wanted(octets), f"tshark reads of {octets.hex()} {row[3:]}, and not {row_wanted(octets)}")
    return len(rows)
