"""What the tools want of a site's text for themselves: the names of its objects, and its clock. `site_text` reads all of it."""
import collections
import tomllib

from . import names
from .zone import Zone

Glance = collections.namedtuple("Glance", "names zone device tables")
SECTIONS = {"class": "notification-class", "enrollment": "event-enrollment", "log": "event-log"}


def tables_of(document, section):
    """The tables of a section, where it is an array of tables."""
    found = document.get(section, [])
    return [it for it in found if isinstance(it, dict)] if isinstance(found, list) else []


def glance(octets):
    """Names and clock of a site's text. What can't be read is left out: the program's word on a text is another matter."""
    try:
        document = tomllib.loads(octets.decode("utf-8-sig"))
    except ValueError:
        return Glance({}, Zone(), None, {})
    device = document.get("device") if isinstance(document.get("device"), dict) else {}
    found = {}
    for section, kind in [("object", None), *SECTIONS.items()]:
        for item in tables_of(document, section):
            number, instance = names.OBJECT_NUMBERS.get(kind or item.get("kind")), item.get("instance")
            if number is not None and isinstance(instance, int) and isinstance(item.get("name"), str):
                found[number, instance] = item["name"]
    if isinstance(device.get("instance"), int) and isinstance(device.get("name"), str):
        found[names.OBJECT_NUMBERS["device"], device["instance"]] = device["name"]
    return Glance(found, zone_of(device), device.get("instance"), document)


def zone_of(device):
    """The clock of a device's keys, and UTC where they say none."""
    minutes, rule = device.get("zone_minutes", 0), device.get("zone_rule")
    try:
        return Zone(rule=rule) if isinstance(rule, str) else Zone(minutes if isinstance(minutes, int) else 0)
    except ValueError:
        return Zone()
