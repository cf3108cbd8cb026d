"""The active alarms of a server, with all that is told of them: state, value, limit, text, class, and what there is to acknowledge."""
import time

from . import language, measure, names, octets, values, words

# For how long what doesn't change is believed, in seconds: names, units, classes and what these ask for.
LASTS = 600
NO_VALUE = (names.OBJECT_NUMBERS["event-enrollment"],)
LIMIT_OF = {octets.HIGH_LIMIT: octets.HIGH_LIMIT_OF, octets.LOW_LIMIT: octets.LOW_LIMIT_OF}


class Details:
    """What a server tells of its active objects beside their summaries. What doesn't change is asked once."""

    def __init__(self, asked):
        self.asked, self.constant, self.asks, self.texts, self.since = asked, {}, {}, {}, time.monotonic()

    def forget(self):
        """Believes nothing any more, as behind a server that didn't answer: it may be another one."""
        self.constant, self.asks, self.texts, self.since = {}, {}, {}, time.monotonic()
        self.asked.names.clear()

    def learn(self, objects):
        """Asks for what doesn't change of objects that aren't known yet."""
        new = [of for of in objects if of not in self.constant]
        self.asked.learn_names(new)
        found = self.asked.read_many([(of, number, None) for of in new for number in (octets.NOTIFICATION_CLASS, *measure.ASKED.get(of[0], ()))])
        for of in new:
            of_class = found.get((of, octets.NOTIFICATION_CLASS, None))
            self.constant[of] = (
                octets.number_of(of_class[0]) if isinstance(of_class, list) else None,
                measure.measure_of(self.asked.names.get(of), measure.units_of(found, of)), measure.state_texts_of(found, of),
            )
        classes = {octets_class(it[0]) for it in self.constant.values() if it[0] is not None} - set(self.asks)
        self.asked.learn_names(sorted(classes))
        for (of, _, _), told in self.asked.read_many([(of, octets.ACK_REQUIRED, None) for of in sorted(classes)]).items():
            self.asks[of] = [it == "1" for it in octets.bits_of(told[0])] if isinstance(told, list) else None

    def values(self, rows):
        """The values of active objects, and the limits that they passed."""
        wanted = []
        for row in rows:
            if row.object[0] not in NO_VALUE:
                wanted += [(row.object, number, None) for number in (octets.PRESENT_VALUE, LIMIT_OF.get(row.state)) if number]
        return self.asked.read_many(wanted)

    def learn_texts(self, rows):
        """Asks for the message texts of transitions that are new."""
        keys = {row.object: (names.transition_to(row.state), bytes(row.stamps[names.transition_to(row.state)])) for row in rows}
        self.texts = {of: it for of, it in self.texts.items() if of in keys and keys[of] == it[0]}
        wanted = [(of, octets.EVENT_MESSAGE_TEXTS, key[0] + 1) for of, key in keys.items() if of not in self.texts]
        for (of, _, _), found in self.asked.read_many(wanted).items():
            self.texts[of] = keys[of], (octets.text_of(found[0]) or None) if isinstance(found, list) else None

    def measure(self, of):
        """The measure of an object."""
        self.learn([of])
        return self.constant[of][1]

    def alarms(self):
        """All active objects as dictionaries: by state, then by urgency, the newest ones first."""
        if time.monotonic() - self.since > LASTS:
            self.forget()
        rows = self.asked.summaries()
        self.learn([row.object for row in rows])
        found = self.values(rows)
        self.learn_texts(rows)
        return ordered([self.alarm(row, found) for row in rows])

    def alarm(self, row, found):
        """An active object by names."""
        of, transition = row.object, names.transition_to(row.state)
        of_class, unit, state_texts = self.constant[of]
        asks = self.asks.get(octets_class(of_class)) if of_class is not None else None
        value, limit = (read_value(of, number, found) for number in (octets.PRESENT_VALUE, LIMIT_OF.get(row.state)))
        return {
            "object": names.object_text(of), "name": self.asked.names.get(of), "state": names.named(names.STATES, row.state), "active": row.state != octets.NORMAL,
            "since": values.stamp_text(row.stamps[transition]), "unacknowledged": [it for it, done in zip(names.TRANSITIONS, row.acknowledged) if not done],
            "asks": None if asks is None else asks[transition], "priority": row.priorities[transition], "class": of_class,
            "class_name": self.asked.names.get(octets_class(of_class)),
            "notify": names.named(names.NOTIFY_TYPES, row.notify_type), "value": value, "limit": limit, "units": unit.unit or None,
            "value_text": measure.text_of(value, unit, state_texts), "limit_text": measure.text_of(limit, unit), "text": self.texts.get(of, (None, None))[1],
            "times": {it: values.stamp_text(stamp) for it, stamp in zip(names.TRANSITIONS, row.stamps)},
        }


def octets_class(number):
    """The object of a notification class."""
    return names.OBJECT_NUMBERS["notification-class"], number


def read_value(of, number, found):
    """A property that was read, in words, or None."""
    row = found.get((of, number, None))
    return values.value_of(of, number, row) if isinstance(row, list) and row else None


def details_of(asked):
    """The details of a client, which it keeps."""
    if not hasattr(asked, "details"):
        asked.details = Details(asked)
    return asked.details


def alarms_of(asked):
    """All active objects: those in alarm that nobody has acknowledged, the others in alarm, and those that are normal again."""
    return details_of(asked).alarms()


def ordered(found):
    """Of each group the most urgent ones come first, by priority, and of these the newest one."""
    found = sorted(found, key=lambda it: it["since"] or "", reverse=True)
    return sorted(found, key=lambda it: (not it["active"], not it["unacknowledged"], it["priority"]))


# In words.


def acknowledgement_text(alarm, say=None):
    """What there is to acknowledge; else whether somebody has, or whether nobody is asked to."""
    say = say or language.say
    if alarm["unacknowledged"]:
        return " ".join(map(say, alarm["unacknowledged"]))
    return {True: say("acknowledged"), False: say("none asked for"), None: "-"}[alarm["asks"]]


def colour_of(alarm):
    if not alarm["active"]:
        return None
    return "red" if alarm["unacknowledged"] else "yellow"


HEAD = ["STATE", "SINCE", "OBJECT", "NAME", "VALUE", "LIMIT", "TO ACKNOWLEDGE", "PRIORITY", "CLASS", "TEXT"]


def row_of(alarm):
    """A row of the table of alarms."""
    of_class = "" if alarm["class"] is None else alarm["class"]
    return [
        language.say(alarm["state"]), (alarm["since"] or language.say("never"))[:19], alarm["object"], alarm["name"] or "", alarm["value_text"], alarm["limit_text"],
        acknowledgement_text(alarm), alarm["priority"], of_class, alarm["text"] or "",
    ]


def rows_of(found):
    """The head and the rows of a table of alarms, without columns that are empty."""
    rows = [row_of(it) for it in found]
    kept = [place for place, name in enumerate(HEAD) if name not in ("LIMIT", "TEXT", "VALUE") or any(row[place] for row in rows)]
    return [language.say(HEAD[place]) for place in kept], [[row[place] for place in kept] for row in rows]


def table(found):
    """The lines of a table of alarms."""
    head, rows = rows_of(found)
    return words.table(head, rows, [colour_of(it) for it in found])


def count_text(found):
    active, waiting = sum(it["active"] for it in found), sum(bool(it["unacknowledged"]) for it in found)
    if not found:
        return language.say("nothing is in alarm, and nothing is to be acknowledged")
    return language.say("{} in alarm, {} to be acknowledged", active, waiting)
