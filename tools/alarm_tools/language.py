"""The words of the tools and of the console in other languages: one table. What it lacks is said in English, and lines of JSON stay as they are."""
import contextvars
import os

GERMAN = {
    # States and transitions.
    "normal": "normal", "fault": "Störung", "offnormal": "Alarm", "high-limit": "zu hoch", "low-limit": "zu niedrig", "normal again": "wieder normal",
    "to-offnormal": "Alarm", "to-fault": "Störung", "to-normal": "Rückkehr", "never": "nie", "active": "ein", "inactive": "aus",
    # What alarm-client prints.
    "STATE": "ZUSTAND", "SINCE": "SEIT", "OBJECT": "OBJEKT", "NAME": "NAME", "VALUE": "WERT", "LIMIT": "GRENZE", "TO ACKNOWLEDGE": "ZU QUITTIEREN",
    "PRIORITY": "PRIORITÄT", "PRIO": "PRIO", "CLASS": "KLASSE", "TEXT": "TEXT", "UNTIL": "BIS", "BY": "VON", "WHY": "WARUM", "TIMES": "ANZAHL", "LAST": "ZULETZT",
    "acknowledged": "quittiert", "none asked for": "nicht verlangt",
    "nothing is in alarm, and nothing is to be acknowledged": "nichts ist in Alarm, und nichts ist zu quittieren",
    "{} in alarm, {} to be acknowledged": "{} in Alarm, {} zu quittieren",
    "{} of {} shown": "{} von {} gezeigt", "{} on the shelf: alarm-client shelf tells which": "{} zurückgestellt: alarm-client shelf sagt, welche",
    "{}: {} of {} acknowledged": "{}: {} von {} quittiert", "{}: nothing to acknowledge": "{}: nichts zu quittieren",
    "{} {} = {}: taken": "{} {} = {}: angenommen", "{}: nobody is told": "{}: niemand wird benachrichtigt",
    "{} is on the shelf until {}: its alarms don't come, its faults do": "{} ist bis {} zurückgestellt: Alarme kommen nicht, Störungen schon",
    "{} is back from the shelf": "{} ist nicht mehr zurückgestellt",
    "nothing is on the shelf, and nothing is inhibited": "nichts ist zurückgestellt, und nichts ist unterdrückt",
    "inhibited, and not from this shelf": "unterdrückt, aber nicht hier zurückgestellt", "on the shelf, and inhibited no more": "zurückgestellt, aber nicht mehr unterdrückt",
    "overdue": "überfällig", "no alarm came in {} days": "kein Alarm in {} Tagen",
    "the logs tell of all since {}": "die Protokolle reichen bis {} zurück",
    "TIME": "ZEIT", "FROM": "AUS", "DID": "TAT", "WHAT": "WAS", "ANSWER": "ANTWORT", "there is no record of it": "davon gibt es keine Aufzeichnung",
    # Notifications in words.
    "alarm": "Alarm", "event": "Ereignis", "acknowledged: {} {} at {}, class {}": "quittiert: {} {} um {}, Klasse {}",
    "{}: {} {} -> {} at {}, {}, class {}, priority {}": "{}: {} {} -> {} um {}, {}, Klasse {}, Priorität {}", "to be acknowledged": "zu quittieren",
    "value": "Wert", "limit": "Grenze", "deadband": "Hysterese", "state": "Zustand", "text": "Text", "alarm-text": "Alarmtext", "bits": "Bits",
    "reliability": "Zuverlässigkeit", "command": "Befehl", "feedback": "Rückmeldung", "properties": "Eigenschaften",
    # The console.
    "the server": "der Server", "asked {} s ago": "vor {} s gefragt", "NO ANSWER: what is shown was told {} s ago. {}": "KEINE ANTWORT: gezeigt ist, was vor {} s galt. {}",
    "NO ANSWER yet. {}": "NOCH KEINE ANTWORT. {}", "{} isn't acknowledged: {}": "{} ist nicht quittiert: {}",
    "{}: {} acknowledged": "{}: {} quittiert", " and ": " und ", "{}: there was nothing to acknowledge": "{}: es war nichts zu quittieren",
    "up, down: choose   a: acknowledge   /: text   c s p w: class, state, priority, waiting   n: new, l: looked   b: bell   t: ten   q: end":
        "auf, ab: wählen   a: quittieren   /: Text   c s p w: Klasse, Zustand, Priorität, offen   n: neu, l: gesehen   b: Ton   t: zehn   q: Ende",
    "text: {}": "Text: {}", "shown: {}": "gezeigt: {}", "since I looked": "seit ich hinsah", "looked": "gesehen", "bell on": "Ton an", "bell off": "Ton aus",
    "{} of {} pass": "{} von {} gehören dazu", "all": "alle", "class {}": "Klasse {}", "priority up to {}": "Priorität bis {}", "to be acknowledged alone": "nur offene",
    "the most frequent in {} days (t: back)": "die häufigsten in {} Tagen (t: zurück)",
    # The page in a browser.
    "Alarm server": "Alarmserver", "in alarm": "in Alarm", "State": "Zustand", "Object": "Objekt", "Value": "Wert", "Since": "Seit", "To acknowledge": "Zu quittieren",
    "Priority": "Priorität", "Action": "Aktion", "Acknowledge": "Quittieren", "Acknowledge {}": "{} quittieren", "Acknowledged by": "Quittiert von",
    "Nothing is in alarm, and nothing is to be acknowledged.": "Nichts ist in Alarm, und nichts ist zu quittieren.",
    "Nothing of what is chosen.": "Nichts von dem, was gewählt ist.",
    "Since: by the device's clock. Asked: by this console.": "Seit: nach der Uhr des Geräts. Gefragt: von dieser Konsole.",
    "limit {}": "Grenze {}", "priority {}": "Priorität {}", "to acknowledge: {}": "zu quittieren: {}", "asked": "gefragt", "{} s ago": "vor {} s", "not yet": "noch nicht",
    "No answer: what is shown was told {} s ago. {}": "Keine Antwort: gezeigt ist, was vor {} s galt. {}",
    "No answer yet, so nothing is known. {}": "Noch keine Antwort, also ist nichts bekannt. {}",
    "The console itself doesn't answer: what is shown is old.": "Die Konsole selbst antwortet nicht: was gezeigt ist, ist alt.",
    "It isn't known whether it was acknowledged: the console doesn't answer.": "Ob quittiert wurde, ist nicht bekannt: die Konsole antwortet nicht.",
    "Search": "Suchen", "Class": "Klasse", "any": "alle", "priority up to": "Priorität bis", "to be acknowledged only": "nur offene", "Show": "Zeigen", "new since I looked": "neu, seit ich hinsah",
    "I have looked": "Gesehen", "Sound": "Ton", "More": "Mehr", "{} of {}": "{} von {}", "The ten most frequent of the week": "Die zehn häufigsten der Woche",
    "On the shelf": "Zurückgestellt", "until {}, by {}": "bis {}, von {}", "{} ×, last {}": "{} ×, zuletzt {}",
    "No log of this server has an alarm of the week.": "Kein Protokoll dieses Servers hat einen Alarm der Woche.",
    "The log isn't asked yet.": "Das Protokoll ist noch nicht gefragt.", "new": "neu", "The page is an old one: load it anew.": "Die Seite ist alt: bitte neu laden.",
}
TABLES = {"en": {}, "de": GERMAN}
NAMES = tuple(TABLES)
chosen = contextvars.ContextVar("language", default=None)
default = ["en"]


def default_language():
    """The language of the environment, by ALARM_LANGUAGE, else English."""
    found = os.environ.get("ALARM_LANGUAGE", "en")
    return found if found in TABLES else "en"


def add_words(parser):
    parser.add_argument("--language", choices=NAMES, help="the language of what is told to people (ALARM_LANGUAGE, else en)")


def choose(name):
    """Has a language for all that is said from now on, but where a context has its own."""
    default[0] = name or "en"


def current():
    return chosen.get() or default[0]


def say(text, *of):
    """A text in the language that is chosen, with values in the places of its braces."""
    shown = TABLES[current()].get(text, text)
    return shown.format(*of) if of else shown


def wanted_by(header):
    """The language that a browser wants most, of those that there are, by its Accept-Language; or None."""
    ranked = []
    for place, part in enumerate((header or "").split(",")):
        name, _, parameters = part.strip().partition(";")
        try:
            weight = float(parameters.partition("q=")[2] or 1)
        except ValueError:
            weight = 0.0
        if weight > 0 and name.strip().lower().partition("-")[0] in TABLES:
            ranked.append((-weight, place, name.strip().lower().partition("-")[0]))
    return min(ranked)[2] if ranked else None
