"""alarm-escalation: tells people of alarms that nobody acknowledges, of those that last, and of a server that doesn't answer."""
import time

from . import client, escalation, glance, ways, words
from .words import CANNOT_OPEN, DONE, USAGE, Ends

WHAT = """\
Looks at a server's alarms, again and again, and tells people: of a transition that nobody has acknowledged after so many minutes,
once; of an alarm that lasts, again after each so many minutes, also where it was acknowledged or where nobody has to; and of a
server that hasn't answered for so many minutes, once. What is due at one time is one mail or one request.

HOW is mail:ADDRESS[,ADDRESS], by sendmail; webhook:URL, a POST of JSON by curl, or webhook:@FILE, where FILE has the URL in its first
line and needn't be readable for others; or command:COMMAND of the shell, run for each alarm, which is told by variables: ALARM_WHY,
ALARM_DEVICE, ALARM_OBJECT, ALARM_NAME, ALARM_STATE, ALARM_TRANSITION, ALARM_TIME, ALARM_SINCE, ALARM_PRIORITY, ALARM_MINUTES,
ALARM_VALUE, ALARM_LIMIT, ALARM_TEXT, ALARM_RELIABILITY. One that fails is tried again, at first soon and then each five minutes.

With --keep what was told is kept in a file, and a new start tells none of it again. With --record a line of JSON is added for each
that was sent or failed. Minutes count by the device's clock, where --site tells it, and else since this tool first saw the alarm."""
STATUSES = [
    (0, "with --try: it was told"),
    (1, "a file can't be opened, sendmail or curl is missing, or --try failed"),
    (2, "the words are none that it knows"),
    (130, "it was ended by an interrupt"),
]
EXAMPLES = [
    ("alarm-escalation --site site.toml --keep told --record sent --unacknowledged 10 mail:duty@example.org", "a mail for what nobody has acknowledged after ten minutes"),
    ("alarm-escalation --keep told --unacknowledged 5 webhook:@url --unacknowledged 20 mail:head@example.org --lasting 240 mail:duty@example.org",
     "a second step behind a first one, and a reminder each four hours"),
    ("alarm-escalation --try mail:duty@example.org", "sends one message, to see that it arrives"),
]


def parser():
    made = words.parser_of("alarm-escalation", WHAT, STATUSES, EXAMPLES)
    client.add_words(made)
    for name, what in [
        ("unacknowledged", "tell of each transition that waits so long to be acknowledged"), ("lasting", "tell of each alarm that lasts so long, again and again"),
        ("no-answer", "tell where the server hasn't answered for so long"),
    ]:
        made.add_argument(f"--{name}", nargs=2, action="append", default=[], metavar=("MINUTES", "HOW"), help=f"{what}; again for further steps")
    made.add_argument("--try", dest="tries", metavar="HOW", help="send one message, and end")
    made.add_argument("--every", type=client.seconds, default=10.0, metavar="SECONDS", help="how often it asks (%(default)s)")
    made.add_argument("--site", metavar="SITE", help="take the clock of the device from its site's text")
    made.add_argument("--keep", metavar="FILE", help="keep what was told in a file, for a new start")
    made.add_argument("--record", metavar="FILE", help="add a line of JSON for each that was sent or failed")
    made.add_argument("--sender", metavar="ADDRESS", help="who sends the mails (as sendmail has it)")
    made.set_defaults(call=escalate)
    return made


def step_of(kind, minutes, how):
    try:
        number = float(minutes)
        if not 0 <= number <= 1e6:
            raise ValueError
    except ValueError:
        raise Ends(USAGE, f"--{kind} wants a number of minutes first, and here is {minutes!r}") from None
    if kind == "lasting" and number == 0:
        raise Ends(USAGE, "--lasting wants more than 0 minutes: it tells again after each so many")
    return escalation.Step(kind, number, way_of(how))


def way_of(how):
    """A way that this machine has, or the end."""
    try:
        way = ways.way_from(how)
    except ValueError as error:
        raise Ends(USAGE, str(error)) from None
    if lacking := ways.lacks(way):
        raise Ends(CANNOT_OPEN, f"{how}: {lacking}")
    return way


def escalate(given):
    chosen = [("unacknowledged", given.unacknowledged), ("lasting", given.lasting), ("no-answer", given.no_answer)]
    steps = [step_of(kind, *it) for kind, its in chosen for it in its]
    if given.tries:
        return try_way(given)
    if not steps:
        raise Ends(USAGE, "whom to tell is missing: --unacknowledged 10 mail:duty@example.org, as ALARM_ESCALATION in the settings of the service")
    zone = None
    if given.site:
        with words.opened(given.site, "rb") as file:
            zone = glance.glance(file.read()).zone
    ledger, record = escalation.Ledger(given.keep), escalation.Record(given.record)
    with client.client_of(given) as asked:
        over = escalation.Escalation(asked, steps, ledger, record, (zone, given.sender, given.every))
        while True:
            over.look()
            time.sleep(given.every)
    return DONE


def try_way(given):
    """Sends a message that is no alarm."""
    way = way_of(given.tries)
    message = {"why": "a trial of the escalation", "device": None, "where": given.to, "alarms": []}
    try:
        ways.tell(way, message, given.sender)
    except ways.Failed as fault:
        raise Ends(CANNOT_OPEN, f"{ways.shown(way)}: {fault}") from None
    print(f"{ways.shown(way)}: told, as far as this machine knows: see that it arrives")
    return DONE


def main():
    return words.run(parser())
