"""alarm-console: the active alarms in the terminal or in a browser, refreshed, with acknowledgement; and commands for what nobody acknowledges."""
import ipaddress
import os
import sys
import threading
import time

from . import audit, client, glance, page, shelf, shelf_command, web, web_proxy, words
from .watch import Watch
from .words import CANNOT_OPEN, DONE, USAGE, Ends

WHAT = """\
Shows the active alarms of a server, the most urgent first, asks again and again, and acknowledges what is chosen. Without --web it
is a page in the terminal; with it a page for browsers, at this machine's own address unless another one is given. Who reaches that
page can acknowledge: nobody is asked for a password. A proxy in front of it may ask, and tell by a head who it is (--by-header).

With --on-unacknowledged a command is run, once, for each transition that nobody has acknowledged after so many minutes. It is told
by variables: ALARM_OBJECT, ALARM_NAME, ALARM_STATE, ALARM_TRANSITION, ALARM_TIME, ALARM_PRIORITY, ALARM_MINUTES. One that fails is
tried three times. Minutes count since the transition, where --site tells the device's clock, else since this tool first saw it; what
was run isn't kept, so a new start runs it again."""
STATUSES = [
    (0, "it was ended by its key"),
    (1, "the address can't be opened, or there is no terminal"),
    (2, "the words are none that it knows"),
    (130, "it was ended by an interrupt"),
]
EXAMPLES = [
    ("alarm-console", "a page in the terminal"),
    ("alarm-console --web 127.0.0.1:8047", "a page for a browser on this machine"),
    ("alarm-console --no-page --site site.toml --on-unacknowledged 10 'mail -s \"$ALARM_NAME: $ALARM_STATE\" duty@example.org < /dev/null'",
     "a mail for each alarm that nobody has acknowledged after ten minutes"),
]


def parser():
    made = words.parser_of("alarm-console", WHAT, STATUSES, EXAMPLES)
    client.add_words(made)
    made.add_argument("--every", type=client.seconds, default=2.0, metavar="SECONDS", help="how often it asks (%(default)s)")
    audit.add_words(made, "acknowledges")
    made.add_argument("--shelf", metavar="FILE", default=shelf_command.default_path(), help=shelf_command.HELP)
    made.add_argument("--bell", action="store_true", help="ring the terminal's bell for each new alarm; the key b does too")
    made.add_argument("--web", metavar="ADDRESS:PORT", help="serve a page to browsers, as 127.0.0.1:8047")
    made.add_argument("--host", action="append", default=[], metavar="NAME", help="a name by which browsers may ask for the page, beside localhost and addresses")
    web_proxy.add_words(made)
    made.add_argument("--no-page", action="store_true", help="show nothing: for --on-unacknowledged alone")
    made.add_argument("--json", action="store_true", help="in place of a page a line of JSON each time that it has asked")
    made.add_argument(
        "--on-unacknowledged", nargs=2, action="append", default=[], metavar=("MINUTES", "COMMAND"), help="run a command of the shell; again for further ones"
    )
    made.add_argument("--site", metavar="SITE", help="take the clock of the device from its site's text")
    made.set_defaults(call=console)
    return made


def console(given):
    try:
        steps = [(float(minutes), command) for minutes, command in given.on_unacknowledged]
    except ValueError:
        raise Ends(USAGE, "--on-unacknowledged wants a number of minutes first") from None
    if given.no_page and (given.web or given.json or not steps):
        raise Ends(USAGE, "--no-page is for --on-unacknowledged, and not beside --web or --json")
    zone = None
    if given.site:
        with words.opened(given.site, "rb") as file:
            zone = glance.glance(file.read()).zone
    by = given.by or audit.user()
    with client.client_of(given) as asked:
        watch = Watch(asked, steps, zone, record_of(given, asked.where()))
        keep_shelf(given)
        if given.web:
            return serve(given, watch, by)
        if given.json:
            while True:
                watch.refresh()
                words.put(words.json_line(watch.state()))
                time.sleep(given.every)
        if not given.no_page and not (sys.stdin.isatty() and sys.stdout.isatty()):
            raise Ends(CANNOT_OPEN, "there is no terminal: alarm-client list prints the same once")
        if given.no_page:
            watch.go_on(given.every, threading.Event())
        os.environ.setdefault("ESCDELAY", "25")
        threading.Thread(target=watch.read_logs, args=(given.every, threading.Event()), daemon=True).start()
        page.show(watch, given.every, by, given.bell)
    return DONE


def record_of(given, server):
    """Where it is kept who acknowledged. That nothing is kept is said."""
    record = audit.Audit(given.audit, "alarm-console", server)
    if not record.is_kept() and not given.json and not given.no_page:
        print("alarm-console: who acknowledges isn't kept: there is no --audit FILE, and no log of the system here", file=sys.stderr)
    return record


def keep_shelf(given):
    """Brings back what is due on the shelf, beside whatever else this console does."""
    try:
        keeper = shelf.Keeper(given.shelf, lambda server: audit.Audit(given.audit, "alarm-console", server), given.wait)
    except Ends as fault:
        if given.shelf != shelf_command.default_path():
            raise
        print(f"alarm-console: no shelf: {fault}", file=sys.stderr)
        return
    threading.Thread(target=keeper.go_on, args=(threading.Event(),), daemon=True).start()


def serve(given, watch, by):
    if ":" not in given.web and given.web.isdigit():
        raise Ends(USAGE, f"{given.web!r} is no address: ADDRESS:PORT is wanted, as 127.0.0.1:8047")
    try:
        address = client.address_from(given.web, 8047)
    except ValueError as error:
        raise Ends(USAGE, str(error)) from None
    try:
        web.Handler.front = web_proxy.front_of(given)
    except ValueError as error:
        raise Ends(USAGE, str(error)) from None
    if not ipaddress.ip_address(address[0]).is_loopback and not given.by_header and not given.read_only:
        print(f"alarm-console: whoever reaches {address[0]}:{address[1]} can acknowledge", file=sys.stderr)
    try:
        shelved = lambda server: shelf_command.shelved(given.shelf, server)
        web.serve(watch, address, given.every, by=by, hosts=given.host, language=given.language, shelved=shelved)
    except OSError as error:
        raise Ends(CANNOT_OPEN, f"{given.web}: {error.strerror}") from None
    return DONE


def main():
    return words.run(parser())
