"""The console's page behind a proxy, which asks for the password and tells who it is by a head; and a page that acknowledges nothing."""
import html
import ipaddress
import re
import urllib.parse

FORM = re.compile(r'<form method=\\?"post\\?" action=\\?"/acknowledge\\?">.*?</form>', re.S)
FIELD = re.compile(r'(<input id="by" name="by" value=")[^"]*(")')
MOST = 60


class Front:
    """How the page is reached: `head` has the name of who asks, which a proxy at one of `places` has to give; or it is for looking alone."""

    def __init__(self, head=None, places=(), read_only=False):
        self.head, self.places, self.read_only = head, [ipaddress.ip_network(it) for it in places or ("127.0.0.0/8", "::1/128")], read_only

    def by(self, heads):
        """Who asks, by the head, without what would move a terminal; or None."""
        if not self.head or heads.get(self.head) is None:
            return None
        told = heads[self.head]
        try:
            # As proxies write it: the octets of UTF-8, or those in %XX.
            told = urllib.parse.unquote(told.encode("latin-1").decode("utf-8"), errors="strict")
        except (UnicodeError, ValueError):
            pass
        return "".join(it for it in told if it.isprintable()).strip()[:MOST] or None

    def refusal(self, heads, place, command):
        """Why a request isn't answered, or None."""
        if self.head and not any(ipaddress.ip_address(place) in it for it in self.places):
            return f"ask through the proxy: {place} isn't its address\n"
        if self.head and len(heads.get_all(self.head) or []) != 1 or self.head and not self.by(heads):
            return f"the proxy gives no name in {self.head}: see docs/CONSOLE.md\n"
        if self.read_only and command == "POST":
            return "this page is for looking alone\n"
        return None

    def shown(self, text, heads):
        """A page, or its rows as JSON, without buttons where it is for looking alone, and with the name that the proxy gives."""
        if self.read_only:
            text = FORM.sub("", text)
        name = self.by(heads)
        return FIELD.sub(lambda found: f"{found[1]}{html.escape(name)}{found[2]} readonly", text) if name else text


def front_of(given):
    """The front that the words name; a ValueError where they can't be."""
    if given.by_header is not None and not re.fullmatch(r"[A-Za-z][A-Za-z0-9-]{0,60}", given.by_header):
        raise ValueError(f"{given.by_header!r} is no name of a head: one as X-Remote-User is wanted")
    if given.proxy and not given.by_header:
        raise ValueError("--proxy is for --by-header")
    try:
        return Front(given.by_header, given.proxy, given.read_only)
    except ValueError as error:
        raise ValueError(f"--proxy: {error}") from None


def add_words(parser):
    parser.add_argument("--by-header", metavar="HEAD", help="who acknowledges is who the proxy names in this head of HTTP, as X-Remote-User; without it nothing is answered")
    parser.add_argument("--proxy", action="append", default=[], metavar="ADDRESS", help="from where the proxy asks, an address or a network; again for further ones (this machine)")
    parser.add_argument("--read-only", action="store_true", help="the page shows alarms, and acknowledges none")
