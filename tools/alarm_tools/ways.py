"""The ways by which an escalation tells somebody: a mail by sendmail, JSON to an address of the web by curl, a command of the shell."""
import collections
import email.message
import email.utils
import json
import os
import re
import shutil
import subprocess
import urllib.parse

from . import words

# For how long a way may take, in seconds.
SECONDS = 60
# A way: `mail`, `webhook` or `command`, and the addresses, the address of the web, or the command.
Way = collections.namedtuple("Way", "kind whom")
WANTED = "mail:ADDRESS[,ADDRESS], webhook:URL, webhook:@FILE or command:COMMAND"
# Where sendmail may be beside the PATH.
SYSTEM = os.pathsep.join(os.path.join(os.sep, *parts) for parts in (("usr", "sbin"), ("usr", "lib")))
# How many alarms a mail tells of in full, and how long its subject is at most.
IN_FULL, SUBJECT = 50, 120


class Failed(Exception):
    """A way failed, with why."""


def way_from(text):
    """The way that a word names, or a ValueError."""
    kind, _, whom = text.partition(":")
    if kind == "mail" and re.fullmatch(r"[^\s,<>()]+(,[^\s,<>()]+)*", whom):
        return Way(kind, whom)
    if kind == "webhook" and (re.fullmatch(r"https?://[^\s/]\S*", whom) or whom[:1] == "@" and whom[1:]):
        return Way(kind, whom)
    if kind == "command" and whom.strip():
        return Way(kind, whom)
    raise ValueError(f"{text!r} is no way to tell somebody: {WANTED} is wanted")


def lacks(way):
    """What this machine lacks for a way, with what to do, or None."""
    if way.kind == "mail" and not sendmail():
        return "there is no sendmail: install a mail transport that has it, as msmtp-mta or postfix"
    if way.kind == "webhook" and not shutil.which("curl"):
        return "there is no curl: install it"
    if way.whom[:1] == "@" and way.kind == "webhook":
        try:
            url_of(way)
        except Failed as fault:
            return str(fault)
    return None


def sendmail():
    return shutil.which("sendmail", path=os.environ.get("PATH", "") + os.pathsep + SYSTEM)


def url_of(way):
    """The address of the web: the word itself, or the first line of a file, which others needn't be able to read."""
    if way.whom[:1] != "@":
        return way.whom
    try:
        with open(way.whom[1:], encoding="utf-8") as file:
            url = file.readline().strip()
    except (OSError, UnicodeDecodeError) as error:
        raise Failed(f"{way.whom[1:]}: {getattr(error, 'strerror', None) or error}") from None
    if not re.fullmatch(r"https?://[^\s/]\S*", url):
        raise Failed(f"{way.whom[1:]}: its first line is no address that begins with http:// or https://")
    return url


def shown(way):
    """A way for the record: of an address of the web the host alone, since the rest may be a secret."""
    if way.kind != "webhook" or way.whom[:1] == "@":
        return f"{way.kind} {way.whom}"
    return f"webhook {urllib.parse.urlsplit(way.whom).hostname}"


def tell(way, message, sender=None):
    """Tells of a message; or Failed, with why."""
    if way.kind == "mail":
        letter = letter_of(way, message, sender)
        ran([sendmail() or "sendmail", "-i", "-t"], letter.as_bytes())
    elif way.kind == "webhook":
        told = json.dumps(message)
        # By its standard input, so that no list of processes has the address.
        keys = {"url": url_of(way), "header": "Content-Type: application/json", "data-binary": told, "max-time": str(SECONDS - 5)}
        ran(["curl", "--silent", "--show-error", "--fail", "--output", os.devnull, "--config", "-"], "".join(f"{key} = {quoted(it)}\n" for key, it in keys.items()).encode())
    else:
        for alarm in message["alarms"] or [{}]:
            ran(["/bin/sh", "-c", way.whom], None, {**os.environ, **variables(message, alarm)})


def quoted(text):
    """A text as a file of curl's options has it."""
    return '"' + text.replace("\\", "\\\\").replace('"', '\\"') + '"'


def ran(command, given, environment=None):
    """Runs a command, with octets for its standard input."""
    try:
        how = {"input": given} if given is not None else {"stdin": subprocess.DEVNULL}
        ended = subprocess.run(command, **how, env=environment, stdout=subprocess.DEVNULL, stderr=subprocess.PIPE, timeout=SECONDS, check=False)
    except subprocess.TimeoutExpired:
        raise Failed(f"{os.path.basename(command[0])} took longer than {SECONDS} s") from None
    except OSError as error:
        raise Failed(f"{command[0]}: {error.strerror}") from None
    if ended.returncode:
        said = ended.stderr.decode("utf-8", "replace").strip().splitlines()
        raise Failed(f"{os.path.basename(command[0])} ended with {ended.returncode}" + (f": {words.printable(said[-1])}" if said else ""))


# What is told.


def letter_of(way, message, sender):
    """A mail of a message."""
    letter = email.message.EmailMessage()
    letter["To"] = ", ".join(way.whom.split(","))
    if sender:
        letter["From"] = sender
    letter["Subject"] = words.printable(subject_of(message))[:SUBJECT]
    letter["Date"] = email.utils.localtime()
    letter["Auto-Submitted"] = "auto-generated"
    letter.set_content(text_of(message))
    return letter


def subject_of(message):
    """What a message is about, in a line."""
    alarms = message["alarms"]
    if not alarms:
        return message["why"]
    first = alarms[0]
    value = "" if first.get("value") is None else f" {first['value']}"
    more = f" and {len(alarms) - 1} more" if len(alarms) > 1 else ""
    return f"{first['name'] or first['object']}: {first['state']}{value}{more}, {message['why']}"


def text_of(message):
    """A message in words."""
    parts = [f"{message['why']}, says {message['device'] or 'the server'} at {message['where']}."]
    parts += [alarm_text(it) for it in message["alarms"][:IN_FULL]]
    rest = [f"  {words.named(it['object'], it['name'])}: {it['state']}" for it in message["alarms"][IN_FULL:]]
    return "\n\n".join(map(words_of_lines, [*parts, *(["\n".join(["and", *rest])] if rest else [])])) + "\n"


def words_of_lines(text):
    return "\n".join(words.printable(line) for line in text.split("\n"))


def alarm_text(alarm):
    """An alarm in words: what, with which text, value and limit, and since when."""
    since = f"since {alarm['since'][:19]}, {alarm['minutes']} min" if alarm["since"] else f"for {alarm['minutes']} min"
    lines = [f"{words.named(alarm['object'], alarm['name'])}: {alarm['state']} {since}"]
    if alarm.get("text"):
        lines.append(f"  {alarm['text']}")
    facts = [f"{key} {alarm[key]}" for key in ("value", "limit", "reliability") if alarm.get(key) is not None]
    waits = f"not acknowledged: {', '.join(alarm['unacknowledged'])}" if alarm["unacknowledged"] else None
    return "\n".join([*lines, *(f"  {it}" for it in [", ".join(facts), waits, f"priority {alarm['priority']}"] if it)])


def variables(message, alarm):
    """What a command is told, as variables: no value of it becomes a word of the shell."""
    told = {"WHY": message["why"], "DEVICE": message["device"]}
    for key in ("object", "name", "state", "transition", "time", "since", "priority", "minutes", "value", "limit", "text", "reliability"):
        told[key.upper()] = alarm.get(key)
    return {f"ALARM_{key}": "" if it is None else str(it).replace("\0", "") for key, it in told.items()}
