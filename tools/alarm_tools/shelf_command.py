"""alarm-client shelve, unshelve, shelf and frequent: alarms that are put away for a while, and those that come most often."""
import os
import time

from . import audit, client, finding, frequent, names, octets, shelf, words
from .client import Refusal
from .language import say
from .words import DONE, REFUSED, USAGE, Ends

HELP = "where what is shelved is kept (ALARM_SHELF, else alarm-client/shelf in the user's folder of states)"
default_path = shelf.default_path
WHAT_KEEP = "bring back what is due until nothing is left, in place of listing; a process of its own does it where this isn't said"


def add_commands(commands):
    put = words.command_of(commands, "shelve", "has an object's alarms not come for a while", shelve)
    put.add_argument("object", metavar="OBJECT")
    put.add_argument("length", metavar="LENGTH", help="for how long, as 30m, 2h or 1h30m, up to 7d")
    put.add_argument("--why", default="", metavar="TEXT", help="why")
    back = words.command_of(commands, "unshelve", "brings an object back from the shelf before its time", unshelve)
    back.add_argument("object", metavar="OBJECT")
    listed = words.command_of(commands, "shelf", "lists what is shelved, and what else is inhibited", list_shelf)
    listed.add_argument("--keep", action="store_true", help=WHAT_KEEP)
    most = words.command_of(commands, "frequent", "tells which objects came to an alarm most often, by the server's logs", list_frequent)
    most.add_argument("--days", type=int, default=frequent.DAYS, metavar="N", help="in so many days by this machine's clock (%(default)s)")
    most.add_argument("--count", type=int, default=frequent.MOST, metavar="N", help="how many objects (%(default)s)")
    for command in (put, back, listed):
        command.add_argument("--shelf", metavar="FILE", default=default_path(), help=HELP)
        audit.add_words(command)
    for command in (put, back, listed, most):
        client.add_words(command)
        command.add_argument("--json", action="store_true", help="lines of JSON")


def audit_of(given, server):
    return audit.Audit(given.audit and os.path.abspath(given.audit), "alarm-client shelf", server)


def keeper_of(given):
    audit_of(given, given.to)
    return shelf.Keeper(given.shelf, lambda server: audit_of(given, server), given.wait)


def shelved(path, server):
    """The rows of a server on a shelf. A shelf that can't be read has none that are known."""
    try:
        return list(shelf.Shelf(path).of(server).values()) if os.path.exists(path) else []
    except (Ends, OSError, ValueError):
        return []


def inhibited(asked, of):
    """Whether an object is inhibited, and the switch to which it refers or None. One without alarms, or whose switch decides, ends the tool."""
    found = asked.read_many([(of, number, None) for number in (octets.EVENT_ALGORITHM_INHIBIT, octets.EVENT_ALGORITHM_INHIBIT_REF)])
    flag, ref = (found.get((of, number, None)) for number in (octets.EVENT_ALGORITHM_INHIBIT, octets.EVENT_ALGORITHM_INHIBIT_REF))
    called = words.named(names.object_text(of), asked.name(of))
    if not isinstance(flag, list):
        asked.read(of, octets.OBJECT_NAME)
        raise Ends(REFUSED, f"{called} has no alarms that could be shelved: it has no class")
    if isinstance(ref, list):
        switch = octets.object_of(ref[0])
        by = words.named(names.object_text(switch), asked.name(switch))
        raise Ends(REFUSED, f"{called} is inhibited by {by} alone, for all that refers to it: alarm-client write {names.object_text(switch)} active")
    return bool(octets.number_of(flag[0]))


def shelve(given):
    try:
        length = shelf.seconds_from(given.length)
    except ValueError as error:
        raise Ends(USAGE, str(error)) from None
    keeper = keeper_of(given)
    try:
        row = shelve_at(given, keeper.shelf, length)
    finally:
        if keeper.shelf.rows():
            shelf.begin_keeper(keeper)
    told = row | {"until_text": shelf.moment_text(row["until"])}
    called = words.named(row["object"], row["name"])
    words.put(words.json_line(told) if given.json else say("{} is on the shelf until {}: its alarms don't come, its faults do", called, told["until_text"]))
    return DONE


def shelve_at(given, the_shelf, length):
    """Shelves an object at the server, and gives its row. Where nobody answers the row stays, since it may be inhibited all the same."""
    with client.client_of(given) as asked:
        of, by = finding.wanted_object(asked, given.object), given.by or audit.user()
        row = {
            "server": asked.where(), "object": names.object_text(of), "name": asked.name(of), "since": audit.now_text(), "until": round(time.time() + length, 3),
            "by": by, "why": given.why,
        }
        with the_shelf.changing() as rows:
            put_away(given, asked, of, row, rows, the_shelf)
    return row


def put_away(given, asked, of, row, rows, the_shelf):
    """Keeps a row on the disk, and then has the object inhibited; the row goes again where that is refused."""
    had = the_shelf.of(row["server"], rows).get(row["object"])
    if inhibited(asked, of) and not had:
        called = words.named(row["object"], row["name"])
        raise Ends(REFUSED, f"{called} is inhibited already, and not from this shelf: it would come back before whoever inhibited it wants")
    shelf.remove(rows, row["server"], row["object"])
    rows.append(row)
    the_shelf.write(rows)
    try:
        told = {"object": row["object"], "name": row["name"], "until": shelf.moment_text(row["until"]), "why": row["why"]}
        with audit_of(given, row["server"]).deed("shelve", row["by"], **told):
            shelf.inhibit(asked, of, True)
    except Refusal:
        rows[-1:] = [had] * bool(had)
        the_shelf.write(rows)
        raise


def unshelve(given):
    keeper, by = keeper_of(given), given.by or audit.user()
    with client.client_of(given) as asked:
        of = finding.wanted_object(asked, given.object)
        name = asked.name(of)
        with keeper.shelf.changing() as rows:
            had = keeper.shelf.of(asked.where(), rows).get(names.object_text(of))
            if not had:
                raise Ends(REFUSED, f"{words.named(names.object_text(of), name)} isn't on the shelf {keeper.shelf.path}")
            with audit_of(given, asked.where()).deed("unshelve", by, object=names.object_text(of), name=name, shelved_by=had["by"]):
                shelf.inhibit(asked, of, False)
            shelf.remove(rows, asked.where(), names.object_text(of))
    told = {"object": names.object_text(of), "name": name, "by": by}
    words.put(words.json_line(told) if given.json else say("{} is back from the shelf", words.named(names.object_text(of), name)))
    return DONE


def list_shelf(given):
    keeper = keeper_of(given)
    if given.keep:
        keeper.run()
        return DONE
    if keeper.shelf.rows():
        shelf.begin_keeper(keeper)
    with client.client_of(given) as asked:
        found = shelf_rows(asked, keeper.shelf.of(asked.where()))
    if given.json:
        for row in found:
            words.put(words.json_line(row))
        return DONE
    rows = [[it["object"], it["name"] or "", it["until_text"] or "-", it["by"] or "-", it["why"], say(it["state"]) if it["state"] else it["fault"]] for it in found]
    for line in words.table([say(it) for it in ("OBJECT", "NAME", "UNTIL", "BY", "WHY")] + [""], rows) if rows else [say("nothing is on the shelf, and nothing is inhibited")]:
        print(line)
    return DONE


def shelf_rows(asked, on_shelf):
    """What is on the shelf, and what else a server says is inhibited: each with what is remarkable of it."""
    objects = asked.objects()
    asked.learn_names(objects)
    flags = asked.read_many([(of, octets.EVENT_ALGORITHM_INHIBIT, None) for of in objects])
    is_set = {names.object_text(of) for (of, _, _), it in flags.items() if isinstance(it, list) and octets.number_of(it[0])}
    called, found = {names.object_text(of): asked.names[of] for of in objects}, []
    for text, row in sorted(on_shelf.items(), key=lambda it: it[1]["until"]):
        late = row["until"] + 2 * shelf.AGAIN < time.time()
        state = "overdue" if late else "" if text in is_set else "on the shelf, and inhibited no more"
        found.append({
            "object": text, "name": called.get(text, row.get("name")), "until": row["until"], "until_text": shelf.moment_text(row["until"]), "by": row["by"],
            "why": row.get("why", ""), "state": state, "fault": row.get("fault", ""),
        })
    for text in sorted(is_set - set(on_shelf)):
        found.append({"object": text, "name": called[text], "until": None, "until_text": None, "by": None, "why": "", "state": "inhibited, and not from this shelf", "fault": ""})
    return found


def list_frequent(given):
    if given.days < 1 or given.count < 1:
        raise Ends(USAGE, "at least one day and one object are wanted")
    with client.client_of(given) as asked:
        logs = frequent.Logs(asked)
        logs.read()
        rows, since = logs.most(given.days, given.count)
        asked.learn_names([it.object for it in rows])
        found = [{"object": names.object_text(it.object), "name": asked.names[it.object], "times": it.count, "last": it.last} for it in rows]
    if given.json:
        for row in found:
            words.put(words.json_line(row))
        return DONE
    cells = [[it["times"], it["last"][:19], it["object"], it["name"] or ""] for it in found]
    for line in words.table([say(it) for it in ("TIMES", "LAST", "OBJECT", "NAME")], cells) if found else [say("no alarm came in {} days", given.days)]:
        print(line)
    if since:
        print(say("the logs tell of all since {}", since[:19]))
    return DONE
