"""The part of checks/standby that carries a server's journal to a standby by tools/alarm-carry, and by the page's recipe.

The server is the program, and answers writes; the way is checks/carrying_way.py, and at its other end stands the command's standby.
"""
import concurrent.futures
import hashlib
import json
import os
import pathlib
import random
import re
import shutil
import signal
import subprocess
import sys
import threading
import time

import bacnet
import serving
import shipping
import tooling
from alarm_tools import journal
from serving import START

TOP = pathlib.Path(__file__).resolve().parent.parent
COUNTER, TANK = (bacnet.INTEGER_VALUE, 9), (bacnet.INTEGER_VALUE, 1)
# For how long something is awaited that has to come; how long the carrying waits for an answer where one doesn't come.
DEADLINE, PATIENCE = 60, 2
# How many writes are on their way at once, and how many plays are played side by side.
IN_FLIGHT, TOGETHER = 8, 3


def site_text(high=80):
    return serving.site_text(serving.device(outbox=64), serving.of_class(7), serving.tank(1, 7, high=high), serving.integer(9))


def until(holds, what, told=lambda: ""):
    """Waits until something holds."""
    end = time.monotonic() + DEADLINE
    while not holds():
        bacnet.want(time.monotonic() < end, f"{what} doesn't come in {DEADLINE} seconds: {told()}")
        time.sleep(0.02)


def installed(program, folder):
    """The command and the tools, as they are installed, with this program: the path of the command."""
    for source, place in [(TOP / "alarm-server", "bin/alarm-server"), (TOP / "VERSION", "libexec/alarm-server/VERSION"), (program, "libexec/alarm-server/alarm_server")]:
        put(source, folder / place)
    for helper in (TOP / "libexec").iterdir():
        put(helper, folder / "libexec" / "alarm-server" / helper.name)
    shutil.copytree(TOP / "tools", folder / "lib" / "alarm-server", ignore=shutil.ignore_patterns("__pycache__"))
    for tool in ("alarm-journal", "alarm-carry", "alarm-client"):
        (folder / "bin" / tool).symlink_to(f"../lib/alarm-server/{tool}")
    return folder / "bin" / "alarm-server"


def put(file, place):
    place.parent.mkdir(parents=True, exist_ok=True)
    shutil.copy(file, place)


def descendants(number):
    """The processes that a process began, and those that they did."""
    try:
        children = [int(it) for it in pathlib.Path(f"/proc/{number}/task/{number}/children").read_text(encoding="ascii").split()]
    except OSError:
        return []
    return children + [each for it in children for each in descendants(it)]


class Writer:
    """Writes ever new numbers to the counter, so many a second, over ends of the server; counts what was answered."""

    def __init__(self, port, rate):
        self.port, self.rate, self.answered, self.sent, self.stops = port, rate, 0, 0, False
        self.thread = threading.Thread(target=self.play, daemon=True)
        self.thread.start()

    def play(self):
        """Keeps some writes on their way, and takes one that isn't answered for a while as lost."""
        with serving.Client() as client:
            client.server_port, flying, begun = self.port, {}, time.monotonic()
            while not self.stops:
                now = time.monotonic()
                flying = {it: when for it, when in flying.items() if now < when + 0.5}
                while len(flying) < IN_FLIGHT and self.sent < (now - begun) * self.rate:
                    self.sent += 1
                    number = self.sent
                    flying[client.send_request(lambda it, n=number: bacnet.write_property(it, COUNTER, bacnet.PRESENT_VALUE, bacnet.signed(n)))] = now
                try:
                    message = client.receive(time.monotonic() + 0.002)
                except OSError:
                    message = None
                if message and flying.pop(message.invoke, None) and message.kind == "simple-ack":
                    self.answered += 1

    def end(self):
        self.stops = True
        self.thread.join()


class Scene:
    """A leader's server, its journal, a standby's journal, and what carries between them. All of it ends at the end of its block."""

    def __init__(self, told, program, folder, octets=0, other=None):
        self.told, self.program, self.folder, self.port = told, program, folder, serving.free_port()
        self.command = installed(program, folder / "installed")
        self.site, self.leader, self.standby = folder / "site.toml", folder / "leader" / "journal", folder / "follower" / "standby"
        for journal_of in (self.leader, self.standby):
            journal_of.parent.mkdir(exist_ok=True)
        self.site.write_text(site_text(), encoding="utf-8")
        self.other = folder / "other.toml"
        self.other.write_text(other or site_text(), encoding="utf-8")
        serving.make_journal(program, self.site, self.leader, octets)
        serving.make_journal(program, self.other, self.standby, octets)
        self.state, self.textfile, self.said = folder / "state", folder / "carry.prom", folder / "carry.out"
        self.server = self.carrier = None

    # The processes.

    def serve(self):
        self.server = serving.Server(self.program, self.site, self.leader, self.port, serving.MANY)

    def words(self, *options):
        way = [sys.executable, "-B", str(TOP / "checks" / "carrying_way.py"), str(self.folder), str(self.command), "standby", str(self.other), str(self.standby)]
        options = ["--state", str(self.state), "--textfile", str(self.textfile), "--patience", str(PATIENCE), *options]
        return [str(self.leader), *options, "--", *way]

    def carry(self, *options, code=None):
        """Begins to carry. `code` is what Python does before, as to change a limit."""
        with open(self.said, "ab") as file:
            begin = [sys.executable, "-B", "-c", code] if code else [sys.executable, "-B", str(self.folder / "installed" / "bin" / "alarm-carry")]
            self.carrier = subprocess.Popen([*begin, *self.words(*options)], stdout=file, stderr=file, stdin=subprocess.DEVNULL, env=tooling.environment())

    def stop(self, what):
        child, killed = getattr(self, what), None
        if child:
            killed = child.kill()
            if what == "carrier":
                child.wait()
        setattr(self, what, None)
        return killed

    def number(self, name):
        return int((self.folder / name).read_text(encoding="ascii"))

    def await_free(self):
        """Waits until nobody has the standby's journal."""
        until(lambda: subprocess.run(["flock", "--nonblock", self.standby, "true"], check=False).returncode == 0, "the lock of the standby's journal")

    # What is told.

    def stands(self):
        """How the carrying says it stands."""
        try:
            return json.loads(self.state.read_text(encoding="utf-8"))
        except OSError:
            return {}

    def is_level(self):
        """Whether it says that the standby has all."""
        told = self.stands()
        return told.get("carried") and told["leader_events"] == self.events(self.leader) == told["standby_events"]

    def await_level(self):
        until(self.is_level, "a standby that has all", lambda: f"{self.stands()}, {self.said.read_text(encoding='utf-8')[-500:]}")

    def check(self, *words):
        ended = subprocess.run([self.folder / "installed" / "bin" / "alarm-carry", "--check", "--state", self.state, *words], capture_output=True, text=True, check=False, timeout=DEADLINE)
        return ended.returncode, ended.stdout + ended.stderr

    def same(self):
        return tooling.run("alarm-journal", "same", self.leader, self.standby)[0]

    def events(self, path):
        """How many events a journal has by its records, which is also asked of one in use."""
        with journal.Journal(path) as it:
            return 0 if it.header.blank else journal.events_in(it.settled())

    def write(self, *values):
        """Writes values to the tank, each of which has to be answered."""
        with serving.Client() as client:
            client.server_port = self.port
            for value in values:
                answer = client.write(TANK, bacnet.signed(value))
                bacnet.want(answer.kind == "simple-ack", f"a write was answered with {answer}")

    def __enter__(self):
        return self

    def __exit__(self, *_):
        self.stop("carrier")
        self.stop("server")
        for name in ("near", "far"):
            try:
                mine = self.number(name)
                for each in [*descendants(mine), mine]:
                    os.kill(each, signal.SIGKILL)
            except (OSError, ValueError):
                pass


# Two histories.


def journal_of(program, site, path, script):
    """A journal of a site to which a script was played."""
    serving.make_journal(program, site, path)
    ended = subprocess.run([program, "session", site, path], input=script.encode(), capture_output=True, timeout=serving.SECONDS, check=False)
    bacnet.want(ended.returncode == 0, f"a session ended with {ended.returncode}, {ended.stderr!r}")
    return path


def folded(path, of, other=0):
    """A journal that has the events of another one in a snapshot alone, which is made up: its head is right, and one octet is given."""
    octets = of.read_bytes()
    with journal.Journal(of) as it:
        area = it.settled()
        head = b"\x01" + journal.events_in(area).to_bytes(8, "big") + journal.last_of(area).to_bytes(8, "big") + bytes([other])
    path.write_bytes(shipping.cut(octets, area, len(head).to_bytes(4, "big") + head))
    return path


def see_same(told, rows):
    """What `same` says of two journals, each with the status and a text that are wanted, and of one and the digest of the other."""
    digests = tooling.run_many("journal_command", [["digest", "--ranges", second] for _, second, *_ in rows])
    lines = []
    for place, ((first, second, *_), (_, digest, _)) in enumerate(zip(rows, digests)):
        path = first.with_name(f"digest-{place}")
        path.write_text("".join(f"# {line}\n" for line in digest.splitlines()), encoding="ascii")
        lines += [["same", first, second], ["same", first, "--digest", path]]
    found = tooling.run_many("journal_command", lines)
    for (first, second, wanted, text), direct, far in zip(rows, found[::2], found[1::2]):
        told.want(direct[0] == wanted and text in direct[1] + direct[2], f"same {first.name} {second.name}: {direct}")
        # A range of several records is told by its first and last one.
        part = text.replace("event 41 ", "41")
        told.want(far[0] == wanted and part in far[1] + far[2], f"same {first.name} by the digest of {second.name}: {far}")


def try_same(told, program, folder):
    """Two journals are compared, as files and by a digest, with each answer; and a digest has the sums of what it tells."""
    site, other = folder / "site.toml", folder / "other.toml"
    site.write_text(site_text(), encoding="utf-8")
    other.write_text(site_text(high=70), encoding="utf-8")
    lines = [f"set {START + 1000 * number} integer-value:9 signed:{number}\n" for number in range(100)]
    changed = [*lines[:40], lines[40].replace("signed:40", "signed:41"), *lines[41:]]
    one, fewer, parted, foreign = (
        journal_of(program, of, folder / name, "".join(script))
        for name, of, script in [("one", site, lines), ("fewer", site, lines[:70]), ("parted", site, changed), ("foreign", other, lines)]
    )
    blank, fold = folder / "blank", folded(folder / "fold", one)
    serving.make_journal(program, site, blank)
    see_same(told, [
        (one, one, 0, "one record for each"), (one, fewer, 0, "one record for each"), (fewer, one, 0, "one record for each"), (one, blank, 0, "no events yet"),
        (one, parted, 10, "event 41 "), (parted, fewer, 10, "event 41 "), (one, foreign, 11, shipping.sum_of(other)), (one, fold, 12, "can't be told"),
        (fold, folded(folder / "same", one), 0, "one record for each"), (fold, folded(folder / "differs", one, 1), 10, "snapshots of 100 events differ"),
    ])
    with journal.Journal(one) as it:
        last = list(shipping.records_of(it.settled()))[-1]
    wanted = f"site {shipping.sum_of(site)} events 100 last {hashlib.sha256(last).hexdigest()}\n"
    told.same("a digest", tooling.run("alarm-journal", "digest", one), (0, wanted, ""))


def see_rules(told, it):
    """The rules for Prometheus name metrics that are written of both sides, and no others."""
    watched = it.folder / "standby.prom"
    status, output, _ = tooling.run("alarm-carry", "--standby", it.standby, "--textfile", watched, "--limit", "3600")
    told.want(status == 0 and "15 events; the leader was heard" in output, f"--standby ended with {status}, {output}")
    written = {name for path in (it.textfile, watched) for name in re.findall(r"^(\w+) ", path.read_text(encoding="utf-8"), re.M)}
    rules = "\n".join(re.findall(r"expr: (.*)", (tooling.TOOLS / "alarm-server.rules.yml").read_text(encoding="utf-8")))
    named = set(re.findall(r"\balarm_(?:carry|standby)_\w+", rules))
    told.want(len(named) >= 6 and named <= written, f"the rules name {sorted(named - written)}, of {sorted(named)}")


def try_parted(told, program, folder):
    """A leader that was restored from an older copy: told within a pass, nothing is carried; restored from its standby it is."""
    with Scene(told, program, folder) as it:
        it.serve()
        it.write(*range(40, 50))
        copy = folder / "copy"
        told.same("a copy", tooling.run("alarm-journal", "copy", it.leader, copy)[0], 0)
        it.carry()
        it.write(*range(50, 55))
        it.await_level()
        told.same("same, of a leader and its standby", it.same(), 0)
        told.same("--check, where all is well", it.check()[0], 0)
        it.stop("server")
        shutil.copyfile(copy, it.leader)
        until(lambda: it.stands().get("parted"), "that a leader has fewer events", it.stands)
        it.serve()
        it.write(44, 45, 46, 90, 47, 91)
        until(lambda: "event 11 isn't the same" in it.stands().get("text", ""), "where they part", it.stands)
        status, text = it.check()
        told.want(status == 10 and "have parted" in text, f"--check of two that have parted ended with {status}, {text}")
        until(lambda: "\nalarm_carry_parted 1\n" in it.textfile.read_text(encoding="utf-8"), "the metric of two that have parted")
        told.same("the standby's events behind that", it.events(it.standby), 15)
        see_rules(told, it)
        ended = tooling.run("alarm-journal", "same", it.leader, it.standby)
        told.want(ended[0] == 10 and "event 11 isn't" in ended[2], f"same, of two that have parted: {ended}")
        it.stop("server")
        it.leader.unlink()
        told.same("a copy of the standby", tooling.run("alarm-journal", "copy", it.standby, it.leader)[0], 0)
        it.serve()
        it.write(60)
        it.await_level()
        told.same("same, of a leader that was restored from its standby", it.same(), 0)


def try_other_text(told, program, folder):
    """A standby whose site has another text takes nothing, and it is told with both sums."""
    with Scene(told, program, folder, other=site_text(high=60)) as it:
        it.serve()
        it.write(70)
        it.carry()
        until(lambda: it.stands().get("parted"), "that the site has another text", it.stands)
        status, text = it.check()
        told.want(status == 10 and "another text" in text, f"--check of another text ended with {status}, {text}")
        told.same("the standby's events behind another text", it.events(it.standby), 0)
        said = it.said.read_text(encoding="utf-8")
        sums = [shipping.sum_of(path) for path in (it.site, it.other)]
        told.want(all(it in said for it in sums), f"of two texts it says {said[-300:]}, and not {sums}")
        it.stop("carrier")
        it.await_free()
        it.other.write_text(site_text(), encoding="utf-8")
        it.carry()
        it.await_level()


# The page's recipe.


def recipe(it):
    """The script of the page that ships again and again, with the paths of a scene and its standby's command in place of ssh."""
    page = (TOP / "docs" / "STANDBY.md").read_text(encoding="utf-8")
    lines = re.search(r"^    #!/usr/bin/env bash\n(?:    .*\n|\n(?=    ))+", page, re.M)[0]
    text = re.sub(r"^    ", "", lines, flags=re.M)
    for old, new in [
        (r"(?<![\w/-])alarm-(server|journal) ", rf"{it.folder}/installed/bin/alarm-\1 "), (r"^site=.*$", f"site={it.site} journal={it.leader} copy={it.folder / 'recipe-copy'}"), (r"^way=.*$", f"way=({it.command} standby {it.other} {it.standby})"),
        (r"\bsleep 2\b", "sleep 0.1"),
    ]:
        text, count = re.subn(old, new, text, flags=re.M)
        bacnet.want(count, f"the page's recipe has no {old}")
    path = it.folder / "recipe"
    path.write_text(text, encoding="utf-8")
    return path


def play_recipe(it, holds):
    """Runs the recipe until something holds of its standard output and its standard error together, or it has ended; gives these and its status."""
    said = it.folder / "recipe-said"
    with open(said, "wb") as file:
        child = subprocess.Popen(["bash", recipe(it)], stdin=subprocess.DEVNULL, stdout=file, stderr=file, start_new_session=True)
    text = lambda: said.read_text(encoding="utf-8", errors="replace")
    try:
        until(lambda: child.poll() is not None or holds(text()), "what the recipe says", text)
    finally:
        status = child.poll()
        try:
            os.killpg(child.pid, signal.SIGKILL)
        except ProcessLookupError:
            pass
        child.wait()
    it.await_free()
    return status, text()


def try_recipe(told, program, folder):
    """The page's recipe tells both numbers; a ship that fails, another text and a leader that has fewer events are told by it at once."""
    with Scene(told, program, folder) as it:
        it.serve()
        it.write(50, 51, 52)
        copy = folder / "copy"
        tooling.run("alarm-journal", "copy", it.leader, copy)
        it.write(53, 54)
        status, text = play_recipe(it, lambda text: text.count("leader 5 standby 5") > 1)
        told.want(status is None and "leader 5 standby 5" in text, f"the recipe ended with {status}, and said {text[-300:]}")
        it.stop("server")
        it.site.write_text(site_text(high=70), encoding="utf-8")
        status, text = play_recipe(it, lambda text: text.count("FAILED") > 1)
        told.want(text.count("FAILED") > 1 and "leader" not in text and "journal refused: foreign" in text, f"a ship that fails is told as {text[-300:]}")
        it.site.write_text(site_text(), encoding="utf-8")
        keep_standby = it.standby.read_bytes()
        it.other.write_text(site_text(high=70), encoding="utf-8")
        serving.make_journal(program, it.other, it.standby)
        status, text = play_recipe(it, lambda text: "FAILED" in text)
        told.want("FAILED" in text and "another text" in text, f"another text is told by the recipe as {text[-300:]}")
        it.other.write_text(site_text(), encoding="utf-8")
        it.standby.write_bytes(keep_standby)
        shutil.copyfile(copy, it.leader)
        status, text = play_recipe(it, lambda text: "PARTED" in text)
        told.want(status == 1 and "PARTED" in text, f"a leader with fewer events is told by the recipe as {status}, {text[-300:]}")


# The way.


def try_way(told, program, folder):
    """A way that hangs is given up, and its standby ends and frees its journal; a new one is found, and the old one's return does no harm.

    Both journals are compared again in time, a standby is begun anew before a script's last line, and one that opens late is waited for.
    """
    with Scene(told, program, folder) as it:
        it.serve()
        it.write(50, 51)
        it.carry("--compare-every", "2")
        it.await_level()
        ways = it.stands()["ways"]
        until(lambda: it.stands()["ways"] > ways + 1, "another comparison", it.stands)
        it.stop("carrier")
        it.await_free()
        before = it.number("far")
        it.carry()
        until(lambda: it.number("far") != before, "a way that lasts")
        it.await_level()
        hung = it.number("far")
        os.kill(hung, signal.SIGSTOP)
        it.write(52, 53, 54)
        until(lambda: it.number("far") != hung, "another way")
        it.await_level()
        os.kill(hung, signal.SIGCONT)
        it.write(55)
        it.await_level()
        told.same("same, behind a way that came back", it.same(), 0)
        it.stop("carrier")
        it.await_free()
        it.carry(code=f"import sys; sys.path.insert(0, {str(TOP / 'tools')!r}); from alarm_tools import carry, carry_command; carry.MOST_LINES = 6; sys.exit(carry_command.main())")
        it.write(56, 57)
        until(lambda: it.stands().get("ways", 0) > 2, "another standby behind six lines", it.stands)
        it.write(58)
        it.await_level()
        told.same("same, behind several standbys", it.same(), 0)
        it.stop("carrier")
        it.await_free()
        open_late(it)
        it.carry()
        it.write(59)
        it.await_level()
        told.same("same, behind a standby that opens late", it.same(), 0)


def open_late(it):
    """Has the standby's program begin later than an answer is waited for, as with a journal that takes long to be opened."""
    program = it.folder / "installed" / "libexec" / "alarm-server" / "alarm_server"
    whole = program.rename(program.with_name("whole"))
    program.write_text(f'#!/bin/sh\nsleep {2 * PATIENCE}\nexec {whole} "$@"\n', encoding="utf-8")
    program.chmod(0o755)


def try_full_disks(told, program, folder):
    """Disks that are full, of either side: checks/carrying_disks.py, in a mount namespace, so that nothing else sees them. It wants root."""
    words = ["unshare", "--mount", sys.executable, "-B", str(TOP / "checks" / "carrying_disks.py"), program, str(folder)]
    ended = subprocess.run(words, capture_output=True, text=True, check=False, timeout=4 * DEADLINE)
    print("".join(f"{line}\n" for line in ended.stdout.splitlines()[:-1]), end="", flush=True)
    found = re.search(r"^(\d+) passed, (\d+) failed$", ended.stdout, re.M)
    told.want(found and ended.returncode == 0, f"full disks: {ended.returncode}, {ended.stdout[-300:]}{ended.stderr[-300:]}")
    if found:
        told.passed += int(found[1])
        told.failed += int(found[2])


# Kills.


def kill_one(it, rng):
    """Kills one of the four: the server, the carrying, the way, the standby. The first two are begun again."""
    what = rng.choice(["server", "carrier", "near", "far", "standby"])
    if what in ("server", "carrier"):
        it.stop(what)
        it.serve() if what == "server" else it.carry()
        return what
    try:
        number = it.number("near" if what == "near" else "far")
        if what == "standby":
            number = rng.choice(descendants(number))
        os.kill(number, signal.SIGKILL)
    except (OSError, ValueError, IndexError):
        pass
    return what


def see_history(told, it, history):
    """The standby's journal has the leader's records, and its state behind as many events."""
    files = shipping.Files(it.program, it.site, it.folder, f"set {START * 2} integer-value:9 signed:-7\n".encode())
    history.note(it.leader.read_bytes(), it.folder / "noted")
    octets = it.standby.read_bytes()
    with journal.Journal(it.standby) as opened:
        area = opened.settled()
    wrong = [number for number, record in enumerate(shipping.records_of(area), area.snapshot.events + 1) if record != history.records.get(number)]
    told.same("events of the standby that aren't the leader's", wrong[:5], [])
    events = files.events_in(octets)
    told.same(f"the state behind {events} events", files.state_in(octets), files.state_in(history.journal_at(events)))


def try_kills(told, program, folder, count, rng):
    """Kills of each of the four under load; one history at the end, with all that was answered and all that was ever acknowledged."""
    history, acknowledged, kills = shipping.History(), 0, {}
    with Scene(told, program, folder) as it:
        it.serve()
        it.carry()
        writer = Writer(it.port, 300)
        for _ in range(count):
            time.sleep(rng.uniform(0.05, 0.7))
            history.note(it.leader.read_bytes(), folder / "noted")
            acknowledged = max(acknowledged, it.stands().get("standby_events", 0))
            what = kill_one(it, rng)
            kills[what] = kills.get(what, 0) + 1
            events = it.events(it.standby)
            told.want(events >= acknowledged, f"behind a kill of {what} the standby has {events} events, and {acknowledged} were acknowledged")
        writer.end()
        it.await_level()
        told.want(writer.answered <= it.events(it.leader), f"{writer.answered} writes were answered, and the leader has {it.events(it.leader)} events")
        told.want(writer.answered > count, f"{writer.answered} writes were answered")
        it.stop("carrier")
        it.await_free()
        it.stop("server")
        told.same("same, behind all kills", it.same(), 0)
        see_history(told, it, history)
        print(f"{it.events(it.standby)} events were carried over kills of {', '.join(f'{what} {number}' for what, number in sorted(kills.items()))}")


# How far behind.


class Tail:
    """Follows the area in use of a journal, batch by batch: how many events there are, and when each number was first seen."""

    def __init__(self, path):
        self.it = journal.Journal(path)
        area = self.it.settled()
        self.at, self.events, self.number = area.place + len(area.octets), journal.events_in(area), area.number
        self.seen = []

    def look(self):
        """Reads on, and notes the moment behind what was read."""
        bacnet.want(self.it.selected() == self.number, "an area was filled while it was measured")
        octets, at, before = self.it.read(self.at, 1 << 18), 0, self.events
        while at + 5 <= len(octets) and octets[at] == 1:
            behind = at + 5 + int.from_bytes(octets[at + 1 : at + 5], "big")
            if behind > len(octets):
                break
            at += 5
            while at < behind:
                at, self.events = at + (journal.OCTETS.get(octets[at + 8]) or journal.octets_of_record(octets, at)), self.events + 1
        self.at += at
        if self.events > before:
            self.seen.append((time.monotonic(), self.events))


def lags_between(leader, standby):
    """For how long each number that was seen of a leader was then awaited of its standby, in seconds; it ascends."""
    found, place = [], 0
    for when, events in leader.seen:
        while place < len(standby.seen) and standby.seen[place][1] < events:
            place += 1
        bacnet.want(place < len(standby.seen), f"event {events} of the leader never came to the standby")
        found.append(max(standby.seen[place][0] - when, 0))
    return sorted(found)


def try_behind(told, program, folder, seconds):
    """How far a standby is behind under a load of writes, up to a thousand a second where the machine allows it: the figure is printed."""
    with Scene(told, program, folder, octets=32_000_000) as it:
        it.serve()
        it.write(50)
        it.carry()
        it.await_level()
        tails = [Tail(it.leader), Tail(it.standby)]
        writer, begun = Writer(it.port, 1000), time.monotonic()
        while time.monotonic() < begun + seconds:
            for tail in tails:
                tail.look()
            time.sleep(0.001)
        writer.end()
        took, events = time.monotonic() - begun, tails[0].seen[-1][1]
        until(lambda: [tail.look() for tail in tails] and tails[1].events >= tails[0].events, "a standby that has all of a load")
        lags = lags_between(*tails)
        told.want(writer.answered > 0 and lags, f"{writer.answered} writes were answered in {took:.1f} s")
        told.same("what carrying knows behind a load", it.same(), 0)
        middle, late = lags[len(lags) // 2], lags[len(lags) * 99 // 100]
        print(f"under {(events - 1) / took:.0f} events a second the standby was {middle * 1000:.0f} ms behind, {late * 1000:.0f} ms at most for 99 of 100, {lags[-1] * 1000:.0f} ms at the most")


PLAYS = {
    "same": try_same, "parted": try_parted, "other text": try_other_text, "recipe": try_recipe, "way": try_way, "full disks": try_full_disks,
}


def try_play(told, program, place, name, play):
    """Tries a play in a folder of its own."""
    place.mkdir()
    begun = time.monotonic()
    try:
        play(told, program, place)
    except (OSError, ValueError, KeyError, IndexError, subprocess.SubprocessError, journal.NoJournal) as error:
        told.want(False, f"{name}: {type(error).__name__}: {error}")
    print(f"{name}: {time.monotonic() - begun:.1f} s", flush=True)


def try_carrying(told, program, folder, count, rng):
    """All of it, some side by side, since they mostly wait; what is measured is played alone."""
    plays = {**PLAYS, "kills": lambda *given: try_kills(*given, 2 * count, rng)}
    with concurrent.futures.ThreadPoolExecutor(TOGETHER) as pool:
        tried = [pool.submit(try_play, told, program, folder / name.replace(" ", "-"), name, play) for name, play in plays.items()]
    for it in tried:
        it.result()
    try_play(told, program, folder / "behind", "behind", lambda *given: try_behind(*given, min(3 + count / 10, 60)))
