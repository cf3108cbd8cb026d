"""The parts of checks/change, each over a ward of its own."""
import json
import os
import pty
import random
import re
import shutil
import subprocess
import time

import changing
import changing_archives
import serving
import tooling
from changing import HOUSE, IN_ALARM, TECHNICAL, THIRTEENTH, TOP, VITAL, Desk, Writer, lonely_ward, missing, ward

# The steps of whoever prepares, in their order, and those of whoever finishes.
PREPARING = ("caught up", "folder made", "text written", "copied", "prepared", "server ended", "rest played", "written", "synced", "opened", "answered")
FINISHING = ("asked", "in place", "links set")
TAKING_IN = ("folder made", "text written", "taken in", "in place", "links set")
# How a person sees to the alarms: what was acknowledged, the limits that were written, and who was added.
ACKNOWLEDGED = ("positive-integer-value:1", "integer-value:1")
WRITTEN = (("positive-integer-value:1", "low-limit", 340), ("integer-value:1", "high-limit", 85))
ADDED = "192.0.2.77:47808"


def next_text(unit, more=THIRTEENTH):
    """The file of a changed text."""
    path = unit.folder / "next.toml"
    path.write_text(unit.text() + more, encoding="utf-8")
    return path


# The folder.


def try_folder(told, program, folder):
    """Two files become a pair, and whatever is put or edited at the old places later is seen to."""
    with ward(folder / "unit", program) as unit:
        first = (unit.site.read_bytes(), (unit.state / "journal").read_bytes())
        unit.begin()
        unit.end()
        told.same("the folder in force", os.readlink(unit.state / "current"), "site.1")
        told.same("the journal's old place", os.readlink(unit.state / "journal"), "current/journal")
        told.want(unit.site.is_symlink() and unit.site.resolve() == (unit.state / "site.1" / "site.toml").resolve(), f"the site's old place: {unit.site}")
        told.same("the text behind the links", unit.site.read_bytes(), first[0])
        # What a version before this one begins: the two old places.
        told.want(unit.run("alarm-server", "session", unit.site, unit.state / "journal")[1].startswith("open "), "a version before doesn't find its files")
        see_edits(told, unit, first[0])
        see_replaced(told, unit, first[1])


def see_edits(told, unit, text):
    """An edited text brings nothing into force and stops no server, and stays where it was edited."""
    with open(unit.site, "ab") as file:
        file.write(b"# a comment\n")
    unit.begin()
    unit.end()
    told.same("the text in force behind an edit", unit.text().encode(), text)
    told.same("the edited text", (unit.site.is_symlink(), unit.site.read_bytes()), (False, text + b"# a comment\n"))
    said = (unit.folder / "finished").read_text(encoding="utf-8")
    told.want(re.search(r"etc/site.toml isn't the text in force: alarm-server change \S*etc/site.toml brings it into force", said), f"the edit isn't told: {said}")
    status, said = unit.change("--yes", "etc/site.toml")
    told.want(status == 0 and unit.site.is_symlink(), f"the edited text brought into force: {status}, {said}")
    told.same("the text in force behind that", unit.text().encode(), text + b"# a comment\n")


def see_replaced(told, unit, kept):
    """A journal that is put at the old place, as a copy that is restored, is in force with its text."""
    (unit.state / "journal").unlink()
    (unit.state / "journal").write_bytes(kept)
    unit.begin()
    unit.end()
    # Its text is the journal's own, so that this one is in force, and no later one.
    told.want(b"# a comment" not in unit.site.read_bytes() and b"# a comment" not in unit.text().encode(), f"a copy that was put at the old place isn't in force: {unit.site}, {os.readlink(unit.state / 'current')}")
    told.same("the journal's old place behind that", os.readlink(unit.state / "journal"), "current/journal")


def try_taking_in(told, program, folder, tools=None, steps=TAKING_IN):
    """Killed at each of its steps, the next start takes in the two files all the same."""
    for step in steps:
        with lonely_ward(folder / step.replace(" ", "-"), program, folder, tools) as unit:
            (unit.folder / "kill").write_text(step, encoding="utf-8")
            kept = unit.state / "journal"
            first = kept.read_bytes()
            finish = ("alarm-server", "change", "--finish", "--folder", "state", "--site", "etc/site.toml")
            told.same(f"killed behind '{step}'", unit.run(*finish)[0], -9)
            told.same(f"the journal behind '{step}'", kept.read_bytes(), first)
            told.same(f"a second start behind '{step}'", unit.run(*finish)[0], 0)
            told.same(f"the journal in force behind '{step}'", (unit.state / "current" / "journal").read_bytes(), first)
            see_tidy(told, unit, step)


def see_tidy(told, unit, when):
    """Nothing that was begun is left."""
    names = sorted(it.name for it in unit.state.iterdir())
    told.want(all(re.fullmatch(r"current|journal|change\.lock|site\.\d+", it) for it in names), f"{when}: left are {names}")
    told.same(f"{when}: half made folders", [it.name for it in unit.state.glob("site.*/making")], [])


# The ward.


def see_to_alarms(unit):
    """What people did at the ward over the network."""
    unit.asks(
        ["ack", *ACKNOWLEDGED, "--by", "the night nurse"], *([["write", of, value, "--property", which] for of, which, value in WRITTEN]),
        ["recipients", "add", VITAL, ADDED, "--process", 9],
    )


def asked(unit):
    """All that a client can ask of the twelve points, the classes and the log."""
    points = [f"{kind}:{instance}" for kind, instance in re.findall(r'\[\[object\]\]\nkind = "([a-z-]+)"\ninstance = (\d+)', unit.text())]
    lines = {of: ["read", of, "--each"] for of in points if of not in ("positive-integer-value:3", "positive-integer-value:13")}
    lines |= {f"class {it}": ["recipients", "show", it] for it in (VITAL, TECHNICAL, HOUSE)}
    lines |= {f"{which} of {of}": ["read", of, which] for of, which, _ in WRITTEN}
    lines |= {"list": ["list", "--json"], "log": ["follow", "event-log:1", "--once"]}
    found = dict(zip(lines, unit.asks(*lines.values())))
    rows = [json.loads(line) for line in found["list"].splitlines()]
    return found | {"list": [(it["object"], it["state"], it["times"], it["unacknowledged"]) for it in rows]}


def see_ward(told, when, unit, before):
    """What the script and the people made of the ward is still so."""
    now = asked(unit)
    for key, was in before.items():
        told.same(f"{when}: {key}", now.get(key), was)
    told.same(f"{when}: what is in alarm", {it[0]: it[1] for it in now["list"] if it[1] != "normal"}, IN_ALARM)
    told.same(f"{when}: what waits for somebody", {it[0] for it in now["list"] if it[3]}, {"integer-value:2", "binary-value:1", "multi-state-value:1", "binary-value:4"})
    for of, which, value in WRITTEN:
        told.same(f"{when}: {which} of {of}", now[f"{which} of {of}"].split()[-1], str(value))
    told.want(ADDED in now[f"class {VITAL}"], f"{when}: who was added isn't there")


def page_commands():
    """The commands of OPERATE, "To change a site"."""
    page = (TOP / "docs" / "OPERATE.md").read_text(encoding="utf-8")
    section = re.search(r"^## To change a site\n(.*?)^## ", page, re.M | re.S)[1]
    return [line.strip() for line in section.splitlines() if line.startswith("    ")]


def until_done(unit, *words):
    """A change that is said again where it was given up, as on a machine that is too busy for it."""
    for _ in range(4):
        status, said = unit.change(*words)
        if status != 75:
            break
    return status, said


def by_the_page(told, unit):
    """Does what the page says, up to the change itself; and gives what its commands said."""
    said = []
    for line in page_commands():
        if "--back" in line:
            break
        line = line.replace("/etc/alarm-server", "etc")
        if line.startswith("editor "):
            with open(unit.folder / line.split()[1], "a", encoding="utf-8") as file:
                file.write(THIRTEENTH)
        elif line.startswith("alarm-server change"):
            status, text = until_done(unit, *line.split()[2:], *(["--yes"] if "--dry-run" not in line else []))
            said.append(text)
            told.want(status == 0, f"{line}: {status}, {text}")
        elif line.startswith("alarm-site"):
            status, text = unit.run(*line.split(), "--journal", "state/current/journal")
            told.want(status == 0 and " note: " in text, f"{line}: {status}, {text}")
        else:
            ended = subprocess.run(line, shell=True, cwd=unit.folder, check=False, capture_output=True, text=True)
            told.same(f"the status of {line}", (ended.returncode, ended.stderr), (0, ""))
    return said


def try_ward(told, program, folder):
    """A 13th point by the page, under writes; and back, and there again."""
    with ward(folder / "unit", program) as unit, Desk(unit.desk) as desk:
        unit.begin()
        see_to_alarms(unit)
        before, waits = asked(unit), len(desk.told)
        old = unit.text()
        with Writer(unit) as writer:
            time.sleep(0.3)
            said = by_the_page(told, unit)
            time.sleep(0.3)
        told.want(len(said) == 2 and all('from now on: positive-integer-value:13 "Freezer of the laboratory" is there' in it for it in said), f"the change was told so: {said}")
        told.same("answered, and not in the journal", missing(unit, writer.answered), [])
        told.want(len(writer.answered) > 5, f"{len(writer.answered)} writes were answered")
        told.same("the text in force", unit.text(), old + THIRTEENTH)
        see_ward(told, "there", unit, before)
        told.same("the 13th point", unit.client("read", "positive-integer-value:13", "present-value").split()[-1], "100")
        told.same("what the desk was told of the change", [it for it in desk.told[waits:] if it.kind in ("request", "unconfirmed")], [])
        print(f"ward: nobody was served for {writer.longest:.2f} s; {len(writer.answered)} writes were answered", flush=True)
        see_there_and_back(told, unit, before, old)


def see_there_and_back(told, unit, before, old):
    """Back with what happened since, there again, and back as it was."""
    unit.client("write", "positive-integer-value:13", 300)
    unit.client("write", "integer-value:4", 215)
    before = before | {"integer-value:4": unit.client("read", "integer-value:4", "--each")}
    with Writer(unit, behind=200_000) as writer:
        status, said = until_done(unit, "--back", "--yes")
        told.want(status == 0 and "left out: event" in said, f"back: {status}, {said}")
        told.same("the text behind the way back", unit.text(), old)
        see_ward(told, "back", unit, before)
        told.want("unknown-object" in unit.run("alarm-client", "read", "positive-integer-value:13")[1], "the 13th point is still there")
        told.same("there again", until_done(unit, "--back", "--yes")[0], 0)
    told.same("answered on the way there and back, and not in the journal", missing(unit, writer.answered), [])
    told.want(len(writer.answered) > 5, f"{len(writer.answered)} writes were answered on the way there and back")
    see_ward(told, "there again", unit, before)
    unit.client("write", "integer-value:4", 216)
    status, said = until_done(unit, "--back", "--forget", "--yes")
    told.want(status == 0 and "will not have happened" in said, f"back as it was: {status}, {said}")
    told.same("the text as it was", unit.text(), old)
    told.same("what was written since", unit.client("read", "integer-value:4", "present-value").split()[-1], "215")


def try_full_area(told, program, folder):
    """There and back, under writes, where an area was full when a write came twice: the event that came with the snapshot is played too."""
    with changing.Unit(folder / "unit", program) as unit:
        counter = "[[object]]", {"kind": "positive-integer-value", "instance": changing.COUNTER[1], "value": 0}
        unit.site.write_text(serving.site_text(*changing_archives.sections(counter)), encoding="utf-8")
        kept, first = unit.state / "journal", serving.START + 1000
        told.same("a journal", unit.run("alarm-server", "new-journal", unit.site, kept)[0], 0)
        unit.play(f"set {first} integer-value:1 signed:90\n")
        last = changing_archives.fill_up(kept, first)
        unit.play(f"set {last + 1} integer-value:1 signed:90\nset {last + 2} integer-value:1 signed:50\n")
        told.same("a start before the server", unit.change("--finish")[0], 0)
        unit.begin()
        old, changed = unit.text(), unit.folder / "next.toml"
        changed.write_text(old.replace("deadband = 5", "deadband = 6"), encoding="utf-8")
        with Writer(unit) as writer:
            for words, text in ((["next.toml"], changed.read_text(encoding="utf-8")), (["--back"], old)):
                status, said = until_done(unit, *words, "--yes")
                told.want(status == 0 and unit.text() == text, f"{words[0]}, over a fold: {status}, {said}")
        told.same("over a fold: answered, and not in the journal", missing(unit, writer.answered), [])
        told.want(len(writer.answered) > 3, f"{len(writer.answered)} writes were answered over a fold")


# What is told, and what is refused.


def tree(unit):
    """Each file of the server's folder, but for what is written each second while it runs."""
    return {str(it.relative_to(unit.folder)): it.read_bytes() for it in sorted(unit.state.rglob("*")) if it.is_file()} | {"links": [os.readlink(it) for it in (unit.state / "current", unit.state / "journal")]}


def answered(unit, *words, answer):
    """What is said where a terminal asks, and somebody answers."""
    master, slave = pty.openpty()
    command = [unit.folder / "bin" / "alarm-server", "change", "--folder", "state", "--site", "etc/site.toml", "--restart", "./restart", *words]
    with subprocess.Popen(command, cwd=unit.folder, env=unit.environment, stdin=slave, stdout=subprocess.PIPE, stderr=subprocess.STDOUT, text=True) as run:
        os.close(slave)
        os.write(master, answer)
        said = run.communicate(timeout=changing.SECONDS)[0]
    os.close(master)
    return run.returncode, said


def try_refusals(told, program, folder):
    """Nothing is touched by what is refused, nor by a dry run or a no."""
    with ward(folder / "unit", program) as unit:
        status, said = unit.change("--yes", "etc/site.toml")
        told.want(status == 1 and "isn't in a folder of its own yet" in said, f"before the folder: {status}, {said}")
        told.same("a start before the server", unit.change("--finish")[0], 0)
        first, changed = tree(unit), next_text(unit)
        bad = unit.folder / "bad.toml"
        bad.write_text(unit.text().replace("value = 420", "value = 42.0"), encoding="utf-8")
        line = unit.text()[: unit.text().index("value = 420")].count("\n") + 1
        later = unit.folder / "later.toml"
        later.write_text(unit.text().replace(str(changing.START), "1790000000000"), encoding="utf-8")
        for what, words, wanted, text in (
            ("a dry run", ["--dry-run", changed], 0, 'is there\n'),
            ("nobody to be asked", [changed], 2, "nobody can be asked"),
            ("no site", ["--yes", bad], 3, f"bad.toml:{line}: site refused: bad-value object 3 value\n  \"Oxygen pressure\": "),
            ("no file", ["--yes", "nosuch.toml"], 1, "nosuch.toml: No such file"),
            ("the same text", ["--yes", "etc/site.toml"], 0, "is the text in force already"),
            ("nothing before it", ["--back", "--yes"], 1, "has nothing before it"),
            ("a later start", ["--yes", later], 8, "behind the first event"),
            ("no words", [], 2, "a SITE is wanted"),
            ("two texts", ["--back", changed], 2, "one of them alone"),
            ("a size that is too small", ["--yes", "--octets", "1000", changed], 2, "octets"),
        ):
            status, said = unit.change(*words)
            told.want(status == wanted and text in said, f"{what}: {status}, {said}")
            told.same(f"the files behind {what}", tree(unit), first)
        for answer in (b"n\n", b"\n"):
            status, said = answered(unit, changed, answer=answer)
            told.want(status == 1 and "nothing was changed" in said, f"a no: {status}, {said}")
            told.same("the files behind a no", tree(unit), first)
        status, said = answered(unit, changed, answer=b"y\n")
        told.want(status == 0 and unit.text() == changed.read_text(encoding="utf-8"), f"a yes: {status}, {said}")
        see_tidy(told, unit, "behind a yes")


def try_blank(told, program, folder):
    """A journal in which nothing was kept yet takes another text too; a second change has to wait; a unit that doesn't finish changes nothing."""
    with changing.Unit(folder / "unit", program) as unit:
        unit.site.write_text(changing.ward_text(9, 9), encoding="utf-8")
        unit.run("alarm-server", "new-journal", unit.site, unit.state / "journal")
        told.same("a blank journal", unit.change("--finish")[0], 0)
        status, said = unit.change("--yes", next_text(unit))
        told.want(status == 0 and "the journal is blank" in said and "instance = 13" in unit.text(), f"a blank journal: {status}, {said}")
        unit.begin()
        changed = next_text(unit, "# more\n")
        with open(unit.state / "change.lock", "rb") as lock:
            subprocess.run(["flock", "--nonblock", str(lock.fileno())], pass_fds=[lock.fileno()], check=True)
            told.same("a second change", unit.change("--yes", changed)[0], 75)
        (unit.folder / "begin").write_text((unit.folder / "begin").read_text(encoding="utf-8").replace("--finish", "--help"), encoding="utf-8")
        before = unit.text()
        status, said = unit.change("--yes", changed)
        told.want(status == 75 and "nothing was changed" in said and unit.text() == before, f"a unit that doesn't finish: {status}, {said}")
        told.want(unit.client("whois"), "it isn't served")
        see_tidy(told, unit, "behind a unit that doesn't finish")


def try_late(told, program, folder, tools=None):
    """What was made ready for another start than this one isn't put in force: events may have come since."""
    with lonely_ward(folder / "unit", program, folder, tools) as unit:
        unit.change("--finish")
        shutil.copytree(unit.state / "site.1", unit.state / "site.2")
        for name, text in (("site.2/making", ""), ("change.prepared", ""), ("change.ready", "another site.2\n")):
            (unit.state / name).write_text(text, encoding="utf-8")
        with subprocess.Popen(["flock", unit.state / "change.lock", "cat"], stdin=subprocess.PIPE) as lives:
            while subprocess.run(["flock", "--nonblock", unit.state / "change.lock", "true"], check=False).returncode == 0:
                time.sleep(0.02)
            command = [unit.folder / "bin" / "alarm-server", "change", "--finish", "--folder", "state", "--site", "etc/site.toml"]
            with subprocess.Popen(command, cwd=unit.folder, env=unit.environment, stderr=subprocess.DEVNULL) as finishing:
                told.want(tooling.until(lambda: "asked" in unit.steps(), changing.SECONDS), "nobody was asked for what was prepared")
                time.sleep(0.2)
                told.same("the folder in force while another word is answered", os.readlink(unit.state / "current"), "site.1")
                lives.stdin.close()
                told.same("the end of who finishes", finishing.wait(changing.SECONDS), 0)
        told.same("the folder in force behind a change that came too late", os.readlink(unit.state / "current"), "site.1")
        told.same("the next start", unit.change("--finish")[0], 0)
        see_tidy(told, unit, "behind a change that came too late")


# Kills.


def kill_of(number, kills):
    """Which step is killed by a kill of a number, or None where it is any moment."""
    steps = [*PREPARING, *FINISHING]
    return steps[number % len(steps)] if number < kills - kills // 4 else None


def try_kill(number, step, made):
    """One kill, with its number, behind a step or at any moment."""

    def call(told, program, folder):
        when = f"killed behind '{step}'" if step else f"killed at some moment ({number})"
        with lonely_ward(folder / "unit", program, made) as unit:
            unit.begin()
            old, changed = unit.text(), next_text(unit)
            with Writer(unit) as writer:
                killed = kill_behind(unit, step) if step else kill_somewhere(unit, number)
                told.want(killed, f"{when}: nobody was killed")
                serves(told, unit, when)
                told.want(unit.text() in (old, changed.read_text(encoding="utf-8")), f"{when}: another text is in force")
                told.same(f"{when}: answered, and not in the journal", missing(unit, list(writer.answered)), [])
                again(told, unit, changed, when)
            told.same(f"{when}: answered, and not in the journal behind a second try", missing(unit, writer.answered), [])
            told.want(len(writer.answered) > 3, f"{when}: {len(writer.answered)} writes were answered")
            told.same(f"{when}: in alarm", {it["object"]: it["state"] for it in unit.client("list", "--json") if it["state"] != "normal"}, IN_ALARM)
            see_tidy(told, unit, when)

    return call


def kill_behind(unit, step):
    """A change that is killed behind a step, or whose finish is. Whether it came to that."""
    (unit.folder / "kill").write_text(step, encoding="utf-8")
    unit.change("--yes", "next.toml")
    return not (unit.folder / "kill").exists()


def kill_somewhere(unit, number):
    """A change that is killed at some moment while it is on its way."""
    command = [unit.folder / "bin" / "alarm-server", "change", "--folder", "state", "--site", "etc/site.toml", "--restart", "./restart", "--yes", "next.toml"]
    with subprocess.Popen(command, cwd=unit.folder, env=unit.environment, stdout=subprocess.DEVNULL, stderr=subprocess.DEVNULL) as run:
        # From its second run of the history on it is on its way; each of its steps may take long on a busy machine.
        time.sleep(random.Random(number).uniform(0.05, 1.5))
        run.kill()
    return True


def serves(told, unit, when):
    """Somebody answers, within the time in which a server is begun."""
    answers = tooling.until(lambda: unit.run("alarm-client", "whois", "--wait", "10")[0] == 0, changing.SECONDS)
    told.want(answers, f"{when}: nobody is served: {(unit.folder / 'errors').read_text(encoding='utf-8')}")


def again(told, unit, changed, when):
    """The same command again brings it to its end, or says that it was."""
    found = until_done(unit, "--yes", "next.toml")
    told.want(found[0] == 0 and unit.text() == changed.read_text(encoding="utf-8"), f"{when}: a second try ended with {found}")
    serves(told, unit, when)


# Another text.


def try_other_text(told, program, folder):
    """The check says beforehand that the journal is of another text, the refusal says both ways out, and each is one."""
    with ward(folder / "unit", program) as unit:
        changed, first = unit.folder / "next.toml", unit.site.read_bytes()
        changed.write_bytes(first + THIRTEENTH.encode())
        lines = first.count(b"\n") + 2
        status, said = unit.run("alarm-site", "check", "--journal", "state/journal", changed)
        told.want(status == 0 and f"{changed}:{lines}: note: state/journal is of another text" in said and f"alarm-server change {changed} brings" in said, f"the check: {status}, {said}")
        told.want("note" not in unit.run("alarm-site", "check", "--journal", "state/journal", unit.site)[1], "the check of the journal's own text")
        told.same("a journal that isn't there", unit.run("alarm-site", "check", "--journal", "nosuch", changed)[0], 1)
        status, said = unit.run("alarm-server", "session", changed, "state/journal")
        told.want(status == 8 and f"alarm-journal site state/journal > {changed}" in said and f"alarm-server change {changed}" in said, f"the refusal: {status}, {said}")
        ended = subprocess.run([unit.folder / "bin" / "alarm-journal", "site", "state/journal"], cwd=unit.folder, capture_output=True, check=False)
        told.same("the journal's text", (ended.returncode, ended.stdout), (0, first))
        other = unit.folder / "other.toml"
        other.write_bytes(first.replace(b"7002", b"7003"))
        told.want("alarm-server change" not in unit.run("alarm-server", "session", other, "state/journal")[1], "another device's journal is no changed text")


# Tools that are wrong.


class Quiet(serving.Told):
    """What failed, unsaid."""

    def want(self, holds, text):
        self.failed += not holds


def see_edited(told, program, folder, tools):
    """An edit of the text in force stops no server."""
    with lonely_ward(folder / "unit", program, folder, tools) as unit:
        unit.change("--finish")
        see_edits(told, unit, unit.site.read_bytes())


def see_writes(told, program, folder, tools):
    """A change under many writes."""
    with lonely_ward(folder / "unit", program, folder, tools) as unit:
        unit.begin()
        next_text(unit)
        with Writer(unit, 0.005) as writer:
            told.same("a change", until_done(unit, "--yes", "next.toml")[0], 0)
        told.same("answered, and not in the journal", missing(unit, writer.answered), [])


# Of each its file, what stands there, what stands there in its place, and who sees it.
WRONG = {
    "moves the journal away before its folder is in force": (
        "place.py", "os.link(self.old_journal, ", "os.rename(self.old_journal, ", lambda *given: try_taking_in(*given, steps=["taken in"])),
    "takes an answer to another start": ("change.py", "found[0] == word and ", "", try_late),
    "leaves an edited text in force": ("change.py", "edited = place.mend()", "edited = None", see_edited),
    "plays nothing of what came last": ("change_command.py", "            run.catch_up()\n            passed(\"rest played\")", "            passed(\"rest played\")", see_writes),
}


def try_wrong(told, program, folder):
    """Each tool that is wrong in one place is seen by a part that the right one passes."""
    for number, (name, (file, old, new, call)) in enumerate(WRONG.items()):
        tools, quiet = folder / f"wrong-{number}" / "alarm_tools", Quiet()
        shutil.copytree(TOP / "tools" / "alarm_tools", tools, ignore=shutil.ignore_patterns("__pycache__"))
        text = (tools / file).read_text(encoding="utf-8")
        told.same(f"how often '{old}' stands in {file}", text.count(old), 1)
        (tools / file).write_text(text.replace(old, new), encoding="utf-8")
        (folder / f"of-{number}").mkdir()
        try:
            call(quiet, program, folder / f"of-{number}", tools)
        except (OSError, ValueError, subprocess.SubprocessError):
            quiet.failed += 1
        told.want(quiet.failed, f"a tool that {name} isn't seen")


def parts(numbers, kills, made):
    """Each part by its name, with the kills of these numbers, of so many. What they share is made in a folder."""
    found = {
        "ward": try_ward, "full area": try_full_area, "refusals": try_refusals, "folder": try_folder, "taking in": try_taking_in, "blank": try_blank, "other text": try_other_text,
        "late": try_late, "wrong tools": try_wrong,
    }
    for number in numbers:
        step = kill_of(number, kills)
        found[f"kill {number + 1}{f' {step}' if step else ''}"] = try_kill(number, step, made)
    return found
