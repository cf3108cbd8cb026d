"""What certain pages have to tell, whatever else they do: for checks/clauses, which says what each page names that isn't there.

- In the tables of PROMISES every call has its crate, and a clause that is named is no `requires`. On every page a file of code or of definitions has it, and a call of a type, but
  on that of decisions, which tells of what was.
- ARCHITECTURE names the calls by which a datagram goes through the server, and every crate; the head of main.rt the top calls. Each file
  of code begins with a comment that says what it is.
- SITE says of each key in which definition it acts.
- The program, the page of the manual, the first start and CHANGELOG have the number of VERSION, and what CHANGELOG has above it isn't tagged.
- Each version of CHANGELOG but the first one has two lists: for who runs the program, and for who checks it.
- README leads to every page of docs/, and from there a newcomer finds in at most three steps what SEARCHES asks. Each step is a link of
  the page to which the one before it led, or a file that is named there, and words that stand in the same line; the last is what stands
  there.
"""
import glob
import os
import re
import unittest.mock

from contracts import crates, functions_of, sources_of, text_of
from small_trees import unfound

PROMISES, ARCHITECTURE, SITE, PAST = "docs/PROMISES.md", "docs/ARCHITECTURE.md", "docs/SITE.md", "docs/DECISIONS.md"
MAIN, TOP = "crates/alarm_server/src/main.rt", ("run", "serve")
# The lists of a version.
LISTS = ("For who runs it", "For who checks it")
VERSIONED = {MAIN: '"alarm-server {}"', "packaging/alarm-server.8": '"alarm-server {}"', "docs/OPERATE.md": "alarm-server_{}_amd64.deb", "CHANGELOG.md": "\n## {}, 20"}
WALKED = (
    "alarm_server::serve", "floor_desk::serve_desk", "floor_desk::receive_all", "floor_desk::Desk::enter", "turnstile::Turnstile::take",
    "floor_desk::Floor::admit", "service_desk::decide", "alarm_core::Core::step", "floor_desk::Desk::commit",
    "alarm_journal::Press::commit_batch", "alarm_journal::Press::emit_all", "floor_desk::tick_all", "outbox::Outbox::pump",
)
SEARCHES = {
    "what a crash leaves of a server that is killed": ("killed SECURITY.md#a-server-that-is-killed", "commit floor_desk/Carrying.antt", "KeepsLoan"),
    "when an alarm ends": (
        "run docs/OPERATE.md", "Ended PROFILE.md#the-rules-of-the-event-algorithms-133",
        "| NORMAL | the value is below the high limit by more than the deadband |",
    ),
    "what ends an alarm by definition": ("clause docs/CLAUSES.md", "rules algorithm_rules/Rules.antt", "to Normal BelowHighLessDeadband NormalDelay"),
    "which error a write gets": ("clause docs/CLAUSES.md", "errors of a write profile_laws/PropertyErrors.antt", "write_errors state request ="),
    "where a key acts": ("key docs/SITE.md", "`retries` outbox/Delivery.antt", "is_repeated retries attempts ="),
    "how a standby takes over": ("run docs/OPERATE.md", "standby STANDBY.md", "## To take over"),
    "how a property is added": ("property docs/RECIPES.md", "## A property of an object"),
}
MOST_STEPS = 3


def faults_of_promises():
    """Calls in the last cell of a row that are told without their crate, and premises that are told as promises."""
    for line in text_of(PROMISES).splitlines():
        cell = line.rsplit("|", 2)[1] if line.startswith("| ") and line.endswith("|") else ""
        for crate, call, clauses in re.findall(r"`(\w+)::([\w:]+)`: (`\w+`(?:, `\w+`)*)(?!:)", cell):
            known = functions_of(crate).get(call, (None, None, {}))[2]
            premises = [one for one in re.findall(r"\w+", clauses) if one in known and not re.search(rf"^ensures {one} ", known[one], re.M)]
            yield from (f"{PROMISES}: {one} of {crate}::{call} is a premise, and no promise" for one in premises)
        yield from (f"{PROMISES}: {name} is told without its crate" for name in re.findall(r"`(\w+(?:::\w+)*)`:", cell) if not os.path.isdir(f"crates/{name.partition('::')[0]}"))


def faults_of_files(page):
    """Files of code and of definitions, and calls of types, that are named without their crate, where nobody looks them up."""
    text = re.sub(r"```.*?```", "", text_of(page), flags=re.S)
    calls = [name for name in re.findall(r"`(\w+(?:::\w+)+)`", text) if page != PAST and not os.path.isdir(f"crates/{name.partition('::')[0]}")]
    yield from (f"{page}: {name} is told without its crate" for name in calls + re.findall(r"`(\w+\.(?:rt|antt))`", text))


def faults_of_walk():
    """Calls on a datagram's way through the server, and crates, that the page of the architecture doesn't name."""
    yield from (f"{ARCHITECTURE}: a datagram's way through the server doesn't name {call}" for call in WALKED if f"`{call}`" not in text_of(ARCHITECTURE))
    yield from (f"{ARCHITECTURE}: it doesn't name {crate}" for crate in crates() if not re.search(rf"\b{crate}\b", text_of(ARCHITECTURE)))


def faults_of_heads():
    """Files of code without a head, and top calls that the head of the program doesn't name."""
    for path in (path for crate in crates() for path in sources_of(crate)):
        if not text_of(path).startswith("//"):
            yield f"{path}: it doesn't begin with what it is"
    head = "".join(line for line in text_of(MAIN).splitlines() if line.startswith("//!"))
    yield from (f"{MAIN}: its head doesn't name {call}" for call in TOP if f"`{call}`" not in head)


def faults_of_keys():
    """Keys of a site's file of which the page doesn't say in which definition they act."""
    within = False
    for line in text_of(SITE).splitlines():
        within = line.startswith("|") and (within or line.endswith("| Acts in |"))
        key = re.match(r"\| `(\w+)`", line)
        if within and key and not re.search(r"\.antt`: `\w+` \|$|as there \|$", line):
            yield f"{SITE}: it doesn't say where {key[1]} acts"


def faults_of_version():
    """Places that have another number than VERSION, and newer versions that CHANGELOG doesn't say are to come."""
    version = text_of("VERSION").strip()
    yield from (f"{path}: it doesn't have {told.format(version).strip()}" for path, told in VERSIONED.items() if told.format(version) not in text_of(path))
    newer = re.findall(r"^## .*", text_of("CHANGELOG.md").partition(f"\n## {version}, ")[0], re.M)
    yield from (f"CHANGELOG.md: {one} is newer than VERSION, and isn't told as not tagged yet" for one in newer if "not tagged yet" not in one)


def faults_of_lists():
    """Versions of CHANGELOG without both lists: for who runs the program, and for who checks it. The first version is told by its days."""
    for part in re.split(r"^## ", text_of("CHANGELOG.md"), flags=re.M)[1:]:
        yield from (f"CHANGELOG.md: {part.split(',')[0]} has no list '{it}'" for it in LISTS if not part.startswith("0.1.0,") and f"\n### {it}\n" not in part)


def faults_of_doors():
    """Pages that nobody comes to from the first one."""
    yield from (f"README.md doesn't lead to {page}" for page in sorted(glob.glob("docs/*.md")) if f"({page})" not in text_of("README.md"))


def led_to(page, link):
    """How a page tells where a step leads, the file to which it does, and the text there: of a heading that of its section."""
    if named := re.fullmatch(r"(\w+)/(\w+)\.(antt|rt)", link):
        path = f"crates/{named[1]}/{'specs' if named[3] == 'antt' else 'src'}/{named[2]}.{named[3]}"
        return f"`{link}`", path, text_of(path)
    target, _, heading = link.partition("#")
    path = os.path.normpath(os.path.join(os.path.dirname(page), target))
    parts = re.split(r"^(?=#+ )", text_of(path), flags=re.M)
    is_there = lambda part: re.sub(r"[^\w -]", "", part.partition("\n")[0].strip("# ").lower()).replace(" ", "-") == heading
    return f"({link})", path, "".join(filter(is_there, parts)) if heading else text_of(path)


def faults_of_searches():
    """Questions whose answer isn't found from README on by the links and the files that stand beside these words, in so many steps."""
    for question, (*steps, wanted) in SEARCHES.items():
        page, text = "README.md", text_of("README.md")
        for step in steps:
            words, _, link = step.rpartition(" ")
            mark, path, there = led_to(page, link)
            if not any(words in line and mark in line for line in text.splitlines()):
                yield f"{page}: who looks for {question} finds no {mark} beside '{words}'"
            page, text = path, there
        if wanted not in text:
            yield f"{page}: who looks for {question} doesn't find {wanted}"
        if len(steps) > MOST_STEPS:
            yield f"{question} is found in {len(steps)} steps"


def faults(pages):
    found = [fault for page in pages for fault in faults_of_files(page)]
    return found + [*faults_of_promises(), *faults_of_walk(), *faults_of_heads(), *faults_of_keys(), *faults_of_version(), *faults_of_lists(), *faults_of_doors(), *faults_of_searches()]


def test_itself():
    """What isn't found in small trees whose pages don't tell these things."""
    right = {
        "crates/a/src/lib.rt": "//! What it is.\npub fn hold()\n    requires open { IsHeld }\n    ensures holds { IsHeld }\n{\n}\n",
        "crates/a_tests/src/lib.rt": "//! Tests.\nmod hold_tests;\n",
        MAIN: "//! `run` and `serve`.\nconst VERSION: &str = \"alarm-server 1.2.3\";\n",
        "VERSION": "1.2.3\n", "packaging/alarm-server.8": "\"alarm-server 1.2.3\"\n", "docs/OPERATE.md": "alarm-server_1.2.3_amd64.deb",
        "CHANGELOG.md": "".join(f"\n## {it}\n\n### For who runs it\n\n- It.\n\n### For who checks it\n" for it in ("1.3.0, not tagged yet", "1.2.3, 2026-11-29")) + "\n## 0.1.0, 2026-11-01\n",
        "crates/a/specs/Held.antt": "held =\n",
        "README.md": f"[operate](docs/OPERATE.md), [promises]({PROMISES}), [architecture]({ARCHITECTURE}), [names]({ARCHITECTURE}#names), [site]({SITE})\n",
        PROMISES: "| It holds | `a::hold`: `holds` |\n",
        ARCHITECTURE: "# Names\n`a::hold` of alarm_server, `a_tests`, `a/Held.antt`\n",
        SITE: "| Key | Acts in |\n| `name` | 12 `a/Held.antt`: `name` |\n| `enable` | as there |\n\n| `other` | no key |\n",
    }
    wrong = {
        "hold is told without its crate": {PROMISES: "| It holds | `hold`: `holds` |\n"},
        "open of a::hold is a premise": {PROMISES: right[PROMISES].replace("holds", "open")},
        "Desk::hold is told without its crate": {ARCHITECTURE: right[ARCHITECTURE] + "`Desk::hold`"},
        "Held.antt is told without its crate": {ARCHITECTURE: right[ARCHITECTURE].replace("a/Held", "Held")},
        "doesn't name a::hold": {ARCHITECTURE: right[ARCHITECTURE].replace("hold", "keep")},
        "doesn't name a_tests": {ARCHITECTURE: right[ARCHITECTURE].replace("a_tests", "tests")},
        "crates/a_tests/src/lib.rt: it doesn't begin with what it is": {"crates/a_tests/src/lib.rt": "mod hold_tests;\n"},
        "its head doesn't name serve": {MAIN: right[MAIN].replace(" and `serve`", "")},
        "doesn't say where name acts": {SITE: right[SITE].replace(" 12 `a/Held.antt`: `name` |", " none that can be read |")},
        "packaging/alarm-server.8: it doesn't have": {"packaging/alarm-server.8": "\"alarm-server 1.2.2\"\n"},
        "CHANGELOG.md: it doesn't have ## 1.2.3, 20": {"CHANGELOG.md": "\n## 1.2.3, not tagged yet\n"},
        "1.3.0, 2026-11-30 is newer than VERSION": {"CHANGELOG.md": right["CHANGELOG.md"].replace("not tagged yet", "2026-11-30")},
        "CHANGELOG.md: 1.2.3 has no list 'For who checks it'": {"CHANGELOG.md": right["CHANGELOG.md"].replace("\n### For who checks it\n\n## 0.1.0", "\n## 0.1.0")},
        "CHANGELOG.md: 1.3.0 has no list 'For who runs it'": {"CHANGELOG.md": right["CHANGELOG.md"].replace("For who runs it", "More", 1)},
        "doesn't lead to docs/SITE.md": {"README.md": right["README.md"].replace(SITE, "docs")},
        "looks for it finds no (docs/SITE.md) beside 'site'": {"README.md": right["README.md"].replace("[site]", "[keys]")},
        "looks for it finds no `a/Held.antt` beside '12'": {SITE: right[SITE].replace("Acts", "acts").replace("a/Held.antt", "a/Kept.antt")},
        "looks for it doesn't find held =": {"crates/a/specs/Held.antt": "hold =\n"},
        "looks for them finds no (docs/ARCHITECTURE.md#names)": {"README.md": right["README.md"].replace("#names", "")},
        "looks for them doesn't find `a_tests`": {ARCHITECTURE: right[ARCHITECTURE].replace("# Names\n", "# Names\n# More\n")},
    }
    searches = {"it": ("site docs/SITE.md", "12 a/Held.antt", "held ="), "them": (f"names {ARCHITECTURE}#names", "`a_tests`")}
    with unittest.mock.patch.dict(globals(), WALKED=("a::hold",), SEARCHES=searches):
        found = unfound(lambda: faults(("README.md", ARCHITECTURE)), right, wrong)
        with unittest.mock.patch.dict(globals(), MOST_STEPS=1):
            return found + unfound(lambda: faults(()) if text_of(MAIN) else [], {}, {"it is found in 2 steps": right})
