"""The versions of packages, and an upgrade by apt and back, for checks/package: in folders alone, with a repository in one of them.

packaging/build-deb gives each commit a version of its own. By Debian's rules of versions, which dpkg compares: that of a later commit
of one history is later, the tag's own is later than all before it, and what comes behind the tag is later than that.
"""
import hashlib
import os
import pathlib
import shutil
import subprocess

TOP = pathlib.Path(__file__).resolve().parent.parent
SECONDS = 300
# What a package is made of, as a checkout has it.
MADE_OF = ["alarm-server", "VERSION", "HANDLES", "crates.txt", "docs", "examples", "bench", "libexec", "packaging", "tools", *(path.name for path in TOP.glob("*.md"))]
# What Debian 12 has of the packages on which this one depends, as the status of a machine tells it.
DEBIAN = {"libc6": "2.36-9+deb12u10", "python3": "3.11.2-1+b1", "passwd": "1:4.13+dfsg1-1", "adduser": "3.134", "init-system-helpers": "1.65.2"}
STATUS = "Package: {}\nStatus: install ok installed\nPriority: required\nSection: admin\nMaintainer: Debian\nArchitecture: amd64\nVersion: {}\nDescription: a part of Debian\n\n"
# Nothing of the machine's own apt is read or written: neither its lists, nor its hooks, nor its log.
CONFIG = """Dir "{root}/";
Dir::State::status "{root}/var/lib/dpkg/status";
Dir::Log "{root}/var/log/apt";
APT::Architecture "amd64";
APT::Sandbox::User "root";
APT::Get::Assume-Yes "true";
DPkg::Path "{path}";
DPkg::Options {{ "--root={root}"; "--log={root}/dpkg.log"; "--force-script-chrootless"; "--force-confdef"; }};
"""


def status():
    """The status of a machine that has what the package depends on."""
    return "".join(STATUS.format(name, version) for name, version in DEBIAN.items())


def run(words, folder=None, **environment):
    return subprocess.run(list(map(str, words)), cwd=folder, env={**os.environ, **environment}, capture_output=True, text=True, timeout=SECONDS, check=False)


class Tree:
    """The files of a checkout as a repository of its own, in which commits and tags are made."""

    def __init__(self, folder):
        self.folder = folder
        for name in MADE_OF:
            if (TOP / name).is_dir():
                shutil.copytree(TOP / name, folder / name, ignore=shutil.ignore_patterns("out", "__pycache__"))
            else:
                folder.mkdir(exist_ok=True)
                shutil.copy2(TOP / name, folder / name)
        self.git("init", "--quiet")
        self.commit("one")

    def git(self, *words):
        ended = run(["git", "-c", "user.name=check", "-c", "user.email=check@example.org", *words], self.folder)
        if ended.returncode:
            raise ValueError(f"git {words}: {ended.stderr}")
        return ended.stdout

    def commit(self, text):
        (self.folder / "docs" / "OPERATE.md").open("a", encoding="utf-8").write(f"\n{text}\n")
        self.git("add", "--all")
        self.git("commit", "--quiet", "--message", text)

    def version(self):
        return run([self.folder / "packaging" / "build-deb", "--print-version"]).stdout.strip()

    def package(self, program):
        """The package of what is here, by its path."""
        ended = run([self.folder / "packaging" / "build-deb", "--program", program, self.folder.parent / "packages"])
        if ended.returncode:
            raise ValueError(f"build-deb: {ended.stderr}")
        return pathlib.Path(ended.stdout.strip())


def is_later(one, other):
    """Whether Debian's rules put a version behind another one."""
    return run(["dpkg", "--compare-versions", one, "gt", other]).returncode == 0


def try_versions(told, tree, number):
    """Each of several commits has a later version than the one before it, over a tag and over the next number."""
    found = [("a commit", tree.version(), f"{number}~git1.")]
    tree.commit("two")
    found.append(("the next commit", tree.version(), f"{number}~git2."))
    (tree.folder / "VERSION").write_text(f"{number}\n\n", encoding="utf-8")
    found.append(("a change of it", tree.version(), f"{found[-1][1]}.changed"))
    tree.git("checkout", "--quiet", "VERSION")
    (tree.folder / "journal").write_text("", encoding="utf-8")
    told.same("the version beside a file that no package has", tree.version(), found[1][1])
    tree.git("tag", f"v{number}")
    found.append(("the commit with the tag", tree.version(), number))
    tree.commit("three")
    found.append(("a commit behind the tag", tree.version(), f"{number}+git3."))
    (tree.folder / "VERSION").write_text(f"{number}.1\n", encoding="utf-8")
    tree.commit("four")
    found.append(("a commit of the next number", tree.version(), f"{number}.1~git4."))
    for name, version, begins in found:
        told.want(f"the version of {name}", version.startswith(begins), f"{version}, and not {begins}..")
    for (name, one, _), (_, before, _) in zip(found[1:], found):
        told.want(f"the order of {name}", is_later(one, before), f"{one} isn't later than {before}")
    shutil.move(tree.folder / ".git", tree.folder.parent / "history")
    told.want("the version of sources without a history", tree.version().startswith(f"{number}.1~source."), tree.version())
    shutil.move(tree.folder.parent / "history", tree.folder / ".git")


class Apt:
    """apt in the folder of a machine, with a repository of packages in another one."""

    def __init__(self, machine, packages):
        self.machine, self.packages, self.config = machine, packages, machine.root / "apt.conf"
        for name in ("etc/apt/apt.conf.d", "etc/apt/preferences.d", "var/lib/apt/lists/partial", "var/cache/apt/archives/partial", "var/log/apt"):
            (machine.root / name).mkdir(parents=True, exist_ok=True)
        (machine.root / "etc" / "apt" / "sources.list").write_text(f"deb [trusted=yes] file:{packages} ./\n", encoding="utf-8")
        self.config.write_text(CONFIG.format(root=machine.root, path=f"{machine.root}/stand-in:{os.environ['PATH']}"), encoding="utf-8")

    def offer(self, *paths):
        """Writes the list of the repository: these packages are in it."""
        parts = []
        for path in paths:
            octets = path.read_bytes()
            field = run(["dpkg-deb", "--field", path]).stdout
            parts.append(f"{field}Filename: ./{path.name}\nSize: {len(octets)}\nSHA256: {hashlib.sha256(octets).hexdigest()}\n\n")
        (self.packages / "Packages").write_text("".join(parts), encoding="utf-8")

    def get(self, *words):
        """How apt-get ended, and what systemd was asked meanwhile."""
        self.machine.asked.write_text("", encoding="utf-8")
        ended = run(["apt-get", *words], APT_CONFIG=str(self.config), ROOT=str(self.machine.root), DEBIAN_FRONTEND="noninteractive")
        return ended, [line for line in self.machine.asked.read_text(encoding="utf-8").splitlines() if "daemon-reload" not in line]

    def installed(self):
        """The version that is installed."""
        return run(["dpkg-query", f"--admindir={self.machine.root}/var/lib/dpkg", "--show", "--showformat=${Version}", "alarm-server"]).stdout


def try_apt(told, machine, tree, program, kept):
    """apt takes the later package of its repository, goes back to a file that is named, and forward again; a server that runs goes on behind each."""
    tree.folder.parent.joinpath("packages").mkdir(exist_ok=True)
    old = tree.package(program)
    tree.commit("later")
    new = tree.package(program)
    versions = [path.name.split("_")[1] for path in (old, new)]
    apt, before = Apt(machine, old.parent), kept(machine)
    apt.offer(old)
    machine.runs(True)
    for name, words, offered, wanted in [
        ("an installation", ["install", "alarm-server"], [old], versions[0]), ("an upgrade", ["upgrade"], [old, new], versions[1]),
        ("an upgrade that is there", ["install", new], [old, new], versions[1]), ("a way back without a word for it", ["install", old], [old, new], versions[1]),
        ("a way back", ["install", "--allow-downgrades", old], [old, new], versions[0]), ("an upgrade by a file", ["install", new], [old, new], versions[1]),
    ]:
        apt.offer(*offered)
        listed, _ = apt.get("update")
        was = apt.installed()
        ended, asked = apt.get(*words)
        told.same(f"what is installed behind {name} by apt", (listed.returncode, apt.installed()), (0, wanted))
        told.want(f"how {name} by apt ends", (ended.returncode == 0) == ("without a word" not in name), f"{ended}")
        steps = [line.rsplit(" ", 1)[0] for line in asked if line.endswith(tuple("0123456789")) and " alarm-server " in line]
        told.same(f"what systemd is asked of the server by {name}", steps, [] if was in ("", wanted) else ["stop alarm-server", "start alarm-server"])
    machine.runs(False)
    told.same("journal and site behind apt's upgrades", kept(machine), before)
