"""What the tools' words, messages, tables and lines have in common."""
import argparse
import json
import os
import pwd
import sys

from . import language

# The exit statuses that all tools share; each tool's --help and manual page say which it has.
DONE, CANNOT_OPEN, USAGE, NOBODY, REFUSED, UNREADABLE = range(6)
COLOURS = {"red": "31;1", "yellow": "33", "green": "32", "faint": "2", "bold": "1"}


class Ends(Exception):
    """Ends a tool with a status and a text on standard error."""

    def __init__(self, status, text):
        super().__init__(text)
        self.status = status


class Formatter(argparse.RawDescriptionHelpFormatter):
    """Help of 100 columns, whose descriptions stand as they were written."""

    def __init__(self, prog):
        super().__init__(prog, max_help_position=28, width=100)


def parser_of(name, what, statuses, examples):
    """A parser with a description, and below the options the exit statuses and examples, each a pair of texts."""
    told = "\n".join(["exit statuses:", *(f"  {status:<4}{text}" for status, text in statuses)])
    shown = "\n".join(["examples:", *(f"  {line}\n      {text}" for line, text in examples)])
    parser = argparse.ArgumentParser(prog=name, description=what, epilog=f"{told}\n\n{shown}", formatter_class=Formatter, allow_abbrev=False)
    parser.statuses, parser.examples = statuses, examples
    return parser


def command_of(commands, name, what, call):
    """A command of a tool, which is done by a call."""
    command = commands.add_parser(name, help=what, description=what[0].upper() + what[1:] + ".", formatter_class=Formatter, allow_abbrev=False)
    command.set_defaults(call=call)
    return command


def moved_behind(words, options):
    """The words of a tool with those of its options that stand before a command behind all that is said to it."""
    moved = []
    while words and words[0].partition("=")[0] in options:
        count = 1 if "=" in words[0] or words[0] == "--json" else 2
        moved, words = moved + words[:count], words[count:]
    end = words.index("--") if "--" in words else len(words)
    return words[:end] + moved + words[end:]


def run(parser, words=None):
    """Does what the words say, and gives the exit status."""
    given = parser.parse_args(moved_behind(list(sys.argv[1:] if words is None else words), getattr(parser, "behind", ())))
    language.choose(getattr(given, "language", None) or language.default_language())
    for stream, errors in ((sys.stdin, "surrogateescape"), (sys.stdout, "backslashreplace"), (sys.stderr, "backslashreplace")):
        # What a terminal can't take is told by its number, and what isn't text is refused where it is read: neither ends a tool.
        if hasattr(stream, "reconfigure"):
            stream.reconfigure(errors=errors)
    try:
        status = given.call(given)
        sys.stdout.flush()
        return status or DONE
    except Ends as end:
        print(f"{parser.prog}: {end}", file=sys.stderr)
        return end.status
    except BrokenPipeError:
        # Who read the output is gone; nothing more is written, also not as Python ends.
        os.dup2(os.open(os.devnull, os.O_WRONLY), sys.stdout.fileno())
        return DONE
    except OSError as error:
        print(f"{parser.prog}: {error.filename or ''}{': ' if error.filename else ''}{error.strerror or error}", file=sys.stderr)
        return CANNOT_OPEN
    except KeyboardInterrupt:
        return 130


def opened(path, mode="r", **keys):
    """A file, or the end of the tool."""
    try:
        return open(path, mode, **keys)
    except OSError as error:
        raise Ends(CANNOT_OPEN, f"{path}: {error.strerror}") from None


def has_colours(stream=None):
    stream = stream or sys.stdout
    return stream.isatty() and "NO_COLOR" not in os.environ and os.environ.get("TERM") != "dumb"


def coloured(text, colour):
    """A text in a colour where standard output is a terminal."""
    return f"\x1b[{COLOURS[colour]}m{text}\x1b[0m" if colour and has_colours() else text


def printable(text):
    """A text without what would move a terminal's cursor: each such character as its number."""
    return "".join(it if it.isprintable() else f"\\u{ord(it):04x}" for it in text)


def named(object_text, name):
    """An object with its name beside it, where that is known and says more."""
    return object_text if not name or name == object_text else f'{object_text} "{printable(name)}"'


def lined_up(rows):
    """The lines of a table, without colours."""
    cells = [[printable(str(cell)) for cell in row] for row in rows]
    widths = [max(map(len, column)) for column in zip(*cells)]
    return ["  ".join(cell.ljust(width) for cell, width in zip(row, widths)).rstrip() for row in cells]


def table(head, rows, colours=None):
    """The lines of a table. `colours` has one for each row, or None."""
    for line, colour in zip(lined_up([head, *rows]), ["bold", *(colours or [None] * len(rows))]):
        yield coloured(line, colour)


def json_line(of):
    return json.dumps(of, ensure_ascii=False, separators=(", ", ": "))


def put(line):
    """Writes a line at once, so that who reads has it whole."""
    sys.stdout.write(line + "\n")
    sys.stdout.flush()


def say(line):
    """Writes a line on standard error."""
    print(line, file=sys.stderr)


def length_text(seconds):
    """A length of time as people say it: 5 s, 12 min, 3 h 20 min, 4 d 2 h."""
    seconds = int(seconds)
    if seconds < 120:
        return f"{seconds} s"
    parts = [(seconds // 86400, "d"), (seconds // 3600 % 24, "h"), (seconds // 60 % 60, "min")]
    first = next(it for it, (number, _) in enumerate(parts) if number)
    return " ".join(f"{number} {unit}" for number, unit in parts[first : first + 2] if number)


def user_text():
    """Who runs this, by name where it has one."""
    try:
        return pwd.getpwuid(os.geteuid()).pw_name
    except KeyError:
        return str(os.geteuid())


def octets_text(count):
    """A number of octets as people say it."""
    return f"{count:,} octets" if count < 10_000 else f"{count:,} octets ({count / 1e6:.1f} MB)"
