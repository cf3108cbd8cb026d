"""What the files of the crates say, for the checks of pages: the definitions of specs/, and the clauses of functions with the
definitions that these name. All paths are from the folder in which the check runs; `forget` is for one that goes to another."""
import functools
import glob
import os
import pathlib
import re

HEAD = re.compile(r"\s*(?:(?:abbrev|unfoldable)(?: pub)?|(?:pub )?(?:record|data)) (\S+)")
WORDS = r"\w+|[^\w\s(){};,.]+"


@functools.cache
def text_of(path):
    return pathlib.Path(path).read_text(encoding="utf-8") if os.path.exists(path) else ""


def forget():
    """Whoever goes to another folder reads the files there."""
    for cached in (text_of, definitions_of, named_by, functions_of, public_names_of):
        cached.cache_clear()


def sources_of(crate):
    return sorted(glob.glob(f"crates/{crate}/src/**/*.rt", recursive=True))


def spec_files():
    return sorted(glob.glob("crates/*/specs/**/*.antt", recursive=True))


def crates():
    return sorted(os.path.basename(path) for path in glob.glob("crates/*"))


def crate_of(path):
    return path.split("/")[1]


def short(path):
    """How the pages name a file of specs/: CRATE/FILE.antt."""
    return path.removeprefix("crates/").replace("/specs/", "/")


def long(name):
    """The path of a file that the pages name so."""
    return "crates/" + name.replace("/", "/specs/", 1)


def is_computing(path):
    return path.endswith("Steps.antt")


@functools.cache
def definitions_of(path):
    """The lines of each definition of a file; and what each of its names stands for, one of a variant and one that it hands on too."""
    blocks, names, block = {}, {}, []
    for line in re.findall(r"^(?!\s*(?:$|--|(?:pub )?use |infix|pub mod |module )).+$", text_of(path), re.M):
        if head := HEAD.match(line):
            block = blocks.setdefault(head[1], [])
            last = names[head[1].strip("◌")] = (path, head[1])
        elif block and " data " in f" {block[0]}" and (variant := re.match(r"\s+(\w+) :", line)):
            names.setdefault(variant[1], last)
        block.append(line)
    return blocks, imports_of(path, "pub ") | names


def imports_of(path, how):
    """What each name stands for that a file imports, by itself or behind the alias of a file."""
    found = {}
    for crate, part, names, alias in re.findall(rf"^\s*{how}use Rattle\.(\w+)\.specs\.(\w+)(?:\.{{([^}}]*)}}| as (\w+))", text_of(path), re.M):
        there = definitions_of(f"crates/{crate}/specs/{part}.antt")[1]
        pairs = [(name.split(" as ") * 2)[:2] for name in map(str.strip, names.split(","))]
        found |= {f"{alias}.{name}": there[name] for name in there if alias} | {new: there[name] for name, new in pairs if name in there}
    return found


def named_in(text, path):
    """The definitions that a text of a file names, in the order in which it does."""
    known = imports_of(path, "(?:pub |ghost )?") | (definitions_of(path)[1] if path.endswith(".antt") else {})
    words = re.findall(WORDS, text) + re.findall(r"\b\w+\.\w+", text)
    return list(dict.fromkeys(known[word] for word in words if word in known))


@functools.cache
def named_by(one):
    """The definitions that a definition names."""
    return named_in("\n".join(definitions_of(one[0])[0][one[1]]), one[0])


def comment_of(one):
    """What stands above a definition as its comment, or nothing."""
    lines, found = text_of(one[0]).splitlines(), []
    for place, line in enumerate(lines):
        if (head := HEAD.match(line)) and head[1] == one[1]:
            while place and lines[place - 1].lstrip().startswith("-- ") and not lines[place - 1].startswith("-- ----"):
                place -= 1
                found.insert(0, lines[place].strip()[3:])
            return " ".join(found)
    return ""


def heads_in(block):
    """Each function of a block of code: its indentation, whether it is public, its name, and its head with all clauses."""
    lines = block.splitlines()
    for place, line in enumerate(lines):
        if not (begins := re.match(r"(\s*)(pub(?:\(crate\))? )?(?:const )?fn (\w+)\b", line)):
            continue
        head, clauses = [], False
        for line in lines[place:]:
            head.append(line)
            code = "" if line.lstrip().startswith(("//", "ghost ")) else line
            clauses = clauses or bool(re.match(r"\s+(?:ensures|requires) (?:\w+ )?\{", line))
            text = "\n".join(head)
            if line in (begins[1] + "{", begins[1] + "{}") or "{" in code and not clauses or code.endswith(";") and text.count("{") == text.count("}"):
                break
        yield begins[1], begins[2] == "pub ", begins[3], "\n".join(head)


@functools.cache
def functions_of(crate):
    """Each function of a crate that can be named from outside its file, by its name or its type's and its name: its file, its head as it
    stands there, and the text of each clause by the clause's name."""
    found = {}
    for path in sources_of(crate):
        owner, public = "", False
        for block in re.split(r"^(?=impl\b|(?:pub )?trait\b|\})", text_of(path), flags=re.M):
            first = block.partition("\n")[0]
            if begins := re.match(r"(pub trait|trait|impl)\b(?:<[^{]*?>(?= ))? (?:.* for )?(\w+)", first):
                owner, public = begins[2], begins[1] == "pub trait" or begins[1] == "impl" and " for " in first
            elif first.startswith(("impl", "pub trait", "trait")):
                owner, public = "?", False
            else:
                owner = ""
            for indent, public_fn, name, head in heads_in(block):
                if public_fn or indent and owner and public:
                    clauses = {}
                    for part in re.split(r"^\s+(?=(?:ensures|requires) \w+ \{)", head, flags=re.M)[1:]:
                        clauses[part.split()[1]] = clauses.get(part.split()[1], "") + part
                    found.setdefault(f"{owner}::{name}" if indent and owner else name, (path, head, clauses))
    return found


@functools.cache
def public_names_of(crate):
    """What others may name of a crate: what its lib hands on, and of a program without one its calls and laws over the real ends, and what these and its main call."""
    if lib := text_of(f"crates/{crate}/src/lib.rt"):
        uses = re.findall(r"^pub use (?:\w+::)*(?:\{([^}]*)\}|(\w+));", lib, re.M)
    else:
        texts = "".join(text_of(f"crates/{crate}/src/{part}.rt") for part in ("main", "real"))
        uses = re.findall(r"^use crate::(?:\w+::)*(?:\{([^}]*)\}|(\w+));", texts, re.M)
        uses += [("", name) for name in re.findall(r"^pub fn (\w+)", text_of(f"crates/{crate}/src/real.rt"), re.M)]
    return {name.strip() for many, one in uses for name in (many or one).split(",") if name.strip()}


def public_calls_of(crate):
    """The functions of a crate that others may call, as `functions_of` gives them."""
    names = public_names_of(crate)
    return {call: function for call, function in functions_of(crate).items() if call.split("::")[0] in names}


def contract_of(name):
    """The definitions that the contract of a public call names, told as CRATE::CALL; or None where there is no such call."""
    crate, _, call = name.partition("::")
    if call not in functions_of(crate):
        return None
    path, head, _ = functions_of(crate)[call]
    return named_in(head, path)
