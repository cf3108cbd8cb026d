"""Holds docs/PICS.md against what the program is proved by, for checks/clauses: the properties of each type of object, which of them
can be written, and the services that the device carries out; and that no page has one of these among what isn't built."""
import re

from contracts import text_of
from small_trees import unfound

PAGE, TABLE, SERVICES = "docs/PICS.md", "crates/profile_laws/specs/PropertyTables.antt", "crates/service_desk/specs/Services.antt"
TABLES = {
    "Device": "device_properties", "Value objects": "object_properties", "Event Enrollment": "enrollment_properties",
    "Notification Class": "class_properties", "Event Log": "log_properties",
}
UNCONFIRMED = "who_is"  # it has no number among those of the confirmed services
UNBUILT = (("docs/PROFILE.md", r"\*\*What isn't built\.\*\*.*"), ("docs/CLAUSES.md", r"## What isn't built\n(?:(?!## ).*\n)*"), ("README.md", r"^\| .* \|$"))
SPOKEN = {"AddListElement": "edits? of a list", "GetAlarmSummary": "summaries", "GetEventInformation": "event information", "ReadRange": "ranges of a log"}


def section_of(heading):
    """The text of the page under a heading, down to the next one."""
    return text_of(PAGE).partition(f"# {heading}\n")[2].partition("\n#")[0]


def properties_built(name):
    """The properties of a table of the proof, each with whether it can be written."""
    block = text_of(TABLE).partition(f"\n{name} ")[2].partition("\n\n")[0]
    rows = re.findall(r"\b(read|array|written) (\w+)_property\b|\b(inhibition) ", block)
    return {row[1] or "event_algorithm_inhibit": row[0] in ("", "written") for row in rows}


def properties_told(heading):
    """Those that the page has under a heading as required or optional, and those that it says are missing."""
    told, missing = {}, set()
    for first, cell in re.findall(r"^\| ([^|]*) \| ([^|]*) \|$", section_of(heading), re.M):
        names = re.findall(r"\b([A-Z][A-Za-z]+(?:_[A-Za-z]+)*)( \*W\*)?", cell)
        if first.startswith(("Required", "Optional")):
            told |= {name.lower(): bool(written) for name, written in names}
        elif first.startswith("Missing"):
            missing |= {name.lower() for name, _ in names}
    return told, missing


def faults_of_properties():
    for heading, name in TABLES.items():
        built, (told, missing) = properties_built(name), properties_told(heading)
        for one in sorted(set(built) ^ set(told)):
            yield f"{PAGE}: {heading} has {one} on the page alone" if one in told else f"{PAGE}: {heading} has {one}, and the page doesn't say so"
        yield from (f"{PAGE}: whether {one} of {heading} can be written isn't told rightly" for one in sorted(set(built) & set(told)) if built[one] != told[one])
        yield from (f"{PAGE}: {heading} has {one}, which the page says is missing" for one in sorted(set(built) & missing))


def services_built():
    return re.findall(r"\w+", text_of(SERVICES).partition("\nservices = ")[2].partition("\n")[0])


def faults_of_unbuilt():
    """Services that are carried out, and that a page has among what isn't built: in README the last cell of a row."""
    for page, where in UNBUILT:
        told = "\n".join(part.rstrip(" |").rpartition(" | ")[2] if page == "README.md" else part for part in re.findall(where, text_of(page), re.M))
        for name in services_built():
            if found := re.search(rf"\b(?:{name}|{SPOKEN.get(name, name)})\b", told):
                yield f"{page}: {name} is carried out, and '{found[0]}' is told among what isn't built"


def faults_of_services():
    built = {snake(name) for name in services_built()} | {UNCONFIRMED}
    rows = re.findall(r"^\| ([A-Z][\w-]*)[^|]*\| [^|]* \| yes", section_of("Services"), re.M)
    for one in sorted(built ^ {snake(name) for name in rows}):
        yield f"{PAGE}: {one} is carried out, or is said to be, on one side alone"


def snake(name):
    return re.sub(r"(?<=[a-z])-?(?=[A-Z])", "_", name).lower()


def faults_of_statement():
    """What isn't told rightly, where there is such a page."""
    return [*faults_of_properties(), *faults_of_services(), *faults_of_unbuilt()] if text_of(PAGE) else []


def test_itself():
    """What isn't found in small trees whose page says too much or too little."""
    tables = "".join(f"\n{name} site =\n    read object_name_property true\n    ∷ []\n" for name in TABLES.values())
    tables = tables.replace("    read", "    inhibition true reference\n    ∷ written present_value_property true tag is\n    ∷ read", 1)
    page = "## Services\n\n| AddListElement (15.1) | no | no: rejected |\n| ReadProperty (15.5) | no | yes |\n| Who-Is (16.10) | no | yes |\n\n"
    page += "".join(f"### {heading}\n\n| Required | Object_Name |\n| Missing | Property_List |\n\n" for heading in TABLES)
    page = page.replace("Object_Name |", "Object_Name, Present_Value *W*; Event_Algorithm_Inhibit *W* |", 1)
    right = {
        TABLE: tables, SERVICES: "\nservices = ReadProperty ∷ []\n", PAGE: page,
        "README.md": "| It has | It hasn't |\n| ReadProperty | AddListElement |\n",
        "docs/PROFILE.md": "**What isn't built.** No edit of a list.\n\nReadProperty is.\n", "docs/CLAUSES.md": "## What isn't built\n\n| 15.1 | AddListElement |\n\n## ReadProperty\n",
    }
    wrong = {
        "Device has units on the page alone": {PAGE: page.replace("Object_Name,", "Object_Name, Units,")},
        "Device has present_value, and": {PAGE: page.replace("Present_Value *W*;", "")},
        "whether present_value of Device can": {PAGE: page.replace("Present_Value *W*", "Present_Value")},
        "Event Log has object_name, which": {PAGE: page.replace("Property_List", "Object_Name")},
        "add_list_element is carried out": {PAGE: page.replace("no: rejected", "yes")},
        "docs/PROFILE.md: ReadProperty is carried out": {"docs/PROFILE.md": "**What isn't built.** No ReadProperty.\n"},
        "'edit of a list' is told among": {SERVICES: "\nservices = ReadProperty ∷ AddListElement ∷ []\n"},
        "docs/CLAUSES.md: ReadProperty is carried out": {"docs/CLAUSES.md": "## What isn't built\n\n| 15.5 | ReadProperty |\n"},
        "README.md: ReadProperty is carried out": {"README.md": right["README.md"].replace("AddListElement", "ReadProperty")},
        "read_range is carried out": {SERVICES: "\nservices = ReadProperty ∷ ReadRange ∷ []\n"},
    }
    return unfound(faults_of_statement, right, wrong)
