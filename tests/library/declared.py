"""What the header declares, and what the crate and the packages have: structs by fields, numbers by name."""

import re
import shutil
from pathlib import Path

BINDINGS = Path(__file__).resolve().parents[2] / "bindings"
TOP_TYPES = {
    "u16": "uint16_t", "u32": "uint32_t", "u64": "uint64_t", "i16": "int16_t", "i32": "int32_t",
    "AxisInfo": "inputplay_info_t", "CFilter": "inputplay_filter_t", "CStep": "inputplay_step_t",
}

# The header's struct, and the crate and the file that have it.
STRUCTS = {
    "inputplay_info_t": "inp_model/src/axis_info.rt",
    "inputplay_filter_t": "inp_c/src/c_filter.rt",
    "inputplay_description_t": "inp_c/src/c_description.rt",
    "inputplay_step_t": "inp_c/src/c_step.rt",
    "inputplay_reply_t": "inp_c/src/c_reply.rt",
    "inputplay_event_t": "inp_model/src/taken.rt",
    "inputplay_stamped_t": "inp_model/src/stamped.rt",
    "inputplay_client_t": "inp_c/src/c_client.rt",
    "inputplay_limits_t": "inp_c/src/c_limits.rt",
    "inputplay_repeat_t": "inp_c/src/c_repeat.rt",
    "inputplay_picture_t": "inp_c/src/c_picture.rt",
    "inputplay_counts_t": "inp_c/src/c_counts.rt",
    "inputplay_line_t": "inp_c/src/c_line.rt",
}

# Fields that are spelled otherwise, since `type` is a word of the crate's language, and `now` one of its contracts.
SPELLED = {"kind": "type", "moment": "now"}

# What a number of the header is called, and the file and form in which the crate has it.
NUMBERS = [
    ("statuses of calls", "src/status.rt", r"const (\w+): u32 = (\d+);"),
    ("a record is refused", "src/cause.rt", r"(?:Cause|CapsRefused)::(\w+) => (\d+),"),
    ("filters of a device", "src/c_filter.rt", r"(\d+)(?: if .*)? => Some\(Filter::(\w+)"),
    ("steps of a device", "src/c_step.rt", r"(\d+) => Some\(Step::(\w+)"),
    ("replies to steps", "src/c_reply.rt", r"Reply::(\w+) \{[^}]*\} => (?:\{\s*out\.reply = (\d+);)?"),
    ("a step was refused", "src/c_reply.rt", r"Refusal::(\w+) => (\d+),"),
    ("the reader answers", "src/reader.rt", r"Next::(\w+)(?: \{ \.\. \})? => (\d+),"),
    ("the joystick client answers", "src/joystick.rt", r"JoyRead::(\w+)(?: \{ \.\. \})? => (\d+),"),
    ("roles of actors", "src/record_names.rt", r"Role::(\w+) => (\d+),"),
    ("commands of action lines", "src/c_line.rt", r"Command::(\w+)(?: \{ \.\. \})? => (\d+),"),
]

# The same of the packages: where in their files the numbers begin, and in which form they are.
PYTHON_FORM = r"^    (\w+) = (\d+)$"
ERROR_FORM = r"^        (\w+) = (\d+) \""
PACKAGED = [
    ("statuses of calls", "python/inputplay/_errors.py", "class Status(", PYTHON_FORM),
    ("a record is refused", "python/inputplay/_errors.py", "class Cause(", PYTHON_FORM),
    ("a step was refused", "python/inputplay/_errors.py", "class Why(", PYTHON_FORM),
    ("steps of a device", "python/inputplay/_device.py", "class Steps(", PYTHON_FORM),
    ("replies to steps", "python/inputplay/_device.py", "class Replies(", PYTHON_FORM),
    ("the reader answers", "python/inputplay/_device.py", "class Answer(", PYTHON_FORM),
    ("the joystick client answers", "python/inputplay/_device.py", "class JoyAnswer(", PYTHON_FORM),
    ("a record is refused", "rust/src/errors.rs", "    Cause {", ERROR_FORM),
    ("a step was refused", "rust/src/errors.rs", "    Refusal {", ERROR_FORM),
    ("steps of a device", "rust/src/step.rs", "\nsteps! {", r"^    \w+, (\w+) = (\d+) \("),
    ("replies to steps", "rust/src/step.rs", "pub mod replies {", r"pub const (\w+): u32 = (\d+);"),
    ("roles of actors", "python/inputplay/_record.py", "class Role(", PYTHON_FORM),
    ("commands of action lines", "python/inputplay/_record.py", "class Command(", PYTHON_FORM),
    ("filters of a device", "python/inputplay/_description.py", "class Filters(", PYTHON_FORM),
    ("roles of actors", "rust/src/record.rs", "    Role {", ERROR_FORM),
    ("commands of action lines", "rust/src/record.rs", "    Command {", ERROR_FORM),
    ("filters of a device", "rust/src/sys.rs", "pub mod filters {", r"pub const (\w+): u32 = (\d+);"),
]

# A limit that the header names, and the file that has it.
LIMITS = {
    "FILTERS_MAX": "inp_model/src/limits.rt",
    "READ_MAX": "inp_actors/src/command.rt",
    "FEEDBACK_MAX": "inp_feedback/src/fed.rt",
    "CLIENTS_MAX": "inp_model/src/limits.rt",
}

# Names that differ, since C has one name space.
RENAMED = {
    "TOOMANYLINES": "TOOMANY",
    "LINEBADCODE": "BADCODE",
    "LINEBADSTREAM": "BADSTREAM",
    "STEPREFUSED": "REFUSED",
    "STEPNOMEMORY": "NOMEMORY",
    "EVENT": "SUCCESS",
    "JOY": "JOYSTICK",
}


def fields_of_header(header, struct):
    """The types and names of a struct of the header, in order."""
    bare = re.sub(r"/\*.*?\*/", "", header, flags=re.S)
    body = re.search(rf"typedef struct {struct} \{{(.*?)\}}", bare, re.S).group(1)
    for kind, names in re.findall(r"(\w+) ([^;]+);", body):
        for name in names.split(", "):
            yield (f"{kind}{name[name.index('['):]}", name[: name.index("[")]) if "[" in name else (kind, name)


def fields_of_crate(file):
    """The same of the struct of a file, as C spells it. Where one has an event, C has the event's fields."""
    text = file.read_text()
    assert "#[repr(C)]" in text
    body = re.search(r"pub struct \w+ \{(.*?)\n\}", text, re.S).group(1)
    for name, kind in re.findall(r"pub (\w+): ([^\n]+),", body):
        if kind == "Event":
            yield from fields_of_crate(file.with_name("event.rt"))
            continue
        array = re.fullmatch(r"\[(\w+); (\d+)\]", kind)
        spelled = f"{TOP_TYPES[array[1]]}[{array[2]}]" if array else TOP_TYPES[kind]
        yield spelled, SPELLED.get(name, name)


def plain(name):
    """A name without its case and its underscores, as both have it."""
    bare = name.upper().replace("_", "")
    return RENAMED.get(bare, bare)


def numbers_of_header(header, about):
    """The numbers of the enum whose comment says what it is about."""
    body = re.search(rf"/\*\*[^*]*{about}[^*]*\*/\nenum \{{(.*?)\n\}};", header, re.S | re.I).group(1)
    pairs = re.findall(r"INPUTPLAY_(?:(?:NEXT|JOY|DO)_)?(\w+) = (\d+)", body)
    return {plain(name): int(number) for name, number in pairs}


def part_of(text, begin):
    """What stands from these words to the end of their block."""
    return re.split(r"^\}|^\n\n", text[text.index(begin) + 1 :], maxsplit=1, flags=re.M)[0]


def words_of_header(header, function):
    """The words of the table that a function of the header has, each with its place."""
    table = part_of(header, f"{function}(uint32_t").partition("return")[0]
    return list(enumerate(re.findall(r'"([^"]+)"', table)))


def numbers_of_crate(text, form):
    """The numbers that a file has in this form."""
    pairs = {}
    for first, second in re.findall(form, text, re.M):
        name, number = (second, first) if first.isdigit() else (first, second)
        pairs.setdefault(plain(name), int(number or 0))
    return pairs


def copy_of_bindings(folder):
    """The packages, copied below a folder as they stand here: one reads a file of the other."""
    made = shutil.ignore_patterns("target", "__pycache__", "build")
    return shutil.copytree(BINDINGS, folder / "bindings", ignore=made)
