"""What a file is that is no record, and what to do with it: it is told where one is played by mistake."""

import re
from typing import Optional

from inputtools import raw

MAKE = "make a record of it with tools/record"

# How files begin, and what is said of them.
MAGICS = [
    (b"\x1f\x8b", "this is a gzip file: unpack it with gunzip"),
    (b"\xfd7zXZ", "this is an xz file: unpack it with unxz"),
    (b"\x28\xb5\x2f\xfd", "this is a zstd file: unpack it with unzstd"),
    (b"BZh", "this is a bzip2 file: unpack it with bunzip2"),
    (b"PK\x03\x04", "this is a zip file: unpack it with unzip"),
    (b"\x89PNG", "this is a picture (PNG), and no record"),
    (b"\xff\xd8\xff", "this is a picture (JPEG), and no record"),
    (b"GIF8", "this is a picture (GIF), and no record"),
    (b"%PDF", "this is a PDF file, and no record"),
    (b"\x7fELF", "this is a program, and no record"),
    (b"<svg", "this is a picture (SVG), as tools/draw writes one, and no record"),
    (b"<!doctype html", "this is a page, as tools/draw writes one, and no record"),
    (b"<html", "this is a page, and no record"),
]

# What stands in texts of other tools, and what is said of them.
TEXTS = [
    (r"^# EVEMU|^E: \d+\.\d+ [0-9a-f]{4} ", f"this is what evemu writes: {MAKE}"),
    (r"^# libinput record|^ndevices: \d", f"this is a recording of libinput: {MAKE}"),
    (r"Input driver version is|^Event: time \d", f"this is what evtest prints: {MAKE}"),
    (r"^I: Bus=[0-9a-f]{4} ", "this is /proc/bus/input/devices: tools/describe reads it"),
    (r"^device \S+ steps \d+$", "this is a report, as playing a record writes it, and no record"),
]


# UTF-16 of printable ASCII, in either order of bytes, with its mark or without. No raw capture begins so.
UTF_16 = re.compile(rb"(\xff\xfe)?([\t\n\r -~]\0){4}|(\xfe\xff)?(\0[\t\n\r -~]){4}")


def said_of_text(data: bytes) -> Optional[str]:
    """What became of a text on its way, or None: it was saved in UTF-16, or quoted in a mail."""
    if UTF_16.match(data):
        return ("this text is in UTF-16, as PowerShell's > and some editors write it: "
                "iconv -f UTF-16 -t UTF-8 mends it")
    lines = [line for line in data[:4096].splitlines() if line.strip()]
    if b"\0" not in data[:4096] and 2 * sum(line.startswith(b">") for line in lines) > len(lines):
        return "its lines begin with >, as a mail quotes them: sed 's/^> \\?//' takes that off"
    return None


def said_of(data: bytes) -> Optional[str]:
    """What is said of a file of these bytes, or None where it is nothing that is known."""
    text_said = said_of_text(data)
    if text_said:
        return text_said
    if data.startswith(b"\xef\xbb\xbf"):
        return "it begins with a byte order mark, as some editors write it: save it as UTF-8 without one"
    start = data[:512].lstrip(b"\xef\xbb\xbf \t\r\n")
    text = data[:65536].decode("latin-1")
    known = [said for magic, said in MAGICS if start.lower().startswith(magic.lower())]
    known += [said for pattern, said in TEXTS if re.search(pattern, text, re.MULTILINE)]
    if known:
        return known[0]
    if raw.is_raw(data) and any(raw.is_plausible(data, size) for size in raw.FORMS):
        return f"this is a raw capture of a device's events: {MAKE}, or name it in a `stream` line"
    return None
