"""The colours of pictures and pages, for light and for dark paper, and the rules that use them.

Each mark, bar and line has 3 to 1 against the paper at least, and each text 4.5 to 1. Marks differ in shape
too, and not in colour alone.
"""

from pathlib import Path


def read_rules(name: str) -> str:
    """A style sheet or a script that stands beside this file."""
    return (Path(__file__).parent / name).read_text(encoding="ascii")


COLOURS = {
    "paper": ("#ffffff", "#16181d"), "ink": ("#1c1e22", "#e8e8ea"), "faint": ("#5f646d", "#a2a8b3"),
    "grid": ("#e3e5e9", "#2c3038"), "device": ("#2563ab", "#6aa9ee"), "second": ("#a34e05", "#f0a35c"),
    "contact": ("#dbe8f6", "#223a55"), "open": ("#eaeee8", "#262c26"), "held": ("#6b7a68", "#84947f"),
    "read": ("#1d7a3e", "#5ecb85"), "ask": ("#7a3fb0", "#c397f2"), "loss": ("#c4161c", "#ff7474"),
    "grab": ("#a86a00", "#e0a526"), "mask": ("#806230", "#cbb07a"), "revoked": ("#6f7580", "#9096a1"),
    "parted": ("#c92a61", "#f47ba4"), "missed": ("#5b4fcf", "#a59cff"), "eaten": ("#0b7285", "#4fc4d6"),
}

RULES = read_rules("picture.css")


def style() -> str:
    """The rules of all pictures, for light and dark paper."""
    light = " ".join(f"--{name}: {colour};" for name, (colour, _) in COLOURS.items())
    dark = " ".join(f"--{name}: {colour};" for name, (_, colour) in COLOURS.items())
    screen = "@media screen and (prefers-color-scheme: dark)"
    return f":root {{ {light} }}\n{screen} {{ :root {{ {dark} }} }}\n{RULES}"
