"""tools/draw: that its page and its picture are well made, stand alone, and stay small. What they say is in
tests/transcripts/draw.txt."""

import re
import xml.etree.ElementTree as ElementTree
from html.parser import HTMLParser

from tests.desk_cases import TOP, DeskCase
from tests.drawn_records import MORE_KEYS, typed

from inputtools.colours import COLOURS, RULES
from inputtools.page import plain
from inputtools.timeline import Entry, ranges_of

EXAMPLES = TOP / "examples"
RECORDS = TOP / "tests" / "records"
SVG = "{http://www.w3.org/2000/svg}"
VOID = ("meta", "input")

# What a rule draws with, and what it is drawn upon. (Bars of `open` and `contact` have marks upon them.)
UPON = {
    "paper": ("faint", "ink", "device", "second", "held", "read", "ask", "loss", "grab", "mask", "revoked",
              "parted", "missed", "eaten"),
    "open": ("read", "ask", "loss", "grab", "mask", "ink", "eaten"),
    "contact": ("device", "second", "ink"),
}


class Balanced(HTMLParser):
    """Reads a page and notes elements that do not end where they should."""

    def __init__(self, text):
        super().__init__()
        self.open, self.wrong, self.ids, self.links = [], [], [], []
        self.feed(text)
        self.wrong += self.open

    def handle_starttag(self, tag, attributes):
        if tag not in VOID:
            self.open.append(tag)
        self.ids += [value for name, value in attributes if name == "id"]
        self.links += [value for name, value in attributes if name in ("href", "src", "xlink:href")]

    def handle_endtag(self, tag):
        if not self.open or self.open.pop() != tag:
            self.wrong.append(tag)


class DrawCase(DeskCase):
    def page(self, record, *words):
        """A page that ends all that it begins, and loads nothing. Where the play was cut the status is 6."""
        status, text, lines = self.tool("draw", *words, record)
        cuts = re.findall('<p class="cut">(.*?)</p>', text)
        self.assertEqual((6 if cuts else 0, [f"draw: note: {cut}" for cut in cuts]), (status, lines))
        read = Balanced(text)
        self.assertEqual([], read.wrong)
        self.assertEqual(len(set(read.ids)), len(read.ids))
        self.assertEqual(set(), {link for link in read.links if link[1:] not in read.ids or link[0] != "#"})
        self.assertNotIn("url(", text)
        self.assertNotIn("@import", text)
        return text

    def picture(self, record, *words):
        """The picture. Where the play was cut its description says so, and the status is 6."""
        status, text, lines = self.tool("draw", "--svg", *words, record)
        picture = ElementTree.fromstring(text)
        told = "".join(about.text for about in picture.iter(SVG + "desc"))
        cuts = re.findall("the play was cut: [^.]*", told)
        self.assertEqual((6 if cuts else 0, [f"draw: note: {cut}" for cut in cuts]), (status, lines))
        return picture


class Pages(DrawCase):
    def test_each_record_is_drawn(self):
        """So is one with more rows than a picture has room for, and one of which there is nothing to draw."""
        rows, none = self.file("rows.rec", typed(MORE_KEYS)), self.file("none.rec", "inputrecord 1\ndevice d")
        for record in sorted([*EXAMPLES.glob("*.rec"), *RECORDS.glob("*.rec"), rows, none]):
            with self.subTest(record.name):
                text = self.page(record)
                self.assertIn(f"<h1>{record.name}</h1>", text)
                self.assertLess(len(text), 600_000)
                # (where nothing is drawn a picture does not say who stopped)
                if record.parent != RECORDS:
                    self.picture(record)

    def test_each_kind_of_mark_is_explained(self):
        """Each class that a picture uses is in the legend, or is text and paper."""
        others = "legend place time paper faint ink differs heading grid rule how chart labels number hit"
        others = set(others.split())
        for name in ("views", "touchpad", "mouse"):
            text = self.page(EXAMPLES / f"{name}.rec")
            before, shown, behind = re.split('(<p class="legend">.*?</p>)', text)
            kinds = (set(re.findall('class="([a-z ]+)"', each)) for each in (shown, before + behind))
            explained, used = kinds
            with self.subTest(name):
                self.assertEqual(set(), {kind.removeprefix("dense ") for kind in used} - explained - others)
                self.assertEqual(set(), explained - used - others)

    def test_names_are_text(self):
        """Any name of a file is text of the page, which is ASCII, whatever characters the name has."""
        names = {"a<b>&.rec": "a&lt;b&gt;&amp;.rec", "\"'.rec": "&quot;&#x27;.rec", "ä.rec": "&#228;.rec",
                 "a\x01\x1b\n.rec": "a\\x01\\x1b\\n.rec", "\udcff\u202e.rec": "\\udcff\\u202e.rec"}
        for name, shown in names.items():
            with self.subTest(repr(name)):
                self.assertEqual(shown, plain(name))
                ElementTree.fromstring(f"<h1>{shown}</h1>")
        for name in list(names)[:4]:
            with self.subTest(repr(name)):
                page = self.page(self.file(name, (EXAMPLES / "one_key.rec").read_text()))
                self.assertIn(f"<h1>{names[name]}</h1>", page)
                self.assertTrue(page.isascii())

    def test_no_more_than_forty_ranges(self):
        """Where something happens all the time the ranges are as long as is needed, and have all places."""
        found = [Entry(place, "grabs", "c") for place in range(0, 100_000, 50)]
        begins = [*range(0, 100_000, 2600)]
        self.assertEqual([*zip(begins, [*begins[1:], 100_000])], ranges_of(found, 0, 100_000))
        self.assertEqual(39, len(begins))


class Axes(DrawCase):
    def ticks(self, picture):
        """The ticks' texts, upper and lower, and where each begins and ends on the paper, as it is
        reckoned."""
        rows = {"16": [], "31": []}
        for shape in picture.iter(SVG + "text"):
            if shape.get("y") in rows and shape.get("class") == "faint" and shape.get("x") != "10":
                width, x = 7 * len(shape.text), float(shape.get("x"))
                left = x - width * {"start": 0, "middle": 0.5, "end": 1}[shape.get("text-anchor")]
                rows[shape.get("y")].append((shape.text, left, left + width))
        return rows["16"], rows["31"]

    def test_ticks_are_round_and_whole(self):
        """Over places: round places with their times; none is cut off, and none stands on another."""
        record = EXAMPLES / "touchpad.rec"
        for words in ((), ("--from", "797"), ("--from", "13", "--to", "13"), ("--from", "1", "--to", "700")):
            with self.subTest(words=words):
                picture = self.picture(record, *words)
                width = float(picture.get("viewBox").split()[2])
                places, times = self.ticks(picture)
                numbers = [int(text) for text, *_ in places]
                self.assertTrue(numbers)
                steps = {one - other for one, other in zip(numbers[1:], numbers)}
                self.assertTrue(not steps or steps < {1, 2, 5, 10, 20, 50, 100, 200, 500}, steps)
                self.assertTrue(all(number % step == 0 for number in numbers for step in steps))
                for row in (places, times):
                    self.assertTrue(all(168 <= left and right <= width for _, left, right in row), row)
                    self.assertTrue(all(one[2] < other[1] for one, other in zip(row, row[1:])), row)


class Paper(DrawCase):
    def test_contrast(self):
        """Marks have 3 to 1 at least and texts 4.5 to 1, on both papers and on the bars that they stand
        on."""
        texts = ("ink", "faint", "device", "second", "parted")
        for paper, marks in UPON.items():
            for mark in marks:
                for which in (0, 1):
                    with self.subTest(paper=paper, mark=mark, which=which):
                        least = 4.5 if mark in texts and paper == "paper" else 3
                        self.assertGreaterEqual(contrast(COLOURS[paper][which], COLOURS[mark][which]), least)

    def test_each_colour_is_looked_at(self):
        """Each colour that a rule draws with is among those; `grid` is no mark."""
        drawn = set(re.findall(r"var\(--(\w+)\)", RULES)) - {"paper", "grid", "open", "contact"}
        self.assertEqual(drawn, set(UPON["paper"]))
        self.assertEqual(len(COLOURS), len(set(COLOURS.values())))


def luminance(colour):
    """The relative luminance of a colour #rrggbb, as WCAG defines it."""
    parts = [int(colour[at : at + 2], 16) / 255 for at in (1, 3, 5)]
    parts = [part / 12.92 if part <= 0.04045 else ((part + 0.055) / 1.055) ** 2.4 for part in parts]
    return 0.2126 * parts[0] + 0.7152 * parts[1] + 0.0722 * parts[2]


def contrast(one, other):
    lower, higher = sorted((luminance(one), luminance(other)))
    return (higher + 0.05) / (lower + 0.05)
