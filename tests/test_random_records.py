"""Random records, and ones at the bounds of what is allowed, are played by the program and by a second one.

The second program (second) is in Python, was written from docs/RULES.md, docs/READER.md and docs/FORMATS.md
alone, and shares no code with the first. Both must write the same report, byte for byte. Each run has the
same records.
"""


from tests.playing import FolderCase, assert_run, run

from second.outcome import outcome
from checks.random_records import Generator
from checks.records_at_bounds import RECORDS

SEED = 41
COUNT = 60
VERSIONS = ("inputrecord 1\n", "inputrecord 2\n")
STREAMS = (" stream events-", " stream16 events-")
OWNERS = ("\nudevice ", "\nowner ", " feedback 4096\n")
FILTERS = ("\nfilter eat ", "\nfilter norepeat\n", "\nfilter chord ", "\nfilter bounce ")


class SecondProgram(FolderCase):
    def random_text(self, number):
        """The record that `checks/random_records.py FOLDER 60 41` writes under this number."""
        return Generator(SEED * 100000 + number, self.folder).record()

    def second(self, text, history=True):
        """The exit status and the report of the second program."""
        return outcome(self.write("f", text.encode("latin1")), history)

    def plays_as_the_second_one(self, text, history):
        status, report = self.second(text, history)
        assert_run(self, run(["--history", "f"] if history else ["f"], self.folder), status, report)

    def test_random_records(self):
        for number in range(COUNT):
            history = number % 3 == 2
            with self.subTest(number=number, history=history):
                self.plays_as_the_second_one(self.random_text(number), history)

    def test_records_at_bounds(self):
        for name, make in RECORDS.items():
            with self.subTest(record=name):
                self.plays_as_the_second_one(make(), history=True)

    def test_the_random_records_have_something_to_show(self):
        texts = [self.random_text(number) for number in range(COUNT)]
        for text in (*VERSIONS, *STREAMS, "\nslots 256\n", "\njoy ", *OWNERS, *FILTERS):
            with self.subTest(text=text):
                self.assertIn(text, "".join(texts))
        reports = b"".join(self.second(text)[1] for text in texts)
        for text in (b"EV_SYN SYN_DROPPED 0\n", b"EV_SYN SYN_REPORT 1\n", b"\nmade EV_", b"\nagain ",
                     b" no-device\n", b" bad-client\n", b" bad-info\n", b" busy\n", b" log-full\n",
                     b"\nstop full ", b"\njs 0 1 129 ", b" 1 1 0\n", b"\nbuttons 0 1\n", b" 0\nfeedback ",
                     b" 15\nfed ",
                     *(f"\nfed {kind} ".encode()
                       for kind in ("EV_LED", "EV_SND", "EV_MSC", "EV_REP", "EV_SYN SYN_CONFIG"))):
            with self.subTest(text=text):
                self.assertIn(text, reports)
