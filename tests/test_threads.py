"""Records are played on threads, and each run is checked by the history that it printed.

The result of a record depends on the order in which the threads made their steps. So the printed history is
played on one thread by a second program (second/replay.py), which has to give the same report, byte for byte.
"""

from itertools import islice

from tests.playing import EXAMPLES, RECORDS, FolderCase, assert_run, needs_program, run

from checks.random_records import Generator
from second.replay import Differs, check, status_of

# A `follow` ends after so many reads in a row that found nothing.
IDLE = 1000

# Of runs that tell an owner something so many are looked at. Others tell it nothing: those are made anew, but
# for so many runs at most.
TELLING_RUNS = 8
MOST_RUNS = 400

# Records whose reports depend on no order.
KEYBOARD = "inputrecord 1\ndevice kbd\ncap EV_KEY KEY_A\n"
SOURCE_ALONE = KEYBOARD + "source s\ndo s event 1000 EV_KEY KEY_A 1\ndo s event 1000 EV_SYN SYN_REPORT 0\n"
SOURCE_REPORT = "device kbd steps {}\nsource s calls 2 stop finished\n"
# The device has no source, so nothing is waited for.
NO_SOURCE = KEYBOARD + "client c\ndo c open\ndo c follow\n"
CLIENT_REPORT = (
    "device kbd steps 2\nclient c\ncall open reply opened 0 0 128\ncall getkeys 0 reply bits 1\nagain 2\n"
    "keys\nstop finished\n"
)
OWNER_ALONE = "inputrecord 2\nudevice u\nlog 2\nowner o\ndo o feedback 1\ndo o feedback 4096\n"
OWNER_REPORT = "device u steps 0\nowner o\nfeedback 0 0\nfeedback 0 0\nstop finished\n"


def sounds(count, calls):
    """A record in which a source makes so many sounds, and an owner so many feedback calls."""
    lines = ["inputrecord 2", "udevice u", "cap EV_SND SND_BELL", "source s", "owner o"]
    lines += [f"do s event {number} EV_SND SND_BELL {number}" for number in range(1, count + 1)]
    return "".join(line + "\n" for line in lines + ["do o feedback 4"] * calls)


class Threads(FolderCase):
    def runs_by_its_history(self, record, folder, idle=IDLE):
        came = run(["--threads", "--history", "--idle", idle, record], folder)
        printed = came.text.decode().split("\n")[:-1]
        try:
            check((folder / record).read_text(), printed, folder, idle)
        except Differs as error:
            self.fail(f"{error}\n{came.text.decode()}")
        self.assertEqual((status_of(printed), b""), (came.status, came.errors))
        return printed

    def test_records_are_played_by_their_history(self):
        for folder in (EXAMPLES, RECORDS):
            for record in sorted(folder.glob("*.rec")):
                with self.subTest(record=record.stem):
                    self.runs_by_its_history(record.name, folder)

    def test_random_records_are_played_by_their_history(self):
        stops, owners = set(), 0
        for number in range(40):
            with self.subTest(number=number):
                (self.folder / "f").write_text(Generator(47 * 100000 + number, self.folder).record())
                printed = self.runs_by_its_history("f", self.folder, (1, 2, 5, IDLE)[number % 4])
                stops |= {line.split()[1] for line in printed if line.startswith("stop ")}
                owners += sum(line.startswith("owner ") for line in printed)
        needs_program(self)
        self.assertEqual({"finished", "full", "idle"}, stops, "each stop is shown")
        self.assertTrue(owners, "some records have an owner")

    def told_of(self, count, calls):
        (self.folder / "f").write_text(sounds(count, calls))
        printed = [line.split() for line in self.runs_by_its_history("f", self.folder)]
        taken = [int(words[2]) for words in printed if words[0] == "feedback"]
        told = [int(words[3]) for words in printed if words[0] == "fed"]
        self.assertEqual((calls, len(told)), (len(taken), sum(taken)))
        return told

    def each_telling(self, count, calls):
        """The sounds that an owner was told, in each run that told it one. The test fails where none did."""
        runs = (self.told_of(count, calls) for _ in range(MOST_RUNS))
        telling = list(islice(filter(None, runs), TELLING_RUNS))
        self.assertTrue(telling, f"none of {MOST_RUNS} runs told the owner anything")
        return telling

    def test_an_owner_is_told_what_was_sent_in_its_order(self):
        """Which call takes what differs by run. As long as all that is sent can wait nothing is left out."""
        for told in self.each_telling(15, 400):
            self.assertEqual(list(range(1, len(told) + 1)), told)

    def test_an_owner_that_is_slow_is_told_nothing_twice(self):
        for told in self.each_telling(1500, 1500):
            self.assertEqual(sorted(set(told)), told)

    def test_reports_that_depend_on_no_order(self):
        for name, record, words, report in (
            ("a source alone", SOURCE_ALONE, ["--threads"], SOURCE_REPORT.format(3)),
            ("a source on one thread", SOURCE_ALONE, [], SOURCE_REPORT.format(2)),
            ("no source to wait for", NO_SOURCE, ["--threads"], CLIENT_REPORT),
            ("a bound without threads", NO_SOURCE, ["--idle", "1"], CLIENT_REPORT),
            ("an owner alone", OWNER_ALONE, ["--threads"], OWNER_REPORT),
        ):
            with self.subTest(name):
                self.write("f", record)
                assert_run(self, run([*words, "f"], self.folder), 0, report.encode())
