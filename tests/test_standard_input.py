"""`-` is standard input for all tools of tools/: each says of it what it says of the file."""

import fcntl
import os
import re
import shutil
import subprocess

from tests.desk_cases import DATA, PROGRAM, TOOLS, TOP, DeskCase, needs_program

FLOOD = TOP / "examples" / "views_flood.bin"

# A record with a stream, so that a file beside it is needed, and with expectations of each kind.
RECORD = """inputrecord 1
#= a agrees
#= a drops 1
#= report wanted.report
device d
hint 2
cap EV_REL REL_X
cap EV_KEY KEY_A
source s
client a
do a open
do s stream views_flood.bin
do a follow
"""


def of_standard_input(text, name):
    """A text with standard input's name in place of a file's. A page has the last part of a name as its title
    alone, since a pipe's is a number, as a picture has them."""
    title = os.path.basename(name).encode()
    text = text.replace(os.fsencode(name), b"standard input")
    return re.sub(rb"<(title|h1)>%s</\1>" % re.escape(title), rb"<\1>standard input</\1>", text)


class StandardInput(DeskCase):
    def setUp(self):
        super().setUp()
        needs_program(self)
        self.beside = self.folder / "beside"
        self.beside.mkdir()
        shutil.copy(FLOOD, self.beside)
        self.record = self.beside / "case.rec"
        self.record.write_text(RECORD)
        played = subprocess.run([PROGRAM, self.record], cwd=self.beside, capture_output=True, check=True)
        (self.beside / "wanted.report").write_bytes(played.stdout)
        self.calls = (
            ("play", "-"), ("stuck", "-"), ("draw", "-"), ("check", "-"),
            ("compare", "-", self.beside / "wanted.report"), ("export", "-", "--evemu"),
            ("export", "-", "--raw", "a"),
        )

    def run_tool(self, tool, *words, folder, given=None, pipes=()):
        """Status, output and standard error of a tool that is run in a folder."""
        env = {**os.environ, "INPUTPLAY": PROGRAM}
        words = [TOOLS / tool, *words]
        with open(given or os.devnull, "rb") as file:
            done = subprocess.run(words, stdin=file, cwd=folder, env=env, capture_output=True, pass_fds=pipes)
        return done.returncode, done.stdout, done.stderr

    def is_one(self, tool, *words, given=None):
        """A tool says of standard input, in the folder of the record, what it says of the file from elsewhere."""
        given = given or self.record
        file = self.run_tool(tool, *(given if word == "-" else word for word in words), folder="/")
        piped = self.run_tool(tool, *words, folder=given.parent, given=given)
        with self.subTest(f"{tool} of {given.name}"):
            self.assertEqual([of_standard_input(each, given) for each in file[1:]], [*piped[1:]])
            self.assertEqual((0, 0), (file[0], piped[0]), file[2])

    def test_records_with_streams(self):
        for call in (*self.calls, ("show", "-"), ("check", "--json", "-"), ("describe", "-")):
            self.is_one(*call)
        beside = f'cmp -s "$(dirname "$1")/{FLOOD.name}" {FLOOD} && grep -q stream "$1"'
        self.is_one("shrink", "-", "--", "sh", "-c", beside, "sh", "{}")

    def test_captures(self):
        for name in ("lid.evtest", "lid.evemu", "lid.libinput.yml"):
            self.is_one("record", "-", given=DATA / name)
            self.is_one("describe", "-", given=DATA / name)

    def test_pipes(self):
        """What a shell's <(..) gives, and /dev/stdin, are read to their end first, as standard input is. The
        pipe has the greatest number that a picture has, if that is free."""
        lid, shown = DATA / "lid.evtest", ["sh", "-c", "cat {}"]
        for given, tool, *words in (
            *((self.record, *call) for call in self.calls), (self.record, "shrink", "-", "--", *shown),
            (lid, "describe", "-"), (lid, "record", "-"), (lid, "record", lid, "-"),
        ):
            wanted = self.run_tool(tool, *words, folder=self.beside, given=given)
            read, write = os.pipe()
            os.write(write, given.read_bytes())
            os.close(write)
            numbers = map(int, re.findall(rb">(\d+)</text>", wanted[1]))
            pipe = fcntl.fcntl(read, fcntl.F_DUPFD, max(numbers, default=0))
            os.close(read)
            for name, pipes in ((f"/dev/fd/{pipe}", [pipe]), ("/dev/stdin", [])):
                with self.subTest(f"{tool} of {name}"):
                    named = [name if word == "-" else word for word in words]
                    came = self.run_tool(tool, *named, folder=self.beside, given=given, pipes=pipes)
                    texts = (of_standard_input(text, name) for text in came[1:])
                    self.assertEqual(wanted, (came[0], *texts))
            os.close(pipe)

    def test_where_the_files_of_streams_are_not(self):
        status, text, said = self.run_tool("check", "-", folder=self.folder, given=self.record)
        self.assertEqual((2, b""), (status, text))
        self.assertEqual(1, said.count(b"\n"), said)
        self.assertIn(b"check: standard input: ", said)
