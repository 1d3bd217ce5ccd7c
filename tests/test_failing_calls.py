"""What `checks/alloc` and `checks/faults` say of programs that are right, and of some that are not.

The programs are small ones in C, which do as the real one at calls that fail. Where there is no C compiler
the scripts must say so.
"""

import os
import shutil
import subprocess
import sys

from checks.trial import Run
from second.side_by_side import play_side_by_side
from tests.playing import TOP, USAGE, FolderCase, loaded, needs, said

# Reads a file, and writes how many bytes it has, in pieces.
RIGHT = r"""
#include <fcntl.h>
#include <stdio.h>
#include <stdlib.h>
#include <string.h>
#include <unistd.h>

static int say(int status, const char *text) {
    for (size_t size = strlen(text), done = 0; done < size;) {
        ssize_t more = write(1, text + done, size - done < 4 ? size - done : 4);
        if (more < 0)
            return 4;
        done += more;
    }
    return status;
}

int main(int count, char **words) {
    char text[64], *word = malloc(strlen(words[count - 1]) + 1);
    if (!word)
        return say(2, "usage: inputplay FILE\n");
    strcpy(word, words[count - 1]);
    int file = open(word, O_RDONLY);
    if (file < 0)
        return say(3, "inputplay: read failed\n");
    char *bytes = calloc(1, 1000);
    if (!bytes)
        return say(5, "inputplay: out of memory\n");
    size_t size = 0;
    for (ssize_t more = 1; more; size += more)
        if ((more = read(file, bytes + size, 7)) < 0)
            return say(3, "inputplay: read failed\n");
    void *larger = realloc(bytes, 2000);
    bytes = larger ? larger : bytes;
    snprintf(text, sizeof text, "%zu bytes\n", size);
    return say(0, text);
}
"""

# Programs that are wrong: the script that finds it, what is changed, and what is said.
WRONG = {
    "it takes memory that it was not given": (
        "alloc", "if (!bytes)", "if (!bytes && (bytes[0] = 1))",
        "allocation 2 refused (calloc 1000 bytes): SIGSEGV, b''"),
    "it tells of its words too late": (
        "alloc", "bytes = larger ? larger : bytes;",
        'if (!larger) return say(2, "usage: inputplay FILE\\n");',
        "allocation 3 refused (realloc 2000 bytes): status 2, b'usage: inputplay FILE\\n'"),
    "it takes a fault for an end": (
        "faults", "bytes + size, 7)) < 0)", "bytes + size, 7)) < 0 && (more = 0))",
        "read 1 of f fails: WRONG: status 0, and status 3 was wanted\n"),
    "it takes a short read for an end": (
        "faults", "more; size += more)", "more == 7 || more == 1; size += more)",
        "read 1 of f is short: WRONG: status 0, which is not as without it\n"),
    "it takes a short write for a whole one": (
        "faults", "done += more", "done += 4",
        "write 1 of the output is short: WRONG: status 0, which is not as without it\n"),
    "it does not look at its writes": (
        "faults", "return 4;", "more = 4;",
        "write 1 of the output fails: WRONG: status 0, and status 4 was wanted\n"),
}


class FailingCalls(FolderCase):
    def setUp(self):
        super().setUp()
        self.write("f", "inputrecord 1\n")
        self.program = self.folder / "program"

    def compile(self, text, *more):
        source = self.write("program.c", text)
        command = [needs(self, os.environ.get("CC", "cc"), "gcc"), *more, "-o", self.program, source]
        subprocess.run(command, check=True, capture_output=True, timeout=300)

    def says(self, name, status, *told, words=(), **variables):
        env = {**os.environ, "TMPDIR": str(self.folder), **variables}
        done = said(f"checks/{name}", "--program", self.program, *words, self.folder / "f", env=env)
        self.assertEqual(status, done.status, done.text + done.errors)
        for text in told:
            self.assertIn(text, done.text + done.errors)

    def test_without_a_compiler(self):
        shutil.copy(sys.executable, self.program)
        for name in ("alloc", "faults"):
            self.says(name, 2, "there is no C compiler: none: No such file or directory", CC="none")

    def test_a_program_that_is_right(self):
        self.compile(RIGHT)
        self.says("alloc", 0,
                  "f: 1 status 0, 1 status 2, 1 status 5\n3 runs of 1 records, none that ends otherwise\n")
        self.says("alloc", 0, "f: 1 status 0, 1 status 2, 1 status 5\n", words=["--rest"])
        self.says("faults", 0, "    open 1 of f fails: status 3\n", "    read 3 of f fails: status 3\n",
                  "    write 3 of the output fails: status 4\n", "    read 2 of f is short: status 0\n",
                  "    write 2 of the output is short: status 0\n",
                  "11 runs of 1 records, none that ends otherwise\n")
        self.says("faults", 0, "f\n18 runs of 1 records, none ", words=["--piece", "3", "--quiet"])

    def test_programs_that_are_wrong(self):
        for name, (script, before, after, told) in WRONG.items():
            with self.subTest(name):
                self.assertIn(before, RIGHT)
                self.compile(RIGHT.replace(before, after))
                self.says(script, 1, told, " that end otherwise\n")

    def test_a_program_whose_calls_cannot_be_made_to_fail(self):
        for text, words, status, told in (
            ("void _start(void) {}", ["-static", "-nostdlib"], 2, "is not linked dynamically"),
            ("int main() {}", [], 1, "no call could be made to fail\n"),
        ):
            self.compile(text, *words)
            for name in ("alloc", "faults"):
                with self.subTest(script=name, told=told):
                    self.says(name, status, told)


class Judging(FolderCase):
    """By which rules a run is judged."""

    def test_runs_with_an_allocation_refused(self):
        whole, line = Run(6, b"device d steps 1\n", b""), b"inputplay: out of memory\n"
        right = [whole, Run(5, line, b""), Run(4, line[:14], b"")]
        wrong = [Run(4, line, b""), Run(4, b"device", b""), Run(0, whole.text, b""), Run(6, b"device d", b""),
                 Run(5, whole.text, b""), Run(5, line, b"?"), Run(2, USAGE, b""), Run(-11, b"", b""),
                 Run(None, b"", b"")]
        for run in right + wrong:
            with self.subTest(run=run):
                judge = loaded(TOP / "checks" / "alloc").Judge(self.folder / "f", [], whole)
                self.assertIsNone(judge.complaint(Run(2, USAGE, b"")))
                judge.complaint(whole)
                self.assertEqual(run in right, judge.complaint(run) is None)

    def test_runs_with_threads(self):
        record = "inputrecord 1\ndevice d\ncap EV_KEY KEY_A\nsource s\nclient c\n"
        record += "do c open\ndo s uninhibit\ndo c follow\n"
        path, words = self.write("f", record), ["--threads", "--history", "--idle", "3"]
        judge = loaded(TOP / "checks" / "alloc").Judge(path, words, Run(0, b"", b""))
        for seed in range(3):
            text = "".join(line + "\n" for line in play_side_by_side(record, seed, idle=3)).encode()
            self.assertIsNone(judge.complaint(Run(0, text, b"")))
            self.assertIsNotNone(judge.complaint(Run(0, text.replace(b"finished", b"full 3"), b"")))
            self.assertIsNotNone(judge.complaint(Run(3, text, b"")))
