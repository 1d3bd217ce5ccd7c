"""Runs inputplay by its name, and builds it first where that is to be done."""

import os
import sys
from typing import List

from inputtools.building import build
from inputtools.command import CUT_OFF, VERSION, Result, say
from inputtools.program import BUILT, is_program
from inputtools.unproved import play

HELP = """usage: bin/inputplay [--unproved] WORDS ..

Runs the program with these words: crates/inp_main/out/inp_main of this repository. Where it is not there, it
is proved and built first, once, without the tests and the edits of the gate. It says before how long that
takes, by what bench/gate_cost measures of this machine; without that it is reckoned to be ten minutes on four
processors. On a terminal it asks before, and says how far it is. What is proved is kept, so a build that was
stopped goes on.

With --unproved as the first word a record is played at once, without proof: by the second program, which is
in Python (second) and plays on one thread. The tests compare its reports with the program's. With any
words beside FILE and --history the toolchain plays (rt try): in one to three minutes, reports of 1 MiB at
most.

The program's words, of which docs/FORMATS.md says more:

  FILE                            the record in FILE is played, and its report is written
  --history FILE                  with each step of the devices' histories
  --threads [--idle N] FILE       each actor on a thread of its own
  --migrate FILE                  nothing is played, and the record's text in version 2 is written
  --make NUMBER [--count COUNT]   a record is made from a number and played

--version as the first word writes the version, and nothing is played.

Status: the program's own: 0 played; 1 a line is refused; 2 wrong words, or the program could not be built; 3
a file could not be read; 4 stdout failed; 5 no memory; 6 played, and a history was full; 7 a file is too
long; 130 stopped from the keyboard."""


def command(words: List[str]) -> Result:
    if words[:1] in (["--help"], ["-h"]):
        return Result(HELP + "\n")
    if words[:1] == ["--version"]:
        return Result(f"inputplay {VERSION}\n")
    if words[:1] == ["--unproved"]:
        return play(words[1:])
    if sys.stdout is None:
        say("inputplay", "standard output is closed")
        return Result(status=CUT_OFF)
    if not is_program(BUILT):
        build("inputplay", sys.stderr)
    sys.stdout.flush()
    os.execv(BUILT, ["inputplay", *words])

