"""Has help2man make a manual page of each tool's help."""

import ast
import os
import re
import shutil
import subprocess
import tempfile
from concurrent.futures import ThreadPoolExecutor
from pathlib import Path
from typing import List, Sequence

from inputtools.command import VERSION, Wrong

HELP2MAN = "help2man"
LACKING = f"{HELP2MAN} is not there (Debian: {HELP2MAN}), so the tools have no manual pages"
# What argparse writes, and what help2man knows it by.
KNOWN_BY = ((r"\Ausage:", "Usage:"), (r"^ {7}(?=inputplay-)", "  or:  "), (r"^options:", "Options:"),
            (r"^positional arguments:", "Arguments:"))


def has_help2man() -> bool:
    return shutil.which(HELP2MAN) is not None


def output_of(words: Sequence[str]) -> str:
    """What a command writes, where no line of it is wrapped."""
    env = {**os.environ, "COLUMNS": "1000", "LC_ALL": "C.UTF-8"}
    done = subprocess.run(words, env=env, stdin=subprocess.DEVNULL, capture_output=True, text=True,
                          check=False)
    if done.returncode:
        said = done.stderr.strip()[-200:]
        raise Wrong(f"{os.path.basename(words[0])} ended in status {done.returncode}: {said}")
    return done.stdout


def summary(path: str) -> str:
    """What a tool does, as the head of a page has it."""
    page = ast.parse(Path(path).read_text(encoding="utf-8"))
    told = (ast.get_docstring(page) or "").split("\n")[0].rstrip(".")
    return told[:1].lower() + told[1:]


def section(text: str) -> str:
    """A text as a page's source has it."""
    return re.sub(r"^(?=[.'])", r"\\&", text.replace("\\", "\\\\").replace("-", "\\-"), flags=re.MULTILINE)


def manual_page(program: str, stage: str) -> bytes:
    """The page of an installed tool, which stands below another folder at first."""
    help_text = output_of([program, "--help"]).replace(f"{stage}/", "/")
    for pattern, known in KNOWN_BY:
        help_text = re.sub(pattern, known, help_text, flags=re.MULTILINE)
    # (the last paragraph of each help has its statuses)
    head, _, statuses = help_text.rstrip().rpartition("\n\n")
    with tempfile.TemporaryDirectory() as folder:
        told, more = Path(folder, "help"), Path(folder, "more")
        also = "[SEE ALSO]\n.BR inputplay (1)\n"
        told.write_text(head + "\n", encoding="utf-8")
        more.write_text(f"[EXIT STATUS]\n{section(statuses)}\n\n{also}", encoding="utf-8")
        words = [HELP2MAN, "--no-info", f"--include={more}", f"--help-option={told}", "--locale=C.UTF-8"]
        version = f"{os.path.basename(program)} (inputplay) {VERSION}"
        words += [f"--version-string={version}", f"--name={summary(program)}", "cat"]
        return output_of(words).encode()


def manual_pages(programs: Sequence[str], stage: str) -> List[bytes]:
    """The pages of installed tools."""
    with ThreadPoolExecutor(os.cpu_count()) as pool:
        return list(pool.map(lambda program: manual_page(program, stage), programs))
