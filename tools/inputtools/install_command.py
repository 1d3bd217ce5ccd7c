"""Puts the program, the tools, the pages and the library below a folder."""

import argparse
import os
import py_compile
import sys
from typing import List, Sequence

from inputtools.building import build, soname
from inputtools.command import PREFIX, VERSION, Result, Words, Wrong, put
from inputtools.manual import LACKING, has_help2man, manual_pages
from inputtools.program import BUILT, REPOSITORY, is_program
from inputtools.runbuild import SERVER, SHIM

HELP = """Installs inputplay below PREFIX, /usr/local for example:

  PREFIX/bin/inputplay                the program
  PREFIX/bin/inputplay-record, ..     the tools, each by its name in tools/ behind inputplay-
  PREFIX/lib/inputplay/               what they consist of; the second program; and what inputplay-run starts
                                      and loads, where tools/build --run made it
  PREFIX/share/man/man1/              the program's manual page, and where help2man is there one of each tool
  PREFIX/share/bash-completion/       completion for bash
  PREFIX/share/doc/inputplay/         the pages of docs/, and the examples

With --library it puts there instead what tools/build --library made, for programs in C and what calls C:

  PREFIX/include/inputplay.h          the header
  PREFIX/lib/libinputplay.*           the static library and the shared object
  PREFIX/lib/pkgconfig/inputplay.pc   what pkg-config tells of it

The tools play by the installed program, unless INPUTPLAY names another one; by the second program where it
is not there. They find each other from where they stand, so the folder can be moved as a whole. What is
installed already is replaced, and nothing else is changed. Where the program is not built, it is proved and
built first, as bin/inputplay does; --only tools wants none.

With DESTDIR all is written below that folder, to be moved to PREFIX later. Modes do not hang on the umask.

Each file that was written is printed, by its path below PREFIX, and at the end each folder that is
inputplay's own. So `tools/install PREFIX > list` keeps what `xargs -d '\\n' rm -r < list` removes again."""

STATUSES = """Status 0: all was installed. 2: wrong words, the program could not be built, or a file could not
be written. 4: standard output failed. 130: stopped from the keyboard."""

LAUNCHER = f"""#!/bin/sh
# Runs inputplay. Its version and its words are told here.
here=$0
test -L "$here" && here=$(readlink -f "$here")
program=${{here%/*}}/../lib/inputplay/inputplay
case "$1" in
--version) echo "inputplay {VERSION}" ;;
--help) "$program" || : ;;
*) exec "$program" "$@" ;;
esac
"""

# What completes options: a function of Debian's bash-completion, which reads them from the command's help.
COMPLETION = "complete -F _longopt {name}\n"

NOT_INSTALLED = ("build", "install")
LIB = ("lib", "inputplay")
LIBRARY = os.path.join(REPOSITORY, "out", "library")
RUN = os.path.join(REPOSITORY, "out", "run")
COMPLETIONS = ("share", "bash-completion", "completions")
MANUAL = ("share", "man", "man1")
DOCS = ("share", "doc", "inputplay")
# The packages in Python, with the files that they read.
PACKAGES = (("tools", "inputtools"), ("second",))
KINDS = (".py", ".txt", ".css", ".js")
# The folders with pages and examples, and the kinds of their files.
TOLD = ((), ("docs",), ("examples",), ("examples", "c"))
TOLD_KINDS = (".md", ".svg", ".rec", ".report", ".history", ".bin", ".py", ".c", ".h")
NOT_TOLD = ("CONTRIBUTING.md",)


def tools() -> List[str]:
    folder = os.path.join(REPOSITORY, "tools")
    names = sorted(name for name in os.listdir(folder) if os.path.isfile(os.path.join(folder, name)))
    return [name for name in names if name not in NOT_INSTALLED and "." not in name]


class Installer:
    """Writes files below a prefix, which may stand below another folder at first, and keeps which."""

    def __init__(self, prefix: str, stage: str) -> None:
        self.prefix, self.stage = os.path.abspath(prefix), os.path.realpath(stage) if stage else ""
        self.written: List[str] = []
        self.own: List[str] = []

    def at(self, *path: str) -> str:
        """Where a path below the prefix is written."""
        return self.stage + os.path.join(self.prefix, *path)

    def new(self, path: str) -> str:
        """The name by which a file is written, before it replaces another. (One may run.)"""
        os.makedirs(os.path.dirname(path), exist_ok=True)
        new = f"{path}.new"
        if os.path.lexists(new):
            os.remove(new)
        return new

    def done(self, path: str) -> None:
        os.replace(f"{path}.new", path)
        self.written.append(path[len(self.stage) :])

    def put(self, data: bytes, *path: str, is_program: bool = False) -> None:
        target = self.at(*path)
        with open(self.new(target), "wb") as file:
            file.write(data)
        os.chmod(file.name, 0o755 if is_program else 0o644)
        self.done(target)

    def copy(self, source: str, *path: str, is_program: bool = False) -> None:
        with open(source, "rb") as file:
            self.put(file.read(), *path, is_program=is_program)

    def copy_all(self, folder: str, kinds: Sequence[str], *path: str) -> None:
        """The files of a folder that have one of these endings."""
        for name in sorted(os.listdir(folder)) if os.path.isdir(folder) else ():
            if name.endswith(tuple(kinds)) and name not in NOT_TOLD:
                self.copy(os.path.join(folder, name), *path, name)

    def compile(self, *path: str) -> None:
        """Keeps what Python would make of each file of a package when it is used first."""
        folder = self.at(*path)
        for name in sorted(name for name in os.listdir(folder) if name.endswith(".py")):
            shown = os.path.join(self.prefix, *path, name)
            made = py_compile.compile(os.path.join(folder, name), dfile=shown, doraise=True,
                                      invalidation_mode=py_compile.PycInvalidationMode.CHECKED_HASH)
            self.written.append(str(made)[len(self.stage) :])

    def link(self, name: str, *path: str) -> None:
        """A link to what a name means in the link's folder."""
        target = self.at(*path)
        os.symlink(name, self.new(target))
        self.done(target)

    def complete(self, name: str) -> None:
        self.put(COMPLETION.format(name=name).encode(), *COMPLETIONS, name)

    def text(self) -> str:
        """What was written, a line each."""
        return "".join(path + "\n" for path in [*self.written, *self.own])


def install_library(installer: Installer) -> None:
    """Installs the library."""
    if not os.path.isfile(os.path.join(LIBRARY, "libinputplay.a")):
        raise Wrong("the library is not built; tools/build --library makes it")
    installer.copy(os.path.join(REPOSITORY, "include", "inputplay.h"), "include", "inputplay.h")
    # (what an earlier build made may have the name of an older interface)
    others = ("libinputplay.a", "libinputplay.so")
    names = sorted(name for name in os.listdir(LIBRARY) if name in others or name.startswith(soname()))
    # The shared object has its whole version in its longest name; the shorter ones are links to it.
    whole = max(names, key=len)
    for name in names:
        if name == "libinputplay.a" or name == whole:
            installer.copy(os.path.join(LIBRARY, name), "lib", name)
        else:
            installer.link(whole, "lib", name)
    with open(os.path.join(LIBRARY, "inputplay.pc"), encoding="utf-8") as file:
        _, *lines = file.read().splitlines(keepends=True)
    page = f"prefix={installer.prefix}\n" + "".join(lines)
    installer.put(page.encode(), "lib", "pkgconfig", "inputplay.pc")


def install_program(installer: Installer, program: str) -> None:
    """Installs what was compiled, and the program's page."""
    if not is_program(program):
        raise Wrong(f"{program} is no program")
    installer.copy(program, *LIB, "inputplay", is_program=True)
    installer.put(LAUNCHER.encode(), "bin", "inputplay", is_program=True)
    for name in (SERVER, SHIM):
        if os.path.isfile(os.path.join(RUN, name)):
            installer.copy(os.path.join(RUN, name), *LIB, "out", "run", name, is_program=name == SERVER)
    installer.copy(os.path.join(REPOSITORY, "docs", "inputplay.1"), *MANUAL, "inputplay.1")
    installer.complete("inputplay")


def install_tools(installer: Installer) -> List[str]:
    """Installs the tools with the second program, and the pages; what is to be noted."""
    for package in PACKAGES:
        installer.copy_all(os.path.join(REPOSITORY, *package), KINDS, *LIB, *package)
        installer.compile(*LIB, *package)
    for tool in tools():
        installer.copy(os.path.join(REPOSITORY, "tools", tool), *LIB, "tools", tool, is_program=True)
        installer.link(os.path.join(os.pardir, *LIB, "tools", tool), "bin", PREFIX + tool)
        installer.complete(PREFIX + tool)
    for folder in TOLD:
        installer.copy_all(os.path.join(REPOSITORY, *folder), TOLD_KINDS, *DOCS, *folder)
    installer.own += [os.path.join(installer.prefix, *each) for each in (LIB, DOCS)]
    if not has_help2man():
        return [LACKING]
    names = [PREFIX + tool for tool in tools()]
    pages = manual_pages([installer.at("bin", name) for name in names], installer.stage)
    for name, page in zip(names, pages):
        installer.put(page, *MANUAL, f"{name}.1")
    return []


def install(installer: Installer, asked: argparse.Namespace) -> List[str]:
    """Installs what was asked for; what is to be noted."""
    if asked.library:
        install_library(installer)
    elif asked.only != "tools":
        install_program(installer, asked.program or BUILT)
    return install_tools(installer) if not asked.library and asked.only != "program" else []


def command(arguments: List[str]) -> Result:
    words = Words(prog="install", description=HELP, epilog=STATUSES)
    words.add_argument("prefix", metavar="PREFIX", help="the folder that has bin, lib and share")
    words.add_argument("--destdir", metavar="FOLDER", default=os.environ.get("DESTDIR", ""),
                       help="write all below this folder (the variable DESTDIR)")
    words.add_argument("--program", metavar="FILE", help="install this program, and build none")
    words.add_argument("--only", choices=("program", "tools"), help="install one of both parts")
    words.add_argument("--library", action="store_true", help="install the library of tools/build alone")
    asked = words.parse_args(arguments)
    if not asked.prefix:
        raise Wrong("PREFIX is empty")
    if asked.program is None and not asked.library and asked.only != "tools" and not is_program(BUILT):
        try:
            build("install", sys.stderr)
        except Wrong as wrong:
            raise Wrong(f"{wrong}; --only tools installs the tools, with the second program") from None
    installer = Installer(asked.prefix, asked.destdir)
    os.umask(0o022)
    try:
        notes = install(installer, asked)
        return Result(installer.text(), notes)
    except (OSError, Wrong, KeyboardInterrupt) as fault:
        # (what was written until then is to be removed too)
        put("install", installer.text())
        if isinstance(fault, OSError):
            raise Wrong(f"{fault.filename}: {fault.strerror}") from None
        raise
