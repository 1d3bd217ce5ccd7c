"""What tools/install puts in place: list, modes, names, manual pages, completion; and Debian's packages. How
what is installed works is in tests/transcripts/installed.txt and inputplay.txt."""

import os
import platform
import re
import shutil
import subprocess
import tempfile
import unittest
from pathlib import Path

from inputtools.command import VERSION
from tests.playing import TOP, FolderCase, said
from tests.run_cases import needs

INSTALL = TOP / "tools" / "install"
TOOLS = sorted({path.name for path in (TOP / "tools").iterdir() if path.is_file()} - {"build", "install"})
RECORD = TOP / "examples" / "stuck_key.rec"
REPORT = RECORD.with_suffix(".report").read_text()
NOT_HANDED_ON = ("INPUTPLAY", "DESTDIR", "PYTHONDONTWRITEBYTECODE")
SECTIONS = ["NAME", "SYNOPSIS", "DESCRIPTION", "OPTIONS", "EXIT STATUS", "SEE ALSO"]
COMPLETION = "/usr/share/bash-completion/bash_completion"
COMPLETED = f""". {COMPLETION}
_completion_loader inputplay-stuck
complete -p inputplay-stuck
COMP_WORDS=(inputplay-stuck --cl) COMP_CWORD=1 COMP_LINE="inputplay-stuck --cl" COMP_POINT=20
_longopt inputplay-stuck --cl inputplay-stuck
echo "${{COMPREPLY[*]}}"
"""
# What the packages are built with: programs, and the packages that have them.
BUILT_WITH = {"dpkg-buildpackage": "dpkg-dev", "dh": "debhelper", "dh_python3": "dh-python",
              "help2man": "help2man", "lintian": "lintian"}
ALONE = "is not there, which bin/inputplay builds: the tools alone are packaged"


def run(*words, umask=0o022, **more):
    """A command from elsewhere, for which no variable names a program: its status, its output, its lines."""
    env = {**{key: value for key, value in os.environ.items() if key not in NOT_HANDED_ON}, **more}
    status, text, errors = said(*words, cwd="/", env=env, preexec_fn=lambda: os.umask(umask))
    return status, text, errors.splitlines()


def files_of(folder):
    """All that is below a folder and no folder, by its path there, each with its mode."""
    paths = (path for path in folder.rglob("*") if path.is_symlink() or not path.is_dir())
    return {f"/{path.relative_to(folder)}": path.lstat().st_mode & 0o777 for path in paths}


class Tools(unittest.TestCase):
    """The tools, below another folder than that in which they are to be."""

    @classmethod
    def setUpClass(cls):
        folder = tempfile.TemporaryDirectory()
        cls.addClassCleanup(folder.cleanup)
        cls.folder = Path(folder.name)
        cls.stage = cls.folder / "stage"
        cls.prefix = cls.stage / "usr"
        cls.ended = run(INSTALL, "--only", "tools", "/usr", umask=0o077, DESTDIR=str(cls.stage))

    def installed(self, tool, *words, **more):
        return run(self.prefix / "bin" / f"inputplay-{tool}", *words, **more)

    def test_each_is_listed_where_it_is_to_be(self):
        status, listed, lines = self.ended
        self.assertEqual(0, status, lines)
        *files, lib, docs = listed.splitlines()
        self.assertEqual(("/usr/lib/inputplay", "/usr/share/doc/inputplay"), (lib, docs))
        self.assertEqual(set(files_of(self.stage)), set(files))
        programs = sorted(path.name for path in (self.prefix / "bin").iterdir())
        self.assertEqual([f"inputplay-{tool}" for tool in TOOLS], programs)

    def test_modes_do_not_hang_on_the_umask(self):
        modes = {path.stat().st_mode & 0o777 for path in self.stage.rglob("*") if path.is_dir()}
        self.assertEqual({0o755}, modes)
        files = files_of(self.stage)
        programs = {path for path, mode in files.items() if mode == 0o755}
        self.assertEqual({f"/usr/lib/inputplay/tools/{tool}" for tool in TOOLS}, programs)
        self.assertEqual({0o644, 0o755, 0o777}, set(files.values()))

    def test_they_say_the_names_that_they_have(self):
        pages = set()
        for tool in TOOLS:
            with self.subTest(tool):
                name = f"inputplay-{tool}"
                version = f"{name} (inputplay) {VERSION}\n"
                self.assertEqual((0, version, []), self.installed(tool, "--version"))
                _, told, _ = self.installed(tool, "--help")
                self.assertTrue(told.startswith(f"usage: {name} "), told[:80])
                self.assertEqual(set(), set(re.findall(r"(?<![\w/])tools/\w+", told)) - {"tools/build"})
                pages.update(re.findall(r"[^\s(]*docs/[A-Z]+\.md", told))
                status, _, (line,) = self.installed(tool, "--no-such-word")
                self.assertIn(status, (2, 126))
                self.assertTrue(line.startswith(f"{name}: "), line)
        self.assertEqual({"JSON.md", "RUN.md"}, {Path(page).name for page in pages})
        self.assertEqual([], [page for page in pages if not Path(page).is_file()])

    def test_all_files_of_a_kind(self):
        docs, lib = self.prefix / "share" / "doc" / "inputplay", self.prefix / "lib" / "inputplay"
        for pattern, below in (("docs/*.md", docs), ("examples/*.rec", docs), ("examples/*.bin", docs),
                               ("tools/inputtools/*.*", lib), ("second/*.*", lib)):
            with self.subTest(pattern):
                names = [{str(path.relative_to(top)) for path in top.glob(pattern)} for top in (TOP, below)]
                self.assertEqual(*names)

    def test_each_has_a_manual_page(self):
        needs(self, "help2man", "help2man")
        for tool in TOOLS:
            with self.subTest(tool):
                page = (self.prefix / "share" / "man" / "man1" / f"inputplay-{tool}.1").read_text()
                self.assertEqual(SECTIONS, re.findall(r'^\.SH "?([A-Z ]+)"?$', page, re.MULTILINE))
                self.assertRegex(page, rf"\ninputplay-{tool} \\- [a-z].*[^.]\n")
                self.assertIn(f'"inputplay {VERSION}"', page)
                self.assertNotIn(self.folder.name, page.replace("\\", ""))

    def test_bash_completes_their_options(self):
        if not os.path.exists(COMPLETION):
            self.skipTest("bash-completion is not installed (Debian: bash-completion)")
        path = f"{self.prefix / 'bin'}:{os.environ['PATH']}"
        _, told, _ = run("/bin/bash", "-c", COMPLETED, PATH=path, XDG_DATA_DIRS=str(self.prefix / "share"))
        how, words = told.splitlines()
        self.assertEqual("complete -F _longopt inputplay-stuck", how)
        self.assertEqual({"--client"}, set(words.split()))


class Versions(unittest.TestCase):
    def test_all_name_one(self):
        """The commands, the library's callers and the packages."""
        for name in ("python/pyproject.toml", "rust/Cargo.toml"):
            self.assertIn(f'\nversion = "{VERSION}"\n', (TOP / "bindings" / name).read_text())
        self.assertTrue((TOP / "debian" / "changelog").read_text().startswith(f"inputplay ({VERSION}) "))
        told = {f"tools/{tool}": f"{tool} (inputplay)" for tool in (*TOOLS, "install")}
        told.update({"tools/build": "tools/build (inputplay)", "bin/inputplay": "inputplay"})
        for command, name in told.items():
            with self.subTest(command):
                self.assertEqual((0, f"{name} {VERSION}\n", []), run(command, "--version"))


class Packages(FolderCase):
    """Debian's packages, built in a copy without the crates, in less than a minute."""

    def setUp(self):
        super().setUp()
        for program, package in BUILT_WITH.items():
            needs(self, program, package)
        self.source, self.here = self.folder / "inputplay", self.folder / "here"
        made_here = shutil.ignore_patterns("__pycache__", ".debhelper", "files", "*.substvars", "inputplay*")
        for name in ("tools", "second", "docs", "examples", "run"):
            shutil.copytree(TOP / name, self.source / name, ignore=shutil.ignore_patterns("__pycache__"))
        shutil.copytree(TOP / "debian", self.source / "debian", ignore=made_here)
        for name in ("README.md", "CHANGELOG.md"):
            shutil.copy(TOP / name, self.source)

    def build(self, program):
        """Builds and unpacks packages, in which lintian finds no error; their names, and what was said."""
        env = {**os.environ, "INPUTPLAY": str(program)}
        command = ["dpkg-buildpackage", "-b", "-us", "-uc"]
        done = subprocess.run(command, cwd=self.source, env=env, text=True, check=False,
                              stdout=subprocess.PIPE, stderr=subprocess.STDOUT)
        self.assertEqual(0, done.returncode, done.stdout[-2000:])
        status, judged, _ = run(shutil.which("lintian"), "--fail-on", "error", *self.folder.glob("*.changes"))
        self.assertEqual(0, status, judged)
        made = sorted(self.folder.glob("*.deb"))
        for each in made:
            subprocess.run(["dpkg-deb", "-x", each, self.here], check=True)
        return [path.name for path in made], done.stdout

    def test_the_tools(self):
        """They come alone where the program is not built, which is said."""
        made, told = self.build("")
        self.assertEqual([f"inputplay-tools_{VERSION}_all.deb"], made)
        self.assertEqual(1, told.count(f"\ninputplay: crates/inp_main/out/inp_main {ALONE}\n"))
        self.assertEqual((0, REPORT), run(self.here / "usr" / "bin" / "inputplay-play", RECORD)[:2])
        self.assertTrue((self.here / "usr" / "share" / "man" / "man1" / "inputplay-stuck.1.gz").is_file())

    def test_the_program(self):
        needs(self, "gcc", "gcc")
        if platform.machine() != "x86_64":
            self.skipTest("the program is packaged for amd64")
        source = 'int puts(const char *);\nint main(void) { puts("device d steps 0"); return 0; }\n'
        program = self.folder / "program"
        flags = ["-O2", "-fPIE", "-pie", "-Wl,-z,relro,-z,now"]
        subprocess.run(["gcc", *flags, "-x", "c", "-", "-o", program], input=source, text=True, check=True)
        made, _ = self.build(program)
        self.assertEqual([f"inputplay-tools_{VERSION}_all.deb", f"inputplay_{VERSION}_amd64.deb"], made)
        played = run(self.here / "usr" / "bin" / "inputplay-play", RECORD)
        self.assertEqual((0, "device d steps 0\n", ["inputplay-play: played by inputplay"]), played)
