"""Every function of the tools, the second program, checks/ and the package for Python has types, and mypy finds
them right."""

import shutil
import subprocess

from tests.playing import TOP, FolderCase

PACKAGES = ("inputtools", "second", "inputplay")
HELPERS = ("tests.playing", "tests.desk_cases", "tests.test_pages")
LEFT_OUT = ("__init__", "repository_path")
# The scripts have no ending by which mypy would find them; it takes each as a module of its own name.
SCRIPTS = ("tools", "bin", "checks", "tests", "bindings")


def modules():
    """The modules of checks/ but the one that its scripts import by its own name, and what tests share."""
    paths = sorted((TOP / "checks").glob("*.py")) + sorted((TOP / "checks" / "kernels").glob("*.py"))
    names = [".".join(path.relative_to(TOP).with_suffix("").parts) for path in paths if path.stem not in LEFT_OUT]
    return [*names, *HELPERS]


def scripts(folder):
    """The files of a folder that Python runs as scripts."""
    for path in sorted((TOP / folder).iterdir()):
        if path.is_file() and not path.suffix and path.read_bytes().startswith(b"#!/usr/bin/env python3"):
            yield str(path.relative_to(TOP))


class Types(FolderCase):
    def mypy(self, *words):
        done = subprocess.run(["mypy", "--config-file", "tests/mypy.ini", "--cache-dir", self.folder, *words],
                              cwd=TOP, capture_output=True, text=True, check=False)
        self.assertEqual((0, ""), (done.returncode, done.stderr), done.stdout)

    def setUp(self):
        super().setUp()
        if shutil.which("mypy") is None:
            self.skipTest("mypy is not there")

    def test_modules(self):
        packages = [word for name in PACKAGES for word in ("-p", name)]
        self.mypy(*packages, *(word for name in modules() for word in ("-m", name)))

    def test_scripts(self):
        for folder in SCRIPTS:
            with self.subTest(folder):
                self.mypy("--scripts-are-modules", *scripts(folder))
