"""Kernels as packages, and a machine that boots one and plays records: qemu, without KVM."""

from __future__ import annotations

import hashlib
import lzma
import os
import re
import shutil
import subprocess
import tempfile
import threading
import time
from contextlib import contextmanager
from dataclasses import dataclass
from pathlib import Path
from typing import Callable, Dict, Iterable, Iterator, List, Optional, Sequence

from inputtools.command import Wrong

GUEST = Path(__file__).resolve().parent / "guest"
MODULES = ("input/evdev", "input/misc/uinput", "input/joydev")
# The packages that bring the kernel of a version.
PACKAGES = {"6.1": "linux-image-amd64", "6.12": "linux-image-6.12-amd64"}
VERSION = re.compile(r"linux-[a-z]+-(\d+\.\d+)")
FLAGS = ("-std=c11", "-O1", "-Wall", "-Wextra", "-Wconversion", "-static")
# The Debian packages of the programs that are run.
NEEDED = {
    "qemu-system-x86_64": "qemu-system-x86", "cpio": "cpio", "gcc": "gcc", "gzip": "gzip", "dpkg-deb": "dpkg",
    "apt-get": "apt",
}
LIBRARY = "libevdev.a"
# The machine counts instructions for its clock, so what it does hangs on nothing that its host does.
MACHINE = (
    *"qemu-system-x86_64 -accel tcg -icount shift=2,sleep=off -m 512 -smp 1 -nodefaults".split(),
    *"-display none -monitor none -no-reboot".split(), "-append", "console=ttyS0 quiet panic=-1 loglevel=4",
)
SECONDS = 1800


@dataclass(frozen=True)
class Kernel:
    """A kernel that was unpacked into the cache."""

    version: str
    folder: Path

    @property
    def image(self) -> Path:
        return self.folder / "vmlinuz"

    def package(self) -> str:
        return (self.folder / "package").read_text(encoding="utf-8").strip()


def cache_folder() -> Path:
    return Path(os.environ.get("XDG_CACHE_HOME") or Path.home() / ".cache") / "inputplay-kernels"


def check_programs() -> None:
    for program, package in NEEDED.items():
        if shutil.which(program) is None:
            raise Wrong(f"{program} is not there (Debian: {package})")


def output(words: Sequence[object], folder: Path) -> str:
    command = [str(word) for word in words]
    done = subprocess.run(command, cwd=folder, capture_output=True, text=True, errors="replace", check=False)
    if done.returncode:
        said = (done.stderr or done.stdout).strip().splitlines()
        raise Wrong(f"{words[0]}: {said[-1] if said else f'status {done.returncode}'}")
    return done.stdout


def version_of(words: Sequence[object], folder: Path) -> str:
    """A package's name and version."""
    return " ".join(output(words, folder).replace(":amd64", "").split())


def file_of(module: str) -> str:
    return f"{Path(module).name}.ko"


# Kernels


def package_of(name: str, folder: Path) -> str:
    """The package that has the image: the one that is named, or the one that it depends on."""
    for depends in output(["apt-cache", "depends", name], folder).splitlines():
        found = re.fullmatch(r"\s*Depends: (linux-image-\d\S+)", depends)
        if found:
            return found[1]
    return name


def fetched(name: str, folder: Path) -> List[Path]:
    """The files of the packages of a kernel: those that are named, or the one that apt knows."""
    named = Path(name)
    if named.suffix == ".deb" or named.is_dir():
        files = sorted(named.glob("*.deb")) if named.is_dir() else [named]
        if not files or not all(file.is_file() for file in files):
            raise Wrong(f"{name}: no such file" if files else f"{name} has no packages")
        return files
    try:
        output(["apt-get", "-q", "download", package_of(PACKAGES.get(name, name), folder)], folder)
    except Wrong as wrong:
        raise Wrong(f"{wrong} (apt has no kernel {name}; 'apt-get update' brings its lists)") from None
    return list(folder.glob("*.deb"))


def only(paths: Iterable[Path], what: str) -> Path:
    for path in paths:
        return path
    raise Wrong(f"the packages have no {what}")


def unpack(packages: List[Path], kernel: Path) -> None:
    """Takes from packages what a machine needs."""
    with tempfile.TemporaryDirectory(dir=kernel.parent) as name:
        folder, unpacked = Path(name) / "made", Path(name) / "unpacked"
        folder.mkdir()
        for package in packages:
            output(["dpkg-deb", "-x", package.resolve(), unpacked], folder)
        shutil.copy(only(unpacked.rglob("vmlinuz*"), "kernel"), folder / "vmlinuz")
        for module in MODULES:
            path = only(unpacked.rglob(f"kernel/drivers/{module}.ko*"), f"module {module}")
            data = lzma.decompress(path.read_bytes()) if path.suffix == ".xz" else path.read_bytes()
            (folder / file_of(module)).write_bytes(data)
        told = version_of(["dpkg-deb", "-W", packages[0].resolve()], folder)
        (folder / "package").write_text(told, encoding="utf-8")
        folder.rename(kernel)


def kernel_of(name: str, cache: Path) -> Kernel:
    """A kernel by its version, the name of its package, or the files of its packages."""
    folder = cache / "kernels" / Path(name).name
    if not folder.is_dir():
        folder.parent.mkdir(parents=True, exist_ok=True)
        with tempfile.TemporaryDirectory(dir=cache) as there:
            unpack(fetched(name, Path(there)), folder)
    version = VERSION.search((folder / "package").read_text(encoding="utf-8"))
    return Kernel(version[1] if version else name, folder)


# The machine


@dataclass(frozen=True)
class Library:
    """The libevdev that the player is linked with."""

    archive: Path
    headers: Path
    told: str


def installed_library() -> Library:
    archive = Path(output(["gcc", f"-print-file-name={LIBRARY}"], GUEST).strip())
    if not archive.is_file():
        raise Wrong(f"{LIBRARY} is not there (Debian: libevdev-dev)")
    told = version_of(["dpkg-query", "-W", "libevdev-dev"], GUEST)
    return Library(archive, Path("/usr/include/libevdev-1.0"), told)


def library_of(package: Optional[Path], cache: Path) -> Library:
    """That of a package's file, or the one that is installed."""
    if package is None:
        return installed_library()
    if not package.is_file():
        raise Wrong(f"{package}: no such file")
    folder = cache / "libraries" / package.stem
    if not folder.is_dir():
        folder.parent.mkdir(parents=True, exist_ok=True)
        output(["dpkg-deb", "-x", package.resolve(), folder], cache)
    headers = only(folder.glob("usr/include/libevdev-*"), "headers of libevdev")
    told = version_of(["dpkg-deb", "-W", package.resolve()], cache)
    return Library(only(folder.rglob(LIBRARY), LIBRARY), headers, told)


def built_player(cache: Path, library: Library) -> Path:
    """The player, linked with libevdev."""
    sources = sorted(GUEST.glob("*.c"))
    parts = [*sources, GUEST / "guest.h", library.archive]
    key = hashlib.sha256(b"".join(path.read_bytes() for path in parts))
    player = cache / f"player-{key.hexdigest()[:16]}"
    if not player.is_file():
        cache.mkdir(parents=True, exist_ok=True)
        made = player.with_suffix(f".{os.getpid()}")
        output(["gcc", *FLAGS, "-I", library.headers, *sources, library.archive, "-s", "-o", made], cache)
        made.rename(player)
    return player


def archive(files: Dict[str, bytes], folder: Path, to: Path) -> None:
    """Adds an archive of files to what a machine has at first."""
    folder.mkdir()
    for name, data in files.items():
        (folder / name).write_bytes(data)
        (folder / name).chmod(0o755)
    for name in ("proc", "sys", "dev"):
        (folder / name).mkdir()
    made = subprocess.run("find . | cpio -o -H newc --quiet | gzip -1", shell=True, cwd=folder, check=True,
                          stdout=subprocess.PIPE)
    to.write_bytes(made.stdout)


def text_of(path: Path) -> str:
    return path.read_text(encoding="ascii", errors="replace") if path.is_file() else ""


def play(kernel: Kernel, player: Path, lines: List[str], tell: Callable[[int], None]) -> str:
    """Boots a kernel, has it play lines, and answers what it said, and tells how many records are done."""
    with tempfile.TemporaryDirectory(prefix="inputplay-kernel") as name:
        folder = Path(name)
        files = {file_of(module): (kernel.folder / file_of(module)).read_bytes() for module in MODULES}
        files.update(init=player.read_bytes(), records="".join(line + "\n" for line in lines).encode())
        archive(files, folder / "root", folder / "initrd")
        console, said, errors = folder / "console", folder / "said", folder / "errors"
        lines_of_machine = ["-serial", f"file:{console}", "-serial", f"file:{said}"]
        words = [*MACHINE, "-kernel", str(kernel.image), "-initrd", str(folder / "initrd"), *lines_of_machine]
        with errors.open("wb") as file:
            watch(subprocess.Popen(words, stdin=subprocess.DEVNULL, stdout=file, stderr=file), said, tell)
        text = text_of(said)
        if not text.endswith("all\n"):
            last = (text_of(errors) or text_of(console) or "it said nothing").strip().splitlines()[-1]
            raise Wrong(f"the machine of kernel {kernel.version} did not come to its end: {last}")
        return text


# No machine goes on where one did not come to its end, or where all is stopped.
stopped = threading.Event()


@contextmanager
def stopped_at_fault() -> Iterator[None]:
    stopped.clear()
    try:
        yield
    except BaseException:
        stopped.set()
        raise


def watch(machine: "subprocess.Popen[bytes]", said: Path, tell: Callable[[int], None]) -> None:
    """Waits for the machine's end, and tells how far it is."""
    begun = time.monotonic()
    try:
        while machine.poll() is None and time.monotonic() - begun < SECONDS and not stopped.is_set():
            tell(said.read_bytes().count(b"ended ") if said.is_file() else 0)
            time.sleep(0.5)
    finally:
        machine.kill()
        machine.wait()
