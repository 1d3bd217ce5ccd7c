"""What other tools make of an exported device and its events. Who a device is, and what they are handed, is
in tests/transcripts/identity.txt."""

import ctypes
import os
import re
import select
import subprocess
import tty

from tests.desk_cases import DATA, DeskCase, raw_events
from tests.playing import needs

from inputtools.names import number_of_code, number_of_kind


class RealTools(DeskCase):
    """What is exported is played by the tools that it is written for."""

    def setUp(self) -> None:
        super().setUp()
        words = [DATA / "touchpad.evtest", "--identity", DATA / "touchpad.udevadm", "--to", "0.2"]
        text = self.written("record", *words)
        record = self.file("touchpad.rec", text)
        self.evemu = self.file("touchpad.evemu", self.written("export", record, "--evemu"))
        self.devices = self.file("touchpad.umockdev", self.written("export", record, "--umockdev"))
        lines = [line.split() for line in text.splitlines() if line.startswith("do driver event ")]
        kinds = ((number_of_kind(kind) or 0, code, int(value)) for *_, kind, code, value in lines)
        self.events = [(kind, number_of_code(kind, code), value) for kind, code, value in kinds]

    def assert_played(self, data: bytes) -> None:
        self.assertEqual(self.events, [event[1:] for event in raw_events(data)])

    def test_evemu_play(self) -> None:
        """It plays into a terminal of our own, which is a character device as an event node is."""
        needs(self, "evemu-play", "evemu-tools")
        ours, theirs = os.openpty()
        tty.setraw(theirs)
        data = b""
        words = ["evemu-play", os.ttyname(theirs)]
        with open(self.evemu, "rb") as file, subprocess.Popen(words, stdin=file) as play:
            while len(data) < 24 * len(self.events) and select.select([ours], [], [], 10)[0]:
                data += os.read(ours, 65536)
        os.close(ours)
        os.close(theirs)
        self.assertEqual(0, play.returncode)
        self.assert_played(data)

    def test_evemu_describes_the_device_as_it_did(self) -> None:
        """The library of evemu-describe reads the file, and writes what that tool writes of the device."""
        needs(self, "evemu-describe", "evemu-tools")
        evemu, libc = ctypes.CDLL("libevemu.so.3"), ctypes.CDLL(None)
        for function in (evemu.evemu_new, libc.fopen):
            function.restype = ctypes.c_void_p
        device, written = ctypes.c_void_p(evemu.evemu_new(None)), self.folder / "written"
        for path, mode, take in ((self.evemu, b"r", evemu.evemu_read), (written, b"w", evemu.evemu_write)):
            file = ctypes.c_void_p(libc.fopen(bytes(path), mode))
            self.assertGreaterEqual(take(device, file), 0)
            libc.fclose(file)
        kept = [[line for line in path.read_text().splitlines() if line[:2] in ("N:", "I:", "P:", "B:", "A:")]
                for path in (DATA / "touchpad.evemu", written)]
        # (fuzz is applied already, and is written as 0)
        self.assertEqual([re.sub("^(A: .. .*) 8 0 31$", r"\1 0 0 31", line) for line in kept[0]], kept[1])

    def test_umockdev_plays_the_events(self) -> None:
        needs(self, "umockdev-run", "umockdev")
        words = ["umockdev-run", "-d", self.devices, "-e", f"/dev/input/event0={self.evemu}", "--"]
        words += ["head", "-c", str(24 * len(self.events)), "/dev/input/event0"]
        done = subprocess.run(words, capture_output=True, timeout=300, check=False)
        self.assert_played(done.stdout)

    def test_umockdev_udevadm_and_libinput_take_it(self) -> None:
        """They know the device by its name and ids, as libinput's quirks do."""
        needs(self, "umockdev-run", "umockdev")
        for package, words, wanted in (
            ("coreutils", ["cat", "/sys/class/input/event0/device/name"], ["ETPS/2 Elantech Touchpad"]),
            ("udev", ["udevadm", "info", "-q", "property", "/dev/input/event0"],
             ["DEVNAME=/dev/input/event0", "ID_INPUT_TOUCHPAD=1", "ID_INPUT_WIDTH_MM=98"]),
            ("libinput-tools", ["libinput", "quirks", "list", "/dev/input/event0"], ["AttrPressureRange="]),
        ):
            with self.subTest(words[0]):
                needs(self, words[0], package)
                words = ["umockdev-run", "-d", self.devices, "--", *words]
                done = subprocess.run(words, capture_output=True, text=True, timeout=300, check=False)
                missing = [line for line in wanted if line not in done.stdout]
                self.assertEqual((0, []), (done.returncode, missing), done.stderr)
