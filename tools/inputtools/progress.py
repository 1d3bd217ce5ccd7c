"""Says on a terminal what a command does and how far it is, where that takes longer than two seconds."""

import sys
import threading
import time
from typing import Optional

QUIET = 2.0
STEP = 0.5


class Progress:
    """One line on standard error, which is written over and cleared again. Where standard error is no
    terminal nothing is written."""

    def __init__(self) -> None:
        self.program, self.share = "", ""
        self.what: Optional[str] = None
        self.thread: Optional[threading.Thread] = None
        self.begun, self.is_shown = 0.0, False
        self.lock, self.is_over = threading.Lock(), threading.Event()

    def begin(self, program: str) -> None:
        self.program, self.begun = program, time.monotonic()
        self.is_over.clear()

    def tell(self, what: str, done: Optional[int] = None, total: Optional[int] = None) -> None:
        """What is done now, and how much of it."""
        self.what = what
        self.share = f" {done} of {total}" if total else ""
        if self.thread is None and sys.stderr is not None and sys.stderr.isatty():
            self.thread = threading.Thread(target=self.show_on, daemon=True)
            self.thread.start()

    def show_on(self) -> None:
        while not self.is_over.wait(STEP):
            if time.monotonic() - self.begun >= QUIET:
                self.show()

    def show(self) -> None:
        with self.lock:
            if self.what is None or self.is_over.is_set():
                return
            seconds = int(time.monotonic() - self.begun)
            sys.stderr.write(f"\r\033[K{self.program}: {self.what}{self.share} ({seconds} s)")
            sys.stderr.flush()
            self.is_shown = True

    def clear(self) -> None:
        """Takes the line away, so that another one may be written."""
        with self.lock:
            if self.is_shown:
                sys.stderr.write("\r\033[K")
                sys.stderr.flush()
            self.is_shown, self.what = False, None

    def end(self) -> None:
        self.is_over.set()
        self.clear()
        self.thread = None


progress = Progress()
