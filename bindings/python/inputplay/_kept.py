"""What the library keeps for a program."""

from ctypes import byref
from typing import TypeVar

from ._library import Handle, library

K = TypeVar("K", bound="Kept")


class Kept:
    """What the library keeps for a program, freed at the end of a `with` or of its life.

    It may go from thread to thread, and is used by one call at a time: threads that share one take a lock for each call.
    """

    def __init__(self) -> None:
        self._handle = Handle()

    def close(self) -> None:
        """Gives back what is kept. A second time does nothing."""
        library.inputplay_free(byref(self._handle))

    @property
    def closed(self) -> bool:
        """Whether nothing is kept."""
        return not self._handle.kind

    def __enter__(self: K) -> K:
        return self

    def __exit__(self, *_why: object) -> None:
        self.close()

    def __del__(self) -> None:
        if getattr(self, "_handle", None) is not None:
            self.close()
