"""What is raised where a call of the library is refused."""

from enum import IntEnum


class Status(IntEnum):
    """What a call of the library answers."""

    OK = 0
    REFUSED = 1
    BAD_ARGUMENT = 2
    BAD_STREAM = 3
    NO_MEMORY = 5
    TOO_LONG = 7
    BAD_HANDLE = 8
    IN_USE = 9


class Cause(IntEnum):
    """Why a line of a record is refused."""

    NOT_TEXT = 1
    BAD_HEADER = 2
    BAD_LINE = 3
    OUT_OF_PLACE = 4
    NO_ACTOR = 5
    BAD_COMMAND = 6
    BAD_WORD = 7
    TWICE = 8
    TOO_MANY = 9
    BAD_CODE = 10
    BAD_AXIS = 11
    BAD_SLOTS = 12
    BAD_HINT = 13
    BAD_LOG = 14
    BAD_OFFSET = 15
    BAD_FILTER = 16
    BAD_STREAM = 17


class Why(IntEnum):
    """Why a step was refused."""

    BAD_CLIENT = 1
    NO_DEVICE = 2
    BAD_KIND = 3
    BAD_CODE = 4
    BAD_INFO = 5
    BUSY = 6
    NOT_GRABBER = 7
    TOO_MANY = 8
    LOG_FULL = 9
    NO_MEMORY = 10


def words_of(number: IntEnum) -> str:
    """The name of a number of these, in words."""
    return number.name.lower().replace("_", "-")


class InputplayError(Exception):
    """A call of the library was refused."""


class CallRefused(InputplayError):
    """A call was refused with this status."""

    def __init__(self, status: int):
        self.status = Status(status)
        super().__init__(words_of(self.status))


class RefusedRecord(InputplayError):
    """A text is no record: the first line that has no meaning, and why."""

    def __init__(self, line: int, cause: int):
        self.line, self.cause = line, Cause(cause)
        super().__init__(f"line {line}: {words_of(self.cause)}")


class RefusedDescription(InputplayError):
    """No device has such a description, and why."""

    def __init__(self, cause: int):
        self.cause = Cause(cause)
        super().__init__(words_of(self.cause))


class StepRefused(InputplayError):
    """A device refused a step: why, and how long its history is."""

    def __init__(self, why: int, at: int):
        self.why, self.at = Why(why), at
        super().__init__(words_of(self.why))


def check(status: int) -> None:
    """Raises where a call was refused."""
    if status == Status.NO_MEMORY:
        raise MemoryError("out of memory")
    if status != Status.OK:
        raise CallRefused(status)
