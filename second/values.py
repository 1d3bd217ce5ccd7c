"""The values that the parts of the second program hand to one another, all of them plain tuples."""

from typing import Any, Callable, List, Optional, Tuple

# A type, a code and a value.
Event = Tuple[int, int, int]

# An event in a queue, with its time and the place of its step.
Item = Tuple[Event, int, int]

# A step, by its name and its words, and the reply to one; and a reply with what was written beside it.
Step = Tuple[Any, ...]
Reply = Tuple[Any, ...]
Answer = Tuple[Reply, Any]
Words = List[Any]

# The events of a file of a stream, each with its moment, by the file's name and the form of its records.
Streams = Callable[[str, str], List[Tuple[int, Event]]]

# What a reader hands out, by its kind; and a joystick's record: milliseconds, value, type and number.
HandedOut = Tuple[Any, ...]
JoyRecord = Tuple[int, int, int, int]

# What an owner's call takes, or None where it is refused, with the history's length.
Fed = Tuple[int, Optional[List[Event]]]
