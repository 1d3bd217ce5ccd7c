"""What the programs of this folder share that read nodes, and talk to the server past the shim."""

import array
import errno
import fcntl
import os
import select
import socket
import struct
from typing import Callable, List, Sequence, Tuple

NODE, MAKER, FLAGS = "/dev/input/event0", "/dev/uinput", os.O_RDWR | os.O_NONBLOCK
EVENT_BYTES = 24
EVIOCGRAB, EVIOCREVOKE, EVIOCGNAME, EVIOCGID = 0x40044590, 0x40044591, 0x80FF4506, 0x80084502

# The protocol of run/protocol.h.
MAGIC, REQUEST = 0x31504E49, struct.Struct("<IIiIIIII")
OPEN, READ, WRITE, IOCTL, WAIT = 1, 2, 3, 4, 5


def says(what: str, is_so: bool) -> None:
    """A line that the test counts."""
    print("ok  " if is_so else "bad ", what, flush=True)


def error_of(call: Callable[..., object], *words: object) -> int:
    """The errno of a call, or 0 where it fails not."""
    try:
        call(*words)
    except OSError as fault:
        return fault.errno or -1
    return 0


def opened(path: str = NODE) -> int:
    return os.open(path, FLAGS)


def grab_error(descriptor: int, is_taken: bool) -> int:
    return error_of(fcntl.ioctl, descriptor, EVIOCGRAB, int(is_taken))


def name_of(descriptor: int) -> bytes:
    return bytes(fcntl.ioctl(descriptor, EVIOCGNAME, bytes(255))).split(b"\0")[0]


def read_count(descriptor: int) -> int:
    """How many events are read at once; 0 where none is there."""
    try:
        return len(os.read(descriptor, EVENT_BYTES * 64)) // EVENT_BYTES
    except BlockingIOError:
        return 0


def is_ready(descriptor: int, seconds: float = 5) -> bool:
    return bool(select.select([descriptor], [], [], seconds)[0])


def send_descriptors(to: socket.socket, data: bytes, descriptors: Sequence[int]) -> None:
    rights = [(socket.SOL_SOCKET, socket.SCM_RIGHTS, array.array("i", descriptors))] if descriptors else []
    to.sendmsg([data], rights)


def receive_descriptors(come_from: socket.socket, length: int) -> Tuple[bytes, List[int]]:
    data, parts, _, _ = come_from.recvmsg(length, socket.CMSG_SPACE(4 * 4))
    found = array.array("i")
    for level, kind, content in parts:
        if level == socket.SOL_SOCKET and kind == socket.SCM_RIGHTS:
            found.frombytes(content[: len(content) - len(content) % found.itemsize])
    return data, list(found)


def connection() -> socket.socket:
    """A connection to the server, as the shim has one."""
    line = socket.socket(socket.AF_UNIX, socket.SOCK_SEQPACKET)
    line.connect(os.path.join(os.environ["INPUTPLAY_RUN_FOLDER"], "socket"))
    line.settimeout(5)
    return line


def server_id() -> int:
    with connection() as line:
        process, _, _ = struct.unpack("3i", line.getsockopt(socket.SOL_SOCKET, socket.SO_PEERCRED, 12))
    return int(process)


def request(kind: int, node: int = 0, length: int = 0) -> bytes:
    return REQUEST.pack(MAGIC, kind, node, 0, 0, length, 0, 0)


def answer_to(message: bytes, descriptors: Sequence[int] = ()) -> bytes:
    """What the server answers to a message; nothing where it closes the connection."""
    with connection() as line:
        send_descriptors(line, message, descriptors)
        try:
            return line.recv(65536)
        except ConnectionError:
            return b""


def result_of(answer: bytes) -> int:
    return int(struct.unpack("<i", answer[:4])[0])


ENODEV, ENOENT, EBUSY = errno.ENODEV, errno.ENOENT, errno.EBUSY
