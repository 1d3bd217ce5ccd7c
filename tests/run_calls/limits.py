"""How many files may be open, whether descriptors leak, and a server that is stopped. Run by tools/run with
--quiet 60000 on keys.rec; it prints a line for each thing."""

import errno
import fcntl
import os
import signal
import threading
import time
from typing import List

from nodes import EVIOCGID, EVIOCREVOKE, ENODEV, NODE, error_of, opened, says, server_id

MOST_FILES, OPENS, THREADS = 64, 600, 100


def descriptor_counts(server: int) -> List[int]:
    """How many descriptors the server and this process have."""
    return [len(os.listdir(f"/proc/{process}/fd")) for process in (server, os.getpid())]


def opens_and_closes() -> None:
    for at in range(OPENS):
        node = opened()
        error_of(os.read, node, 24)
        if at % 3 == 0:
            fcntl.ioctl(node, EVIOCREVOKE, 0)
        os.close(node)


def asks_once() -> None:
    node = opened()
    fcntl.ioctl(node, EVIOCGID, bytes(8))
    os.close(node)


def leaks_nothing(server: int) -> None:
    opens_and_closes()
    before = descriptor_counts(server)
    opens_and_closes()
    for _ in range(THREADS):
        thread = threading.Thread(target=asks_once)
        thread.start()
        thread.join()
    time.sleep(0.3)
    after = descriptor_counts(server)
    says("no descriptor is left of opens and threads", all(b <= a + 1 for a, b in zip(before, after)))


def opens_many() -> None:
    nodes: List[int] = []
    while len(nodes) <= MOST_FILES:
        try:
            nodes.append(os.open(NODE, os.O_RDONLY))
        except OSError as fault:
            says("the 65th open is EMFILE", fault.errno == errno.EMFILE and len(nodes) == MOST_FILES)
            break
    for node in nodes:
        os.close(node)
    says("and they can be opened again", error_of(asks_once) == 0)


def stops_the_server(server: int) -> None:
    node = opened()
    os.kill(server, signal.SIGSTOP)
    began = time.monotonic()
    says("a server that is stopped is ENODEV", error_of(os.read, node, 24) == ENODEV)
    says("after five seconds", 4 < time.monotonic() - began < 10)
    os.kill(server, signal.SIGCONT)
    time.sleep(0.3)
    says("and it answers when it goes on", error_of(os.read, node, 24) == errno.EAGAIN)


def main() -> None:
    server = server_id()
    leaks_nothing(server)
    opens_many()
    stops_the_server(server)


main()
