"""Several processes on one device: fork, exec, a descriptor that is handed on, a program that is killed,
rubbish, and a server that goes. Run by tools/run with --frames 1 on keys.rec; it prints a line for each
thing."""

import fcntl
import os
import select
import signal
import socket
import subprocess
import sys
import threading
import time

from nodes import (EBUSY, ENODEV, ENOENT, EVENT_BYTES, EVIOCGNAME, EVIOCREVOKE, NODE, FLAGS, READ, WAIT,
                   answer_to, connection, error_of, grab_error, is_ready, name_of, opened, read_count,
                   request, result_of, says, send_descriptors, server_id)

RECEIVER = """
import os, select, socket, sys
sys.path.insert(0, {folder!r})
from nodes import grab_error, read_count, receive_descriptors
line = socket.socket(fileno={number})
descriptor = receive_descriptors(line, 1)[1][0]
grab_error(descriptor, True)
select.select([descriptor], [], [])
line.send(b"%d" % read_count(descriptor))
line.recv(1)
os.kill(os.getpid(), 9)
"""


def forks(one: int) -> int:
    """A child has the same open file. Gives a second open file."""
    child = os.fork()
    if child == 0:
        os._exit(0 if grab_error(one, True) == 0 and name_of(one) == b"kbd" else 1)
    says("a forked child uses it", os.waitpid(child, 0)[1] == 0)
    two = opened()
    says("the grab is of the open file, not of the child that has gone", grab_error(two, True) == EBUSY)
    copy = os.dup(one)
    os.close(one)
    says("a copy keeps the grab", grab_error(two, True) == EBUSY)
    os.close(copy)
    says("the last copy frees it", grab_error(two, True) == 0 and grab_error(two, False) == 0)
    return two


def execs(two: int) -> None:
    os.set_inheritable(two, True)
    asks = f"fcntl.ioctl({two}, {EVIOCGNAME}, bytes(255))[:3], os.fstat({two}).st_rdev"
    words = [sys.executable, "-c", f"import fcntl, os; print({asks})"]
    told = subprocess.run(words, close_fds=False, stdout=subprocess.PIPE, text=True, check=False).stdout
    says("a program after exec uses it", told == f"b'kbd' {os.makedev(13, 64)}\n")


def hands_on(two: int) -> None:
    """Another program is handed an open file by a message, grabs, reads, and is killed."""
    ours, theirs = socket.socketpair(socket.AF_UNIX, socket.SOCK_STREAM)
    program = RECEIVER.format(folder=os.path.dirname(os.path.abspath(__file__)), number=theirs.fileno())
    other = subprocess.Popen([sys.executable, "-B", "-c", program], pass_fds=[theirs.fileno()])
    three = opened()
    send_descriptors(ours, b"x", [three])
    os.close(three)
    got = b""
    while not got:  # (frames come where all wait, so this process has to say so too)
        if select.select([two, ours], [], [], 5)[0] and read_count(two) == 0:
            got = ours.recv(9)
    says("a program that was handed it reads events", int(got) >= 2)
    says("and has the grab", grab_error(two, True) == EBUSY)
    ours.send(b"y")
    other.wait()
    says("it was killed, and its client is closed",
         grab_error(two, True) == 0 and grab_error(two, False) == 0)


def revokes() -> None:
    four = opened()
    is_first = error_of(fcntl.ioctl, four, EVIOCREVOKE, 0) == 0
    says("revoked: ENODEV from then on",
         is_first and error_of(os.read, four, 24) == ENODEV
         and error_of(fcntl.ioctl, four, EVIOCREVOKE, 0) == ENODEV
         and os.fstat(four).st_rdev == os.makedev(13, 64))
    poll = select.poll()
    poll.register(four, select.POLLIN)
    says("revoked: POLLHUP and POLLERR",
         poll.poll(0)[0][1] & (select.POLLHUP | select.POLLERR) == select.POLLHUP | select.POLLERR)
    os.close(four)


def sends_rubbish(two: int) -> None:
    rubbish = [b"x", bytes(32), os.urandom(31), request(99), request(READ, 0, 7), request(4)[:20],
               request(WAIT) + b"more", request(READ) + bytes(90000), os.urandom(50000)]
    says("rubbish is dropped",
         all(answer_to(message) == b"" for message in rubbish) and answer_to(request(READ), [0, 1, 2]) == b"")
    says("a node that is none, a descriptor that is none",
         result_of(answer_to(request(1, 5))) == -ENOENT and result_of(answer_to(request(1, -1))) == -ENOENT
         and result_of(answer_to(request(1, 1 << 30))) == -ENOENT
         and result_of(answer_to(request(READ), [0])) == -ENODEV)
    idle = [connection() for _ in range(200)]
    says("two hundred connections that say nothing are in nobody's way", name_of(two) == b"kbd")
    for line in idle:
        line.close()
    socket.socket(fileno=os.dup(two)).send(b"rubbish on the node's own pair")
    says("nor is what is sent past the shim", name_of(two) == b"kbd")
    mode = os.stat(os.path.join(os.environ["INPUTPLAY_RUN_FOLDER"], "socket")).st_mode & 0o777
    says("the socket is the user's alone", mode == 0o600)


def asks_by_threads(two: int) -> None:
    right = []

    def ask() -> None:
        right.append(all(name_of(two) == b"kbd" for _ in range(200)))

    threads = [threading.Thread(target=ask) for _ in range(4)]
    for thread in threads:
        thread.start()
    for thread in threads:
        thread.join()
    says("four threads ask at once", right == [True] * 4)


def ends_with_the_server(two: int) -> None:
    os.set_blocking(two, True)
    others = [opened() for _ in range(3)]
    threading.Timer(0.3, os.kill, (server_id(), signal.SIGKILL)).start()
    began, last = time.monotonic(), 0
    while not last:  # (it blocks once the record is over)
        last = error_of(os.read, two, EVENT_BYTES * 64)
    says("the server was killed: a read that blocks is ENODEV",
         last == ENODEV and time.monotonic() - began < 5)
    says("so are others",
         error_of(os.read, others[0], 24) == ENODEV and grab_error(others[1], True) == ENODEV
         and error_of(os.open, NODE, FLAGS) == ENODEV and os.fstat(two).st_rdev == os.makedev(13, 64))
    says("and select has them ready", is_ready(others[2]))


def main() -> None:
    one = opened()
    says("the lowest number is taken", one == 3)
    two = forks(one)
    execs(two)
    hands_on(two)
    revokes()
    sends_rubbish(two)
    asks_by_threads(two)
    ends_with_the_server(two)


main()
