"""Messages at random to the server: random_messages.py COUNT SEED, run by tools/run with --frames 1. It
drops those that are no request, answers the others, and still serves afterwards."""

import os
import random
import socket
import struct
import sys
from typing import List

from nodes import (MAGIC, MAKER, NODE, REQUEST, connection, name_of, opened, receive_descriptors, says,
                   send_descriptors)

NUMBERS = [0x40044590, 0x40044591, 0x80044501, 0x80FF4506, 0x80604518, 0x40104593, 0x80104592, 0x80404521,
           0x80004521 | 900 << 16, 0x800C450A, 0x83FF450A, 0x401845C0, 0x80184540, 0x400445A0, 0x80084503,
           0x40084503, 0x80088502, 0x80046A11, 0x80406A32, 0x84006A34, 0x5501, 0x5502, 0x405C5503, 0x401C5504,
           0x40045564, 0x40045565, 0x40045567, 0x8040552C, 0x8004552D]
PATHS = [NODE, NODE, NODE, MAKER]


class Sender:
    """Sends messages, and counts those at which the server closes the connection."""

    def __init__(self, seed: int) -> None:
        self.random, self.sent, self.dropped = random.Random(seed), 0, 0
        self.nodes = [opened(path) for path in PATHS]

    def body(self) -> bytes:
        """What stands behind a request: bytes, or often a mask's struct."""
        data = os.urandom(self.random.choice([0, 4, 8, 12, 16, 24, 48, 96, 112, 255, 900, 4096, 65536]))
        if len(data) < 16 or self.random.random() > 0.3:
            return data
        size = self.random.choice([len(data) - 16, 8, 96, 1 << 31])
        return (struct.pack("<IIQ", self.random.choice([0, 1, 2, 3, 99]), size, self.random.getrandbits(64))
                + data[16:])

    def message(self) -> bytes:
        pick, body = self.random, self.body()
        length = len(body) if pick.random() < 0.9 else pick.getrandbits(pick.choice([4, 16, 32]))
        return (REQUEST.pack(MAGIC if pick.random() < 0.97 else pick.getrandbits(32),
                             pick.choice([1, 2, 3, 4, 4, 4, 5, 0, 6]) if pick.random() < 0.9
                             else pick.getrandbits(32),
                             pick.choice([0, 0, 32, 64, -1, 5, 1 << 30]),
                             pick.choice([0, 1, 2, 2048, pick.getrandbits(32)]),
                             pick.choice(NUMBERS) if pick.random() < 0.8 else pick.getrandbits(32), length,
                             pick.choice([0, 23, 24, 96, 98304, pick.getrandbits(32)]), 0)
                + body)

    def descriptors(self) -> List[int]:
        if self.random.random() < 0.8:
            return [self.random.choice(self.nodes)]
        return ([] if self.random.random() < 0.5
                else self.random.choices([0, 1, self.nodes[0]], k=self.random.randint(1, 7)))

    def is_answered(self, line: socket.socket) -> bool:
        """Sends one message; whether the connection is still there."""
        self.sent += 1
        try:
            send_descriptors(line, self.message(), self.descriptors())
            answer, given = receive_descriptors(line, 1 << 17)
        except ConnectionError:
            answer, given = b"", []
        for descriptor in given:
            os.close(descriptor)
        self.dropped += not answer
        return bool(answer)

    def connect_once(self) -> None:
        """A few messages by one connection."""
        with connection() as line:
            for _ in range(self.random.randint(1, 6)):
                if not self.is_answered(line):
                    break
        if self.random.random() < 0.02:
            at = self.random.randrange(len(PATHS))
            os.close(self.nodes[at])
            self.nodes[at] = opened(PATHS[at])


def main() -> None:
    sender = Sender(int(sys.argv[2]))
    while sender.sent < int(sys.argv[1]):
        sender.connect_once()
    for descriptor in sender.nodes:
        os.close(descriptor)
    print(f"{sender.sent} messages, {sender.dropped} dropped")
    says(f"{NODE} is served afterwards", name_of(opened()) == b"kbd")


main()
