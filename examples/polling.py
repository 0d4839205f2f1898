#!/usr/bin/env python3
"""A loader that polls, as ONFI drivers do: after 30h it asks 70h until the part is ready, and then it sends 00h with no
address and reads on.

    python3 examples/polling.py                (after tools/build-host)

70h ends the output that was open, and the part keeps it behind the status. A bare 00h is an open sequence until its
data out, so the 00h is sent only where data follows: a driver that ends every poll with 00h has its next command
refused.
"""
import sys
from pathlib import Path

sys.path.insert(0, str(Path(__file__).resolve().parent.parent / "python"))

from nibtoggle import Bench  # noqa: E402

READ, START_READ, CHANGE_COLUMN, START_OUTPUT, STATUS, PARAMETERS = 0x00, 0x30, 0x05, 0xE0, 0x70, 0xEC
READY = 0x40


class Loader:
    """Four kinds of bus cycles, and nothing of the model: a Bench has them, and so may a board of your own."""

    def __init__(self, bus: Bench) -> None:
        self.bus = bus
        self.polls = 0

    def wait(self) -> None:
        """70h until the part is ready. What was open before is kept behind the status."""
        for self.polls in range(1, 1001):
            self.bus.command(STATUS)
            if self.bus.read(1)[0] & READY:
                return
        raise TimeoutError("the part does not get ready")

    def read(self, row: int, column: int, count: int) -> bytes:
        self.bus.command(READ)
        self.bus.address(*column.to_bytes(2, "little"), *row.to_bytes(3, "little"))
        self.bus.command(START_READ)
        self.wait()
        self.bus.command(READ)                  # no address: on with the page, at its next byte
        return self.bus.read(count)

    def parameters(self, copy: int, count: int) -> bytes:
        self.bus.command(PARAMETERS)
        self.bus.address(0x00)
        self.wait()
        # with the parameter page open, or kept behind 70h, 05h moves within its 768 bytes
        self.bus.command(CHANGE_COLUMN)
        self.bus.address(*(256 * copy).to_bytes(2, "little"))
        self.bus.command(START_OUTPUT)
        return self.bus.read(count)


bench = Bench.t1(autofinish=3)                  # a LUN that works finishes after three polls
bench.reset()
bench.program(1, 5, 3, b"sonar preset")

loader = Loader(bench)
seen = loader.read(bench.part.row(1, 5, 3), 0, 12)
print("LUN 1, block 5, page 3, after %d polls: %s" % (loader.polls, seen.decode()))
assert (loader.polls, seen) == (4, b"sonar preset")
seen = loader.parameters(2, 4)
print("parameter page, copy 2: %s" % seen.decode())
assert seen == b"ONFI"

# The same with the bench's own words. `finish` says when the LUN is let finish; without `autofinish` nothing else does.
bench.autofinish = None
bench.load(1, 5, 3, column=6)
status = bench.poll(finish=lambda polls: polls == 2)
print("%r, and on: %s" % (status, bench.resume(6).decode()))
