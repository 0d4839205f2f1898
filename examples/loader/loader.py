"""A loader to start from. It saves the presets of several stations, one LUN each, at the same time, into a part that it
knows nothing of: it asks the part how large it is, skips the blocks that the maker marked bad, looks for free ones,
programs the LUNs one while the other works, polls until each is ready, goes to another block where a program failed, and
reads back what it saved.

It drives the part by four kinds of bus cycles, those of `Bus`. A Bench of nibtoggle has them; a board of your own may.

    python3 examples/loader/loader.py        # on the model: two stations, three bad blocks, LUNs that take three polls
"""
from __future__ import annotations

import sys
from pathlib import Path
from typing import Dict, Iterator, Mapping, Protocol

RESET, READ, START_READ, CHANGE_COLUMN, START_OUTPUT = 0xFF, 0x00, 0x30, 0x05, 0xE0
PROGRAM, START_PROGRAM, STATUS_OF_LUN, PARAMETERS, SET_FEATURE = 0x80, 0x10, 0x78, 0xEC, 0xEF
READY, FAIL = 0x40, 0x01
PROGRAM_CLEAR = 1 << 8          # of the feature word: 80h may clear the addressed LUN's register alone
POLLS = 1000                    # no LUN takes longer


class Bus(Protocol):
    """The cycles that the loader needs. What a part can't refuse, a bench can: it then raises."""

    def command(self, value: int) -> object: ...
    def address(self, *values: int) -> object: ...
    def write(self, data: bytes) -> object: ...
    def read(self, count: int) -> bytes: ...


class LoaderError(Exception):
    """What the loader was asked for can't be had of this part."""


class Loader:
    def __init__(self, bus: Bus) -> None:
        self.bus = bus
        bus.command(RESET)
        page = self._parameter_page()

        def number(first: int, size: int) -> int:
            return int.from_bytes(page[first:first + size], "little")

        self.data_bytes, self.spare_bytes = number(80, 4), number(84, 2)
        self.pages, self.blocks, self.luns = number(92, 4), number(96, 4), number(100, 1)
        self.page_bits, self.block_bits = (self.pages - 1).bit_length(), (self.blocks - 1).bit_length()
        if number(6, 2) & PROGRAM_CLEAR:
            bus.command(SET_FEATURE)
            bus.address(0x01)
            bus.write(b"\x40\0\0\0")

    def _parameter_page(self) -> bytes:
        """The first of the part's three copies that is signed and whose CRC is right."""
        self.bus.command(PARAMETERS)
        self.bus.address(0x00)
        for _ in range(3):
            page = self.bus.read(256)
            if page[:4] == b"ONFI" and _crc(page[:254]) == int.from_bytes(page[254:], "little"):
                return page
        raise LoaderError("no copy of the parameter page is whole")

    # ---- places and cycles

    def _address(self, lun: int, block: int, page: int, column: int) -> None:
        row = (lun << self.block_bits | block) << self.page_bits | page
        self.bus.address(*column.to_bytes(2, "little"), *row.to_bytes(3, "little"))

    def status(self, lun: int) -> int:
        self.bus.command(STATUS_OF_LUN)
        self.bus.address(*(lun << self.block_bits + self.page_bits).to_bytes(3, "little"))
        return self.bus.read(1)[0]

    def wait(self, lun: int) -> bool:
        """Polls until the LUN is ready. Whether its work was done."""
        for _ in range(POLLS):
            status = self.status(lun)
            if status & READY:
                return not status & FAIL
        raise LoaderError("LUN %d does not get ready" % lun)

    def read(self, lun: int, block: int, page: int, column: int, count: int) -> bytes:
        self.bus.command(READ)
        self._address(lun, block, page, column)
        self.bus.command(START_READ)
        self.wait(lun)
        # the polls ended the output: it is opened again, on the LUN that they named last
        self.bus.command(CHANGE_COLUMN)
        self.bus.address(*column.to_bytes(2, "little"))
        self.bus.command(START_OUTPUT)
        return self.bus.read(count)

    def start_program(self, lun: int, block: int, page: int, data: bytes) -> None:
        """Leaves the LUN working."""
        self.bus.command(PROGRAM)
        self._address(lun, block, page, 0)
        self.bus.write(data)
        self.bus.command(START_PROGRAM)

    # ---- blocks

    def is_bad(self, lun: int, block: int) -> bool:
        """The maker marks a bad block by 00h in the first spare byte of its first page."""
        return self.spare_bytes > 0 and self.read(lun, block, 0, self.data_bytes, 1) == b"\0"

    def is_free(self, lun: int, block: int) -> bool:
        """No page of it is written: many parts take a block's pages upward only, and fail a program below one."""
        erased = b"\xFF" * self.data_bytes
        return all(self.read(lun, block, page, 0, self.data_bytes) == erased for page in range(self.pages))

    def free_blocks(self, lun: int) -> Iterator[int]:
        return (block for block in range(self.blocks) if not self.is_bad(lun, block) and self.is_free(lun, block))

    def _next_free(self, lun: int, free: Iterator[int]) -> int:
        for block in free:
            return block
        raise LoaderError("LUN %d has no free block" % lun)

    # ---- what it is for

    def save(self, presets: Mapping[int, bytes]) -> Dict[int, int]:
        """Each LUN's preset into the first page of a free block of it. The block that it went to, by LUN."""
        for lun, preset in presets.items():
            if not (0 <= lun < self.luns and 0 < len(preset) <= self.data_bytes):
                raise LoaderError("LUN %d takes no preset of %d bytes" % (lun, len(preset)))
        free = {lun: self.free_blocks(lun) for lun in presets}
        saved: Dict[int, int] = {}
        left = dict(presets)
        while left:
            places = {lun: self._next_free(lun, free[lun]) for lun in left}
            for lun, block in places.items():
                self.start_program(lun, block, 0, left[lun])
            for lun, block in places.items():
                # a program that failed may have spoilt its block: the preset goes to the next one
                if self.wait(lun):
                    del left[lun]
                    saved[lun] = block
        for lun, preset in presets.items():
            if self.read(lun, saved[lun], 0, 0, len(preset)) != preset:
                raise LoaderError("LUN %d, block %d: what is read is not what was saved" % (lun, saved[lun]))
        return saved


def _crc(message: bytes) -> int:
    value = 0x4F4E
    for byte in message:
        value ^= byte << 8
        for _ in range(8):
            value = (value << 1 ^ 0x8005) & 0xFFFF if value & 0x8000 else value << 1
    return value


def main() -> None:
    sys.path.insert(0, str(Path(__file__).resolve().parent.parent.parent / "python"))
    from nibtoggle import Bench
    bench = Bench.t1(bad=[(0, 0), (1, 0), (1, 1)], marks=True, autofinish=3)
    saved = Loader(bench).save({0: b"sonar A", 1: b"sonar B"})
    for lun, block in saved.items():
        print("LUN %d: block %d has %s" % (lun, block, bytes(bench.page_of(lun, block, 0)[:7]).decode()))


if __name__ == "__main__":
    main()
