"""A part's numbers, and parameter pages."""
from __future__ import annotations

from dataclasses import dataclass
from typing import Iterable, List, Tuple

from . import checks

#: A parameter page's length.
PAGE_LENGTH = 256
#: Bits of the feature word (bytes 6 and 7) that the model knows.
FEATURE_MORE_LUNS, FEATURE_ANY_ORDER, FEATURE_PROGRAM_CLEAR = 1 << 1, 1 << 2, 1 << 8
#: Bits of the optional-command word (bytes 8 and 9).
OPTIONAL_FEATURES, OPTIONAL_STATUS_78H, OPTIONAL_COPYBACK, OPTIONAL_COLUMN_06H = 1 << 2, 1 << 3, 1 << 4, 1 << 6


#: Numbers of a parameter page: name, first byte, how many bytes, and the model's limits (house limits of the requirements).
FIELDS: Tuple[Tuple[str, int, int, int, int], ...] = (
    ("data bytes", 80, 4, 16, 16384),
    ("spare bytes", 84, 2, 0, 2048),
    ("pages a block", 92, 4, 1, 256),
    ("blocks a LUN", 96, 4, 1, 4096),
    ("LUNs", 100, 1, 1, 4),
    ("programs a page", 110, 1, 1, 8),
)


def _bits(n: int) -> int:
    return (n - 1).bit_length()


def fields_outside(page: bytes) -> List[str]:
    """The fields of 256 parameter bytes that make power-on answer 23, each in words."""

    def number(at: int, size: int) -> int:
        return int.from_bytes(page[at:at + size], "little")

    said = ["%s: %d, and %d to %d are taken" % (name, number(at, size), least, most)
            for name, at, size, least, most in FIELDS if not least <= number(at, size) <= most]
    if number(6, 2) & 1:
        said.append("features: bit 0, a 16-bit bus, is set, and 8 bits are taken")
    if number(100, 1) > 1 and not number(6, 2) & FEATURE_MORE_LUNS:
        said.append("LUNs: %d, and feature bit 1, more than one LUN, is clear" % number(100, 1))
    if number(101, 1) != 0x23:
        said.append("address cycles: %02Xh, and 23h, two of the column and three of the row, is taken" % number(101, 1))
    return said


@dataclass(frozen=True)
class Part:
    """How large a part is: P (data and spare bytes of a page), pages a block, blocks a LUN, LUNs, programs a page; and how
    many of P are spare."""

    page_size: int
    pages: int
    blocks: int
    luns: int
    programs: int
    spare: int = 0

    @classmethod
    def of(cls, page: bytes) -> "Part":
        """From 256 parameter bytes; nothing is checked here, power-on does that."""

        def number(first: int, last: int) -> int:
            return int.from_bytes(page[first:last + 1], "little")

        return cls(number(80, 83) + number(84, 85), number(92, 95), number(96, 99), number(100, 100), number(110, 110),
                   number(84, 85))

    @property
    def array_length(self) -> int:
        return self.luns * self.blocks * self.pages * self.page_size

    @property
    def registers_length(self) -> int:
        return self.luns * self.page_size

    @property
    def counts_length(self) -> int:
        return self.luns * self.blocks * self.pages

    @property
    def flags_length(self) -> int:
        return self.luns * self.blocks

    def row(self, lun: int, block: int = 0, page: int = 0) -> int:
        """The row address: page bits, block bits, the rest LUN. ValueError where one of the three does not exist."""
        self._look(lun, block, page)
        return (lun << _bits(self.blocks) | block) << _bits(self.pages) | page

    def lun_of(self, row: int) -> int:
        """The LUN field of a row, whether that LUN exists or not."""
        return checks.number("row", row, 0, 0xFFFFFF) >> (_bits(self.blocks) + _bits(self.pages))

    def page_number(self, lun: int, block: int, page: int) -> int:
        """Which page it is in the order of the array: LUN, block, page. ValueError where there is none."""
        self._look(lun, block, page)
        return (lun * self.blocks + block) * self.pages + page

    def page_start(self, lun: int, block: int, page: int) -> int:
        """Where the page starts in the array. ValueError where there is none."""
        return self.page_number(lun, block, page) * self.page_size

    def flags_of(self, bad: Iterable[Tuple[int, int]]) -> bytearray:
        """A flag for each block: 1 for those that are given, by LUN and block."""
        flags = bytearray(self.flags_length)
        for lun, block in bad:
            self._look(lun, block, 0)
            flags[lun * self.blocks + block] = 1
        return flags

    def marks(self, flags: Iterable[int]) -> List[Tuple[int, int]]:
        """Where the array has a block's mark, as makers put it, and the mark: the first spare byte of the block's first page is
        00h in a bad block, and FFh in a good one."""
        if self.spare == 0:
            raise ValueError("the part has no spare bytes, and so no place for a block's mark")
        size = self.pages * self.page_size
        return [(number * size + self.page_size - self.spare, 0x00 if flag else 0xFF)
                for number, flag in enumerate(flags)]

    def _look(self, lun: int, block: int, page: int) -> None:
        checks.lun(self, lun)
        checks.number("block", block, 0, self.blocks - 1)
        checks.number("page", page, 0, self.pages - 1)


def crc(message: bytes) -> int:
    """The parameter page's CRC: polynomial 8005h, start 4F4Eh, most significant bit first."""
    value = 0x4F4E
    for byte in message:
        value ^= byte << 8
        for _ in range(8):
            value = (value << 1 ^ 0x8005) & 0xFFFF if value & 0x8000 else value << 1
    return value


def parameter_page(data: int = 512, spare: int = 16, pages: int = 4, blocks: int = 8, luns: int = 2, programs: int = 4, *,
                   maker: int = 0x2C, program_clear: bool = True, features: bool = True, status_78h: bool = True,
                   column_06h: bool = True, copyback: bool = False, any_order: bool = False, more_features: int = 0,
                   more_options: int = 0) -> bytes:
    """256 parameter bytes of a part, with their CRC. What is not given is as in the worked part T1.

    With `any_order` (feature bit 2) a block's pages may be programmed in any order. Without it, as on T1, a program for
    a page below one of its block that is programmed does not proceed, and gives FAIL.

    `more_features` and `more_options` are bits of the feature and the optional-command word beside those that have a name here.
    Numbers outside the model's limits are written as they are, for power-on to refuse; those that their field can't hold raise ValueError.
    """
    for (name, _, size, _, _), value in zip(FIELDS, (data, spare, pages, blocks, luns, programs)):
        checks.number(name, value, 0, (1 << 8 * size) - 1)
    checks.byte("maker ID", maker)
    checks.number("more features", more_features, 0, 0xFFFF)
    checks.number("more options", more_options, 0, 0xFFFF)
    page = bytearray(PAGE_LENGTH)
    page[0:4] = b"ONFI"
    page[6:8] = (FEATURE_MORE_LUNS * (luns > 1) | FEATURE_ANY_ORDER * any_order | FEATURE_PROGRAM_CLEAR * program_clear
                  | more_features).to_bytes(2, "little")
    page[8:10] = (OPTIONAL_FEATURES * features | OPTIONAL_STATUS_78H * status_78h | OPTIONAL_COPYBACK * copyback
                  | OPTIONAL_COLUMN_06H * column_06h | more_options).to_bytes(2, "little")
    page[64] = maker
    page[80:84] = data.to_bytes(4, "little")
    page[84:86] = spare.to_bytes(2, "little")
    page[92:96] = pages.to_bytes(4, "little")
    page[96:100] = blocks.to_bytes(4, "little")
    page[100] = luns
    page[101] = 0x23                    # two column cycles, three row cycles
    page[110] = programs
    page[254:256] = crc(page[:254]).to_bytes(2, "little")
    return bytes(page)
