"""A checker for other people's parameter pages, by the proved library."""
from __future__ import annotations

import ctypes
from typing import Dict, NamedTuple, Optional, Tuple

from ._library import Library

#: The answer to ECh: three copies of the page.
ANSWER_LENGTH = 768

#: The rules by their first byte: how many bytes the field has, what it is, and what it should be.
PAGE_RULES: Dict[int, Tuple[int, str, str]] = {
    80: (4, "data bytes", "a power of two, at least 512"),
    92: (4, "pages a block", "a multiple of 32"),
    100: (1, "LUNs", "at least 1"),
    106: (1, "endurance multiplier", "at most 16"),
    110: (1, "programs a page", "at least 1"),
}


class WrongLength(ValueError):
    """The answer has not 768 bytes."""


class NoGoodCopy(ValueError):
    """None of the three copies has good signature and CRC."""


class BrokenRule(NamedTuple):
    """A rule that a page breaks: the field's first byte, its name, its value and what it should be."""

    byte: int
    name: str
    value: int
    should_be: str

    def __str__(self) -> str:
        return "byte %d, %s %d, should be %s" % self


class PageCheck(NamedTuple):
    """The first good copy, 0 to 2; its broken rules in byte order; its block endurance, None where the multiplier is above 16."""

    copy: int
    broken: Tuple[BrokenRule, ...]
    endurance: Optional[int]


def check_page(answer: bytes, *, library: Optional[Library] = None) -> PageCheck:
    """Checks what a part answers to ECh, 768 bytes.

    Raises WrongLength for another number of bytes, and NoGoodCopy where no copy has good signature and CRC, only then. Power-on's own limits
    are not looked at.
    """
    answer = bytes(answer)
    report = (ctypes.c_uint64 * 9)()
    found = (library or Library.found()).page_report(answer, len(answer), report, len(report))
    if found == 1:
        said = "one copy of a page; an answer to ECh has three" if len(answer) == 256 else "an answer to ECh has 768"
        raise WrongLength("%d bytes: %s" % (len(answer), said))
    if found == 2:
        raise NoGoodCopy("none of the three copies has good signature and CRC")
    copy, count, *rules = report[:7]
    page = answer[256 * copy:256 * copy + 256]
    return PageCheck(copy, tuple(_rule(page, byte) for byte in rules[:count]), report[8] if report[7] else None)


def _rule(page: bytes, byte: int) -> BrokenRule:
    width, name, should_be = PAGE_RULES[byte]
    return BrokenRule(byte, name, int.from_bytes(page[byte:byte + width], "little"), should_be)
