"""Looks at the numbers that a caller gives. What is outside its range raises ValueError, by name, before anything is sent."""
from __future__ import annotations

import operator
from typing import TYPE_CHECKING, Iterable, Optional, Union

if TYPE_CHECKING:
    from .part import Part


def number(name: str, value: int, least: int, most: int) -> int:
    """`value`, from `least` to `most`. What is no whole number at all is a TypeError."""
    try:
        whole = operator.index(value)
    except TypeError:
        raise TypeError("%s is a whole number, and %r is none" % (name, value)) from None
    if most < least:
        raise ValueError("there is no %s: power-on was refused" % name)
    if not least <= whole <= most:
        raise ValueError("%s is %d to %d, and %d was given" % (name, least, most, whole))
    return whole


def byte(name: str, value: int) -> int:
    return number(name, value, 0, 255)


def flag(name: str, value: int) -> bool:
    return number(name, value, 0, 1) == 1


def data(value: Union[bytes, bytearray, memoryview, Iterable[int]]) -> bytes:
    """Bytes, or numbers that are bytes. One number alone would be so many bytes of 00h, which nobody means."""
    if isinstance(value, (int, str)):
        raise TypeError("data is bytes, and %r is none" % (value,))
    return bytes(value)


def count(name: str, value: int) -> int:
    """How many cycles; whether there is something for each is the part's to answer."""
    return number(name, value, 0, 1 << 40)


def lun(part: Part, value: int) -> int:
    return number("LUN", value, 0, part.luns - 1)


def column(part: Part, value: int) -> int:
    return number("column", value, 0, part.page_size - 1)


def row(part: Part, lun: Optional[int], block: Optional[int], page: Optional[int], row: Optional[int]) -> int:
    """The row of a page that exists; or `row` as it was given, whether it exists or not, and then nothing else of the place."""
    if row is not None:
        if not lun is block is page is None:
            raise TypeError("row= stands for LUN, block and page: give it alone")
        return number("row", row, 0, 0xFFFFFF)
    if lun is None or block is None or page is None:
        raise TypeError("LUN, block and page are wanted, or row=")
    return part.row(lun, block, page)
