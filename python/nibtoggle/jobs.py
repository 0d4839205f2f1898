"""Whole jobs as records, and records as jobs, by the proved library: nobody puts cycles together by hand.

    from nibtoggle.jobs import Job, group, records

    trace = records(Job("program", row=55, column=0x20F, data=b"<")) + records(Job("status", row=32, count=1))
    assert [job.kind for job in group(trace).jobs] == ["program", "status"]

Rows and columns are plain numbers (`Part.row` gives a row), and a part's size is not looked at but by `told`.
"""
from __future__ import annotations

import ctypes
from dataclasses import dataclass
from typing import Iterator, List, NamedTuple, Optional, Tuple, Union

from . import checks
from ._library import Library
from .part import Part

#: The five jobs, each at its number less one.
KINDS = ("read", "read-out", "program", "erase", "status")

_END, _MISFIT = 0, 6
_NO_SUCH, _TOO_WIDE, _TOO_SMALL = 0, 1, 2
_NO_MISFIT = (1 << 64) - 1
_FIXED = {"read": 14, "read-out": 14, "program": 14, "erase": 10, "status": 8}


@dataclass(frozen=True)
class Job:
    """A job: 'read', 'read-out', 'program', 'erase' or 'status'.

    `count` is the number of data-out cycles of a read-out or a status, `data` the bytes of a program. What a job does not have
    stays as it is here.
    """

    kind: str
    row: int
    column: int = 0
    count: int = 0
    data: bytes = b""

    @property
    def cycles(self) -> int:
        """Data cycles: in for a program, out for a read-out or a status."""
        return len(self.data) if self.kind == "program" else self.count

    def __str__(self) -> str:
        words = "%s row %d" % (self.kind, self.row)
        if self.kind in ("read", "read-out", "program"):
            words += ", column %d" % self.column
        if self.kind in ("read-out", "program", "status"):
            words += ", %d byte%s" % (self.cycles, "" if self.cycles == 1 else "s")
        return words


class Whole(NamedTuple):
    """A job that was found at a place, and the place after it."""

    job: Job
    next: int


class Misfit(NamedTuple):
    """The first record that doesn't fit, or the place after the last where the list stops inside a job."""

    place: int


class Grouped(NamedTuple):
    """The whole jobs at the front of a list of records, and the misfit that ended it, or None where the list is whole jobs."""

    jobs: List[Job]
    misfit: Optional[int]


def records(job: Job, library: Optional[Library] = None) -> bytes:
    """The job's records. ValueError where the row has more than 24 bits or the column more than 16."""
    if job.kind not in KINDS:
        raise ValueError("%r is none of the jobs: %s" % (job.kind, ", ".join(KINDS)))
    if not 0 <= job.row <= _NO_MISFIT or not 0 <= job.column <= _NO_MISFIT:
        raise ValueError(_too_wide(job))
    if job.count < 0:
        raise ValueError("a count of %d data cycles" % job.count)
    takes_data, gives_data = job.kind == "program", job.kind in ("read-out", "status")
    data = checks.data(job.data) if takes_data else b""
    length = _FIXED[job.kind] + 2 * (len(data) if takes_data else job.count if gives_data else 0)
    room = ctypes.create_string_buffer(length)
    answer = (library or Library.found()).job_write(
        KINDS.index(job.kind) + 1, job.column, job.row, job.count if gives_data else 0, data, len(data), room, length)
    if answer == _TOO_WIDE:
        raise ValueError(_too_wide(job))
    if answer != length:
        raise AssertionError("%s: the library answers %d for a room of %d" % (job, answer, length))
    return room.raw


def _too_wide(job: Job) -> str:
    return "row %d has more than 24 bits or column %d more than 16" % (job.row, job.column)


def job_at(trace: bytes, at: int, library: Optional[Library] = None) -> Union[Whole, Misfit, None]:
    """What stands at record number `at`: a whole job, a misfit, or None where the list has no record there."""
    if at < 0:
        raise ValueError("record number %d" % at)
    trace = bytes(trace)
    numbers = (ctypes.c_size_t * 6)()
    kind = (library or Library.found()).job_read(trace, len(trace), min(at, _NO_MISFIT), numbers, 6)
    if kind == _END:
        return None
    _, column, row, count, place, after = numbers
    if kind == _MISFIT:
        return Misfit(after)
    name = KINDS[kind - 1]
    if name == "program":
        return Whole(Job(name, row, column, 0, bytes(trace[2 * place + 1:2 * (place + count):2])), after)
    return Whole(Job(name, row, column, count), after)


def group(trace: bytes, library: Optional[Library] = None) -> Grouped:
    """A list of records as jobs, up to its end or its first misfit."""
    found: List[Job] = []
    trace, at = bytes(trace), 0
    while True:
        here = job_at(trace, at, library)
        if here is None:
            return Grouped(found, None)
        if isinstance(here, Misfit):
            return Grouped(found, here.place)
        found.append(here.job)
        at = here.next


def first_misfit(trace: bytes, library: Optional[Library] = None) -> Optional[int]:
    """The place of the first record that doesn't fit, or None where the list is whole jobs."""
    trace = bytes(trace)
    place = (library or Library.found()).job_misfit(trace, len(trace))
    return None if place == _NO_MISFIT else place


def sizes(part: Optional[Part]) -> Tuple[int, int, int, int]:
    """A part as the library's functions of words take it; zeros for none."""
    return (part.luns, part.blocks, part.pages, part.page_size) if part is not None else (0, 0, 0, 0)


def told(trace: bytes, part: Optional[Part] = None, library: Optional[Library] = None) -> Iterator[Tuple[int, str]]:
    """A trace told as jobs, as `nib jobs` does: the number of each line's first record, counted from 1, and its words. With a part
    jobs have LUN, block and page; else their row."""
    said = library or Library.found()
    trace, at = bytes(trace), 0
    while True:
        after: int = said.line_next(trace, len(trace), at)
        if after == at:
            return
        yield at + 1, said.words(said.say_line, trace, len(trace), at, *sizes(part))
        at = after
