"""`explain`: a trace in words while it runs. Which data cycles are told in one line, the tally and every word are the proved library's own,
and nib has the same: this module asks for them."""
from __future__ import annotations

import ctypes
from typing import Iterator, Optional

from . import text
from ._library import Library, Target
from .bench import Bench
from .replies import ADDRESS, DATA_IN, DATA_OUT

#: enum nib_sequence of the header: none is open, column cycles are due, row cycles are due. enum nib_first: 00h.
_NO_SEQUENCE, _COLUMNS, _ROWS, _READ = 0, 1, 2, 0
#: enum nib_output: a register's or a status's bytes come out.
_STATUS, _OF_A_LUN = 3, (1, 3)
#: A row is three cycles.
_LAST_OF_ROW = 2
#: So many bytes of a run are shown.
_SHOWN = 16
#: What is held back has the number of its cycles from this bit on.
_COUNT_FROM = 10
#: How many were accepted, and how many each of the rules 1 to 16 refused.
_COUNTS = 17


def lun_meant(bench: Bench, record: bytes) -> int:
    """The LUN that a cycle which a working LUN refuses is about: that of the output, of the row that the cycle makes whole, or the selected
    one."""
    target = bench.target
    if record[0] == DATA_OUT:
        return int(target.output_lun) if target.output in _OF_A_LUN else int(target.selected)
    if record[0] == ADDRESS and target.sequence == _ROWS:
        return bench.part.lun_of(target.low | target.mid << 8 | record[-1] << 16)
    return int(target.selected)


def shows_status(target: Target) -> bool:
    """A data out would give a status byte: 00h with no address yet goes on with what was open before it."""
    bare = target.sequence == _COLUMNS and target.first == _READ and target.got == 0
    return bool(target.output == _STATUS and not bare)


class Explanation:
    """A trace that is run on a bench and told, line by line. With `each`, every event has a line of its own; else data cycles in a row are
    held back, and told at once. `rest` is what is held back at the end, and `tally` the last line."""

    def __init__(self, bench: Bench, each: bool = False, library: Optional[Library] = None) -> None:
        self._bench, self._each = bench, each
        self._library = library if library is not None else Library.any()
        self._held, self._begun, self._bytes = 0, 0, bytearray()
        self._number = 0
        self._counts = (ctypes.c_size_t * _COUNTS)()

    def lines(self, records: bytes) -> Iterator[str]:
        """What is to be told after these records, which are run."""
        for record in text.pairs(records):
            yield from self._event(record)

    def rest(self) -> Iterator[str]:
        """The run that is held back, where there is one."""
        if self._held:
            shown = bytes(self._bytes), len(self._bytes)
            yield text.columns(self._begun, self._library.words(self._library.say_run, self._held, *shown),
                               self._library.words(self._library.say_run_reply, self._held, *shown))
        self._held = 0

    def tally(self) -> str:
        return self._library.words(self._library.say_tally, self._number, self._counts, _COUNTS)

    def _event(self, record: bytes) -> Iterator[str]:
        event, lun, status = self._event_words(record), lun_meant(self._bench, record), shows_status(self._bench.target)
        first, second = self._bench.trace(record).raw
        self._number += 1
        self._library.tally(self._counts, _COUNTS, first, second)
        if not self._each:
            given = record[0], record[-1], first, second, int(status)
            goes = self._library.fold_goes(self._held, *given)
            held: int = self._library.fold_next(self._held, *given)
            if goes:
                yield from self.rest()
            if held >> _COUNT_FROM:
                self._hold(held, record[-1] if record[0] == DATA_IN else second)
                return
        yield text.columns(self._number, event, self._answer(first, second, lun, status))

    def _hold(self, held: int, byte: int) -> None:
        if not self._held:
            self._begun, self._bytes = self._number, bytearray()
        self._held = held
        if len(self._bytes) < _SHOWN:
            self._bytes.append(byte)

    def _event_words(self, record: bytes) -> str:
        target, said, odd = self._bench.target, self._library, len(record) == 1
        event = said.words(said.say_event, int(odd), record[0], 0 if odd else record[1], int(target.sequence != _NO_SEQUENCE))
        if odd or record[0] != ADDRESS or target.sequence != _ROWS or target.got != _LAST_OF_ROW:
            return event
        part, row = self._bench.part, target.low | target.mid << 8 | record[1] << 16
        return event + "  " + said.words(said.say_row, target.first, row, part.luns, part.blocks, part.pages)

    def _answer(self, first: int, second: int, lun: int, status: bool) -> str:
        answer = self._library.words(self._library.say_reply, first, second, lun)
        return answer + "  " + self._library.words(self._library.say_status, second) if status and first == 1 else answer
