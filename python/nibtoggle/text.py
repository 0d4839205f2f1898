"""A trace as people write it, and in words. The grammar and the words are the proved library's own (nib has the same): this module feeds
bytes to it and gathers what it says."""
from __future__ import annotations

from typing import Iterator, List, NamedTuple, Optional, Tuple, Type, Union

from . import jobs
from ._library import Library
from .part import Part
from .replies import DATA_OUT

#: What a byte of text adds to the trace, as `nib_text_said` numbers it: from _LUN on a job's values, from _OK on expectations.
_RECORD, _BYTE, _OUTS, _WRONG, _LUN, _BLOCK, _PAGE, _COLUMN, _COUNT, _DATA, _OK, _EXPECTED, _REFUSED = range(1, 14)
#: Where a text begins that is about a part.
_WITH_PART = 1 << 45


class BadWord(ValueError):
    """A word of a text that is no part of a trace: `line` and `place` count from 1, `word` is it as a terminal can show it."""

    def __init__(self, name: str, line: int, place: int, word: str, why: str) -> None:
        super().__init__("%s, line %d, place %d: '%s': %s" % (name, line, place, word, why))
        self.name, self.line, self.place, self.word, self.why = name, line, place, word, why

    def __reduce__(self) -> Tuple[Type["BadWord"], Tuple[str, int, int, str, str]]:
        return type(self), (self.name, self.line, self.place, self.word, self.why)


def records_of(text: Union[str, bytes], name: str = "text", library: Optional[Library] = None, part: Optional[Part] = None) -> bytes:
    """Text to trace. A word that is wrong raises BadWord, and there is no trace at all: none is to be run in part.

    With a part the text may have words for whole jobs, as `program 1 5 3 0 3c a5`: LUN, block, page, column and bytes.
    Expectations are left out: they are no records.
    """
    return b"".join(step for step in steps_of(text, name, library, part) if isinstance(step, bytes))


class Expectation(NamedTuple):
    """What a script expects at a word, whose line and place count from 1: these bytes, or this refusal, or else `ok`."""

    line: int
    place: int
    wanted: Optional[bytes] = None
    refusal: Optional[int] = None


def steps_of(text: Union[str, bytes], name: str = "text", library: Optional[Library] = None,
             part: Optional[Part] = None) -> Iterator[Union[bytes, Expectation]]:
    """A text in steps: bytes of the trace, and the expectations between them. A wrong word raises BadWord where it is reached: who runs
    the steps takes all of them first."""
    said = library if library is not None else Library.found()
    whole = text.encode("utf-8") if isinstance(text, str) else text
    job = _OpenJob(said, part) if part is not None else None
    state, start = _WITH_PART if job else 0, 0
    line, line_start = 1, 0
    here = first = (1, 1)
    wanted = bytearray()
    for at, byte in enumerate(whole + b"\n"):
        if said.text_begins(state, byte):
            start, here = at, (line, at - line_start + 1)
        added: int = said.text_said(state, byte)
        what = value = 0
        if added:
            added = job.on_part(added) if job else added
            what, value = added >> 16, added & 0xFFFF
        if what == _RECORD:
            yield value.to_bytes(2, "big")
        elif what == _BYTE:
            yield bytes((value,))
        elif what == _OUTS:
            yield bytes((DATA_OUT, 0)) * value
        elif what == _WRONG:
            raise _bad_word(said, name, whole, start, at, value)
        elif what == _EXPECTED:
            first = first if wanted else here
            wanted.append(value)
        elif what == _REFUSED:
            yield Expectation(*here, refusal=value)
        elif job and _LUN <= what <= _DATA:
            job.take(what, value)
        records = job.whole(said.text_job(state, byte)) if job else b""
        if records:
            yield records
        if wanted and said.text_listed(state, byte):
            yield Expectation(*first, wanted=bytes(wanted))
            wanted.clear()
        if what == _OK:                     # after the job and the list that end with the byte
            yield Expectation(*here)
        if byte == 10:
            line, line_start = line + 1, at + 1
        state = said.text_next(state, byte)


class _OpenJob:
    """The values of the job whose words come, on a part."""

    def __init__(self, said: Library, part: Part) -> None:
        self._said, self._part = said, part
        self._values, self._data = [0] * 5, bytearray()

    def on_part(self, added: int) -> int:
        """What a byte adds, on the part: a bad word where it is a value that the part has not."""
        return int(self._said.text_on_part(added, *jobs.sizes(self._part)))

    def take(self, what: int, value: int) -> None:
        if what == _LUN:                    # the first value of every job
            self._values, self._data = [0] * 5, bytearray()
        if what == _DATA:
            self._data.append(value)
        else:
            self._values[what - _LUN] = value

    def whole(self, kind: int) -> bytes:
        """The records of the job that ends, by its number; none for 0."""
        if not kind:
            return b""
        lun, block, page, column, count = self._values
        row: int = self._said.row_number(self._part.luns, self._part.blocks, self._part.pages, lun, block, page)
        return jobs.records(jobs.Job(jobs.KINDS[kind - 1], row, column, count, bytes(self._data)), self._said)


def _bad_word(said: Library, name: str, text: bytes, start: int, end: int, why: int) -> BadWord:
    """The last word, as much of it as an error shows."""
    line_start = text.rfind(b"\n", 0, start) + 1
    word = text[start:end].split(None, 1)[:1] or [b""]
    shown = "".join(chr(b) if 32 <= b < 127 else "." for b in word[0].split(b"#")[0][:32])
    return BadWord(name, text.count(b"\n", 0, start) + 1, start - line_start + 1, shown, said.words(said.say_wrong, why))


def text_of(records: bytes, library: Optional[Library] = None) -> str:
    """Trace to text: a line a command, addresses and data in up to 16 on a line, data outs in a row as one count."""
    said = library if library is not None else Library.found()
    out: List[str] = []
    state = 0
    for byte in records:
        out.append(said.words(said.back_text, state, byte))
        state = said.back_next(state, byte)
    out.append(said.words(said.back_end, state))
    return "".join(out)


def event_words(kind: int, value: int, library: Optional[Library] = None, *, inside: bool = False) -> str:
    """An event in words: 'command 80h  program', 'finish LUN 1'. `inside` says that a sequence is open where it comes."""
    said = library if library is not None else Library.found()
    return said.words(said.say_event, 0, kind, value, int(inside))


def columns(number: int, event: str, answer: str) -> str:
    """A line of `explain`: the record's number, the event, the answer."""
    line = "%6d  %s" % (number, event)
    return line + " " * max(1, 44 - len(line)) + answer


def pairs(records: bytes) -> Iterator[bytes]:
    """The records one by one, and the odd last byte."""
    for at in range(0, len(records), 2):
        yield records[at:at + 2]
