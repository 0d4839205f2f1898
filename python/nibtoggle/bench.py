"""The bench: a powered target with its buffers, its bus cycles and its jobs."""
from __future__ import annotations

import ctypes
import mmap
import os
import tempfile
import warnings
from pathlib import Path
from types import TracebackType
from typing import Callable, Iterable, List, NamedTuple, Optional, Tuple, Type, Union

from . import checks, folder, jobs, parts, scripts
from ._library import Library, Target
from .folder import LARGE, Buffer
from .part import OPTIONAL_STATUS_78H, PAGE_LENGTH, Part, fields_outside, parameter_page
from .replies import ADDRESS, COMMAND, DATA_IN, DATA_OUT, FINISH, PROTECT, NotReady, Refused, Replies, Reply, Status

Store = Union[None, Buffer, str, "os.PathLike[str]"]
#: enum nib_output of the header: a page register, the parameter page, a status, IDs, the signature, feature bytes.
_REGISTER_OUTPUT, _PAGE_OUTPUT, _STATUS_OUTPUT, _ID_OUTPUT, _SIGNATURE_OUTPUT, _FEATURE_OUTPUT = range(1, 7)


class UnwrittenZeros(UserWarning):
    """A new array is so large that it is a sparse file: what nobody wrote is 00h, and not FFh as in an erased part."""


class Rest(NamedTuple):
    """The unread rest of the output: which buffer ('registers', 'parameters' or ''), where it starts there, and its bytes in place."""

    buffer: str
    start: int
    view: memoryview


class _Lent:
    """A writable buffer, its place for the library, and a view for the user."""

    def __init__(self, buffer: Buffer) -> None:
        # bytes can't be changed, so the library works on a copy of them
        self.view = memoryview(bytearray(buffer) if isinstance(buffer, bytes) else buffer).cast("B")
        self.length = len(self.view)
        # the ctypes object keeps the buffer where it is for as long as it lives
        self._held = ctypes.c_uint8.from_buffer(self.view) if self.length else None
        self.place = ctypes.addressof(self._held) if self._held is not None else None

    def release(self) -> None:
        self._held = self.place = None
        self.length = 0
        self.view.release()


class Bench:
    """One target on the bench.

    `page` is the part's 256 parameter bytes and `device_id` the second byte of its ID. The buffers are made here if they are not given:

    - `array`: None for an array of its own, in memory or, past 64 MiB, in a temporary file; a path for an array kept in a file, which is
      made where there is none or it is empty; or a buffer of the right length, used in place (bytes are copied). An array that is made
      here is erased, all FFh, up to 64 MiB. A longer one is a sparse file that reads 00h where nobody wrote, and UnwrittenZeros is
      warned with its name: erase a block before programming it, as a loader does with a part it knows nothing of.
    - `counts`, `flags`: buffers of the right length, used in place (bytes are copied); None for all 0: nothing programmed, no bad
      block. In place of `flags`, `bad` names the factory bad blocks, as (LUN, block).

    With `marks` an array that is made here has the makers' marks: the first spare byte of a block's first page is 00h where the
    block is bad (and FFh where it is good, in a large array too).

    With `autofinish` a LUN that works is let finish by itself once its status byte has been read so many times: a loader that
    polls needs no `finish`.

    `array`, `registers`, `counts`, `flags` and `page` are memoryviews of what the library works on, and may be read and written.

    With `strict` (as it is unless you say otherwise, and it may be set at any time) a refused event raises Refused, after all
    events of the call have been run. Without it refusals are values: look at what the call returns, or at `replies`, which has the replies of
    the last call. `trace` and `events` never raise.
    """

    def __init__(self, page: bytes, device_id: int, *, array: Store = None, counts: Optional[Buffer] = None,
                 flags: Optional[Buffer] = None, bad: Iterable[Tuple[int, int]] = (), marks: bool = False,
                 autofinish: Optional[int] = None, strict: bool = True, library: Optional[Library] = None) -> None:
        self.strict = strict
        #: How many status bytes of a working LUN are read before it finishes by itself; None for never.
        self.autofinish = autofinish if autofinish is None else checks.number("autofinish", autofinish, 1, 1 << 40)
        self._polls = [0, 0, 0, 0]
        self._fresh = False
        self.device_id = checks.byte("device ID", device_id)
        self.replies = Replies(b"")
        self._library = library if library is not None else Library.found()
        self._map: Optional[mmap.mmap] = None
        #: The part folder that `save` saves to, where there is one.
        self.folder: Optional[Path] = None
        self._base: Optional[int] = None
        self._target = Target()
        self._page = _Lent(bytearray(page))
        # a page that power-on refuses whatever the buffers are asks for none, and no file is made for it
        refused = self._page_refused()
        part = self.part = Part(0, 0, 0, 0, 0) if refused else Part.of(page)
        # nor is one made where a bad block does not exist, or there is no place for its mark
        self._flags = _Lent(_flags(part, flags, () if refused else bad))
        marked = part.marks(self.flags) if marks and len(self.flags) == part.flags_length > 0 else ()
        self._array = _Lent(bytearray() if refused else self._store(array, part.array_length))
        self._registers = _Lent(bytearray(part.registers_length))
        self._counts = _Lent(counts if counts is not None else bytearray(part.counts_length))
        for place, mark in marked if self._fresh else ():
            self.array[place] = mark
        self.power_on()

    @classmethod
    def t1(cls, *, strict: bool = True, **options: object) -> "Bench":
        """The worked part T1: 512+16 bytes a page, 4 pages a block, 8 blocks, 2 LUNs; no copyback. Other words go to Bench."""
        return cls(parameter_page(), 0x68, strict=strict, **options)  # type: ignore[arg-type]

    @classmethod
    def open(cls, path: Union[str, "os.PathLike[str]"], *, strict: bool = True, library: Optional[Library] = None) -> "Bench":
        """The part of a folder that `nib new` or `Bench.new` made (docs/PARTS.md), powered on.

        The folder stays as it is until `save`. Used by `with`, it is saved at the end unless an exception comes out.
        """
        where = Path(path)
        page, device_id = parts.page_of(folder.read_page(where)), folder.read_id(where)
        refusal = page_refusal(page, library)
        if refusal is not None:
            raise refusal
        files = folder.read(where, page, device_id)
        try:
            bench = cls(page, device_id, array=files.array, counts=files.counts, flags=files.flags, strict=strict, library=library)
        except BaseException:
            os.close(files.base)
            raise
        bench.folder, bench._map, bench._base = where, files.array, files.base
        return bench

    @classmethod
    def new(cls, path: Union[str, "os.PathLike[str]"], page: Union[str, bytes] = "T1", device_id: Optional[int] = None, *,
            flags: Optional[bytes] = None, bad: Iterable[Tuple[int, int]] = (), marks: bool = False, strict: bool = True,
            library: Optional[Library] = None) -> "Bench":
        """A new part folder, opened: `page` is the name of a part (`nibtoggle.PARTS`), 256 parameter bytes, or an answer to
        ECh of 768. `flags`, `bad` and `marks` are Bench's.

        A page does not say its part's device ID: it is 00h unless it is given, or the part has a name. No file is written over.
        """
        where = Path(path)
        make_folder(where, page, device_id, flags, library, bad, marks)
        return cls.open(where, strict=strict, library=library)

    def _store(self, array: Store, length: int) -> Buffer:
        if array is None and length <= LARGE:
            self._fresh = True
            return bytearray(b"\xFF") * length
        if array is not None and not isinstance(array, (str, os.PathLike)):
            return array
        name = "the array's temporary file" if array is None else os.fspath(array)
        with tempfile.TemporaryFile() if array is None else open(os.open(name, os.O_RDWR | os.O_CREAT, 0o666), "r+b") as file:
            there = os.fstat(file.fileno()).st_size
            if there not in (0, length):
                raise ValueError("%s has %d bytes, and the part asks for %d" % (name, there, length))
            file.truncate(length)
            if length == 0:
                return bytearray()
            self._map = mmap.mmap(file.fileno(), length)
        self._fresh = there == 0
        if there == 0 and length <= LARGE:
            self._map[:] = b"\xFF" * length
        elif there == 0:
            _warn_of_zeros(name, length, 4)
        return self._map

    # ---- what is lent

    @property
    def page(self) -> memoryview:
        """The parameter bytes."""
        return self._page.view

    @property
    def array(self) -> memoryview:
        """The whole array, in order of LUN, block, page."""
        return self._array.view

    @property
    def registers(self) -> memoryview:
        """All page registers, LUN by LUN."""
        return self._registers.view

    @property
    def counts(self) -> memoryview:
        """How often each page was programmed since its block was erased."""
        return self._counts.view

    @property
    def flags(self) -> memoryview:
        """One byte for each block: 0 good, 1 factory bad."""
        return self._flags.view

    def page_of(self, lun: int, block: int, page: int) -> memoryview:
        """One page of the array. ValueError where there is none."""
        start = self.part.page_start(lun, block, page)
        return self.array[start:start + self.part.page_size]

    def register(self, lun: int) -> memoryview:
        """One LUN's page register."""
        checks.lun(self.part, lun)
        return self.registers[lun * self.part.page_size:(lun + 1) * self.part.page_size]

    @property
    def target(self) -> Target:
        """The record itself (`nib_target` of include/nibtoggle.h)."""
        return self._target

    @property
    def powered(self) -> bool:
        return bool(self._target.powered == 1)

    def working(self, lun: int) -> bool:
        """The LUN works: it waits for `finish`."""
        return bool(self._target.working[checks.lun(self.part, lun)] == 1)

    def copyback_open(self, lun: int) -> bool:
        """A copyback is open on the LUN: `copyback_read` has read a page, and `copyback_program` may program it."""
        return bool(self._target.copyback[checks.lun(self.part, lun)] == 1)

    def blank(self, lun: int) -> int:
        """How many blocks of the LUN have all counts 0 and are not bad. It is counted at power-on and kept from then
        on: a program of a blank block takes one away at its 10h, an erase of one that is not adds one at its D0h, where
        they proceed. What you write to `counts` or `flags` yourself is counted at the next `power_on`."""
        return int(self._target.blank[checks.lun(self.part, lun)])

    # ---- calls of the library

    def power_on(self) -> int:
        """Power-on over the buffers as they are. 0, or the refusal, 20 to 25, which raises Refused if strict."""
        buffers = [self._array, self._registers, self._counts, self._flags]
        answer: int = self._library.power_on(
            self._target, self._page.place, self._page.length, self.device_id,
            *(word for b in buffers for word in (b.place, b.length)))
        if answer and self.strict:
            raise Refused(answer, detail=self._power_detail(answer))
        return answer

    def _page_refused(self) -> bool:
        """Power-on refuses the parameter bytes (20 to 23), whatever the buffers are: asked with none, a good page is 24."""
        answer: int = self._library.power_on(self._target, self._page.place, self._page.length, self.device_id, *(4 * (None, 0)))
        return answer < 24

    def _power_detail(self, answer: int) -> str:
        """Which field or buffer a refused power-on is about."""
        if answer == 20:
            return "there are %d" % self._page.length
        if answer == 23:
            return "; ".join(fields_outside(bytes(self.page)))
        if answer == 24:
            due = self.part
            lengths = (("array", self._array, due.array_length), ("registers", self._registers, due.registers_length),
                       ("counts", self._counts, due.counts_length), ("flags", self._flags, due.flags_length))
            return "; ".join("%s: %d bytes, and %d are due" % (name, lent.length, n) for name, lent, n in lengths if lent.length != n)
        return ""

    def trace(self, records: bytes) -> Replies:
        """Two-byte records, kind and value, in one call. Never raises Refused: refusals are in the replies, and stop nothing."""
        need = len(records) + len(records) % 2
        room = ctypes.create_string_buffer(need) if need else None
        buffers = [self._page, self._array, self._registers, self._counts, self._flags]
        self._library.trace(
            self._target, bytes(records), len(records), room, need,
            *(word for b in buffers for word in (b.place, b.length)))
        self.replies = Replies(room.raw if room is not None else b"", bytes(records))
        self._polled()
        return self.replies

    def event(self, kind: int, value: int) -> Reply:
        """One event; never raises Refused."""
        record = bytes((checks.byte("kind", kind), checks.byte("value", value)))
        buffers = [self._page, self._array, self._registers, self._counts, self._flags]
        number: int = self._library.event(
            self._target, *record, *(word for b in buffers for word in (b.place, b.length)))
        self.replies = Replies(number.to_bytes(2, "big"), record)
        self._polled()
        return self.replies[0]

    def events(self, events: Iterable[Tuple[int, int]]) -> Replies:
        """Events as (kind, value), run as one trace."""
        return self.trace(b"".join(bytes((checks.byte("kind", kind), checks.byte("value", value))) for kind, value in events))

    def script(self, text: Union[str, bytes], name: str = "text") -> scripts.Outcome:
        """A text with expectations (`= 3c a5`, `! 5`, `ok`) and whole jobs' words, run on this bench. One that failed raises
        ExpectationFailed at the script's end; a bad word raises BadWord, and nothing is run."""
        return scripts.check(self, text, name)

    def rest(self) -> Rest:
        """The unread rest of the output as a part of the registers or of the parameter bytes, in place; empty where there is none."""
        number: int = self._library.rest(
            self._target, self._page.place, self._page.length, self._registers.place, self._registers.length)
        buffer, start, length = number >> 60, number >> 30 & 0x3FFFFFFF, number & 0x3FFFFFFF
        lent = self.registers if buffer == 1 else self.page
        return Rest(("", "registers", "parameters")[buffer], start, lent[start:start + length])

    def _polled(self) -> None:
        """A call that ended in status bytes of a working LUN: after so many the LUN finishes, if `autofinish` says so."""
        if self.autofinish is None or self._target.output != _STATUS_OUTPUT:
            return
        lun = int(self._target.output_lun)
        firsts = self.replies.raw[::2]
        read = len(firsts) - len(firsts.rstrip(b"\x01"))
        self._polls[lun] = self._polls[lun] + read if self.working(lun) else 0
        if self._polls[lun] >= self.autofinish:
            self._polls[lun] = 0
            kept = self.replies
            self.event(FINISH, lun)
            self.replies = kept

    def _run(self, records: bytes) -> Replies:
        replies = self.trace(records)
        if self.strict:
            at = replies.first_refused
            if at is not None:
                raise Refused(replies[at].second, (records[2 * at], records[2 * at + 1]), at, replies)
        return replies

    # ---- bus cycles and bench events

    def command(self, value: int) -> Reply:
        """A command cycle."""
        return self._run(bytes((COMMAND, checks.byte("command", value))))[0]

    def address(self, *values: int) -> Replies:
        """Address cycles, one for each value."""
        return self._run(_records(ADDRESS, (checks.byte("address", value) for value in values)))

    def write(self, data: bytes) -> Replies:
        """Data-in cycles, one for each byte."""
        return self._run(_records(DATA_IN, checks.data(data)))

    def read(self, count: int) -> bytes:
        """Data-out cycles: what they gave. Not strict, it ends before the first that is refused."""
        return self._run(_outs(count)).data

    def finish(self, lun: int) -> Reply:
        """The bench lets the LUN finish its work."""
        return self._run(bytes((FINISH, checks.lun(self.part, lun))))[0]

    def protect(self, low: bool = True) -> Reply:
        """The bench pulls the protect line low, or lets it go high."""
        return self._run(bytes((PROTECT, 0 if checks.flag("low", low) else 1)))[0]

    # ---- jobs: whole sequences in one call
    #
    # Numbers of a place that does not exist raise ValueError, and nothing is sent. Whoever wants such a row, to see it refused, gives it
    # as `row=` in place of LUN, block and page.

    def reset(self) -> Reply:
        """FFh."""
        return self.command(0xFF)

    def program(self, lun: Optional[int] = None, block: Optional[int] = None, page: Optional[int] = None, data: bytes = b"", column: int = 0,
                *, row: Optional[int] = None, finish: bool = True) -> Replies:
        """80h, five addresses, data in, 10h; then the LUN's finish, unless it is left working.

        A failed program is accepted: ask `status`. It fails, and leaves the page and its count as they are, on a bad
        block, on a page that was programmed as often as it may be, and out of page order: a higher page of the block is
        programmed, and the part does not offer any order (feature bit 2; `parameter_page(any_order=True)`).
        """
        row = checks.row(self.part, lun, block, page, row)
        return self._job(self._records_of("program", row, column, data=checks.data(data)), row, finish)

    def load(self, lun: Optional[int] = None, block: Optional[int] = None, page: Optional[int] = None, column: int = 0, *,
             row: Optional[int] = None, finish: bool = False) -> Replies:
        """00h, five addresses, 30h: the page goes into the LUN's register, and output will begin at the column once it has finished."""
        row = checks.row(self.part, lun, block, page, row)
        return self._job(self._records_of("read", row, column), row, finish)

    def copyback_read(self, lun: Optional[int] = None, block: Optional[int] = None, page: Optional[int] = None, column: int = 0, *,
                      row: Optional[int] = None, finish: bool = True) -> Replies:
        """00h, five addresses, 35h: as `load`, and a copyback is open on the LUN; then the LUN's finish, unless it is left working."""
        row = checks.row(self.part, lun, block, page, row)
        return self._job(self._records_of("read", row, column)[:-2] + _command(0x35), row, finish)

    def copyback_program(self, lun: Optional[int] = None, block: Optional[int] = None, page: Optional[int] = None, data: bytes = b"",
                         column: int = 0, *, row: Optional[int] = None, finish: bool = True) -> Replies:
        """85h, five addresses, data in, 10h: what the LUN's register holds is programmed, with the data over it from the column on; then
        the LUN's finish, unless it is left working. A failed program is accepted: ask `status`. It fails where `program`
        does, out of page order too."""
        row = checks.row(self.part, lun, block, page, row)
        program = self._records_of("program", row, column, data=checks.data(data))
        return self._job(_command(0x85) + program[2:], row, finish)

    def read_page(self, lun: Optional[int] = None, block: Optional[int] = None, page: Optional[int] = None, column: int = 0,
                  count: Optional[int] = None, *, row: Optional[int] = None) -> bytes:
        """`load`, finish and data out: `count` bytes, or all from the column to the page's end."""
        outs = _outs(self.part.page_size - checks.column(self.part, column) if count is None else count)
        replies = self.load(lun, block, page, column, row=row, finish=True)
        return self._run(outs).data if replies.ok else b""

    def read_out(self, lun: Optional[int] = None, column: int = 0, count: Optional[int] = None, *, row: Optional[int] = None) -> bytes:
        """06h, five addresses, E0h and data out: the LUN's register as it is."""
        n = self.part.page_size - checks.column(self.part, column) if count is None else count
        return self._run(self._records_of("read-out", self._lun_row(lun, row), column, n)).data

    def erase(self, lun: Optional[int] = None, block: Optional[int] = None, *, row: Optional[int] = None, finish: bool = True) -> Replies:
        """60h, three addresses, D0h; then the LUN's finish, unless it is left working. A failed erase is accepted: ask `status`."""
        row = checks.row(self.part, lun, block, 0 if row is None else None, row)
        return self._job(self._records_of("erase", row), row, finish)

    def status(self, lun: Optional[int] = None, *, row: Optional[int] = None) -> Optional[Status]:
        """The status byte: of the selected LUN by 70h, or of the LUN given by 78h. None where refused and not strict."""
        if lun is None and row is None:
            ask = _command(0x70) + _outs(1)
        else:
            ask = self._records_of("status", self._lun_row(lun, row), count=1)
        data = self._run(ask).data
        return Status(data[0]) if data else None

    def poll(self, lun: Optional[int] = None, polls: int = 1000, *,
             finish: Optional[Callable[[int], object]] = None) -> Optional[Status]:
        """Asks for the status until the LUN is ready, as a loader does: the last status byte. After `polls` statuses
        that say it works, NotReady is raised, or not strict that status is returned; None where refused and not strict.

        With no LUN it is 70h, which asks the selected one. With a LUN it is 78h; a part that has no 78h can be asked
        for the selected LUN alone, by 70h, and another LUN is then a ValueError.

        `finish` is called after each status that says the LUN works, with the number of polls so far; if it answers
        true the LUN is let finish, where it works still. So `finish=lambda n: n == 3` gives the finish after three
        polls. `autofinish` goes on as ever. What was open before is kept, as the part keeps it: `resume` goes on from
        there.
        """
        polls = checks.number("number of polls", polls, 1, 1 << 40)
        ask = self._status_of(lun)
        raw, records = bytearray(), bytearray()

        def sent(events: bytes) -> Replies:
            try:
                return self._run(events)
            finally:
                raw.extend(self.replies.raw)
                records.extend(self.replies.records)

        polled, status = 0, Status(0)
        try:
            for n in range(1, polls + 1):
                replies = sent(ask)
                if not replies.ok:
                    return None
                polled, status = int(self._target.output_lun), Status(replies.data[0])
                if status.ready:
                    return status
                if finish is not None and finish(n) and self.working(polled):
                    sent(bytes((FINISH, polled)))
        finally:
            self.replies = Replies(bytes(raw), bytes(records))
        if self.strict:
            raise NotReady(polled, polls, status)
        return status

    def _status_of(self, lun: Optional[int]) -> bytes:
        """A status and its byte: 70h, or 78h of the LUN where the part has that."""
        if lun is not None:
            row = self._lun_row(lun, None)
            if self._target.optional_commands & OPTIONAL_STATUS_78H:
                return self._records_of("status", row, count=1)
            if lun != self._target.selected:
                raise ValueError("the part has no 78h, and 70h asks LUN %d, which is selected" % self._target.selected)
        return _command(0x70) + _outs(1)

    def resume(self, count: Optional[int] = None) -> bytes:
        """After a status: 00h with no address and data out, which go on from the output that was open before, at its
        next byte. `count` bytes, at least 1, or all that are left. Not strict, it ends before the first that is
        refused: 3 where nothing is kept, 5 while the LUN works, 8 at the end.
        """
        # a bare 00h is an open sequence, so it is never sent without a data out
        ends = {_REGISTER_OUTPUT: self.part.page_size, _PAGE_OUTPUT: 3 * PAGE_LENGTH, _ID_OUTPUT: 2,
                _SIGNATURE_OUTPUT: 4, _FEATURE_OUTPUT: 4}
        left = ends.get(int(self._target.kept), 0) - int(self._target.kept_at)
        n = max(1, left) if count is None else checks.number("number of data outs", count, 1, 1 << 40)
        return self._run(_command(0x00) + _outs(n)).data

    def read_id(self) -> bytes:
        """90h with 00h: maker ID and device ID."""
        return self._run(_command(0x90) + bytes((ADDRESS, 0x00)) + _outs(2)).data

    def signature(self) -> bytes:
        """90h with 20h: b'ONFI'."""
        return self._run(_command(0x90) + bytes((ADDRESS, 0x20)) + _outs(4)).data

    def parameters(self, copies: int = 1) -> bytes:
        """ECh: the parameter page, up to three times."""
        outs = _outs(PAGE_LENGTH * checks.number("number of copies", copies, 0, 3))
        return self._run(_command(0xEC) + bytes((ADDRESS, 0x00)) + outs).data

    def get_feature(self, address: int = 0x01) -> bytes:
        """EEh: the feature's four bytes."""
        return self._run(_command(0xEE) + bytes((ADDRESS, checks.byte("feature address", address))) + _outs(4)).data

    def set_feature(self, values: bytes, address: int = 0x01) -> Replies:
        """EFh: the feature's four bytes."""
        four = checks.data(values)
        checks.number("number of feature bytes", len(four), 4, 4)
        return self._run(_command(0xEF) + bytes((ADDRESS, checks.byte("feature address", address))) + _records(DATA_IN, four))

    def program_clear(self, on: bool) -> Replies:
        """Feature 01h: with program-clear on, 80h clears the addressed LUN's register alone."""
        return self.set_feature(b"\x40\0\0\0" if checks.flag("on", on) else b"\0\0\0\0")

    def _records_of(self, kind: str, row: int, column: int = 0, count: int = 0, data: bytes = b"") -> bytes:
        """The cycles of a whole job, as the proved writer makes them, once its numbers are looked at."""
        count = checks.count("number of data outs", count)
        return jobs.records(jobs.Job(kind, row, checks.column(self.part, column), count, data), self._library)

    def _lun_row(self, lun: Optional[int], row: Optional[int]) -> int:
        """A row of which only the LUN counts."""
        rest = 0 if row is None else None
        return checks.row(self.part, lun, rest, rest, row)

    def _job(self, records: bytes, row: int, finish: bool) -> Replies:
        # the finish is an event of its own call: after a refused job it would end work that an earlier job began
        replies = self._run(records)
        if finish and replies.ok:
            last = self._run(bytes((FINISH, self.part.lun_of(row))))
            replies = Replies(replies.raw + last.raw, replies.records + last.records)
            self.replies = replies
        return replies

    # ---- the end

    def save(self) -> None:
        """Array, counts and registers to the part folder, and the flags where they changed: all of them, or none."""
        if self.folder is None:
            raise ValueError("this bench has no part folder: Bench.open and Bench.new give it one")
        files: List[Tuple[str, Buffer]] = [("array", self.array), ("counts", self.counts), ("registers", self.registers)]
        if (self.folder / "flags").read_bytes() != bytes(self.flags):
            files.append(("flags", self.flags))
        folder.save(self.folder, files, self._base)

    def close(self) -> None:
        """Lets go of the buffers; a part folder is not saved here. A file's array is written back; views of it that are still held keep it
        open."""
        for lent in (self._page, self._array, self._registers, self._counts, self._flags):
            try:
                lent.release()
            except BufferError:
                pass
        if self._map is not None:
            try:
                self._map.flush()
                self._map.close()
            except (BufferError, ValueError):
                pass
            self._map = None
        if self._base is not None:
            os.close(self._base)
            self._base = None
        self._target = Target()

    def __repr__(self) -> str:
        p = self.part
        if not self.powered:
            return "<Bench not powered>"
        busy = [str(lun) for lun in range(p.luns) if self.working(lun)]
        return "<Bench of %s%d LUNs, %d blocks, %d pages of %d bytes; %s%s>" % (
            "%s, " % self.folder if self.folder is not None else "", p.luns, p.blocks, p.pages, p.page_size, "LUN %s working" % " and ".join(busy) if busy else "ready",
            "" if self._target.high else ", protect line low")

    def __enter__(self) -> "Bench":
        return self

    def __exit__(self, kind: Optional[Type[BaseException]], error: Optional[BaseException], trace: Optional[TracebackType]) -> None:
        try:
            if self.folder is not None and kind is None:
                self.save()
        finally:
            self.close()


def page_refusal(page: bytes, library: Optional[Library] = None) -> Optional[Refused]:
    """What power-on says of a page whatever its buffers are, 20 to 23, as the exception to raise; None where it takes it."""
    bench = Bench(page, 0, array=b"", counts=b"", flags=b"", strict=False, library=library)
    answer = bench.power_on()
    return Refused(answer, detail=bench._power_detail(answer)) if answer < 24 else None


def page_named(page: Union[str, bytes], device_id: Optional[int] = None) -> Tuple[bytes, int]:
    """Parameter bytes and device ID: of a part by its name, of 256 bytes, or of an ECh answer of 768."""
    if isinstance(page, str):
        known = parts.PARTS.get(page)
        if known is None:
            raise ValueError("no part has the name %r; these are known: %s" % (page, ", ".join(parts.PARTS)))
        return known.page, known.device_id if device_id is None else checks.byte("device ID", device_id)
    return parts.page_of(bytes(page)), 0 if device_id is None else checks.byte("device ID", device_id)


def _flags(part: Part, flags: Optional[Buffer], bad: Iterable[Tuple[int, int]]) -> Buffer:
    """The flags as they are given, or those of the blocks that are."""
    blocks = list(bad)
    if flags is not None and blocks:
        raise TypeError("flags= and bad= say the same: give one of them")
    return part.flags_of(blocks) if flags is None else flags


def make_folder(path: Path, page: Union[str, bytes], device_id: Optional[int] = None, flags: Optional[bytes] = None,
                library: Optional[Library] = None, bad: Iterable[Tuple[int, int]] = (), marks: bool = False) -> None:
    """A new part folder (`Bench.new` opens it too). Nothing is made where power-on would refuse the page or the flags."""
    bytes_, number = page_named(page, device_id)
    refusal = page_refusal(bytes_, library)
    if refusal is not None:
        raise refusal
    due = Part.of(bytes_).flags_length
    held = bytes(_flags(Part.of(bytes_), flags, bad))
    if len(held) != due or max(held) > 1:
        raise ValueError("flags are %d bytes, 0 or 1 each" % due)
    if folder.make(path, bytes_, number, held, marks):
        _warn_of_zeros(str(path / "array"), Part.of(bytes_).array_length, 4)


def _warn_of_zeros(name: str, length: int, level: int) -> None:
    warnings.warn("%s is new and has %d bytes: unwritten ones are 00h, for only arrays of up to %d bytes start as FFh; erase a block before "
                  "it is programmed" % (name, length, LARGE), UnwrittenZeros, stacklevel=level)


def _records(kind: int, values: Iterable[int]) -> bytes:
    values = bytes(values)
    records = bytearray(2 * len(values))
    records[0::2] = bytes((kind,)) * len(values)
    records[1::2] = values
    return bytes(records)


def _command(value: int) -> bytes:
    return bytes((COMMAND, value))


def _outs(count: int) -> bytes:
    return bytes((DATA_OUT, 0)) * checks.count("number of data outs", count)
