"""The proved library by ctypes: its record, its functions, and where it is found."""
from __future__ import annotations

import ctypes
import os
from pathlib import Path
from typing import Any, List, Optional, Type, Union

_size = ctypes.c_size_t
_byte = ctypes.c_uint8
_bytes = ctypes.c_void_p
_Types = List[Type["ctypes._CData"]]


class Target(ctypes.Structure):
    """`nib_target` of include/nibtoggle.h, which says what each number means."""

    _fields_ = [
        (name, ctypes.c_uint16)
        for name in ("data_bytes", "spare_bytes", "features", "optional_commands")
    ] + [
        (name, _size)
        for name in ("pages", "blocks", "luns", "programs", "selected", "column", "row", "output_lun", "output_at",
                     "kept_lun", "kept_at")
    ] + [
        (name, _byte)
        for name in ("powered", "high", "clear", "seen")
    ] + [
        ("working", _byte * 4),
        ("fail", _byte * 4),
    ] + [
        (name, _byte)
        for name in ("maker", "device", "sequence", "first", "got", "low", "mid", "value", "output")
    ] + [
        ("copyback", _byte * 4),
        ("kept", _byte),
        ("blank", ctypes.c_uint16 * 4),
    ]


class LibraryNotFound(OSError):
    """There is no libnibtoggle.so where it is looked for."""


def _candidates() -> List[Path]:
    here = Path(__file__).resolve().parent
    named = os.environ.get("NIBTOGGLE_LIBRARY")
    if named:
        return [Path(named)]
    # beside the package, or where tools/build-host leaves it in a checkout
    return [here / "libnibtoggle.so", here.parent.parent / "target" / "host" / "libnibtoggle.so"]


class Library:
    """The functions of a libnibtoggle.so, typed."""

    _shared: Optional["Library"] = None
    _first: Optional["Library"] = None

    def __init__(self, path: Union[str, os.PathLike[str]]) -> None:
        self.path = os.fspath(path)
        self._loaded = ctypes.CDLL(self.path)
        record: _Types = [ctypes.POINTER(Target)]
        lent: _Types = [_bytes, _size]
        byte: _Types = [_byte]
        trace: _Types = [ctypes.c_char_p, _size]
        self.power_on = self._loaded.nib_power_on
        self.power_on.restype = ctypes.c_uint32
        self.power_on.argtypes = record + lent + byte + 4 * lent
        self.event = self._loaded.nib_event
        self.event.restype = ctypes.c_uint32
        self.event.argtypes = record + 2 * byte + 5 * lent
        self.trace = self._loaded.nib_trace
        self.trace.restype = ctypes.c_uint32
        self.trace.argtypes = record + trace + 6 * lent
        self.rest = self._loaded.nib_rest
        self.rest.restype = ctypes.c_uint64
        self.rest.argtypes = record + 2 * lent
        self._jobs()
        self._speech()
        if Library._first is None:
            Library._first = self

    def _jobs(self) -> None:
        """Whole jobs as records and back, and the checker for other people's pages."""
        trace: _Types = [ctypes.c_char_p, _size]
        self.job_write = self._typed("nib_job_write", _size, [_byte, _size, _size, _size] + 2 * trace)
        self.job_read = self._typed("nib_job_read", _size, trace + [_size, ctypes.POINTER(ctypes.c_size_t), _size])
        self.job_misfit = self._typed("nib_job_misfit", _size, trace)
        self.page_report = self._typed("nib_page_report", ctypes.c_uint32,
                                       trace + [ctypes.POINTER(ctypes.c_uint64), _size])

    def _speech(self) -> None:
        """The grammar of the text and the words of `explain` and `jobs`."""
        room: _Types = [ctypes.c_char_p, _size]
        state: _Types = [ctypes.c_uint64]
        byte: _Types = [_byte]
        self.version = self._typed("nib_version", ctypes.c_uint32, [])
        self.text_next = self._typed("nib_text_next", ctypes.c_uint64, state + byte)
        self.text_said = self._typed("nib_text_said", ctypes.c_uint64, state + byte)
        self.text_begins = self._typed("nib_text_begins", _byte, state + byte)
        sizes: _Types = [_size, _size, _size, ctypes.c_uint16]
        self.text_job = self._typed("nib_text_job", _byte, state + byte)
        self.text_listed = self._typed("nib_text_listed", _byte, state + byte)
        self.text_on_part = self._typed("nib_text_on_part", ctypes.c_uint64, state + sizes)
        self.row_number = self._typed("nib_row_number", _size, [_size, _size, _size, _size, _size, _size])
        self.line_next = self._typed("nib_line_next", _size, room + [_size])
        self.say_line = self._typed("nib_say_line", _size, room + [_size] + sizes + room)
        self.back_next = self._typed("nib_back_next", ctypes.c_uint64, state + byte)
        self.back_text = self._typed("nib_back_text", _size, state + byte + room)
        self.back_end = self._typed("nib_back_end", _size, state + room)
        self.say_event = self._typed("nib_say_event", _size, 4 * byte + room)
        self.say_reply = self._typed("nib_say_reply", _size, 2 * byte + [_size] + room)
        self.say_rule = self._typed("nib_say_rule", _size, byte + room)
        self.say_wrong = self._typed("nib_say_wrong", _size, byte + room)
        self._expectations()
        self._folds()

    def _expectations(self) -> None:
        """What a script expects: whether it holds, and the words of what failed."""
        room: _Types = [ctypes.c_char_p, _size]
        state: _Types = [ctypes.c_uint64]
        byte: _Types = [_byte]
        self.expect_next = self._typed("nib_expect_next", ctypes.c_uint64, state + [_size] + 2 * byte)
        self.expect_ok = self._typed("nib_expect_ok", _byte, state)
        self.expect_refusal = self._typed("nib_expect_refusal", _byte, state + byte)
        self.expect_bytes = self._typed("nib_expect_bytes", _byte, state + 2 * room)
        self.say_not_ok = self._typed("nib_say_not_ok", _size, state + room)
        self.say_not_refusal = self._typed("nib_say_not_refusal", _size, state + [_size] + byte + room)
        self.say_not_bytes = self._typed("nib_say_not_bytes", _size, state + 3 * room)
        self.say_script = self._typed("nib_say_script", _size, [_size, _size] + room)
        self.say_failed = self._typed("nib_say_failed", _size, [_size, _size] + room)

    def _folds(self) -> None:
        """What `explain` holds back, rows and status bytes in words, and the tally."""
        room: _Types = [ctypes.c_char_p, _size]
        counts: _Types = [ctypes.POINTER(ctypes.c_size_t), _size]
        state: _Types = [ctypes.c_uint64]
        byte: _Types = [_byte]
        self.fold_next = self._typed("nib_fold_next", ctypes.c_uint64, state + 5 * byte)
        self.fold_goes = self._typed("nib_fold_goes", _byte, state + 5 * byte)
        self.say_run = self._typed("nib_say_run", _size, state + 2 * room)
        self.say_run_reply = self._typed("nib_say_run_reply", _size, state + 2 * room)
        self.say_row = self._typed("nib_say_row", _size, byte + 4 * [_size] + room)
        self.say_status = self._typed("nib_say_status", _size, byte + room)
        self.tally = self._typed("nib_tally", ctypes.c_int, counts + 2 * byte)
        self.tally.restype = None
        self.say_tally = self._typed("nib_say_tally", _size, [_size] + counts + room)

    def _typed(self, name: str, result: Type["ctypes._CData"], arguments: _Types) -> Any:
        function = getattr(self._loaded, name)
        function.restype, function.argtypes = result, arguments
        return function

    def words(self, say: Any, *given: Any) -> str:
        """What a function of words writes, given what comes before its room."""
        room = ctypes.create_string_buffer(512)
        written: int = say(*given, room, len(room))
        return room.raw[:written].decode("ascii")

    @classmethod
    def any(cls) -> "Library":
        """A library that is loaded already, and else the one that is found: all have the same words."""
        return cls._shared or cls._first or cls.found()

    @classmethod
    def found(cls) -> "Library":
        """The library that NIBTOGGLE_LIBRARY names, or that stands beside the package or in the checkout; loaded once."""
        if cls._shared is None:
            candidates = _candidates()
            for path in candidates:
                if path.exists():
                    cls._shared = cls(path)
                    break
            else:
                raise LibraryNotFound(
                    "no libnibtoggle.so; `tools/build-host` makes one, and NIBTOGGLE_LIBRARY may name it. Looked for: "
                    + ", ".join(str(path) for path in candidates)
                )
        return cls._shared
