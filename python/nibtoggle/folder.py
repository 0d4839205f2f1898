"""Part folders, as nib has them (docs/PARTS.md): one file a buffer. They are read whole, and saved whole or not at all."""
from __future__ import annotations

import ctypes
import mmap
import os
from contextlib import contextmanager
from pathlib import Path
from typing import BinaryIO, Iterable, Iterator, List, NamedTuple, Optional, Sequence, Set, Tuple, Union

from .part import PAGE_LENGTH, Part

#: A new array up to this length starts as FFh. A longer one is a sparse file, whose unwritten bytes are 00h.
LARGE = 64 << 20
#: As much of an array is looked at or written at a time.
_STRETCH = 1 << 20

Buffer = Union[bytes, bytearray, memoryview, mmap.mmap]


class Files(NamedTuple):
    """What a part folder holds. The array is a private map of its file, open as `base`: what changes in it stays here until it is saved."""

    page: bytes
    device_id: int
    array: mmap.mmap
    base: int
    counts: bytearray
    flags: bytearray


class FolderError(OSError):
    """A part folder is not one: the message names the file and what is wrong with it."""


@contextmanager
def _naming(path: Path) -> Iterator[None]:
    """What goes wrong with a file that is open says its name too."""
    try:
        yield
    except OSError as failed:
        if failed.errno is None or failed.filename is not None:
            raise
        raise OSError(failed.errno, failed.strerror, str(path)) from failed


def _file(folder: Path, name: str, due: int) -> bytes:
    path = folder / name
    held = path.read_bytes() if path.stat().st_size <= max(due, PAGE_LENGTH) else None
    if held is None or len(held) != due:
        raise FolderError("%s: has %d bytes, and should have %d" % (path, path.stat().st_size, due))
    return held


def read_page(path: Path) -> bytes:
    """A folder's page, 256 bytes or the three copies of an answer to ECh; whether power-on takes it is another question."""
    three = 3 * PAGE_LENGTH
    return _file(path, "page", three if (path / "page").stat().st_size == three else PAGE_LENGTH)


def read_id(path: Path) -> int:
    return _file(path, "id", 1)[0]


def read(path: Path, page: bytes, device_id: int) -> Files:
    """The buffers of a folder whose page power-on takes, each of just the length that the page gives."""
    part = Part.of(page)
    counts, flags = bytearray(_file(path, "counts", part.counts_length)), bytearray(_file(path, "flags", part.flags_length))
    base = os.open(path / "array", os.O_RDONLY)
    try:
        there = os.fstat(base).st_size
        if there != part.array_length:
            raise FolderError("%s: has %d bytes, and should have %d" % (path / "array", there, part.array_length))
        return Files(page, device_id, mmap.mmap(base, there, access=mmap.ACCESS_COPY), base, counts, flags)
    except BaseException:
        os.close(base)
        raise


def make(path: Path, page: bytes, device_id: int, flags: Sequence[int] = (), marks: bool = False) -> bool:
    """A new folder, or the files of one that stands empty; none is written over, and after a failure nothing is left. With
    `marks` the array has the makers' marks of bad blocks. True where it is so large that its unwritten bytes are 00h."""
    part = Part.of(page)
    held = bytes(flags) or bytes(part.flags_length)
    fresh = not path.exists()
    if fresh:
        path.mkdir()
    made: List[Path] = []
    try:
        for name, contents in (("page", page), ("id", bytes((device_id,))), ("array", None),
                               ("counts", bytes(part.counts_length)), ("flags", held)):
            with _naming(path / name), open(path / name, "xb") as file:
                made.append(path / name)
                if contents is not None:
                    file.write(contents)
                else:
                    _write_array(file, part, part.marks(held) if marks else ())
                file.flush()
                os.fsync(file.fileno())
    except BaseException:
        for name_made in made:
            name_made.unlink()
        if fresh:
            path.rmdir()
        raise
    return part.array_length > LARGE


def _write_array(file: BinaryIO, part: Part, marks: Iterable[Tuple[int, int]]) -> None:
    """An erased array, or, where it is large, one whose bytes are 00h; and the marks of its blocks."""
    if part.array_length <= LARGE:
        file.write(b"\xFF" * part.array_length)
    else:
        file.truncate(part.array_length)
    for place, mark in marks:
        file.seek(place)
        file.write(bytes((mark,)))


def stretches_of(start: int, length: int) -> range:
    """The numbers of the stretches that hold these bytes."""
    return range(start // _STRETCH, (start + length + _STRETCH - 1) // _STRETCH)


def with_data(base: int, length: int) -> Set[int]:
    """Which stretches of a file have bytes on the disk; the others are holes, all 00h."""
    found: Set[int] = set()
    at = 0
    while at < length:
        try:
            at = os.lseek(base, at, os.SEEK_DATA)
        except OSError:
            break
        end = os.lseek(base, at, os.SEEK_HOLE)
        found.update(stretches_of(at, end - at))
        at = end
    return found


def _stretches(view: memoryview, base: Optional[int]) -> Iterator[int]:
    """Where stretches begin that may have a byte other than 00h. Of a private map of a sparse file those are the ones that the file has on the
    disk and those that were touched since, which the kernel knows: so a part of 9 GB is saved without reading 9 GB."""
    starts = range(0, len(view), _STRETCH)
    if base is None:
        yield from starts
        return
    try:
        touched = os.open("/proc/self/pagemap", os.O_RDONLY)
    except OSError:
        yield from starts
        return
    try:
        data = with_data(base, len(view))
        place = ctypes.addressof(ctypes.c_uint8.from_buffer(view)) // mmap.PAGESIZE * 8
        for start in starts:
            entries = -(-min(_STRETCH, len(view) - start) // mmap.PAGESIZE) * 8
            known = os.pread(touched, entries, place + start // mmap.PAGESIZE * 8)
            if start // _STRETCH in data or known != bytes(entries):
                yield start
    finally:
        os.close(touched)


def _write_beside(path: Path, contents: Buffer, base: Optional[int]) -> None:
    """The file's new contents beside it, on the disk. What is all 00h is left a hole."""
    zeros = bytes(_STRETCH)
    with _naming(path), memoryview(contents) as view, open(path, "wb") as file:
        file.truncate(len(view))
        for at in _stretches(view, base):
            stretch = view[at:at + _STRETCH]
            if stretch != zeros[:len(stretch)]:
                file.seek(at)
                file.write(stretch)
        file.flush()
        os.fsync(file.fileno())


def save(path: Path, files: Sequence[Tuple[str, Buffer]], base: Optional[int] = None) -> None:
    """Each file's contents: all are written beside the old ones and are on the disk before the first takes its name. `base` is the file that
    the array is a private map of, where it is one."""
    beside = [path / (name + ".new") for name, _ in files]
    try:
        for new, (name, contents) in zip(beside, files):
            _write_beside(new, contents, base if name == "array" else None)
        for new, (name, _) in zip(beside, files):
            os.replace(new, path / name)
    except BaseException:
        for new in beside:
            if new.exists():
                new.unlink()
        raise
    directory = os.open(path, os.O_RDONLY)
    try:
        os.fsync(directory)
    finally:
        os.close(directory)
