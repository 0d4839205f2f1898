"""`python3 -m nibtoggle`: nib's commands on part folders of any size, with true exit statuses.

0; 1 for an error, which is one line on standard error; 2 for a wrong call; 3 where what was expected did not hold.
"""
from __future__ import annotations

import errno
import os
import sys
import warnings
from pathlib import Path
from typing import BinaryIO, Callable, Dict, Iterator, NoReturn, Optional, Sequence, Set, TextIO, Tuple, Union

from . import folder, jobs, parts, scripts, text
from ._library import Library
from .bench import Bench, make_folder, page_named, page_refusal
from .explaining import Explanation
from .part import FEATURE_MORE_LUNS, FIELDS, PAGE_LENGTH, Part, crc
from .replies import Refused

NAME = "nibtoggle"
OK, ERROR, WRONG_CALL, NOT_AS_EXPECTED = range(4)
USAGE = """\
  nibtoggle new DIR [PART]         makes a part folder: part T1, one of `parts`, or the part of a page in a file
  nibtoggle parts                  the parts that have a name
  nibtoggle run DIR < TRACE        replies on standard output; the folder is brought up to date
  nibtoggle explain [-v] DIR < TRACE  the same in words; with -v each event on a line; the folder stays as it is
  nibtoggle dump DIR LUN BLOCK PAGE   a page of the array; the folder stays as it is
  nibtoggle diff DIR DIR           where two parts differ; status 3 if they do
  nibtoggle test DIR < TEXT        runs a text and what it expects, as: = 3c a5  ! 5  ok; stored if all held, status 3 if not
  nibtoggle page FILE or DIR       what a parameter page says, and power-on's answer; of a folder its blank blocks too
  nibtoggle text < TEXT > TRACE    a trace from text, as: c 80  a 00 00 37 00 00  d 3c  o 16  f 1  p 0
  nibtoggle text DIR < TEXT        with whole jobs too, on the folder's part, as: program 1 5 3 0 3c a5  f 1  erase 1 5
  nibtoggle text -d < TRACE        a trace as text
  nibtoggle jobs [DIR] < TRACE     a trace told as whole jobs; with DIR by LUN, block and page of its part
  nibtoggle version                the version
  nibtoggle help                   these lines
"""
#: A trace is run so many bytes at a time.
_STRETCH = 1 << 20


class WrongCall(Exception):
    """The arguments name no command."""


class Failed(Exception):
    """The command could not be done; the message goes to standard error."""


def _page_in(path: Path) -> bytes:
    """The page that a file holds: 256 bytes, or the first good one of an ECh answer's three. Other lengths are none."""
    with open(path, "rb") as file:
        held = file.read(3 * PAGE_LENGTH + 1)
    if len(held) in (PAGE_LENGTH, 3 * PAGE_LENGTH):
        return parts.page_of(held)
    told = "there are %s" % (len(held) if len(held) <= 3 * PAGE_LENGTH else "more than 768")
    raise _refused(path, Refused(20, detail=told))


def _refused(path: Union[str, Path], refused: Refused) -> Failed:
    library = Library.any()
    said = library.words(library.say_reply, 2, refused.number, 0)
    return Failed("%s: power-on %s%s" % (path, said, "; " + refused.detail if refused.detail else ""))


def _open(path: str, strict: bool = True) -> Bench:
    try:
        return Bench.open(path, strict=strict)
    except Refused as refused:
        raise _refused(path if refused.number == 25 else Path(path) / "page", refused) from None


def new(words: Sequence[str], out: TextIO) -> int:
    where, part = Path(words[0]), words[1] if len(words) > 1 else "T1"
    named: Union[str, bytes] = part if part in parts.PARTS else _page_in(Path(part))
    try:
        with warnings.catch_warnings(record=True) as told:
            warnings.simplefilter("always")
            make_folder(where, named)
    except Refused as refused:
        raise _refused(part, refused) from None
    for warning in told:
        print("%s: %s" % (NAME, warning.message), file=sys.stderr)
    made = Part.of(page_named(named)[0])
    out.write("%s: page 256 bytes, id 1, array %d, counts %d, flags %d\n" % (where, made.array_length, made.counts_length, made.flags_length))
    return OK


def known(words: Sequence[str], out: TextIO) -> int:
    for part in parts.PARTS.values():
        out.write("%-20s %s, device ID %02Xh\n" % (part.name, parts.part_words(part.page), part.device_id))
    return OK


def _blank_words(path: str) -> str:
    """How many blocks of each LUN are blank, as power-on counts them in the folder."""
    bench = _open(path)
    said = ", ".join("LUN %d: %d" % (lun, bench.blank(lun)) for lun in range(bench.part.luns))
    bench.close()
    return said


def _bits(word: int, *named: Tuple[int, str]) -> str:
    """A word of the page in hex, and what its bits that are 1 stand for."""
    return "  ".join(["%04Xh" % word] + [words for bit, words in named if word >> bit & 1])


def _page_lines(bytes_: bytes) -> Iterator[Tuple[str, str]]:
    """A page field by field, and what power-on would answer: the lines that nib writes."""

    def letters(first: int, last: int) -> str:
        return "".join(chr(b) if 32 <= b < 127 else "." for b in bytes_[first:last])

    def number(at: int, size: int) -> int:
        return int.from_bytes(bytes_[at:at + size], "little")

    features = number(6, 2)
    yield "length", "%d" % len(bytes_)
    yield "signature", letters(0, 4)
    yield "features", _bits(features, (0, "16-bit bus (not taken)"), (1, "more than one LUN"),
                            (2, "pages in any order"), (8, "program-clear"))
    yield "optional commands", _bits(number(8, 2), (2, "EEh and EFh"), (3, "78h"), (6, "06h"))
    yield "maker", letters(32, 44)
    yield "model", letters(44, 64)
    yield "maker ID", "%02Xh" % bytes_[64]
    for name, at, size, least, most in FIELDS:
        most = 1 if name == "LUNs" and not features & FEATURE_MORE_LUNS else most
        outside = "" if least <= number(at, size) <= most else "  outside its limits, %d to %d" % (least, most)
        if name == "programs a page":
            taken = "" if bytes_[101] == 0x23 else "  only column 2, row 3 is taken"
            yield "address cycles", "column %d, row %d%s" % (bytes_[101] >> 4, bytes_[101] & 15, taken)
        yield name, "%d%s" % (number(at, size), outside)
    yield "CRC", "%04Xh  of its bytes %04Xh" % (number(254, 2), crc(bytes_[:254]))
    yield "power-on", _power_words(bytes_)


def _power_words(page_: bytes) -> str:
    refused, library = page_refusal(page_), Library.any()
    if refused is not None:
        return library.words(library.say_reply, 2, refused.number, 0)
    part = Part.of(page_)
    return "accepted, with an array of %d bytes, registers of %d, counts of %d, flags of %d" % (
        part.array_length, part.registers_length, part.counts_length, part.flags_length)


def page(words: Sequence[str], out: TextIO) -> int:
    in_folder = words[0] not in parts.PARTS and Path(words[0]).is_dir()
    path = Path(words[0]) / "page" if in_folder else Path(words[0])
    bytes_ = parts.PARTS[words[0]].page if words[0] in parts.PARTS else _page_in(path)
    for line in _page_lines(bytes_):
        out.write("%-18s %s\n" % line)
    if in_folder and page_refusal(bytes_) is None:
        out.write("%-18s %s\n" % ("blank blocks", _blank_words(words[0])))
    return OK


def _read(size: int = -1) -> bytes:
    """Standard input, so many bytes of it or all."""
    try:
        if sys.stdin is None:               # it was closed before Python began
            raise OSError(errno.EBADF, os.strerror(errno.EBADF))
        return sys.stdin.buffer.read(size)
    except OSError as failed:
        raise Failed("standard input: %s" % failed.strerror) from None


def _input() -> Iterator[bytes]:
    """Standard input in stretches, each of whole records but the last."""
    kept = b""
    while True:
        got = _read(_STRETCH)
        if not got:
            break
        kept += got
        whole = len(kept) // 2 * 2
        yield kept[:whole]
        kept = kept[whole:]
    if kept:
        yield kept


def run(words: Sequence[str], out: TextIO) -> int:
    bench = _open(words[0])
    replies: BinaryIO = out.buffer
    try:
        for records in _input():
            replies.write(bench.trace(records).raw)
        replies.flush()
        bench.save()
    finally:
        bench.close()
    return OK


def tested(words: Sequence[str], out: TextIO) -> int:
    bench = _open(words[0])
    library = Library.any()
    try:
        outcome = scripts.run(bench, _read(), "standard input")
        for failure in outcome.failures:
            print("%s: %s" % (NAME, failure), file=sys.stderr)
        out.write(library.words(library.say_script, outcome.events, outcome.expectations) + "\n")
        out.flush()
        if not outcome.held:
            failed = library.words(library.say_failed, len(outcome.failures), outcome.expectations)
            print("%s: %s" % (NAME, failed), file=sys.stderr)
            return NOT_AS_EXPECTED
        bench.save()
    finally:
        bench.close()
    return OK


def explained(bench: Bench, records: bytes, each: bool = False) -> Iterator[str]:
    """What `explain` says of a trace, which is run."""
    told = Explanation(bench, each)
    yield from told.lines(records)
    yield from told.rest()
    yield told.tally()


def explain(words: Sequence[str], out: TextIO) -> int:
    each, where = words[0] == "-v", words[-1]
    bench = _open(where, strict=False)
    library = Library.any()
    answer = bench.power_on()
    out.write("power-on %s\n" % library.words(library.say_reply, 2 if answer else 0, answer, 0))
    told = Explanation(bench, each)
    try:
        for records in _input():
            out.writelines(line + "\n" for line in told.lines(records))
    finally:
        out.writelines(line + "\n" for line in told.rest())
    out.write(told.tally() + "\n")
    bench.close()
    return OK


def _part_in(words: Sequence[str]) -> Optional[Part]:
    """The part of the folder that is named, from its page alone; None where none is."""
    if not words:
        return None
    path = Path(words[0]) / "page"
    page_ = _page_in(path)
    refused = page_refusal(page_)
    if refused is not None:
        raise _refused(path, refused)
    return Part.of(page_)


def text_or_back(words: Sequence[str], out: TextIO) -> int:
    if list(words) == ["-d"]:
        out.write(text.text_of(_read()))
        return OK
    part = _part_in(words)
    out.buffer.write(text.records_of(_read(), "standard input", part=part))
    return OK


def jobs_told(words: Sequence[str], out: TextIO) -> int:
    part = _part_in(words)
    for line in jobs.told(_read(), part):
        out.write("%6d  %s\n" % line)
    return OK


def _number(name: str, word: str) -> int:
    try:
        return int(word, 0)
    except ValueError:
        raise Failed("%s is a number, and '%s' is none" % (name, word)) from None


def dump(words: Sequence[str], out: TextIO) -> int:
    bench = _open(words[0], strict=False)
    lun, block, index = (_number(name, word) for name, word in zip(("LUN", "block", "page"), words[1:]))
    held = bytes(bench.page_of(lun, block, index))
    count = bench.counts[bench.part.page_number(lun, block, index)]
    bad = bench.flags[lun * bench.part.blocks + block]
    out.write("LUN %d, block %d, page %d: programmed %d times%s\n" % (lun, block, index, count, "; a factory bad block" if bad else ""))
    last, skipping = b"", False
    for at in range(0, len(held), 16):
        row = held[at:at + 16]
        if row == last and at + 16 < len(held):
            if not skipping:
                out.write("*\n")
            skipping = True
            continue
        last, skipping = row, False
        out.write("%04X  %-47s  %s\n" % (at, row.hex(" ").upper(), "".join(chr(b) if 32 <= b < 127 else "." for b in row)))
    bench.close()
    return OK


def _written(bench: Bench) -> Set[int]:
    """The stretches of a folder's array that are no holes: so two parts of 9 GB are compared without reading 18 GB."""
    assert bench.folder is not None
    with open(bench.folder / "array", "rb") as file:
        return folder.with_data(file.fileno(), len(bench.array))


def _differences(one: Bench, other: Bench) -> Iterator[str]:
    if bytes(one.page) != bytes(other.page):
        at = [i for i in range(PAGE_LENGTH) if one.page[i] != other.page[i]]
        yield "page: %d bytes differ, the first is byte %d: %02Xh and %02Xh" % (len(at), at[0], one.page[at[0]], other.page[at[0]])
    if one.device_id != other.device_id:
        yield "id: %02Xh and %02Xh" % (one.device_id, other.device_id)
    if one.part != other.part:
        yield "array, counts and flags are of other lengths, and are not compared"
        return
    part = one.part
    written = _written(one) | _written(other)
    for lun in range(part.luns):
        for block in range(part.blocks):
            flag = lun * part.blocks + block
            if one.flags[flag] != other.flags[flag]:
                yield "LUN %d, block %d: flag %d and %d" % (lun, block, one.flags[flag], other.flags[flag])
            start, size = part.page_start(lun, block, 0), part.pages * part.page_size
            number = part.page_number(lun, block, 0)
            holes = written.isdisjoint(folder.stretches_of(start, size))
            if (holes or one.array[start:start + size] == other.array[start:start + size]) \
                    and one.counts[number:number + part.pages] == other.counts[number:number + part.pages]:
                continue
            for index in range(part.pages):
                yield from _page_differences(one, other, lun, block, index)


def _page_differences(one: Bench, other: Bench, lun: int, block: int, index: int) -> Iterator[str]:
    where = "LUN %d, block %d, page %d: " % (lun, block, index)
    a, b = bytes(one.page_of(lun, block, index)), bytes(other.page_of(lun, block, index))
    if a != b:
        at = [i for i, (x, y) in enumerate(zip(a, b)) if x != y]
        yield where + "%d bytes differ, the first at column %d: %02Xh and %02Xh" % (len(at), at[0], a[at[0]], b[at[0]])
    number = one.part.page_number(lun, block, index)
    if one.counts[number] != other.counts[number]:
        yield where + "programmed %d times and %d" % (one.counts[number], other.counts[number])


def diff(words: Sequence[str], out: TextIO) -> int:
    one, other = _open(words[0], strict=False), _open(words[1], strict=False)
    found = 0
    for line in _differences(one, other):
        out.write(line + "\n")
        found += 1
    one.close()
    other.close()
    if not found:
        return OK
    out.flush()
    print("%s: the parts differ" % NAME, file=sys.stderr)
    return NOT_AS_EXPECTED


def version(words: Sequence[str], out: TextIO) -> int:
    from . import __version__
    number: int = Library.found().version()
    out.write("%s %s, library %d.%d.%d\n" % (NAME, __version__, number >> 16, number >> 8 & 255, number & 255))
    return OK


def helped(words: Sequence[str], out: TextIO) -> int:
    out.write(USAGE)
    return OK


Command = Callable[[Sequence[str], TextIO], int]
#: Each command, and how many words may come after it.
COMMANDS: Dict[str, Tuple[Command, Tuple[int, ...]]] = {
    "new": (new, (1, 2)), "parts": (known, (0,)), "run": (run, (1,)), "explain": (explain, (1, 2)), "test": (tested, (1,)),
    "page": (page, (1,)), "dump": (dump, (4,)), "diff": (diff, (2,)), "text": (text_or_back, (0, 1)), "jobs": (jobs_told, (0, 1)),
    "version": (version, (0,)), "help": (helped, (0,)), "--help": (helped, (0,)), "-h": (helped, (0,)), "--version": (version, (0,)),
}


def _asked(words: Sequence[str]) -> Tuple[Command, Sequence[str]]:
    if not words or words[0] not in COMMANDS:
        raise WrongCall("no such call; these are:")
    command, counts = COMMANDS[words[0]]
    rest = list(words[1:])
    if "--help" in rest or "-h" in rest:
        return helped, []
    flags = [word for word in rest if word.startswith("-")]
    each = words[0] == "explain" and rest[:1] == ["-v"]
    if len(rest) not in counts or flags and not (words[0] == "text" and flags == ["-d"] or each and flags == ["-v"]):
        raise WrongCall("no such call; these are:")
    if words[0] == "explain" and len(rest) != 1 + each:
        raise WrongCall("no such call; these are:")
    return command, rest


def main(words: Sequence[str]) -> int:
    try:
        command, rest = _asked(words)
        if sys.stdout is None:
            raise Failed("standard output: %s" % os.strerror(errno.EBADF))
        status = command(rest, sys.stdout)
        sys.stdout.flush()
        return status
    except WrongCall as wrong:
        print("%s: %s" % (NAME, wrong), file=sys.stderr)
        sys.stderr.write(USAGE)
        return WRONG_CALL
    except BrokenPipeError:
        # whoever read has left: nobody is to be told
        os.dup2(os.open(os.devnull, os.O_WRONLY), sys.stdout.fileno())
        return ERROR
    except (Failed, folder.FolderError, text.BadWord) as failed:
        print("%s: %s" % (NAME, failed), file=sys.stderr)
    except OSError as failed:
        where = failed.filename if failed.filename is not None else "standard output"
        print("%s: %s: %s" % (NAME, where, failed.strerror or failed), file=sys.stderr)
    except ValueError as failed:
        print("%s: %s" % (NAME, failed), file=sys.stderr)
    _drop_output()
    return ERROR


def _drop_output() -> None:
    """What could not be written is not tried again at exit."""
    if sys.stdout is None:
        return
    try:
        sys.stdout.flush()
    except OSError:
        os.dup2(os.open(os.devnull, os.O_WRONLY), sys.stdout.fileno())


def script() -> NoReturn:
    """The command `nibtoggle` of an installed package."""
    sys.exit(main(sys.argv[1:]))
