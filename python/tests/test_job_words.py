"""Words for whole jobs in a text, and a trace told as jobs: the library against a second reader and teller, in plain Python."""
from __future__ import annotations

import importlib.util
import os
import random
import subprocess
import sys
import tempfile
import unittest
from pathlib import Path
from typing import Any, Iterator, List, Optional, Tuple

ROOT = Path(__file__).resolve().parent.parent.parent
sys.path.insert(0, str(ROOT / "python"))

from nibtoggle import BadWord, parameter_page, records_of  # noqa: E402
from nibtoggle.jobs import told  # noqa: E402
from nibtoggle.part import Part  # noqa: E402
from nibtoggle.parts import PARTS  # noqa: E402

NIBS = ROOT / "crates" / "test_nib" / "data"
T1, T2 = Part(528, 4, 8, 2, 4), Part(528, 3, 5, 2, 4)
TINY = Part.of((NIBS / "tiny" / "page").read_bytes())
LARGE = Part.of(PARTS["MT29F128G08AJAAAWP"].page)
ALL = (T1, T2, TINY, LARGE, Part(18432, 256, 4096, 4, 8), Part(16, 1, 1, 1, 1))


def second() -> Any:
    """tools/jobs.py, the second writer and reader of whole jobs."""
    spec = importlib.util.spec_from_file_location("second_jobs", ROOT / "tools" / "jobs.py")
    assert spec is not None and spec.loader is not None
    module = importlib.util.module_from_spec(spec)
    spec.loader.exec_module(module)
    return module


SECOND = second()


def bits(n: int) -> int:
    return len(bin(n - 1)) - 2 if n > 1 else 0


def row_of(part: Part, lun: int, block: int, page: int) -> int:
    return ((lun << bits(part.blocks)) + block << bits(part.pages)) + page


def some_job(draw: random.Random, part: Part) -> Tuple[str, bytes]:
    """A job on a part as a text says it, and its records by the second writer."""
    kind = draw.choice(list(SECOND.SHAPES))
    lun, block, page = (draw.choice((0, n - 1, draw.randrange(n))) for n in (part.luns, part.blocks, part.pages))
    column, count = draw.choice((0, part.page_size - 1, draw.randrange(part.page_size))), draw.choice((0, 1, draw.randrange(30)))
    data = draw.randbytes(draw.choice((0, 1, draw.randrange(30))))
    block = block if kind in ("read", "program", "erase") else 0
    page = page if kind in ("read", "program") else 0
    places = {"read": (lun, block, page, column), "program": (lun, block, page, column), "read-out": (lun, column, count),
              "erase": (lun, block), "status": (lun, count)}[kind]
    words = [kind] + ["%d" % place for place in places] + [("%02x" % byte).upper() if draw.random() < .2 else "%02x" % byte
                                                           for byte in (data if kind == "program" else b"")]
    size = (14 if kind in ("read", "program", "read-out") else 10 if kind == "erase" else 8) + 2 * (
        len(data) if kind == "program" else count if kind in ("read-out", "status") else 0)
    records = SECOND.written(kind, column, row_of(part, lun, block, page), count, data, bytes(size))
    assert isinstance(records, bytes)
    return draw.choice((" ", "  ", "\t")).join(words), records


def some_text(draw: random.Random, part: Part) -> Tuple[str, bytes]:
    """Jobs and letters on lines, and their trace."""
    text, trace = "", b""
    for _ in range(draw.randrange(12)):
        job, records = some_job(draw, part)
        value = draw.randrange(256)
        letters, more = draw.choice((("", b""), ("c %02x" % value, bytes((0, value))), ("f %d" % value, bytes((4, value))),
                                     ("p %d" % (value & 1), bytes((5, value & 1))), ("a 00 %02x" % value, bytes((1, 0, 1, value)))))
        text += job + draw.choice(("\n", " # and\n", "#\n", "\r\n", "\n\n", " ")) + letters + draw.choice(("\n", " ", "\t"))
        trace += records + more
    return text, trace


def plainly(trace: bytes, part: Optional[Part]) -> Iterator[Tuple[int, str]]:
    """The second teller: lines of a trace, each with the number of its first record, counted from 1."""
    at = 0
    while 2 * at < len(trace):
        jobs, misfit = SECOND.grouped(trace[2 * at:])
        record = trace[2 * at:2 * at + 2]
        if jobs:
            kind, row, column, count, data = jobs[0]
            yield at + 1, job_words(kind, row, column, len(data) if kind == "program" else count, part)
            at += {"read": 7, "read-out": 7 + count, "program": 7 + len(data), "erase": 5, "status": 4 + count}[kind]
        elif misfit:
            ends = 2 * (at + misfit) >= len(trace)
            yield at + 1, "no whole job: %s; %s" % (
                event_words(record), "the trace ends inside it" if ends else "record %d doesn't fit it" % (at + misfit + 1))
            at += misfit
        elif len(record) == 1:
            yield at + 1, "no job: odd byte %02Xh" % record[0]
            at += 1
        else:
            run = 1
            while record[0] == 2 and trace[2 * (at + run):][:1] == b"\x02" and len(trace) > 2 * (at + run) + 1 \
                    or record == b"\x03\x00" and trace[2 * (at + run):][:2] == b"\x03\x00":
                run += 1
            many = "data %s, %d bytes" % ("in" if record[0] == 2 else "out", run)
            # 85h moves a column where a program was begun by the last command before it, or went on at one
            before = [trace[2 * i + 1] for i in range(at) if trace[2 * i] == 0][-1:]
            one = event_words(record, record == b"\x00\x85" and before in ([0x80], [0x85]))
            yield at + 1, one if record[0] == 4 else "no job: " + (many if run > 1 else one)
            at += run


def job_words(kind: str, row: int, column: int, count: int, part: Optional[Part]) -> str:
    words = kind
    there = True
    if part is None:
        words += " row %06Xh" % row
    else:
        lun, block, page = row >> bits(part.blocks) + bits(part.pages), row >> bits(part.pages), row
        block, page = block & (1 << bits(part.blocks)) - 1, page & (1 << bits(part.pages)) - 1
        words += " LUN %d" % lun
        there = lun < part.luns
        if kind in ("read", "program", "erase"):
            words += " block %d" % block
            there = there and block < part.blocks
        if kind in ("read", "program"):
            words += " page %d" % page
            there = there and page < part.pages
        if kind in ("read", "program", "read-out"):
            there = there and column < part.page_size
    if kind in ("read", "program", "read-out"):
        words += ", column %d" % column
    if kind in ("program", "read-out", "status"):
        words += ", %d byte%s" % (count, "" if count == 1 else "s")
    return words + ("" if there else "; the part has no such place")


def event_words(record: bytes, inside: bool = False) -> str:
    """As `explain` has it; the words of commands are asked for."""
    from nibtoggle.text import event_words as asked
    return asked(record[0], record[1], inside=inside)


def some_trace(draw: random.Random) -> bytes:
    """Lists of jobs, whole or damaged, with events and noise between them."""
    pieces: List[bytes] = []
    for _ in range(draw.randrange(6)):
        pieces.append(bytes(SECOND.some_list(draw)))
        kind = draw.randrange(8)
        pieces.append(bytes((kind, draw.choice((0, 1, draw.randrange(256))))) * draw.choice((0, 1, 1, 3)))
    return b"".join(pieces)[:draw.choice((None, None, draw.randrange(1, 60)))]


class Words(unittest.TestCase):
    def test_the_worked_lines(self) -> None:
        trace = records_of("c ff\nprogram 1 5 3 0 3c a5 24  f 1\nread 1 5 3 0  f 1  o 3\nstatus 1 2\nread-out 1 7 1\nerase 1 5", part=T1)
        self.assertEqual(trace, records_of("c ff c 80 a 00 00 37 00 00 d 3c a5 24 c 10 f 1 c 00 a 00 00 37 00 00 c 30 f 1 o 3 "
                                           "c 78 a 20 00 00 o 2 c 06 a 07 00 20 00 00 c e0 o 1 c 60 a 34 00 00 c d0"))
        self.assertEqual(list(told(trace, T1)), [
            (1, "no job: command FFh  reset"), (2, "program LUN 1 block 5 page 3, column 0, 3 bytes"), (12, "finish LUN 1"),
            (13, "read LUN 1 block 5 page 3, column 0"), (20, "finish LUN 1"), (21, "no job: data out, 3 bytes"),
            (24, "status LUN 1, 2 bytes"), (30, "read-out LUN 1, column 7, 1 byte"), (38, "erase LUN 1 block 5")])
        self.assertEqual(list(told(trace))[1], (2, "program row 000037h, column 0, 3 bytes"))
        self.assertEqual(list(told(b"")), [])

    def test_texts_as_the_second_writer_has_them(self) -> None:
        draw = random.Random(5)
        for turn in range(300):
            part = ALL[turn % len(ALL)]
            text, trace = some_text(draw, part)
            self.assertEqual(records_of(text, part=part), trace, text)

    def test_traces_as_the_second_teller_has_them(self) -> None:
        draw = random.Random(6)
        seen = set()
        for turn in range(600):
            part = (ALL + (None,))[turn % (len(ALL) + 1)]
            trace = some_trace(draw) if turn % 3 else some_text(draw, part or T1)[1]
            lines = list(plainly(trace, part))
            self.assertEqual(list(told(trace, part)), lines, trace.hex())
            seen.update(words.split()[0] + (" ;" if ";" in words else "") for _, words in lines)
        self.assertLessEqual({"read", "read-out", "program", "erase", "status", "finish", "no", "no ;", "read ;", "erase ;"}, seen)

    def test_bad_words_are_named(self) -> None:
        cases = [
            ("c ff\nerase", 2, 1, "erase", "the job wants a value more"), ("erase 1", 1, 7, "1", "the job wants a value more"),
            ("  erase 1 # 5", 1, 9, "1", "the job wants a value more"), ("read 1 5 3 f 1", 1, 12, "f", "the job wants a value more"),
            ("read 1 5 read 1 5 3 0", 1, 10, "read", "the job wants a value more"),
            ("erase 1 5 3", 1, 11, "3", "a value more than the job takes"), ("status 1 2 3c", 1, 12, "3c", "a value more than the job takes"),
            ("erase 2 0", 1, 7, "2", "the part has no such LUN"), ("erase 0 8", 1, 9, "8", "the part has no such block"),
            ("read 0 0 4 0", 1, 10, "4", "the part has no such page"), ("program 0 0 0 528", 1, 15, "528", "the part has no such column"),
            ("program 0 0 0 0 3", 1, 17, "3", "not two hex digits"), ("program 0 0 0 0 100", 1, 17, "100", "not two hex digits"),
            ("erase 0x0 1", 1, 7, "0x0", "not a decimal number, or too large"), ("status 0 65536", 1, 10, "65536", "not a decimal number, or too large"),
            ("erase -1 0", 1, 7, "-1", "not a decimal number, or too large"),
            ("c erase 1 5", 1, 3, "erase", "a letter, a job's word or ok, where the letter before it wants a value"), ("Erase 1 5", 1, 1, "Erase", "no letter of c a d o f p x = ! and no job's word"),
            ("erases 1 5", 1, 1, "erases", "no letter"), ("readout 1 0 1", 1, 1, "readout", "no letter"), ("reads", 1, 1, "reads", "no letter"),
            ("rea 1", 1, 1, "rea", "no letter"), ("read-outprogram 1", 1, 1, "read-outprogram", "no letter"),
            ("read-out\0program 0 0 0 0", 1, 1, "read-out.program", "no letter"),
        ]
        for text, line, place, word, why in cases:
            with self.subTest(text):
                with self.assertRaises(BadWord) as caught:
                    records_of(text, part=T1)
                bad = caught.exception
                self.assertEqual((bad.line, bad.place, bad.word), (line, place, word))
                self.assertIn(why, bad.why)
        for word in ("read", "read-out", "program", "erase", "status"):
            with self.assertRaises(BadWord) as caught:
                records_of("c ff\n %s 0 0 0 0" % word)
            self.assertEqual((caught.exception.line, caught.exception.place, caught.exception.word), (2, 2, word))
            self.assertIn("needs a part", caught.exception.why)

    def test_a_word_is_the_jobs_or_none(self) -> None:
        """Each of the five words and no beginning, longer word or near miss of one is taken."""
        words = ["read", "read-out", "program", "erase", "status"]
        near = {word[:n] for word in words for n in range(2, len(word))} | {word + letter for word in words for letter in "-0aeorst"}
        near |= {word[:n] + "z" + word[n + 1:] for word in words for n in range(len(word))} | {a + b for a in words for b in words}
        values = {"read": " 0 0 0 0", "read-out": " 0 0 0", "program": " 0 0 0 0", "erase": " 0 0", "status": " 0 0"}
        for word in words:
            self.assertTrue(records_of(word + values[word], part=T1))
        for word in sorted(near - set(words)):
            with self.assertRaises(BadWord) as caught:
                records_of(word + " 0 0 0 0", part=T1)
            self.assertEqual(caught.exception.word, word)


class Command(unittest.TestCase):
    """`python3 -m nibtoggle text DIR` and `jobs [DIR]`."""

    def call(self, folder: str, *words: str, given: bytes = b"") -> Tuple[int, bytes, str]:
        done = subprocess.run([sys.executable, "-m", "nibtoggle", *words], input=given, cwd=folder,
                              env=dict(os.environ, PYTHONPATH=str(ROOT / "python")), stdout=subprocess.PIPE, stderr=subprocess.PIPE)
        return done.returncode, done.stdout, done.stderr.decode()

    def test_text_and_jobs(self) -> None:
        with tempfile.TemporaryDirectory() as folder:
            (Path(folder) / "t1").mkdir()
            (Path(folder) / "t1" / "page").write_bytes(parameter_page())
            status, trace, error = self.call(folder, "text", "t1", given=b"program 1 5 3 0 3c\nf 1")
            self.assertEqual((status, error, len(trace)), (0, "", 18))
            self.assertEqual(self.call(folder, "jobs", "t1", given=trace),
                             (0, b"     1  program LUN 1 block 5 page 3, column 0, 1 byte\n     9  finish LUN 1\n", ""))
            self.assertEqual(self.call(folder, "jobs", given=trace)[1].splitlines()[0], b"     1  program row 000037h, column 0, 1 byte")
            self.assertEqual(self.call(folder, "text", given=b"program 1 5 3 0 3c"),
                             (1, b"", "nibtoggle: standard input, line 1, place 1: 'program': a job's word, which needs a part: text DIR\n"))
            self.assertEqual(self.call(folder, "jobs", "none")[0], 1)
            (Path(folder) / "t1" / "page").write_bytes(bytes(256))
            status, trace, error = self.call(folder, "text", "t1", given=b"c ff")
            self.assertEqual((status, trace), (1, b""))
            self.assertIn("t1/page: power-on refused 21", error)
            for words in (["jobs", "-d"], ["jobs", "a", "b"], ["text", "a", "b"], ["text", "-d", "a"], ["text", "-x"]):
                self.assertEqual(self.call(folder, *words)[0], 2, words)


if __name__ == "__main__":
    unittest.main()
