"""Whole jobs: the worked table of the request, both ways, and the bench's own jobs."""
import sys
import unittest
from pathlib import Path

sys.path.insert(0, str(Path(__file__).resolve().parent.parent))

from nibtoggle import Bench, Job  # noqa: E402
from nibtoggle.jobs import Misfit, Whole, first_misfit, group, job_at, records  # noqa: E402


def trace(text: str) -> bytes:
    """nib's letters: c, a, d values in hex, o a count, f a LUN."""
    out, letter = bytearray(), ""
    for word in text.split():
        if word in "cadof":
            letter = word
        elif letter == "o":
            out += bytes((3, 0)) * int(word)
        else:
            out += bytes(("cad".find(letter), int(word, 16)) if letter in "cad" else (4, int(word)))
    return bytes(out)


TABLE = [
    (Job("read", 0x030405, 0x0102), "00 00 01 02 01 01 01 05 01 04 01 03 00 30"),
    (Job("read-out", 0x20, 0, 2), "00 06 01 00 01 00 01 20 01 00 01 00 00 E0 03 00 03 00"),
    (Job("program", 0x37, 0x020F, data=b"\x3C"), "00 80 01 0F 01 02 01 37 01 00 01 00 02 3C 00 10"),
    (Job("erase", 0x37), "00 60 01 37 01 00 01 00 00 D0"),
    (Job("status", 0x20, count=1), "00 78 01 20 01 00 01 00 03 00"),
]

READ = "c 00 a 00 00 00 00 00 c 30 "
PROGRAM = "c 80 a 00 00 00 00 00 d 01 "
LISTS = [
    ("", [], None),
    ("c 00 a 02 01 05 04 03 c 30 c 78 a 20 00 00 o 1", [Job("read", 0x030405, 0x0102), Job("status", 0x20, count=1)], None),
    ("c 78 a 00 00 00", [Job("status", 0)], None),
    ("c 78 a 00 00", [], 3),
    (PROGRAM + "c 85 a 00 00", [], 7),
    (PROGRAM, [], 7),
    (READ + "f 0", [Job("read", 0)], 7),
    (READ + "o 1", [Job("read", 0)], 7),
    ("c 00 a 00 00 00 00 00 c 35", [], 6),
    ("c ff", [], 0),
]


class Written(unittest.TestCase):
    def test_table(self) -> None:
        for job, hexed in TABLE:
            wanted = bytes.fromhex(hexed)
            self.assertEqual(records(job), wanted)
            self.assertEqual(job_at(wanted, 0), Whole(job, len(wanted) // 2))
            self.assertEqual(job_at(trace("c ff") + wanted, 1), Whole(job, 1 + len(wanted) // 2))

    def test_too_wide(self) -> None:
        for job in (Job("erase", 1 << 24), Job("read", 0, 1 << 16), Job("read", -1), Job("program", 1 << 64), Job("status", 1 << 80)):
            with self.assertRaisesRegex(ValueError, "24 bits"):
                records(job)
        self.assertEqual(len(records(Job("erase", (1 << 24) - 1))), 10)

    def test_no_job(self) -> None:
        with self.assertRaisesRegex(ValueError, "none of the jobs"):
            records(Job("copyback", 0))
        with self.assertRaisesRegex(ValueError, "count"):
            records(Job("status", 0, count=-1))

    def test_zero_bytes_in_data(self) -> None:
        data = bytes(range(256)) * 3
        self.assertEqual(group(records(Job("program", 5, 7, data=data))).jobs, [Job("program", 5, 7, data=data)])


class Read(unittest.TestCase):
    def test_table(self) -> None:
        for text, jobs, misfit in LISTS:
            with self.subTest(text):
                told = group(trace(text))
                self.assertEqual(told.jobs, jobs)
                self.assertEqual(told.misfit, misfit)
                self.assertEqual(first_misfit(trace(text)), misfit)

    def test_odd_byte(self) -> None:
        self.assertEqual(group(trace(READ) + b"\0").misfit, 7)
        self.assertEqual(job_at(b"\0", 0), Misfit(0))
        self.assertIsNone(job_at(b"\0", 1))

    def test_places(self) -> None:
        self.assertIsNone(job_at(trace(READ), 7))
        self.assertIsNone(job_at(trace(READ), 1 << 70))
        with self.assertRaises(ValueError):
            job_at(b"", -1)

    def test_words(self) -> None:
        self.assertEqual(str(Job("program", 55, 0, data=b"abc")), "program row 55, column 0, 3 bytes")
        self.assertEqual(str(Job("status", 32, count=1)), "status row 32, 1 byte")
        self.assertEqual(str(Job("erase", 4)), "erase row 4")


class Bench_jobs(unittest.TestCase):
    """What the bench sends for its jobs is what the proved writer makes."""

    def test_program_and_read(self) -> None:
        bench = Bench.t1()
        bench.reset()
        bench.program(1, 5, 3, b"\x3C\x00\xA5", 7)
        self.assertEqual(bench.read_page(1, 5, 3, 6, 5), b"\xFF\x3C\x00\xA5\xFF")
        self.assertEqual(bench.read_out(1, 7, 3), b"\x3C\x00\xA5")
        self.assertEqual(int(bench.status(1) or 0), 0xE0)

    def test_row_too_wide(self) -> None:
        bench = Bench.t1()
        bench.reset()
        with self.assertRaisesRegex(ValueError, "^LUN is 0 to 1, and 1073741824 was given$"):
            bench.erase(1 << 30, 0)
        with self.assertRaisesRegex(ValueError, "^row is 0 to 16777215, and 16777216 was given$"):
            bench.erase(row=1 << 24)


if __name__ == "__main__":
    unittest.main()
