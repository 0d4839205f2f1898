"""What `explain`, `dump` and `diff` say, line by line; and that nib says it too, with its exit statuses."""
from __future__ import annotations

import os
import shutil
import subprocess
import sys
import tempfile
import unittest
from pathlib import Path
from typing import Dict, List, Tuple

ROOT = Path(__file__).resolve().parent.parent.parent
sys.path[:0] = [str(ROOT / "python")]

from nibtoggle import Bench, parameter_page, records_of  # noqa: E402
from nibtoggle._library import Library  # noqa: E402
from nibtoggle.cli import explained  # noqa: E402
from nibtoggle.parts import PARTS  # noqa: E402

NIB = Path(os.environ.get("NIB_PROGRAM", ROOT / "target" / "bin" / "nib"))
Said = Tuple[int, str, str]


def cells(line: str) -> Tuple[int, str, str]:
    """Number, event and answer of a line: the answer begins at column 44, or one blank after an event that is longer."""
    number, rest = int(line[:6]), line[8:]
    for answer in ("accepted", "refused ", "byte ", "bytes "):
        at = rest.rfind(" " + answer, 8)
        if at >= 0:
            return number, rest[:at].rstrip(), rest[at + 1:]
    raise AssertionError(line)


class Lines(unittest.TestCase):
    """The lines of a trace, on T1: 512+16 bytes, 4 pages, 8 blocks, 2 LUNs."""

    def told(self, text: str, each: bool = False, page: bytes = parameter_page()) -> List[str]:
        bench = Bench(page, 0x68, strict=False)
        return list(explained(bench, records_of(text), each))

    def folded(self, text: str) -> List[Tuple[int, str, str]]:
        return [cells(line) for line in self.told(text)[:-1]]

    def test_the_cycle_that_completes_a_row_says_it(self) -> None:
        for command, column, said in (("00", "00 00 ", "LUN 1, block 5, page 3"), ("80", "00 00 ", "LUN 1, block 5, page 3"),
                                      ("60", "", "LUN 1, block 5"), ("06", "00 00 ", "LUN 1"), ("78", "", "LUN 1")):
            lines = self.told("c ff c %s a %s37 00 00" % (command, column))
            self.assertEqual(cells(lines[-2])[1:], ("address 00h  row 000037h: " + said, "accepted"))
            self.assertEqual(sum("row" in line for line in lines), 1)

    def test_a_row_that_is_refused_is_said_too(self) -> None:
        self.assertEqual(self.folded("c ff c 00 a 00 00 ff ff ff")[-1],
                         (7, "address FFh  row FFFFFFh: LUN 524287, block 7, page 3",
                          "refused 4: row, column, feature or identification address not in range"))
        # with no sequence open an address completes nothing
        self.assertEqual(self.folded("c ff a 00")[-1][1], "address 00h")
        # T2's fields: two bits of page, three of block
        self.assertIn("row 000011h: LUN 0, block 4, page 1", self.told("c ff c 00 a 00 00 11 00 00", page=PARTS["T2"].page)[-2])

    def test_a_copyback_s_row(self) -> None:
        lines = self.told("c ff c 00 a 00 00 00 00 00 c 35 f 0 c 85 a 00 00 01 00 00", page=PARTS["W"].page)
        self.assertIn("row 000001h: LUN 0, block 0, page 1", lines[-2])

    def test_status_bytes_in_words(self) -> None:
        library = Library.found()
        for byte, said in ((0xE0, "ready"), (0xE1, "ready, FAIL"), (0x80, "working"), (0x60, "ready, line low"), (0x61, "ready, FAIL, line low"),
                           (0x00, "working, line low"), (0x81, "working, FAIL")):
            self.assertEqual(library.words(library.say_status, byte), said)
        told = self.folded("c ff c 70 o 1 c 80 a 00 00 00 00 00 c 10 c 70 o 1 f 0 o 1")
        self.assertEqual([answer for _, event, answer in told if event == "data out"],
                         ["byte E0h  ready", "byte 80h  working", "byte E0h  ready"])
        # a byte of a register is none, whatever it is
        self.assertEqual(self.folded("c ff c 00 a 00 00 00 00 00 c 30 f 0 o 1")[-1], (10, "data out", "byte FFh"))
        # after a status, 00h goes on with the register
        self.assertEqual(self.folded("c ff c 00 a 00 00 00 00 00 c 30 f 0 c 70 o 1 c 00 o 1")[-1], (13, "data out", "byte FFh"))

    def test_data_in_a_row_is_one_line(self) -> None:
        program = "c ff c 80 a 00 00 00 00 00 "
        self.assertEqual(self.folded(program + "d 3c")[-1], (8, "data in 3Ch", "accepted"))
        self.assertEqual(self.folded(program + "d 3c a5")[-1], (8, "data in, 2 bytes: 3Ch A5h", "accepted"))
        sixteen = " ".join("%02x" % i for i in range(16))
        shown = " ".join("%02Xh" % i for i in range(16))
        self.assertEqual(self.folded(program + "d " + sixteen)[-1], (8, "data in, 16 bytes: " + shown, "accepted"))
        self.assertEqual(self.folded(program + "d %s 10" % sixteen)[-1], (8, "data in, 17 bytes: %s .." % shown, "accepted"))
        read = "c ff c 90 a 20 "
        self.assertEqual(self.folded(read + "o 1")[-1], (4, "data out", "byte 4Fh"))
        self.assertEqual(self.folded(read + "o 4")[-1], (4, "data out, 4 bytes", "bytes 4Fh 4Eh 46h 49h"))
        self.assertEqual(self.folded("c ff c ec a 00 o 768")[-1][1:],
                         ("data out, 768 bytes", "bytes " + " ".join("%02Xh" % b for b in parameter_page()[:16]) + " .."))

    def test_what_ends_a_run(self) -> None:
        # a refusal inside it: the program takes two bytes more
        self.assertEqual(self.folded("c ff c 80 a 0e 02 00 00 00 d 01 02 03 04")[7:],
                         [(8, "data in, 2 bytes: 01h 02h", "accepted"), (10, "data in 03h", "refused 8: data in or out past the end"),
                          (11, "data in 04h", "refused 3: known cycle that doesn't fit the place reached")])
        # another kind, and a status that is another byte; the same status goes on
        told = self.folded("c ff c 80 a 00 00 00 00 00 d 01 02 c 10 c 70 o 3 f 0 o 2")
        self.assertEqual(told[7:], [(8, "data in, 2 bytes: 01h 02h", "accepted"), (10, "command 10h  start programming", "accepted"),
                                    (11, "command 70h  status", "accepted"), (12, "data out, 3 times", "byte 80h  working"),
                                    (15, "finish LUN 0", "accepted"), (16, "data out, 2 times", "byte E0h  ready")])
        # refused cycles are never told together
        self.assertEqual([event for _, event, _ in self.folded("c ff o 2 d 01 d 02")[1:]], ["data out", "data out", "data in 01h", "data in 02h"])
        # the odd byte
        self.assertEqual(self.told("c ff c 90 a 20 o 2 x 03")[-2:],
                         ["     6  odd byte 03h                        refused 12: bad record", "6 events: 5 accepted, 1 refused: 1 by rule 12"])

    def test_each_event_by_itself(self) -> None:
        told = self.told("c ff c 80 a 00 00 00 00 00 d 01 02 c 10 c 70 o 2", each=True)
        self.assertEqual([cells(line) for line in told[7:9]], [(8, "data in 01h", "accepted"), (9, "data in 02h", "accepted")])
        self.assertEqual([cells(line)[2] for line in told[-3:-1]], ["byte 80h  working"] * 2)
        self.assertIn("row 000000h: LUN 0, block 0, page 0", told[6])
        self.assertEqual(told[-1], "13 events: 13 accepted, 0 refused")

    def test_the_tally(self) -> None:
        self.assertEqual(self.told(""), ["0 events: 0 accepted, 0 refused"])
        self.assertEqual(self.told("c ff")[-1], "1 event: 1 accepted, 0 refused")
        self.assertEqual(self.told("c 70 c ff d 01 d 02 f 0 c ff")[-1], "6 events: 2 accepted, 4 refused: 1 by rule 2, 2 by rule 3, 1 by rule 10")


class Nib(unittest.TestCase):
    """nib by tools/nib, and `python3 -m nibtoggle`, in one folder."""

    def setUp(self) -> None:
        if not NIB.exists():
            raise AssertionError("there is no %s: `tools/build-program nib` builds it" % NIB)
        folder = tempfile.TemporaryDirectory()
        self.addCleanup(folder.cleanup)
        self.folder = Path(folder.name)
        with Bench.new(self.folder / "a", bad=[(1, 7)]) as bench:
            bench.reset()
            bench.program(0, 0, 0, b"first")
            bench.program(1, 5, 3, bytes(range(256)) + bytes(200), column=3)
        with Bench.new(self.folder / "b") as bench:
            bench.reset()
            bench.program(1, 5, 3, b"\x3C")
            bench.program(1, 6, 0, b"")

    def ran(self, words: List[str], given: bytes) -> Said:
        done = subprocess.run(words, cwd=self.folder, input=given, stdout=subprocess.PIPE, stderr=subprocess.PIPE,
                              env=dict(os.environ, NIB_PROGRAM=str(NIB), PYTHONPATH=str(ROOT / "python")))
        return done.returncode, done.stdout.decode(), done.stderr.decode()

    def both(self, *words: str, given: bytes = b"") -> Said:
        """What both say, which is the same, but for the name at the front of an error."""
        status, said, error = self.ran([str(ROOT / "tools" / "nib"), *words], given)
        again = self.ran([sys.executable, "-m", "nibtoggle", *words], given)
        self.assertEqual((again[0], again[1], again[2].replace("nibtoggle: ", "nib: ")), (status, said, error), words)
        return status, said, error

    def held(self) -> Dict[str, bytes]:
        return {str(path): path.read_bytes() for path in self.folder.rglob("*") if path.is_file()}

    def test_explain(self) -> None:
        before = self.held()
        # runs that go on across the pieces that nib reads, 4,096 bytes
        long = records_of("c ff " + "c ec a 00 o 768 " * 9 + "c 80 a 00 00 00 00 00 d " + "77 " * 500 + "c 10 c 70 o 3000 f 0 o 3000")
        for trace in (long, long[:-1], long[:4096], long[:4098], b"", b"\x02", records_of("c ff o 3 c 90 a 20 o 4"),
                      (ROOT / "crates" / "test_nib" / "data" / "folds").read_bytes()):
            for words in (("explain", "a"), ("explain", "-v", "a")):
                self.assertEqual(self.both(*words, given=trace)[0], 0)
        said = self.both("explain", "a", given=long)[1].splitlines()
        self.assertEqual(len([line for line in said if "768 bytes" in line]), 9)
        self.assertEqual(said[-2:], ["%6d  data out, 3000 times                byte E0h  ready" % (len(long) // 2 - 2999),
                                     "%d events: %d accepted, 0 refused" % (len(long) // 2, len(long) // 2)])
        self.assertEqual(self.held(), before)

    def test_dump(self) -> None:
        before = self.held()
        status, said, error = self.both("dump", "a", "1", "5", "3")
        self.assertEqual((status, error), (0, ""))
        self.assertEqual(said.splitlines()[:3], [
            "LUN 1, block 5, page 3: programmed 1 times",
            "0000  FF FF FF 00 01 02 03 04 05 06 07 08 09 0A 0B 0C  ................",
            "0010  0D 0E 0F 10 11 12 13 14 15 16 17 18 19 1A 1B 1C  ................"])
        self.assertEqual(said.splitlines()[-5:], [
            "*", "01C0  00 00 00 00 00 00 00 00 00 00 00 FF FF FF FF FF  ................",
            "01D0  FF FF FF FF FF FF FF FF FF FF FF FF FF FF FF FF  ................", "*",
            "0200  FF FF FF FF FF FF FF FF FF FF FF FF FF FF FF FF  ................"])
        for place in (("0", "0", "0"), ("0", "0", "1"), ("1", "7", "3"), ("1", "7", "0")):
            status, said, error = self.both("dump", "a", *place)
            self.assertEqual((status, error, said.splitlines()[-1][:4]), (0, "", "0200"))
            self.assertEqual(place[1] == "7", said.splitlines()[0].endswith("; a factory bad block"))
        for place, told in ((("2", "0", "0"), "LUN is 0 to 1, and 2 was given"), (("0", "8", "0"), "block is 0 to 7, and 8 was given"),
                            (("0", "0", "4"), "page is 0 to 3, and 4 was given"), (("0", "0", "123456789"), "page is 0 to 3, and 123456789 was given"),
                            (("x", "0", "0"), "LUN is a number, and 'x' is none"), (("9", "1x", "0"), "block is a number, and '1x' is none"),
                            (("9", "9", ""), "page is a number, and '' is none")):
            self.assertEqual(self.both("dump", "a", *place), (1, "", "nib: %s\n" % told))
        self.assertEqual(self.both("dump", "none", "0", "0", "0")[:2], (1, ""))
        for words in (["dump", "a"], ["dump", "a", "0", "0"], ["dump", "a", "0", "0", "0", "0"], ["dump", "-a", "0", "0", "0"]):
            self.assertEqual(self.ran([str(ROOT / "tools" / "nib"), *words], b"")[0], 2)
        self.assertEqual(self.held(), before)

    def test_diff(self) -> None:
        before = self.held()
        self.assertEqual(self.both("diff", "a", "a"), (0, "", ""))
        status, said, error = self.both("diff", "a", "b")
        self.assertEqual((status, error), (3, "nib: the parts differ\n"))
        self.assertEqual(said.splitlines(), [
            "LUN 0, block 0, page 0: 5 bytes differ, the first at column 0: 66h and FFh",
            "LUN 0, block 0, page 0: programmed 1 times and 0",
            "LUN 1, block 5, page 3: 456 bytes differ, the first at column 0: FFh and 3Ch",
            "LUN 1, block 6, page 0: programmed 0 times and 1",
            "LUN 1, block 7: flag 1 and 0"])
        self.assertEqual(self.both("diff", "b", "a")[1].count("\n"), 5)
        self.assertEqual(self.held(), before)
        # each file by itself
        for name, contents, told in (("id", b"\x69", "id: 68h and 69h"), ("counts", bytes(63) + b"\x01", "LUN 1, block 7, page 3: programmed 0 times and 1"),
                                     ("flags", b"\x01" + bytes(15), "LUN 0, block 0: flag 0 and 1"),
                                     ("array", b"\xFF" * 33791 + b"\x00", "LUN 1, block 7, page 3: 1 bytes differ, the first at column 527: FFh and 00h"),
                                     ("page", parameter_page(any_order=True), "page: ")):
            for folder in ("c", "d"):
                shutil.rmtree(self.folder / folder, ignore_errors=True)
                Bench.new(self.folder / folder).close()
            (self.folder / "d" / name).write_bytes(contents)
            status, said, error = self.both("diff", "c", "d")
            self.assertEqual((status, error), (3, "nib: the parts differ\n"), name)
            self.assertTrue(said.startswith(told) and said.count("\n") == 1, said)
        # parts of other sizes
        shutil.rmtree(self.folder / "d")
        Bench.new(self.folder / "d", "T2").close()
        status, said, error = self.both("diff", "c", "d")
        self.assertEqual((status, said.splitlines()[-1]), (3, "array, counts and flags are of other lengths, and are not compared"))
        # what can't be read is an error, and not a difference
        (self.folder / "d" / "flags").unlink()
        for words in (("diff", "c", "d"), ("diff", "d", "c"), ("diff", "c", "none")):
            status, said, error = self.both(*words)
            self.assertEqual((status, said, error.count("\n")), (1, "", 1))
        for words_ in (["diff", "c"], ["diff", "c", "d", "c"], ["diff", "-c", "d"]):
            self.assertEqual(self.ran([str(ROOT / "tools" / "nib"), *words_], b"")[0], 2)


if __name__ == "__main__":
    unittest.main()
