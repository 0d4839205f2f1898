"""One part for all: Python on nib's part folders, parts by name, and `python3 -m nibtoggle`."""
from __future__ import annotations

import os
import re
import resource
import subprocess
import sys
import tempfile
import unittest
import warnings
from pathlib import Path
from typing import Dict, List, Tuple
from unittest import mock

ROOT = Path(__file__).resolve().parent.parent.parent
sys.path.insert(0, str(ROOT / "python"))

import nibtoggle  # noqa: E402
from nibtoggle import Bench, FolderError, Refused, crc, parameter_page  # noqa: E402
from nibtoggle.folder import LARGE  # noqa: E402
from nibtoggle.parts import PARTS, page_of  # noqa: E402

NIBS = ROOT / "crates" / "test_nib" / "data"
MAKERS = (ROOT / "crates" / "test_pages" / "data" / "makers").read_bytes()


def files(folder: Path) -> Dict[str, bytes]:
    """Every file of a folder."""
    return {path.name: path.read_bytes() for path in sorted(folder.iterdir())}


class Tried(unittest.TestCase):
    def setUp(self) -> None:
        folder = tempfile.TemporaryDirectory()
        self.addCleanup(folder.cleanup)
        self.folder = Path(folder.name)

    def call(self, *words: str, given: bytes = b"", cwd: object = None) -> Tuple[int, bytes, str]:
        environment = dict(os.environ, PYTHONPATH=str(ROOT / "python"), PYTHONDONTWRITEBYTECODE="1")
        done = subprocess.run([sys.executable, "-m", "nibtoggle", *words], input=given, env=environment, cwd=self.folder,
                              stdout=subprocess.PIPE, stderr=subprocess.PIPE)
        return done.returncode, done.stdout, done.stderr.decode()


class Folders(Tried):
    def test_new_open_save(self) -> None:
        path = self.folder / "t1"
        with Bench.new(path) as bench:
            self.assertEqual(sorted(files(path)), ["array", "counts", "flags", "id", "page"])
            self.assertEqual(files(path)["array"], b"\xFF" * 33792)
            bench.reset()
            bench.program(1, 5, 3, b"preset")
            self.assertEqual(files(path)["array"], b"\xFF" * 33792)            # until it is saved
        held = files(path)
        self.assertEqual(sorted(held), ["array", "counts", "flags", "id", "page", "registers"])
        self.assertEqual(held["array"], b"\xFF" * 29040 + b"preset" + b"\xFF" * (33792 - 29046))
        self.assertEqual((held["page"], held["id"], sum(held["counts"])), (parameter_page(), b"\x68", 1))
        self.assertEqual(held["registers"][528:534], b"preset")
        with Bench.open(path) as bench:
            bench.reset()
            self.assertEqual(bench.read_page(1, 5, 3, count=7), b"preset\xFF")
            bench.flags[3] = 1
        self.assertEqual(files(path)["flags"], bytes([0, 0, 0, 1] + [0] * 12))
        with self.assertRaises(FileExistsError):
            Bench.new(path)
        self.assertEqual(files(path)["array"], held["array"])

    def test_an_exception_saves_nothing(self) -> None:
        path = self.folder / "t1"
        Bench.new(path).close()
        before = files(path)
        with self.assertRaises(Refused):
            with Bench.open(path) as bench:
                bench.reset()
                bench.program(0, 0, 0, b"lost")
                bench.command(0x10)
        self.assertEqual(files(path), before)
        bench = Bench.open(path)
        bench.reset()
        bench.program(0, 0, 0, b"lost")
        bench.close()                                                         # close saves nothing by itself
        self.assertEqual(files(path), before)
        with self.assertRaises(ValueError):
            Bench.t1().save()

    def test_whole_or_not_at_all(self) -> None:
        path = self.folder / "t1"
        Bench.new(path).close()
        before = files(path)
        real = os.fsync
        for broken in range(3):
            calls = []

            def fsync(fd: int) -> None:
                calls.append(fd)
                if len(calls) == broken + 1:
                    raise OSError(28, "No space left on device")
                real(fd)

            bench = Bench.open(path)
            bench.reset()
            bench.program(0, 0, 0, b"lost")
            with mock.patch("os.fsync", fsync), self.assertRaises(OSError):
                bench.save()
            bench.close()
            self.assertEqual(files(path), before)
        for broken in range(5):
            calls = []
            with mock.patch("os.fsync", fsync), self.assertRaises(OSError) as caught:
                Bench.new(self.folder / "other")
            name = ("page", "id", "array", "counts", "flags")[broken]
            self.assertEqual(caught.exception.filename, str(self.folder / "other" / name))
            self.assertFalse((self.folder / "other").exists())

    def test_what_is_wrong_is_named(self) -> None:
        path = self.folder / "t1"
        for name, wrong in (("array", b"\xFF" * 33791), ("counts", bytes(65)), ("flags", b""), ("id", b"ab"), ("page", b"ONFI")):
            Bench.new(path).close()
            (path / name).write_bytes(wrong)
            with self.assertRaisesRegex(FolderError, "%s: has %d bytes, and should have" % (path / name, len(wrong))):
                Bench.open(path)
            for file in path.iterdir():
                file.unlink()
            path.rmdir()
        with self.assertRaises(FileNotFoundError):
            Bench.open(self.folder / "none")
        for page in (parameter_page(pages=300), b"ONFI", parameter_page()[:255] + b"\0"):
            with self.assertRaises(Refused):
                Bench.new(path, page)
            self.assertFalse(path.exists())
        with self.assertRaises(ValueError):
            Bench.new(path, "MT29F000")
        with self.assertRaises(ValueError):
            Bench.new(path, "T1", 256)
        with self.assertRaises(ValueError):
            Bench.new(path, flags=bytes([2] + [0] * 15))
        self.assertFalse(path.exists())

    def test_parts_by_name(self) -> None:
        pages = [MAKERS[512 * i:512 * i + 256] for i in range(6)]
        self.assertEqual([known.page for known in list(PARTS.values())[3:]], pages)        # with the CRCs that the maker printed
        with Bench.new(self.folder / "t2", "T2") as bench:
            self.assertEqual((bench.part.pages, bench.part.blocks, bench.device_id), (3, 5, 0x68))
        with Bench.new(self.folder / "w", "W") as bench:
            self.assertEqual((bench.part, bench.device_id), (PARTS["T1"].part, 0x68))
            self.assertEqual((bench.target.features, bench.target.optional_commands), (0x010E, 0x005D))
        path = self.folder / "large"
        with warnings.catch_warnings(record=True) as said:
            warnings.simplefilter("always")
            bench = Bench.new(path, "MT29F256G08AUAAAC5")
        self.assertIn(str(path / "array"), str(said[0].message))
        with bench:
            self.assertEqual(bench.part.array_length, 9_059_696_640)
            bench.reset()
            self.assertEqual(bench.read_id(), b"\x2C\x88")
            bench.erase(1, 4095)
            bench.program(1, 4095, 127, b"far")
        self.assertLess((path / "array").stat().st_blocks * 512, 8 << 20)                   # as sparse as before
        with Bench.open(path) as bench:
            bench.reset()
            self.assertEqual(bench.read_page(1, 4095, 127, count=4), b"far\xFF")

    def test_a_page_of_three_copies(self) -> None:
        good, damaged = MAKERS[:256], MAKERS[256:512]
        for answer, taken in ((good * 3, good), (damaged + good * 2, good), (damaged * 2 + good, good), (damaged * 3, damaged),
                              (good, good), (good[:255], good[:255])):
            self.assertEqual(page_of(answer), taken)
        small = parameter_page()
        with Bench.new(self.folder / "t1", bytes(256) + small * 2) as bench:
            self.assertEqual(bytes(bench.page), small)

    def test_a_folder_s_own_page_of_three_copies(self) -> None:
        bad = bytes(256)
        with Bench.new(self.folder / "t1"):
            pass
        page = (self.folder / "t1" / "page").read_bytes()
        for answer in (page * 3, bad + page * 2, bad * 2 + page):
            (self.folder / "t1" / "page").write_bytes(answer)
            with Bench.open(self.folder / "t1") as bench:
                self.assertEqual(bytes(bench.page), page)
                bench.reset()
                self.assertEqual(bench.parameters(), page)
            self.assertEqual((self.folder / "t1" / "page").read_bytes(), answer)
        (self.folder / "t1" / "page").write_bytes(bad * 3)
        with self.assertRaises(nibtoggle.Refused) as caught:
            Bench.open(self.folder / "t1")
        self.assertEqual(caught.exception.number, 21)


class Papers(Tried):
    """docs/PARTS.md has the folder byte by byte."""

    TEXT = (ROOT / "docs" / "PARTS.md").read_text(encoding="utf-8")
    ROWS = {row[1]: (row[2], row[3]) for row in re.finditer(r"^\| `(\w+)` \| (.+?) \| (.+?) \|$", TEXT, re.M)}

    @staticmethod
    def number(words: str, **names: int) -> int:
        """What a product or a place of the page gives."""
        for word, name in (("LUNs", "luns"), ("×", "*")):
            words = words.replace(word, name)
        return int(eval(words, {"__builtins__": {}}, names))

    def test_lengths_and_places(self) -> None:
        self.assertEqual(sorted(self.ROWS), ["array", "counts", "flags", "id", "page", "registers"])
        for page in (parameter_page(), parameter_page(data=16, spare=3, pages=3, blocks=5, luns=3)):
            path = self.folder / str(len(list(self.folder.iterdir())))
            with Bench.new(path, page, 0x5A) as bench:
                part = bench.part
                sizes = {"luns": part.luns, "blocks": part.blocks, "pages": part.pages, "P": part.page_size}
                place = {"l": part.luns - 1, "b": 2, "p": 1, "c": part.page_size - 2}
                bench.reset()
                bench.program(place["l"], place["b"], place["p"], b"\x3C", place["c"])
                bench.flags[part.flags_length - 1] = 1
            held = files(path)
            self.assertEqual({name: len(contents) for name, contents in held.items()},
                             {name: self.number(length, **sizes) for name, (length, _) in self.ROWS.items()})
            at = {name: self.number(words.split("i = ")[1], **sizes, **place)
                  for name, (_, words) in self.ROWS.items() if "i = " in words}
            self.assertEqual(sorted(at), ["array", "counts", "flags", "registers"])
            self.assertEqual(held["array"], bytes(0xFF if i != at["array"] else 0x3C for i in range(part.array_length)))
            self.assertEqual(held["counts"], bytes(i == at["counts"] for i in range(part.counts_length)))
            self.assertEqual(held["registers"][at["registers"]], 0x3C)
            self.assertEqual((held["page"], held["id"], held["flags"][-1], sum(held["flags"])), (page, b"\x5A", 1, 1))
            with Bench.open(path, strict=False) as bench:
                bench.reset()
                # the last block of the last LUN is bad, and no other
                self.assertTrue(bench.program(part.luns - 1, part.blocks - 1, 0, b"x").ok)
                self.assertEqual(repr(bench.status()), "Status(E1h: ready, failed)")
                self.assertTrue(bench.erase(part.luns - 1, place["b"]).ok)
                self.assertEqual(repr(bench.status()), "Status(E0h: ready)")

    def test_its_limits(self) -> None:
        for said, number in (("up to 4,194,304 bytes", 4 << 20), ("67,108,864 bytes (64 MiB)", LARGE)):
            self.assertIn(said, self.TEXT)
            self.assertIn("{:,}".format(number), said)
        self.assertIn("[u8; 4194304]", (ROOT / "crates" / "nib_files" / "src" / "part.rt").read_text(encoding="utf-8"))
        for known in list(PARTS)[3:]:
            self.assertIn(known, self.TEXT)


class Words(unittest.TestCase):
    """Refusals, reasons of bad words and the names of commands stand in the library alone."""

    def test_python_has_none_of_its_own(self) -> None:
        library = nibtoggle.Library.found()
        said = set(nibtoggle.RULES.values()) | {library.words(library.say_wrong, n) for n in range(256)}
        commands = [library.words(library.say_event, 0, 0, value, inside) for value in range(256) for inside in (0, 1)]
        said |= {words.split("  ")[1] for words in commands if "  " in words}
        said = {words for words in said if len(words.split()) > 1}
        self.assertGreater(len(said), 40)
        sources = {path.name: re.sub(r'(?s)""".*?"""|#.*?\n', "", path.read_text(encoding="utf-8"))
                   for path in (ROOT / "python" / "nibtoggle").glob("*.py")}
        self.assertEqual([(name, words) for name, text in sources.items() for words in said if words in text], [])


class Commands(Tried):
    """`python3 -m nibtoggle`, with its exit statuses."""

    def test_new_run_explain_text_dump_diff(self) -> None:
        script = b"c ff\nc 80  a 00 00 37 00 00  d 3c a5\nc 10  f 1   # save\nc 00  a 00 00 37 00 00  c 30  f 1  o 3\n"
        self.assertEqual(self.call("new", "t1")[:2], (0, b"t1: page 256 bytes, id 1, array 33792, counts 64, flags 16\n"))
        status, trace, _ = self.call("text", given=script)
        self.assertEqual((status, trace), (0, bytes.fromhex(
            "00FF 0080 0100 0100 0137 0100 0100 023C 02A5 0010 0401 0000 0100 0100 0137 0100 0100 0030 0401 0300 0300 0300")))
        before = files(self.folder / "t1")
        status, said, _ = self.call("explain", "t1", given=trace)
        self.assertEqual(status, 0)
        lines = said.decode().splitlines()
        self.assertEqual(lines[0], "power-on accepted")
        self.assertEqual(lines[1], "     1  command FFh  reset                  accepted")
        self.assertEqual(lines[-2:], ["    20  data out, 3 bytes                   bytes 3Ch A5h FFh", "22 events: 22 accepted, 0 refused"])
        self.assertEqual(files(self.folder / "t1"), before)
        status, said, _ = self.call("explain", "-v", "t1", given=trace)
        self.assertEqual((status, said.decode().splitlines()[-3]), (0, "    21  data out                            byte A5h"))
        status, replies, _ = self.call("run", "t1", given=trace)
        self.assertEqual((status, replies), (0, bytes(38) + bytes.fromhex("013C 01A5 01FF")))
        self.assertEqual(files(self.folder / "t1")["array"][29040:29043], b"\x3C\xA5\xFF")
        status, said, _ = self.call("dump", "t1", "1", "5", "3")
        self.assertEqual(status, 0)
        self.assertIn(b"LUN 1, block 5, page 3: programmed 1 times", said)
        self.assertIn(b"0000  3C A5 FF", said)
        self.call("new", "other")
        status, said, error = self.call("diff", "t1", "other")
        self.assertEqual((status, error), (3, "nibtoggle: the parts differ\n"))
        self.assertIn(b"LUN 1, block 5, page 3: 2 bytes differ, the first at column 0: 3Ch and FFh", said)
        self.assertIn(b"LUN 1, block 5, page 3: programmed 1 times and 0", said)
        self.assertEqual(self.call("diff", "other", "other")[:2], (0, b""))
        self.assertEqual(self.call("text", "-d", given=trace)[0], 0)

    def test_what_only_reads_changes_nothing(self) -> None:
        trace = nibtoggle.records_of("c ff c 80 a 00 00 37 00 00 d 3c a5 c 10 f 1")
        self.call("new", "t1")
        self.call("run", "t1", given=trace)
        (self.folder / "page").write_bytes(parameter_page())
        self.call("new", "other", "page")
        self.assertEqual(files(self.folder / "other")["id"], b"\0")            # a page does not say the device ID

        def held() -> Dict[str, Tuple[bytes, int]]:
            return {str(path): (path.read_bytes(), path.stat().st_mtime_ns) for path in self.folder.rglob("*")
                    if path.is_file()}

        before = held()
        for status, calls in ((0, ("explain t1", "page t1", "page page", "jobs t1", "jobs", "text -d", "dump t1 1 5 3",
                                   "diff t1 t1", "parts", "version", "help", "run --help", "new --help")),
                              (1, ("text t1", "text", "run none", "new t1", "new x t1/array")),
                              (2, ("run", "nonsense", "new -x")), (3, ("diff t1 other",))):
            for call in calls:
                self.assertEqual((call, self.call(*call.split(), given=trace)[0]), (call, status))
                self.assertEqual(held(), before, call)

    def test_page_of_a_folder_has_its_blank_blocks(self) -> None:
        Bench.new(self.folder / "t1", "T1", bad=[(0, 3)]).close()
        with Bench.open(self.folder / "t1") as bench:
            bench.reset()
            bench.program(0, 0, 0, b"a")
            bench.program(0, 1, 0, b"b")
        before = files(self.folder / "t1")
        status, said, _ = self.call("page", "t1")
        self.assertEqual((status, said.splitlines()[-1]), (0, b"blank blocks       LUN 0: 5, LUN 1: 8"))
        self.assertEqual(said.splitlines()[:-1], self.call("page", "t1/page")[1].splitlines())
        self.assertEqual(files(self.folder / "t1"), before)
        (self.folder / "t1" / "counts").write_bytes(bytes([5]) + bytes(63))         # more than 4 programs
        status, said, error = self.call("page", "t1")
        self.assertEqual(status, 1)
        self.assertIn("t1: power-on refused 25", error)
        self.assertNotIn(b"blank blocks", said)
        (self.folder / "t1" / "page").write_bytes(bytes(256))           # no part, and nothing to count
        status, said, error = self.call("page", "t1")
        self.assertEqual((status, error), (0, ""))
        self.assertNotIn(b"blank blocks", said)

    def test_a_part_that_nib_can_not_hold(self) -> None:
        """Every command on a folder of 9 GB; nib holds 4 MiB of array."""
        name = "MT29F128G08AJAAAWP"
        script = (b"c ff\nerase 1 4095  f 1\nerase 0 7  f 0\nprogram 1 4095 127 8000 3c a5  f 1\n"
                  b"read 1 4095 127 8000  f 1  o 3\n")
        for folder in ("large", "same"):
            status, said, error = self.call("new", folder, name)
            made = b": page 256 bytes, id 1, array 9059696640, counts 1048576, flags 8192\n"
            self.assertEqual((status, said), (0, folder.encode() + made))
            self.assertIn("%s/array is new and has 9059696640 bytes: unwritten ones are 00h" % folder, error)
        status, said, _ = self.call("page", "large")
        self.assertEqual((status, said.splitlines()[-1]), (0, b"blank blocks       LUN 0: 4096, LUN 1: 4096"))
        status, trace, _ = self.call("text", "large", given=script)
        self.assertEqual(status, 0)
        status, said, _ = self.call("jobs", "large", given=trace)
        told = b"    14  program LUN 1 block 4095 page 127, column 8000, 2 bytes"
        self.assertEqual((status, said.splitlines()[5]), (0, told))
        for written, command in ((0, "explain"), (1, "run")):
            status, said, error = self.call(command, "large", given=trace)
            self.assertEqual((status, error), (0, ""))
            self.assertEqual(said[-6:] if written else said.splitlines()[-2][-17:],
                             b"\x01\x3C\x01\xA5\x01\xFF" if written else b"bytes 3Ch A5h FFh")
            status, said, _ = self.call("dump", "large", "1", "4095", "127")
            self.assertEqual(status, 0)
            self.assertIn(b"LUN 1, block 4095, page 127: programmed %d times" % written, said)
            status, said, _ = self.call("diff", "large", "same")
            # two blocks of 128 pages that were erased, and a count
            self.assertEqual((status, said.count(b"\n")), (3, 257) if written else (0, 0))
        self.assertIn(b"LUN 1, block 4095, page 127: 8640 bytes differ, the first at column 0: FFh and 00h", said)
        self.assertIn(b"LUN 1, block 4095, page 127: programmed 1 times and 0", said)
        self.assertIn(b"LUN 0, block 7, page 0: 8640 bytes differ, the first at column 0: FFh and 00h", said)
        self.assertLess(sum(file.stat().st_blocks * 512 for file in (self.folder / "large").iterdir()), 16 << 20)

    def test_a_page_of_another_length_is_told_as_it_is(self) -> None:
        self.call("new", "t1")
        for length, told in ((4, "there are 4"), (255, "there are 255"), (769, "there are more than 768"),
                             (5000, "there are more than 768")):
            (self.folder / "file").write_bytes(bytes(length))
            for words in (["page", "file"], ["new", "x", "file"]):
                status, said, error = self.call(*words)
                self.assertEqual((status, said), (1, b""))
                self.assertEqual(error, "nibtoggle: file: power-on refused 20: %s; %s\n" % (nibtoggle.RULES[20], told))
        self.assertFalse((self.folder / "x").exists())

    def test_wrong_calls_are_2(self) -> None:
        for words in ([], ["nonsense"], ["new"], ["new", "a", "b", "c"], ["run"], ["dump", "t1"], ["new", "-x"], ["text", "-e"],
                      ["page"], ["diff", "a"], ["explain", "-v"], ["explain", "t1", "-v"], ["explain", "a", "b"], ["explain", "-w", "t1"]):
            status, said, told = self.call(*words)
            self.assertEqual((status, said), (2, b""), words)
            self.assertIn("nibtoggle: no such call; these are:", told)
        self.assertEqual(self.call("dump", "t1", "x", "0", "0")[0], 1)                      # there is no t1
        for words in (["help"], ["--help"], ["-h"], ["new", "--help"], ["run", "-h"]):
            status, said, _ = self.call(*words)
            self.assertEqual(status, 0)
            self.assertIn(b"nibtoggle explain [-v] DIR < TRACE", said)
        self.assertEqual(list(self.folder.iterdir()), [])                                   # and nothing is made

    def test_errors_are_1_and_one_line(self) -> None:
        (self.folder / "short").write_bytes(b"ONFI")
        (self.folder / "wide").write_bytes(parameter_page(pages=300))
        self.call("new", "t1")
        for words, told in ((["run", "none"], "none/page: No such file or directory"), (["new", "t1"], "File exists"),
                            (["new", "x", "short"], "short: power-on refused 20"), (["page", "short"], "; there are 4"),
                            (["new", "x", "wide"], "wide: power-on refused 23"), (["new", "x", "wide"], "pages a block: 300, and 1 to 256"),
                            (["dump", "t1", "2", "0", "0"], "LUN is 0 to 1, and 2 was given"),
                            (["dump", "t1", "9", "x", "0"], "block is a number, and 'x' is none"), (["new", "x", "none"], "none: No such file")):
            status, said, error = self.call(*words)
            self.assertEqual((status, said, error.count("\n")), (1, b"", 1), error)
            self.assertTrue(error.startswith("nibtoggle: "), error)
            self.assertIn(told, error)
        self.assertFalse((self.folder / "x").exists())

    def test_a_bad_text_gives_no_trace(self) -> None:
        for given, told in ((b"c ff\nc zz\n", "line 2, place 3: 'zz': not two hex digits"), (b"c 80 f", "line 1, place 6: 'f': a letter with no value"),
                            (b"c f\n", "line 1, place 3: 'f': a letter, a job's word or ok, where the letter before it wants a value"), (b"80", "no letter of")):
            status, said, error = self.call("text", given=given)
            self.assertEqual((status, said), (1, b""))
            self.assertIn(told, error)

    def test_text_both_ways_as_nib_has_it(self) -> None:
        many, text = (NIBS / "many").read_bytes(), (NIBS / "many_text").read_bytes()
        self.assertEqual(nibtoggle.text_of(many).encode(), text)
        self.assertEqual(nibtoggle.records_of(text), many)
        self.assertEqual(nibtoggle.records_of((NIBS / "script").read_bytes()), (NIBS / "trace").read_bytes())

    def test_a_disk_that_is_full(self) -> None:
        self.call("new", "t1")
        before = files(self.folder / "t1")
        with open("/dev/full", "wb") as full:
            environment = dict(os.environ, PYTHONPATH=str(ROOT / "python"), PYTHONDONTWRITEBYTECODE="1")
            done = subprocess.run([sys.executable, "-m", "nibtoggle", "run", "t1"], input=b"\0\xFF", env=environment, cwd=self.folder,
                                  stdout=full, stderr=subprocess.PIPE)
        self.assertEqual(done.returncode, 1, done.stderr)
        self.assertIn(b"No space left on device", done.stderr)
        self.assertEqual(files(self.folder / "t1"), before)
        # files can't grow past a limit
        for words, named in ((["run", "t1"], "t1/array.new"), (["new", "other"], "other/array")):
            done = subprocess.run([sys.executable, "-m", "nibtoggle", *words], input=b"\0\xFF", env=environment,
                                  cwd=self.folder, stdout=subprocess.PIPE, stderr=subprocess.PIPE,
                                  preexec_fn=lambda: resource.setrlimit(resource.RLIMIT_FSIZE, (20000, 20000)))
            self.assertEqual(done.returncode, 1)
            self.assertEqual(done.stderr.decode(), "nibtoggle: %s: File too large\n" % named)
            self.assertEqual(files(self.folder / "t1"), before)
            self.assertFalse((self.folder / "other").exists())

    def test_inputs_and_outputs_that_fail(self) -> None:
        self.call("new", "t1")
        before = files(self.folder / "t1")
        environment = dict(os.environ, PYTHONPATH=str(ROOT / "python"), PYTHONDONTWRITEBYTECODE="1")
        for shell, told in (("run t1 <&-", "standard input: Bad file descriptor"),
                            ("text <&-", "standard input: Bad file descriptor"),
                            ("jobs <&-", "standard input: Bad file descriptor"),
                            ("explain t1 < trace >&-", "standard output: Bad file descriptor"),
                            ("run t1 < trace > /dev/full", "standard output: No space left on device"),
                            ("explain t1 < trace > /dev/full", "standard output: No space left on device"),
                            ("help > /dev/full", "standard output: No space left on device")):
            (self.folder / "trace").write_bytes(b"\0\xFF")
            done = subprocess.run(["sh", "-c", '"$0" -m nibtoggle ' + shell, sys.executable], cwd=self.folder,
                                  env=environment, stdout=subprocess.PIPE, stderr=subprocess.PIPE, text=True)
            self.assertEqual((done.returncode, done.stdout, done.stderr), (1, "", "nibtoggle: %s\n" % told), shell)
            self.assertEqual(files(self.folder / "t1"), before)

    def test_page_and_parts(self) -> None:
        (self.folder / "page").write_bytes(MAKERS[256:512] + MAKERS[:512])
        status, said, _ = self.call("page", "page")
        self.assertEqual(status, 0)
        self.assertIn(b"power-on           accepted, with an array of 4529848320 bytes", said)
        self.assertNotIn(b"blank blocks", said)                         # a page says nothing of them
        status, said, _ = self.call("parts")
        self.assertEqual([line.split()[0] for line in said.decode().splitlines()], list(PARTS))
        self.assertNotIn(b"blank blocks", self.call("page", "T1")[1])
        self.assertEqual(self.call("version")[:2], (0, ("nibtoggle %s, library %s\n" % (2 * (nibtoggle.__version__,))).encode()))


if __name__ == "__main__":
    unittest.main()
