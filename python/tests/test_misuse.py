"""Hard to misuse: numbers that don't exist are refused before anything is sent, and what is refused says so."""
from __future__ import annotations

import copy
import importlib.util
import inspect
import os
import pickle
import subprocess
import sys
import tempfile
import unittest
import warnings
from concurrent.futures import ProcessPoolExecutor
from pathlib import Path
from typing import Callable

ROOT = Path(__file__).resolve().parent.parent.parent
sys.path.insert(0, str(ROOT / "python"))

import nibtoggle  # noqa: E402
from nibtoggle import Bench, Part, Refused, Replies, parameter_page  # noqa: E402
from nibtoggle.folder import LARGE  # noqa: E402
from nibtoggle.jobs import Job, records  # noqa: E402


def refused_in_a_pool(_: int) -> bytes:
    """A job that fails, as it would in a worker of a test run."""
    bench = Bench.t1()
    bench.command(0x90)
    return b""


class Numbers(unittest.TestCase):
    """LUN, block, page, column, device ID, kind and value outside their ranges: ValueError, and nothing is sent."""

    def setUp(self) -> None:
        self.bench = Bench.t1()
        self.bench.reset()
        self.bench.program(0, 0, 3, b"keep")
        self.bench.program(1, 0, 0, b"keep")

    def sends_nothing(self, call: Callable[[], object], error: type = ValueError) -> None:
        before = bytes(self.bench.target), bytes(self.bench.array), bytes(self.bench.registers), bytes(self.bench.counts)
        with self.assertRaises(error):
            call()
        self.assertEqual((bytes(self.bench.target), bytes(self.bench.array), bytes(self.bench.registers), bytes(self.bench.counts)), before)

    def test_places_that_do_not_exist(self) -> None:
        b = self.bench
        for place in ((2, 0, 0), (-1, 0, 0), (0, 8, 0), (0, -1, 0), (0, 0, 4), (0, 0, -1), (9, 9, 9)):
            for job in (lambda: b.program(*place, b"lost"), lambda: b.load(*place), lambda: b.read_page(*place), lambda: b.page_of(*place),
                        lambda: b.copyback_read(*place), lambda: b.copyback_program(*place, b"lost"),
                        lambda: b.part.row(*place), lambda: b.part.page_number(*place), lambda: b.part.page_start(*place)):
                with self.subTest(place=place):
                    self.sends_nothing(job)
        # an eighth block of LUN 0 would be the other station's first
        for call in (lambda: b.erase(0, 8), lambda: b.erase(2, 0), lambda: b.erase(0, -1)):
            self.sends_nothing(call)
        for lun in (2, 255, 256, -1):
            for call in (lambda: b.finish(lun), lambda: b.status(lun), lambda: b.read_out(lun), lambda: b.register(lun),
                         lambda: b.working(lun), lambda: b.copyback_open(lun), lambda: b.blank(lun),
                         lambda: b.poll(lun)):
                with self.subTest(lun=lun):
                    self.sends_nothing(call)

    def test_columns_counts_and_bytes(self) -> None:
        b = self.bench
        for call in (lambda: b.program(0, 0, 0, b"x", column=528), lambda: b.load(0, 0, 0, column=-1), lambda: b.read_page(0, 0, 0, 528),
                     lambda: b.copyback_read(0, 0, 0, 528), lambda: b.copyback_program(0, 0, 0, b"x", column=-1),
                     lambda: b.read_out(0, 65536), lambda: b.event(0, 0x1FF), lambda: b.event(256, 0), lambda: b.event(-1, 0),
                     lambda: b.events([(0, 0x1FF)]), lambda: b.command(0x1FF), lambda: b.address(0, 256), lambda: b.read(-1),
                     lambda: b.read_page(0, 0, 0, count=-1), lambda: b.parameters(4), lambda: b.get_feature(256),
                     lambda: b.set_feature(b"\x40"), lambda: b.set_feature(bytes(5)),
                     lambda: b.poll(polls=0), lambda: b.poll(0, -1), lambda: b.resume(0), lambda: b.resume(-1)):
            self.sends_nothing(call)
        self.sends_nothing(lambda: b.program(0, 0, 1.5, b"x"), TypeError)      # type: ignore[arg-type]
        self.sends_nothing(lambda: b.program(0, 0), TypeError)

    def test_data_is_bytes_and_a_level_is_one_of_two(self) -> None:
        b = self.bench
        # bytes(5) are five of 00h, which nobody means who writes 5 for data
        for call in (lambda: b.program(0, 0, 0, 5), lambda: b.write(5), lambda: b.program(0, 0, 0, "x"),      # type: ignore[arg-type]
                     lambda: b.set_feature(4), lambda: b.copyback_program(0, 0, 0, 5),      # type: ignore[arg-type]
                     lambda: records(Job("program", 0, data=5))):                           # type: ignore[arg-type]
            self.sends_nothing(call, TypeError)
        for call in (lambda: b.protect(2), lambda: b.protect(-1), lambda: b.program_clear(64)):
            self.sends_nothing(call)
        b.program(0, 1, 0, [0x3C, 0xA5])                                                                      # type: ignore[arg-type]
        self.assertEqual(bytes(b.page_of(0, 1, 0)[:2]), b"\x3C\xA5")
        self.assertTrue(b.protect(True).ok and b.protect(0).ok)

    #: What each number of a call may be on T1, by its name there, and values outside.
    GOOD = {"lun": 0, "block": 0, "page": 0, "column": 0, "data": b"x", "kind": 0, "value": 0xFF, "count": 1,
            "copies": 1, "address": 1, "values": bytes(4), "polls": 1, "low": 1, "on": 1}
    WRONG = {"lun": (-1, 2, 255, 256), "block": (-1, 8, 1 << 32), "page": (-1, 4, 256), "column": (-1, 528, 65536),
             "kind": (-1, 256, 0x1FF), "value": (-1, 256, 0x1FF), "count": (-1,), "copies": (-1, 4),
             "address": (-1, 256), "polls": (0, -1), "row": (-1, 1 << 24), "low": (-1, 2), "on": (-1, 2)}

    def test_every_number_of_every_job(self) -> None:
        tried = set()
        for owner in (self.bench, self.bench.part):
            for name, call in inspect.getmembers(owner, inspect.ismethod):
                if name.startswith("_") or call.__self__ is not owner:
                    continue
                takes = inspect.signature(call).parameters
                for number in self.WRONG.keys() & takes.keys():
                    others = {n for n in takes if n in self.GOOD and takes[n].default is inspect.Parameter.empty}
                    # LUN, block and page belong together, and a row stands for them
                    others |= takes.keys() & {"lun", "block", "page"} if number != "row" else set()
                    for value in self.WRONG[number]:
                        words = {**{n: self.GOOD[n] for n in others}, number: value}
                        with self.subTest(call=name, **{number: value}):
                            self.sends_nothing(lambda: call(**words))
                            tried.add((name, number))
        self.assertGreaterEqual({name for name, _ in tried}, {
            "program", "load", "read_page", "read_out", "erase", "status", "poll", "resume", "copyback_read",
            "copyback_program", "finish", "command", "event", "read", "get_feature", "parameters", "page_of",
            "register",
            "working", "copyback_open", "blank", "protect", "program_clear", "row", "lun_of", "page_number",
            "page_start"})

    def test_the_message_names_the_number_and_its_range(self) -> None:
        with self.assertRaisesRegex(ValueError, "page is 0 to 3, and 4 was given"):
            self.bench.program(0, 0, 4, b"x")
        with self.assertRaisesRegex(ValueError, "block is 0 to 7, and 8 was given"):
            self.bench.erase(0, 8)

    def test_device_id_and_fields(self) -> None:
        for device_id in (256, -1, 0x168):
            with self.assertRaises(ValueError):
                Bench(parameter_page(), device_id)
        for words in ({"luns": 256}, {"data": -1}, {"spare": 65536}, {"maker": 300}, {"pages": 1 << 32},
                      {"more_features": 1 << 16}, {"more_options": -1}):
            with self.assertRaises(ValueError):
                parameter_page(**words)

    def test_a_row_that_does_not_exist_is_asked_for_by_name(self) -> None:
        b = self.bench
        b.strict = False
        self.assertEqual(b.program(row=64, data=b"x").refusals[0], (5, 4))
        self.assertEqual(b.erase(row=0xFFFFFF).refusals[0], (3, 4))
        self.assertEqual(b.load(row=64).refusals[0], (5, 4))
        self.assertEqual(b.copyback_read(row=64).refusals[0], (5, 4))
        self.assertEqual(b.copyback_program(row=64).refusals[0], (0, 1))       # T1 has no copyback
        self.assertEqual(b.read_page(row=64), b"")
        self.assertEqual(b.read_out(row=64), b"")
        self.assertIsNone(b.status(row=64))
        self.assertTrue(b.program(row=b.part.row(1, 5, 3), data=b"x").ok)
        self.assertFalse(b.working(1))
        self.assertEqual(b.array[29040], ord("x"))
        self.sends_nothing(lambda: b.program(row=1 << 24))
        self.sends_nothing(lambda: b.program(0, 0, 0, b"x", row=5), TypeError)

    def test_an_unpowered_bench_says_so(self) -> None:
        bench = Bench(b"", 0x68, strict=False)
        with self.assertRaisesRegex(ValueError, "power-on was refused"):
            bench.erase(0, 0)
        self.assertEqual(repr(bench), "<Bench not powered>")


class Told(unittest.TestCase):
    """What went wrong is told, in every process."""

    def test_refused_passes_processes(self) -> None:
        bench = Bench.t1()
        with self.assertRaises(Refused) as caught:
            bench.program(0, 0, 0, b"x")
        for again in (pickle.loads(pickle.dumps(caught.exception)), copy.copy(caught.exception)):
            self.assertIsInstance(again, Refused)
            self.assertEqual(str(again), str(caught.exception))
            self.assertEqual((again.number, again.event, again.index, again.replies), (2, (0, 0x80), 0, caught.exception.replies))
            self.assertEqual(again.replies.records, caught.exception.replies.records)
        with ProcessPoolExecutor(1) as pool:
            with self.assertRaises(Refused) as caught:
                pool.submit(refused_in_a_pool, 0).result(60)
        self.assertEqual(caught.exception.number, 2)

    def test_a_refused_power_on_passes_too(self) -> None:
        with self.assertRaises(Refused) as caught:
            Bench(parameter_page(pages=300), 0x68)
        again = pickle.loads(pickle.dumps(caught.exception))
        self.assertEqual((str(again), again.detail), (str(caught.exception), caught.exception.detail))

    def test_every_exception_passes(self) -> None:
        calls = (lambda: Bench.t1().command(0x90), lambda: nibtoggle.records_of("c zz"),
                 lambda: nibtoggle.check_page(b"ONFI"), lambda: nibtoggle.check_page(bytes(768)),
                 lambda: Bench.open(ROOT / "docs"), lambda: working.poll(polls=2))
        working = Bench.t1()
        working.reset()
        working.load(0, 0, 0)
        for call in calls:
            with self.assertRaises(Exception) as caught:
                call()
            again = pickle.loads(pickle.dumps(caught.exception))
            self.assertEqual((type(again), str(again)), (type(caught.exception), str(caught.exception)))
            self.assertEqual(vars(again).keys(), vars(caught.exception).keys())

    def test_under_xdist(self) -> None:
        for module in ("pytest", "xdist"):
            if importlib.util.find_spec(module) is None:
                self.skipTest("no %s here; tools/test-host takes Debian's" % module)
        with tempfile.TemporaryDirectory() as folder:
            test = Path(folder) / "test_loader.py"
            test.write_text("from nibtoggle import Bench\n\n\n"
                            "def test_save():\n    Bench.t1().program(0, 0, 0, b'x')\n\n\n"
                            "def test_saved():\n    bench = Bench.t1(strict=False)\n    replies = bench.erase(0, 0)\n"
                            "    assert replies.ok\n\n\ndef test_good():\n    assert Bench.t1().reset().ok\n",
                            encoding="utf-8")
            environment = dict(os.environ, PYTHONPATH=str(ROOT / "python"), PYTHONDONTWRITEBYTECODE="1")
            said = subprocess.run([sys.executable, "-m", "pytest", "-q", "-n", "2", "-p", "no:cacheprovider",
                                   str(test)], env=environment,
                                  cwd=folder, stdout=subprocess.PIPE, stderr=subprocess.STDOUT, text=True).stdout
        self.assertIn("2 failed, 1 passed", said)
        self.assertIn("command 80h refused with 2: " + nibtoggle.RULES[2], said)
        self.assertIn("command 60h refused with 2: " + nibtoggle.RULES[2], said)

    def test_a_bench_has_a_repr(self) -> None:
        bench = Bench.t1()
        self.assertEqual(repr(bench), "<Bench of 2 LUNs, 8 blocks, 4 pages of 528 bytes; ready>")
        bench.protect()
        bench.protect(False)
        bench.reset()
        bench.program(1, 0, 0, b"x", finish=False)
        self.assertIn("LUN 1 working", repr(bench))

    def test_replies_show_the_first_refusal(self) -> None:
        bench = Bench.t1(strict=False)
        bench.reset()
        replies = bench.program(0, 0, 0, b"ab", column=527)
        self.assertIn("data in 62h refused with 8: " + nibtoggle.RULES[8], repr(replies))
        self.assertIn("event 8 of 9", repr(replies))
        self.assertLess(len(repr(replies)), 200)
        self.assertEqual(replies[7:].records, bytes([2, 0x62, 0, 0x10]))
        self.assertIn("data in 62h refused with 8", repr(replies[7:]))
        self.assertIn("refused with 10", repr(Replies(bytes([2, 10]))))
        self.assertIn("3 accepted", repr(Replies(bytes(6), bytes(6))))

    def test_a_failed_assertion_shows_it(self) -> None:
        try:
            import pytest  # noqa: F401
        except ImportError:
            self.skipTest("no pytest here; tools/test-host takes Debian's")
        with tempfile.TemporaryDirectory() as folder:
            test = Path(folder) / "test_loader.py"
            test.write_text("from nibtoggle import Bench\n\n\ndef test_save():\n    bench = Bench.t1(strict=False)\n"
                            "    replies = bench.program(0, 0, 0, b'x')\n    assert replies.ok\n", encoding="utf-8")
            environment = dict(os.environ, PYTHONPATH=str(ROOT / "python"), PYTHONDONTWRITEBYTECODE="1")
            said = subprocess.run([sys.executable, "-m", "pytest", "-q", "-p", "no:cacheprovider", str(test)], env=environment, cwd=folder,
                                  stdout=subprocess.PIPE, text=True).stdout
        self.assertIn("command 80h refused with 2: " + nibtoggle.RULES[2], said)

    def test_fixtures(self) -> None:
        try:
            import pytest  # noqa: F401
        except ImportError:
            self.skipTest("no pytest here; tools/test-host takes Debian's")
        with tempfile.TemporaryDirectory() as folder:
            test = Path(folder) / "test_loader.py"
            test.write_text("def test_one(bench):\n    assert bench.program(1, 5, 3, b'x').ok\n    assert bench.array[29040] == ord('x')\n\n\n"
                            "def test_other(bench, part):\n    assert bench.array[29040] == 0xFF\n    assert part('T2').part.blocks == 5\n",
                            encoding="utf-8")
            environment = dict(os.environ, PYTHONPATH=str(ROOT / "python"), PYTHONDONTWRITEBYTECODE="1")
            said = subprocess.run([sys.executable, "-m", "pytest", "-q", "-p", "no:cacheprovider", "-p", "nibtoggle.pytest_plugin", str(test)],
                                  env=environment, cwd=folder, stdout=subprocess.PIPE, text=True).stdout
        self.assertIn("2 passed", said)

    def test_power_on_names_field_and_buffer(self) -> None:
        cases = [
            (23, "pages a block: 300, and 1 to 256 are taken", parameter_page(pages=300), {}),
            (23, "LUNs: 9, and 1 to 4 are taken", parameter_page(luns=9), {}),
            (23, "programs a page: 0", parameter_page(programs=0), {}),
            (24, "array: 33791 bytes, and 33792 are due", parameter_page(), {"array": bytearray(33791)}),
            (24, "counts: 65 bytes, and 64 are due", parameter_page(), {"counts": bytearray(65)}),
            (24, "flags: 0 bytes, and 16 are due", parameter_page(), {"flags": b""}),
            (20, "there are 255", parameter_page()[:255], {}),
        ]
        for number, words, page, buffers in cases:
            with self.assertRaises(Refused) as caught:
                Bench(page, 0x68, **buffers)                                  # type: ignore[arg-type]
            self.assertEqual(caught.exception.number, number)
            self.assertIn(words, str(caught.exception))
            self.assertEqual(str(caught.exception).count("power-on"), 1)      # and it does not stutter

    def test_every_field_that_power_on_refuses_has_words(self) -> None:
        good = bytearray(parameter_page())
        for at, value in ((6, 3), (100, 5), (100, 0), (101, 0x22), (110, 9), (80, 1), (84, 0xFF), (92, 0), (97, 0xFF)):
            page = bytearray(good)
            page[at] = value
            if at in (80, 84):
                page[at + 1] = 0 if at == 80 else 0xFF
            page[254:256] = nibtoggle.crc(bytes(page[:254])).to_bytes(2, "little")
            with self.assertRaises(Refused) as caught:
                Bench(bytes(page), 0x68)
            self.assertEqual(caught.exception.number, 23)
            self.assertTrue(caught.exception.detail, at)
        one = bytearray(good)
        one[6] = 0                                                            # two LUNs, and feature bit 1 clear
        one[254:256] = nibtoggle.crc(bytes(one[:254])).to_bytes(2, "little")
        with self.assertRaisesRegex(Refused, "feature bit 1"):
            Bench(bytes(one), 0x68)


class NewFiles(unittest.TestCase):
    """A file for an array that is made new starts as an erased part does."""

    def setUp(self) -> None:
        self.folder = tempfile.TemporaryDirectory()
        self.addCleanup(self.folder.cleanup)
        self.path = Path(self.folder.name) / "array"

    def test_a_new_file_is_erased(self) -> None:
        with warnings.catch_warnings():
            warnings.simplefilter("error")
            with Bench.t1(array=self.path) as bench:
                bench.reset()
                bench.program(0, 0, 0, b"kept")                               # with no erase before
                self.assertEqual(bench.read_page(0, 0, 0, count=6), b"kept\xFF\xFF")
        self.assertEqual(self.path.read_bytes(), b"kept" + b"\xFF" * 33788)

    def test_an_empty_file_is_new_and_another_is_kept(self) -> None:
        self.path.write_bytes(b"")
        Bench.t1(array=self.path).close()
        self.assertEqual(self.path.read_bytes(), b"\xFF" * 33792)
        self.path.write_bytes(bytes(33792))
        Bench.t1(array=self.path).close()
        self.assertEqual(self.path.read_bytes(), bytes(33792))

    def test_a_large_one_says_at_once_that_it_is_not(self) -> None:
        page = parameter_page(data=16384, spare=0, pages=256, blocks=32, luns=1)
        for array, name in ((self.path, str(self.path)), (None, "temporary file")):
            with warnings.catch_warnings(record=True) as said:
                warnings.simplefilter("always")
                Bench(page, 0x68, array=array).close()
            self.assertEqual([w.category for w in said], [nibtoggle.UnwrittenZeros])
            self.assertIn(name, str(said[0].message))
            self.assertIn("unwritten ones are 00h", str(said[0].message))
            self.assertEqual(said[0].filename, __file__)

    def test_the_stated_size_is_the_limit(self) -> None:
        # 64 pages of 1,024 bytes a block, so 64 KiB; 1,024 blocks are 64 MiB, which docs/PARTS.md states
        self.assertEqual(LARGE, 67_108_864)
        self.assertIn("67,108,864 bytes (64 MiB)", (ROOT / "docs" / "PARTS.md").read_text(encoding="utf-8"))
        for blocks, warned, first in ((1024, 0, b"\xFF"), (1025, 1, b"\0")):
            path = self.path.with_name("array-%d" % blocks)
            with warnings.catch_warnings(record=True) as said:
                warnings.simplefilter("always")
                bench = Bench(parameter_page(data=1024, spare=0, pages=64, blocks=blocks, luns=1), 0x68, array=path)
            self.assertEqual((len(bench.array), len(said)), (blocks << 16, warned))
            self.assertEqual(bytes(bench.array[:4096]) + bytes(bench.array[-4096:]), first * 8192)
            bench.close()

    def test_a_bad_block_that_does_not_exist_makes_no_file(self) -> None:
        folder, spareless = self.path.with_name("t1"), parameter_page(spare=0)
        for bad in ([(0, 8)], [(2, 0)], [(0, -1)]):
            for call in (lambda: Bench.t1(array=self.path, bad=bad), lambda: Bench.new(folder, bad=bad)):
                self.assertRaisesRegex(ValueError, "and -?[0-9] was given", call)
        for call in (lambda: Bench(spareless, 0x68, array=self.path, marks=True),
                     lambda: Bench.new(folder, spareless, marks=True)):
            self.assertRaisesRegex(ValueError, "no place for a block's mark", call)
        self.assertEqual(list(self.path.parent.iterdir()), [])
        # a page that is refused says so itself, whatever else is given; so does a wrong number of flags
        with self.assertRaisesRegex(Refused, "pages a block: 300"):
            Bench(parameter_page(pages=300), 0x68, bad=[(0, 1)], marks=True)
        with self.assertRaisesRegex(Refused, "flags: 17 bytes, and 16 are due"):
            Bench.t1(flags=bytes(17), marks=True)

    def test_a_refused_page_makes_no_file(self) -> None:
        page = bytearray(parameter_page())
        page[255] ^= 1
        for wrong in (bytes(page), parameter_page(luns=200), b"ONFI"):
            with self.assertRaises(Refused):
                Bench(wrong, 0x68, array=self.path)
            self.assertFalse(self.path.exists())


class Sizes(unittest.TestCase):
    def test_row_and_back(self) -> None:
        part = Part.of(parameter_page(pages=3, blocks=5))
        for lun in range(2):
            self.assertEqual(part.lun_of(part.row(lun, 4, 2)), lun)


if __name__ == "__main__":
    unittest.main()
