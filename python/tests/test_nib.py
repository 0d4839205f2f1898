"""nib's own files are held to: every file of a part folder after every command, and after every failure that can be injected."""
from __future__ import annotations

import errno
import os
import platform
import random
import re
import resource
import shutil
import signal
import subprocess
import sys
import tempfile
import unittest
from pathlib import Path
from typing import Dict, Optional, Tuple

ROOT = Path(__file__).resolve().parent.parent.parent
sys.path[:0] = [str(ROOT / "python"), str(ROOT / "python" / "tests")]

import nibtoggle  # noqa: E402
import test_job_words  # noqa: E402
import test_scripts  # noqa: E402
from nibtoggle import Bench, parameter_page, records_of, scripts, text_of  # noqa: E402
from nibtoggle.cli import explained  # noqa: E402
from nibtoggle.jobs import told  # noqa: E402
from nibtoggle.part import Part  # noqa: E402
from nibtoggle.parts import PARTS  # noqa: E402

NIB = Path(os.environ.get("NIB_PROGRAM", ROOT / "target" / "bin" / "nib"))
RUN = ROOT / "tools" / "run-x86"
NIBS = ROOT / "crates" / "test_nib" / "data"
SAVE = ("c ff\nc 80  a 00 00 37 00 00  d 3c a5\nc 10  f 1\nc 80 a 00 00 00 00 00 d 11\nc 10 f 0\n"
        "c 00  a 00 00 37 00 00  c 30  f 1  o 3\n")
VALUES = bytes(byte for kind in range(8) for value in range(256) for byte in (kind, value))
Held = Dict[str, Tuple[bytes, int]]


def held(folder: Path) -> Held:
    """Every file of a folder: what it has, and when it was written."""
    return {path.name: (path.read_bytes(), path.stat().st_mtime_ns) for path in sorted(folder.iterdir())}


def no_file_longer_than(limit: int) -> None:
    """For a program that is to be started: a write past the limit fails, and ends nothing."""
    signal.signal(signal.SIGXFSZ, signal.SIG_IGN)
    resource.setrlimit(resource.RLIMIT_FSIZE, (limit, limit))


class Nib(unittest.TestCase):
    @classmethod
    def setUpClass(cls) -> None:
        if not NIB.exists():
            raise AssertionError("there is no %s: `tools/build-program nib` builds it" % NIB)
        cls.tools = tempfile.TemporaryDirectory()
        cls.shim = str(Path(cls.tools.name) / "fail.so")
        subprocess.run([str(ROOT / "tests" / "c" / "build-fail"), cls.shim], check=True)
        # nib as one word, for shells too: on Arm the kit's emulator runs it, and rt is asked once where that is
        guide = subprocess.run(["rt", "doc"], check=True, stdout=subprocess.PIPE, text=True).stdout.strip()
        kit = os.environ.get("RATTLE_HOME") or Path(guide).parent
        cls.program = Path(cls.tools.name) / "nib"
        cls.program.write_text('#!/bin/sh\nRATTLE_HOME="%s" exec "%s" "%s" "$@"\n' % (kit, RUN, NIB), encoding="utf-8")
        cls.program.chmod(0o755)

    @classmethod
    def tearDownClass(cls) -> None:
        cls.tools.cleanup()

    def setUp(self) -> None:
        folder = tempfile.TemporaryDirectory()
        self.addCleanup(folder.cleanup)
        self.folder = Path(folder.name)
        self.part = self.folder / "t1"
        self.trace = records_of(SAVE)

    def nib(self, *words: str, given: bytes = b"", fail: str = "") -> Tuple[bytes, str]:
        environment = dict(os.environ)
        if fail:
            environment.update(RUN_X86_PRELOAD=self.shim, NIB_FAIL=fail)
        done = subprocess.run([str(self.program), *words], input=given, env=environment, cwd=self.folder, stdout=subprocess.PIPE, stderr=subprocess.PIPE)
        self.assertEqual(done.returncode, 0)
        return done.stdout, done.stderr.decode("utf-8", "replace")

    def good(self, *words: str, given: bytes = b"") -> bytes:
        said, error = self.nib(*words, given=given)
        self.assertEqual(error, "")
        return said


class Files(Nib):
    def test_new_makes_these_files_and_no_other(self) -> None:
        self.good("new", "t1")
        self.assertEqual({name: contents for name, (contents, _) in held(self.part).items()}, {
            "page": parameter_page(), "id": b"\x68", "array": b"\xFF" * 33792, "counts": bytes(64), "flags": bytes(16)})
        self.good("new", "t2", "T2")
        self.assertEqual(held(self.folder / "t2")["page"][0], parameter_page(pages=3, blocks=5))
        self.good("new", "w", "W")
        self.assertEqual(held(self.folder / "w")["page"][0], nibtoggle.PARTS["W"].page)

    def test_what_only_reads_changes_nothing(self) -> None:
        self.good("new", "t1")
        self.good("run", "t1", given=self.trace)
        before = held(self.part)
        for words, given in ((("explain", "t1"), self.trace), (("explain", "-v", "t1"), self.trace), (("dump", "t1", "1", "5", "3"), b""),
                             (("dump", "t1", "1", "5", "4"), b""), (("diff", "t1", "t1"), b""), (("explain", "t1"), b""), (("explain", "t1"), b"\x00\xFF\x05"),
                             (("page", "t1/page"), b""), (("page", "t1"), b""), (("text",), SAVE.encode()),
                             (("text", "-d"), self.trace), (("help",), b""),
                             (("text", "t1"), b"erase 1 5\n"), (("text", "t1"), b"erase 1 9\n"), (("jobs",), self.trace), (("jobs", "t1"), self.trace),
                             (("check", "t1/page"), b""), (("demo",), b""), (("nonsense",), b""),
                             (("parts",), b""), (("version",), b""), (("new", "--help"), b""), (("run", "--help"), self.trace)):
            self.nib(*words, given=given)
            self.assertEqual(held(self.part), before, words)
        self.assertEqual([path.name for path in self.folder.iterdir()], ["t1"])

    def test_page_of_a_folder_has_its_blank_blocks(self) -> None:
        self.good("new", "t1")
        self.good("run", "t1", given=self.trace)
        with Bench.open(self.part) as bench:
            due = "blank blocks       LUN 0: %d, LUN 1: %d" % (bench.blank(0), bench.blank(1))
        said = self.good("page", "t1").decode().splitlines()
        self.assertEqual(said, self.good("page", "t1/page").decode().splitlines() + [due])
        (self.part / "counts").write_bytes(bytes([5]) + bytes(63))          # more than 4 programs
        said_, error = self.nib("page", "t1")
        self.assertEqual(said_.decode().splitlines(), said[:-1])
        self.assertIn("t1: power-on refused 25", error)

    def test_run_leaves_what_the_library_leaves(self) -> None:
        for name, trace in (("t1", self.trace), ("tiny", (NIBS / "trace").read_bytes())):
            path = self.folder / name
            if name == "t1":
                self.good("new", "t1")
            else:
                shutil.copytree(NIBS / "tiny", path)
            shutil.copytree(path, self.folder / "copy")
            before = held(path)
            replies = self.good("run", name, given=trace)
            bench = Bench.open(self.folder / "copy")
            self.assertEqual(replies, bench.trace(trace).raw)
            bench.save()
            after, due = held(path), held(self.folder / "copy")
            self.assertEqual({n: contents for n, (contents, _) in after.items()}, {n: contents for n, (contents, _) in due.items()})
            self.assertEqual(sorted(after), ["array", "counts", "flags", "id", "page", "registers"])
            for kept in ("page", "id", "flags"):
                self.assertEqual(after[kept], before[kept])
            self.assertGreater(sum(after["counts"][0]), 0)
            bench.close()
            shutil.rmtree(self.folder / "copy")

    def test_python_and_nib_meet(self) -> None:
        with Bench.new(self.part) as bench:
            bench.reset()
            bench.program(1, 5, 3, b"\x3C\xA5")
        said = self.good("run", "t1", given=records_of("c ff c 00 a 00 00 37 00 00 c 30 f 1 o 3"))
        self.assertEqual(said[-6:], bytes.fromhex("013C 01A5 01FF"))
        with Bench.open(self.part) as bench:
            self.assertEqual(bytes(bench.page_of(1, 5, 3)[:3]), b"\x3C\xA5\xFF")
        # a page may be what ECh gave, three copies, the first of them damaged
        (self.part / "page").write_bytes(bytes(256) + 2 * parameter_page())
        self.assertEqual(self.good("run", "t1", given=b"\x00\xFF"), bytes(2))
        with Bench.open(self.part) as bench:
            self.assertEqual(bytes(bench.page), parameter_page())

    def test_explain_says_what_python_says(self) -> None:
        self.good("new", "t1", "W")
        for trace in (records_of("c ff c 00 a 00 00 00 00 00 c 35 c 85 a 00 00 00 00 00 f 0 c 85 a 00 00 00 00 00 c 85 a 00 00 c 85 a 00"),
                      self.trace + b"\x05\x00\x05\x01\x05\x02\x07", (NIBS / "trace").read_bytes(), VALUES,
                      records_of("c ff c ef a 01 d 40 00 00 00 c 80 a 00 00 00 00 00 c 10 c 06 a 00 00 00 00 00 c 80 a 00 00 20 00 00 c 10 "
                                 "c 80 a 00 00 20 00 00 c 05 a 00 00 c 70 o 1 c 78 a 20 00 00 o 1")):
            for words in (("explain", "t1"), ("explain", "-v", "t1")):
                bench = Bench.open(self.part, strict=False)
                due = "power-on accepted\n" + "".join(line + "\n" for line in explained(bench, trace, each="-v" in words))
                self.assertEqual(self.good(*words, given=trace).decode(), due)
                bench.close()
        lines = self.good("explain", "t1", given=b"\x05\x00\x05\x01\x05\x02").decode().splitlines()
        self.assertEqual([line[8:44].strip() for line in lines[1:-1]], ["protect line low", "protect line high", "bytes 05 02"])
        self.assertEqual(lines[-1], "3 events: 2 accepted, 1 refused: 1 by rule 12")

    def test_text_both_ways_is_python_s(self) -> None:
        for trace in (self.trace, VALUES, VALUES + b"\x05", b"\x05\x01\x05\x00", b"", (NIBS / "many").read_bytes()):
            said = self.good("text", "-d", given=trace)
            self.assertEqual(said.decode(), text_of(trace))
            self.assertEqual(self.good("text", given=said), trace)
        self.assertEqual(self.good("text", "-d", given=b"\x05\x00\x05\x01\x05\x07"), b"p 0\np 1\np 7\n")


class Failures(Nib):
    """Each failure is told of, and what was there stays."""

    def setUp(self) -> None:
        super().setUp()
        self.good("new", "t1")
        self.good("run", "t1", given=self.trace)
        self.more = records_of("c ff c 80 a 00 00 05 00 00 d 77 c 10 f 0")

    def test_run_stores_all_or_nothing(self) -> None:
        before = held(self.part)
        for kind, times in (("fsync", 3), ("create", 3), ("write", 3), ("rename", 1), ("out", 1), ("read", 2)):
            for nth in range(1, times + 1):
                for number in (errno.ENOSPC, errno.EACCES, errno.EIO):
                    _, error = self.nib("run", "t1", given=self.more, fail="%s:%d:%d" % (kind, nth, number))
                    self.assertIn(os.strerror(number), error, (kind, nth))
                    self.assertTrue(error.startswith("nib: "), error)
                    self.assertEqual(held(self.part), before, (kind, nth))

    def test_a_disk_that_is_full_is_real(self) -> None:
        """No call is made to fail: files can't grow past a limit, so that a write takes a part of the bytes, and the
        next one none."""
        before = held(self.part)
        for limit in (0, 1, 20000, 33791):
            for words in (["run", "t1"], ["new", "other"]):
                done = subprocess.run([str(self.program), *words], input=self.more, cwd=self.folder,
                                      stdout=subprocess.PIPE, stderr=subprocess.PIPE,
                                      preexec_fn=lambda: no_file_longer_than(limit))
                self.assertIn(b": File too large\n", done.stderr)
                self.assertEqual(held(self.part), before)
                self.assertFalse((self.folder / "other").exists())

    def test_a_folder_that_can_not_be_written_is_real(self) -> None:
        # root may write anywhere, unless that is taken from it
        alone = ["setpriv", "--bounding-set=-dac_override,-dac_read_search"] if os.geteuid() == 0 else []
        if alone and subprocess.run([*alone, "true"], stderr=subprocess.DEVNULL).returncode:
            self.skipTest("root can't give up its rights here")
        self.addCleanup(self.folder.chmod, 0o755)
        self.addCleanup(self.part.chmod, 0o755)
        before = held(self.part)
        self.part.chmod(0o555)
        self.folder.chmod(0o555)
        for words, told in ((["run", "t1"], "t1/array.new"), (["new", "other"], "other")):
            done = subprocess.run([*alone, str(self.program), *words], input=self.more, cwd=self.folder,
                                  stdout=subprocess.PIPE, stderr=subprocess.PIPE)
            self.assertEqual(done.stderr.decode(), "nib: %s: Permission denied\n" % told)
            self.assertEqual(held(self.part), before)
            self.assertFalse((self.folder / "other").exists())

    def test_a_rename_that_fails_late_is_told_and_leaves_nothing_over(self) -> None:
        for nth in (2, 3):
            _, error = self.nib("run", "t1", given=self.more, fail="rename:%d:%d" % (nth, errno.EIO))
            self.assertIn("Input/output error", error)
            self.assertEqual(sorted(held(self.part)), ["array", "counts", "flags", "id", "page", "registers"])

    def test_a_short_write_is_gone_on_with(self) -> None:
        for nth in range(1, 4):
            shutil.copytree(self.part, self.folder / "copy")
            _, error = self.nib("run", "copy", given=self.more, fail="short:%d:0" % nth)
            self.assertEqual(error, "")
            self.assertEqual([len(contents) for name, (contents, _) in held(self.folder / "copy").items() if name in ("array", "counts", "registers")],
                             [33792, 64, 1056])
            shutil.rmtree(self.folder / "copy")

    def test_new_leaves_nothing(self) -> None:
        for kind, times in (("fsync", 5), ("create", 5), ("write", 5)):
            for nth in range(1, times + 1):
                number = (errno.ENOSPC, errno.EACCES, errno.EIO)[nth % 3]
                _, error = self.nib("new", "other", fail="%s:%d:%d" % (kind, nth, number))
                self.assertIn(os.strerror(number), error)
                self.assertFalse((self.folder / "other").exists(), (kind, nth))
        # a folder that stood before stays, with what it had
        (self.folder / "other").mkdir()
        (self.folder / "other" / "counts").write_bytes(b"mine")
        _, error = self.nib("new", "other")
        self.assertIn("other/counts: File exists", error)
        self.assertEqual({name: contents for name, (contents, _) in held(self.folder / "other").items()}, {"counts": b"mine"})

    def test_a_file_that_is_not_as_the_page_says(self) -> None:
        for name in ("page", "id", "array", "counts", "flags"):
            shutil.copytree(self.part, self.folder / "copy")
            path = self.folder / "copy" / name
            whole = path.read_bytes()
            length = "power-on refused 20: " + nibtoggle.RULES[20] if name == "page" else "has "
            for contents, told in ((whole[:-1], length), (whole + b"\0", length), (b"", length), (None, "No such file")):
                path.unlink()
                if contents is not None:
                    path.write_bytes(contents)
                self.refused_as_it_is("copy/%s: %s" % (name, told))
                path.write_bytes(b"")
            path.unlink()
            path.mkdir()
            self.refused_as_it_is("copy/%s: Is a directory" % name)
            shutil.rmtree(self.folder / "copy")

    def refused_as_it_is(self, told: str) -> None:
        """`run` and `explain` say so, and leave the files of `copy` as they are."""
        before = {path.name: path.is_file() and path.read_bytes() for path in (self.folder / "copy").iterdir()}
        for command in ("run", "explain"):
            said, error = self.nib(command, "copy", given=self.more)
            self.assertEqual(said, b"")
            self.assertTrue(error.startswith("nib: " + told), error)
            self.assertEqual({path.name: path.is_file() and path.read_bytes() for path in (self.folder / "copy").iterdir()}, before)

    def test_a_power_on_that_is_refused(self) -> None:
        (self.part / "counts").write_bytes(b"\x09" + bytes(63))
        before = held(self.part)
        said, error = self.nib("run", "t1", given=self.more)
        self.assertEqual((said, error), (b"", "nib: t1: power-on refused 25: %s\n" % nibtoggle.RULES[25]))
        self.assertEqual(held(self.part), before)
        lines = self.good("explain", "t1", given=self.more).decode().splitlines()
        self.assertEqual(lines[0], "power-on refused 25: " + nibtoggle.RULES[25])
        self.assertTrue(all("refused 13: " in line for line in lines[1:-1]))
        self.assertEqual(lines[-1], "%d events: 0 accepted, %d refused: %d by rule 13" % (3 * (len(self.more) // 2,)))
        self.assertEqual(held(self.part), before)

    def test_what_explain_holds_back_goes_out_before_an_error(self) -> None:
        said, error = self.nib("explain", "t1", given=records_of("c ff c 90 a 20 o 4"), fail="read:2:%d" % errno.EIO)
        self.assertEqual(error, "nib: standard input: Input/output error\n")
        self.assertEqual(said.decode().splitlines()[-1], "     4  data out, 4 bytes                   bytes 4Fh 4Eh 46h 49h")

    def test_a_record_that_is_cut_off(self) -> None:
        before = held(self.part)
        for command in ("run", "explain"):
            for nth in (1, 2):                  # before the first byte, and where the input's end would be
                _, error = self.nib(command, "t1", given=self.more, fail="read:%d:%d" % (nth, errno.EIO))
                self.assertEqual(error, "nib: standard input: Input/output error\n")
                self.assertEqual(held(self.part), before)


class Errors(Nib):
    """An error is one line on standard error that names the file and what is wrong; nothing is made or changed."""

    def setUp(self) -> None:
        super().setUp()
        self.good("new", "t1")
        page = parameter_page()
        (self.folder / "crc").write_bytes(page[:255] + bytes((page[255] ^ 1,)))
        (self.folder / "large").write_bytes(nibtoggle.PARTS["MT29F32G08ABAAAWP"].page)

    def test_calls_that_there_are_not(self) -> None:
        for words in ((), ("nonsense",), ("run",), ("run", "t1", "t1"), ("new",), ("new", "a", "b", "c"), ("text", "-x"),
                      ("help", "me"), ("page",), ("parts", "T1")):
            said, error = self.nib(*words)
            self.assertEqual(said, b"")
            self.assertTrue(error.startswith("nib: no such call; these are:\n  nib demo "), words)

    def test_files_that_are_not_there(self) -> None:
        (self.folder / "empty").mkdir()                 # no part folder: it has no page
        before, there = held(self.part), sorted(path.name for path in self.folder.iterdir())
        large = "an array of 4529848320 bytes is more than the 4194304 that nib holds; python3 -m nibtoggle has no such limit"
        crc = "power-on refused 22: " + nibtoggle.RULES[22]
        for words, told in ((("run", "none"), "none/page: No such file or directory"), (("new", "t1"), "t1/page: File exists"),
                            (("explain", "none"), "none/page: No such file or directory"),
                            (("page", "none"), "none: No such file or directory"), (("page", "empty"), "empty: Is a directory"),
                            (("new", "no/such/dir"), "no/such/dir: No such file or directory"), (("new", "x", "crc"), "crc: " + crc),
                            (("new", "x", "large"), "large: " + large), (("new", "x", "none"), "none: No such file or directory"),
                            (("page", "a" * 5000), "a" * 4096 + ": File name too long"), (("new", "crc"), "crc/page: Not a directory")):
            said, error = self.nib(*words, given=self.trace)
            self.assertEqual((said, error), (b"", "nib: %s\n" % told), words)
            self.assertEqual(held(self.part), before)
            self.assertEqual(sorted(path.name for path in self.folder.iterdir()), there)
        shutil.copy(self.folder / "crc", self.part / "page")
        self.assertEqual(self.nib("run", "t1", given=self.trace), (b"", "nib: t1/page: %s\n" % crc))

    def test_inputs_and_outputs_that_fail(self) -> None:
        before = held(self.part)
        for shell, told in (('"$0" run t1 < trace > /dev/full', "standard output: No space left on device"),
                            ('"$0" run t1 <&-', "standard input: Bad file descriptor"),
                            ('"$0" run t1 < t1', "standard input: Is a directory"),
                            ('"$0" text < t1', "standard input: Is a directory"),
                            ('"$0" text -d < t1', "standard input: Is a directory"),
                            ('"$0" help > /dev/full', "standard output: No space left on device")):
            (self.folder / "trace").write_bytes(self.trace)
            done = subprocess.run(["sh", "-c", shell, str(self.program)], cwd=self.folder, stdout=subprocess.PIPE, stderr=subprocess.PIPE,
                                  text=True)
            self.assertEqual((done.stdout, done.stderr), ("", "nib: %s\n" % told), shell)
            self.assertEqual(held(self.part), before)

    def test_words_that_are_none(self) -> None:
        for text, told in ((b"c zz", "place 3: 'zz': not two hex digits"), (b"80", "place 1: '80': no letter of c a d o f p x = ! and no job's word"),
                           (b"c", "place 1: 'c': a letter with no value"), (b"f 256", "place 3: '256': not a decimal number, or too large"),
                           (b"o 65536", "place 3: '65536': not a decimal number, or too large"), (b"c 800", "place 3: '800': not two"),
                           (b"o -1", "place 3: '-1': not a decimal"), (b"x 7", "place 3: '7': not two hex digits")):
            said, error = self.nib("text", given=b"c ff # before\n" + text)
            self.assertEqual(said, b"")
            self.assertTrue(error.startswith("nib: standard input, line 2, " + told), error)


class Defects(Nib):
    """What was wrong once."""

    def test_a_page_is_256_bytes_or_three_copies(self) -> None:
        good = parameter_page()
        for name, contents in (("long", good * 40), ("four", good * 4), ("short", good[:100]), ("empty", b""), ("more", good * 3 + b"\0")):
            (self.folder / name).write_bytes(contents)
            said, error = self.nib("page", name)
            self.assertEqual((said, error), (b"", "nib: %s: power-on refused 20: %s\n" % (name, nibtoggle.RULES[20])))
        for name, contents in (("three", good * 3), ("first", bytes(256) + good * 2), ("last", bytes(512) + good)):
            (self.folder / name).write_bytes(contents)
            self.assertIn(b"accepted, with an array of 33792 bytes", self.good("page", name))
            self.good("new", "from-" + name, name)
            made = held(self.folder / ("from-" + name))
            self.assertEqual((made["page"][0], made["id"][0]), (good, b"\0"))       # a page does not say the device ID
        (self.folder / "none").write_bytes(bytes(768))
        self.assertIn("refused 21", self.nib("new", "x", "none")[1])

    def test_help_makes_no_folder(self) -> None:
        for words in (["new", "--help"], ["run", "--help"], ["explain", "--help"], ["page", "--help"], ["--help"]):
            self.assertIn(b"nib explain [-v] DIR < TRACE", self.good(*words))
        for words in (["new", "-x"], ["run", "-x"], ["new", "-x", "page"], ["new", "-d"]):
            said, error = self.nib(*words)
            self.assertEqual(said, b"")
            self.assertIn("nib: no such call; these are:", error)
        self.assertEqual(list(self.folder.iterdir()), [])

    def test_a_bad_text_is_not_run_in_part(self) -> None:
        self.good("new", "t1")
        before = held(self.part)
        bad = SAVE.encode() + b"c zz\n"
        said, error = self.nib("text", given=bad)
        self.assertEqual(said, b"")
        self.assertIn("line 7, place 3: 'zz': not two hex digits", error)
        subprocess.run(["sh", "-c", '"$0" text | "$0" run t1', str(self.program)], input=bad, cwd=self.folder, stderr=subprocess.DEVNULL, stdout=subprocess.DEVNULL)
        self.assertEqual({n: contents for n, (contents, _) in held(self.part).items() if n != "registers"},
                         {n: contents for n, (contents, _) in before.items()})

    def test_a_letter_where_a_value_is_wanted(self) -> None:
        for given, told in ((b"c f\n", "place 3: 'f': a letter, a job's word or ok, where the letter before it wants a value; "
                                      "a byte has two hex digits"),
                            (b"c f 1\n", "place 3: 'f': a letter, a job's word or ok, where"), (b"c 80 f\n", "place 6: 'f': a letter with no value"),
                            (b"c\n", "place 1: 'c': a letter with no value")):
            error = self.nib("text", given=given)[1]
            self.assertIn(told, error)
            with self.assertRaises(nibtoggle.BadWord) as caught:
                records_of(given, "standard input")
            self.assertEqual("nib: %s\n" % caught.exception, error)

    def test_a_field_is_named(self) -> None:
        wide = parameter_page(pages=300, luns=9)
        (self.folder / "wide").write_bytes(wide)
        self.good("new", "t1")
        (self.part / "page").write_bytes(wide)
        told = ": power-on refused 23: " + nibtoggle.RULES[23]
        told += "; pages a block: 300, and 1 to 256 are taken; LUNs: 9, and 1 to 4 are taken\n"
        for words, path in ((["new", "x", "wide"], "wide"), (["run", "t1"], "t1/page"), (["explain", "t1"], "t1/page"),
                            (["text", "t1"], "t1/page"), (["jobs", "t1"], "t1/page")):
            self.assertEqual(self.nib(*words), (b"", "nib: " + path + told))
        # and by Python, in the same words
        for words, path in ((["new", "x", "wide"], "wide"), (["run", "t1"], "t1/page"), (["explain", "t1"], "t1/page")):
            self.assertEqual(self.python(*words), (1, b"", "nibtoggle: " + path + told))

    def python(self, *words: str, given: bytes = b"") -> Tuple[int, bytes, str]:
        """The same call of `python3 -m nibtoggle`."""
        environment = dict(os.environ, PYTHONPATH=str(ROOT / "python"), PYTHONDONTWRITEBYTECODE="1")
        done = subprocess.run([sys.executable, "-m", "nibtoggle", *words], input=given, env=environment,
                              cwd=self.folder, stdout=subprocess.PIPE, stderr=subprocess.PIPE)
        return done.returncode, done.stdout, done.stderr.decode()

    def test_help_has_one_style(self) -> None:
        """A line a call: the call, blanks up to a column, and words that are the same wherever both have the call."""
        mine, theirs = self.good("help").decode(), self.python("help")[1].decode()
        calls = []
        for name, said in (("nib", mine), ("nibtoggle", theirs)):
            lines = [re.fullmatch("  %s (.+?)  +(.+)" % name, line) for line in said.splitlines()]
            self.assertTrue(all(lines), said)
            calls.append({line.group(1): line.group(2) for line in lines if line})
        both = calls[0].keys() & calls[1].keys()
        self.assertGreaterEqual({call.split()[0] for call in both},
                                {"new", "parts", "run", "explain", "page", "text", "jobs", "version", "help"})
        for call in both:
            self.assertEqual(calls[0][call], calls[1][call])
        self.assertEqual([call for call in calls[0] if call in both], [call for call in calls[1] if call in both])
        self.assertTrue(self.nib("nonsense")[1] == "nib: no such call; these are:\n" + mine)
        self.assertEqual(self.python("nonsense"), (2, b"", "nibtoggle: no such call; these are:\n" + theirs))

    def test_page_is_python_s(self) -> None:
        spoilt = bytearray(parameter_page(luns=1, any_order=True, copyback=True))
        spoilt[101], spoilt[6], spoilt[32], spoilt[44] = 0x22, 0x05, 0x1F, 0x7F
        pages = [parameter_page(), bytes(spoilt), PARTS["W"].page, bytes(256), bytes(range(256)),
                 parameter_page(data=8, spare=4096, pages=0, blocks=5000, luns=4, programs=9),
                 bytes(256) + 2 * parameter_page()]
        for number, page in enumerate(pages):
            (self.folder / str(number)).write_bytes(page)
            self.assertEqual((0, self.good("page", str(number)), ""), self.python("page", str(number)))
        self.good("new", "t1")
        self.good("run", "t1", given=self.trace)
        self.assertEqual((0, self.good("page", "t1"), ""), self.python("page", "t1"))

    def test_words_are_one_table(self) -> None:
        shutil.copytree(NIBS / "tiny", self.folder / "tiny")
        said = self.good("explain", "tiny", given=(NIBS / "trace").read_bytes()).decode()
        met = set()
        for line in said.splitlines():
            if "refused " in line:
                number, words = line.split("refused ")[1].split(": ", 1)
                self.assertEqual(words.split(" (LUN")[0], nibtoggle.RULES[int(number)])
                met.add(int(number))
        self.assertEqual(met, set(range(1, 13)))
        # a copyback that is not open; a power-on that is refused, and what comes after it
        self.good("new", "w", "W")
        self.assertIn("refused 14: %s\n" % nibtoggle.RULES[14],
                      self.good("explain", "w", given=records_of("c ff c 85 a 00 00 00 00 00")).decode())
        (self.folder / "w" / "flags").write_bytes(bytes(15) + b"\2")
        lines = self.good("explain", "w", given=b"\0\xFF").decode().splitlines()
        self.assertEqual(lines[0], "power-on refused 25: " + nibtoggle.RULES[25])
        self.assertTrue(lines[1].endswith("refused 13: " + nibtoggle.RULES[13]))
        good = parameter_page()
        for number, page in ((20, good[:255]), (21, b"INFO" + good[4:]), (22, good[:254] + b"\0\0"),
                             (23, parameter_page(luns=5))):
            (self.folder / "page").write_bytes(page)
            told = "nib: page: power-on refused %d: %s" % (number, nibtoggle.RULES[number])
            self.assertTrue(self.nib("new", "x", "page")[1].startswith(told))
        # 16 and 24 are no answers to nib: its rooms are long enough, and a file of another length is told of by name
        self.assertEqual(sorted(nibtoggle.RULES), [*range(1, 15), 16, *range(20, 26)])

    def test_parts_and_version(self) -> None:
        self.assertEqual(self.good("version").decode(), "nib %s\n" % nibtoggle.__version__)
        known = self.good("parts").decode().splitlines()
        python = subprocess.run([sys.executable, "-m", "nibtoggle", "parts"], env=dict(os.environ, PYTHONPATH=str(ROOT / "python")),
                                stdout=subprocess.PIPE, text=True).stdout.splitlines()
        self.assertEqual([line for line in known if not line.startswith("more than")], python)
        for name in PARTS:
            said, error = self.nib("new", name, name)
            if name.startswith("MT29F"):
                told = "nib: %s: the part is more than nib holds; python3 -m nibtoggle new makes it\n" % name
                self.assertEqual((said, error), (b"", told))
                self.assertFalse((self.folder / name).exists())
            else:
                self.assertEqual((error, held(self.folder / name)["page"][0]), ("", PARTS[name].page))


class Jobs(Nib):
    """`nib text DIR` and `nib jobs`, which say what Python says."""

    def setUp(self) -> None:
        super().setUp()
        self.good("new", "t1")
        self.good("new", "t2", "T2")
        shutil.copytree(NIBS / "tiny", self.folder / "tiny")
        # a part that is more than nib holds, of which its page is enough
        (self.folder / "large").mkdir()
        (self.folder / "large" / "page").write_bytes(PARTS["MT29F128G08AJAAAWP"].page * 3)
        self.parts = {"t1": test_job_words.T1, "t2": test_job_words.T2, "tiny": test_job_words.TINY, "large": test_job_words.LARGE}

    @staticmethod
    def lines(trace: bytes, part: Optional[Part]) -> bytes:
        return "".join("%6d  %s\n" % line for line in told(trace, part)).encode()

    def test_texts_and_traces(self) -> None:
        draw = random.Random(9)
        for turn in range(28):
            name = list(self.parts)[turn % 4]
            part = self.parts[name]
            text, trace = test_job_words.some_text(draw, part)
            self.assertEqual(self.good("text", name, given=text.encode()), trace)
            self.assertEqual(records_of(text, part=part), trace)
            for told_of in (trace, test_job_words.some_trace(draw)):
                self.assertEqual(self.good("jobs", name, given=told_of), self.lines(told_of, part))
                self.assertEqual(self.good("jobs", given=told_of), self.lines(told_of, None))

    def test_a_bad_word_gives_nothing(self) -> None:
        for bad in ("erase", "erase 1", "erase 1 # 5", "read 1 5 3 f 1", "erase 1 5 3", "erase 2 0", "erase 0 8", "read 0 0 4 0",
                    "program 0 0 0 528", "program 0 0 0 0 3", "erase 0x0 1", "c erase 1 5", "erases 1 5", "readout 1 0 1"):
            text = "c ff\nprogram 1 5 3 0 3c a5\n  %s\nerase 1 5\n" % bad
            with self.assertRaises(nibtoggle.BadWord) as caught:
                records_of(text, "standard input", part=self.parts["t1"])
            self.assertEqual(caught.exception.line, 3)
            self.assertEqual(self.nib("text", "t1", given=text.encode()), (b"", "nib: %s\n" % caught.exception))
        said, error = self.nib("text", given=b"program 1 5 3 0 3c")
        self.assertEqual((said, error), (b"", "nib: standard input, line 1, place 1: 'program': a job's word, which needs a part: text DIR\n"))

    def test_the_jobs_are_run(self) -> None:
        trace = self.good("text", "t1", given=b"c ff\nprogram 1 5 3 0 3c a5  f 1\nstatus 1 1\nread 1 5 3 1  f 1  o 2\nread-out 1 0 1\nerase 1 5  f 1")
        replies = self.good("run", "t1", given=trace)
        self.assertEqual([byte for first, byte in zip(replies[::2], replies[1::2]) if first == 1], [0xE0, 0xA5, 0xFF, 0x3C])
        self.assertNotIn(2, replies[::2])
        self.assertEqual(held(self.part)["array"][0], b"\xFF" * 33792)

    def test_no_part(self) -> None:
        (self.folder / "bad").mkdir()
        (self.folder / "bad" / "page").write_bytes(bytes(256))
        for command in ("text", "jobs"):
            self.assertEqual(self.nib(command, "none", given=b"c ff"), (b"", "nib: none/page: No such file or directory\n"))
            self.assertEqual(self.nib(command, "bad", given=b"c ff"), (b"", "nib: bad/page: power-on refused 21: %s\n" % nibtoggle.RULES[21]))
            for words in ([command, "-x"], [command, "t1", "t2"]):
                self.assertIn("nib: no such call", self.nib(*words)[1])

    def test_how_much_is_held(self) -> None:
        most = b"\x03\x00" * 2097152
        self.assertEqual(self.good("jobs", given=most), b"     1  no job: data out, 2097152 bytes\n")
        self.assertEqual(self.nib("jobs", given=most + b"\0"), (b"", "nib: standard input: a trace of more than 4194304 bytes; "
                                                                "python3 -m nibtoggle jobs has no such limit\n"))
        data = bytes(range(256)) * 1365
        text = b"program 1 5 3 0 " + data.hex(" ").encode()
        self.assertLess(1048000, len(text))
        trace = self.good("text", "t1", given=text)
        self.assertEqual(len(trace), 14 + 2 * len(data))
        self.assertTrue(trace[13:-2:2] == data)             # assertEqual would take minutes to show where they differ
        self.assertEqual(self.good("jobs", "t1", given=trace), b"     1  program LUN 1 block 5 page 3, column 0, 349440 bytes\n")
        self.assertEqual(self.good("text", "t1", given=b"read-out 0 0 65535"), records_of("c 06 a 00 00 00 00 00 c e0 o 65535"))

    def test_a_pipe_that_breaks_or_an_input_that_fails(self) -> None:
        for command in ("text", "jobs"):
            self.assertIn("standard input: Input/output error", self.nib(command, "t1", given=b"\0\xFF", fail="read:3:%d" % errno.EIO)[1])
        self.assertIn("standard output: No space left on device", self.nib("jobs", "t1", given=self.trace, fail="out:1:%d" % errno.ENOSPC)[1])


class Scripts(Nib):
    """nib test: what holds is stored, and nothing else is."""

    def setUp(self) -> None:
        super().setUp()
        self.good("new", "t1")

    def tried(self, text: bytes) -> Tuple[bytes, str]:
        """What nib says of a script; the folder is then as the library leaves a copy of it, or as it was."""
        before = held(self.part)
        bench = Bench.open(self.part)
        outcome = scripts.run(bench, text, "standard input")
        left = {"array": bytes(bench.array), "counts": bytes(bench.counts), "registers": bytes(bench.registers)}
        bench.close()
        self.assertEqual(held(self.part), before)
        said, error = self.nib("test", "t1", given=text)
        due = "".join("nib: " + str(failure) + "\n" for failure in outcome.failures)
        if outcome.failures:
            due += "nib: %d of %d expectations failed; nothing was stored\n" % (len(outcome.failures), outcome.expectations)
            self.assertEqual(held(self.part), before)
        else:
            after = {name: contents for name, (contents, _) in held(self.part).items()}
            self.assertEqual(after, {**{name: contents for name, (contents, _) in before.items()}, **left})
        self.assertEqual(error, due)
        self.assertEqual(said.decode(), "%d event%s, %d expectation%s\n" % (
            outcome.events, "" if outcome.events == 1 else "s", outcome.expectations, "" if outcome.expectations == 1 else "s"))
        return said, error

    def test_what_holds_and_what_fails(self) -> None:
        for text in (test_scripts.HELD, "", "ok", "! 1", "= 00", "c ff = 00\nok\n! 5", "c ff program 0 0 0 0 00 f 0 ok", "c ff program 0 1 0 0 00 f 0 ! 1",
                     "c ff c 77 c 77 ! 1", "c ff ok c ec a 00 o 20 = " + "4f " * 20, "c ff x 00 ok x ff ok x 07", "c ff read-out 1 0 3 = ff ff ff"):
            self.tried(text.encode())
        self.assertEqual((self.part / "array").read_bytes()[:1], b"\0")

    def test_drawn_scripts(self) -> None:
        draw = random.Random(6)
        for _ in range(40):
            self.tried(test_scripts.some_script(draw).encode())

    def test_a_bad_word_runs_nothing(self) -> None:
        before = held(self.part)
        for text, told in ((b"ok 1", "place 4: '1': a value after ok, which takes none"), (b"! 0", "place 3: '0': not the number of a refusal"),
                           (b"= 3", "place 3: '3': not two hex digits"), (b"=", "place 1: '=': a letter with no value"), (b"OK", "place 1: 'OK': no letter of"),
                           (b"program 2 0 0 0 ok", "place 9: '2': the part has no such LUN"), (b"! c 80", "place 3: 'c': a letter, a job's word or ok")):
            said, error = self.nib("test", "t1", given=b"c ff program 0 0 0 0 00 f 0 ok\n" + text)
            self.assertEqual(said, b"")
            self.assertTrue(error.startswith("nib: standard input, line 2, " + told), error)
            self.assertEqual(held(self.part), before)
        self.assertEqual(self.good("text", given=b"c ff ok ! 5 6 # x\n= 3c a5 c 70 ok"), b"\0\xff\0\x70")
        self.assertEqual(self.good("text", "t1", given=b"erase 1 5 ok f 1 = 3c"), records_of("erase 1 5 f 1", part=test_job_words.T1))

    def test_stores_all_or_nothing(self) -> None:
        before = held(self.part)
        given = test_scripts.HELD.encode()
        for kind, times in (("fsync", 3), ("create", 3), ("write", 3), ("rename", 1), ("out", 1)):
            for nth in range(1, times + 1):
                _, error = self.nib("test", "t1", given=given, fail="%s:%d:%d" % (kind, nth, errno.ENOSPC))
                self.assertIn(os.strerror(errno.ENOSPC), error, (kind, nth))
                self.assertEqual(held(self.part), before, (kind, nth))
        for nth, told in ((1, "standard input: "), (3, "standard input: Input/output error")):
            said, error = self.nib("test", "t1", given=given, fail="read:%d:%d" % (nth, errno.EIO))
            self.assertEqual(said, b"")
            self.assertIn(told, error)
            self.assertEqual(held(self.part), before)

    def test_how_much_is_held(self) -> None:
        front = b"c ff c ec a 00 o 256 = "
        page = parameter_page()
        text = front + page.hex(" ").encode() + b" ok"
        self.assertIn(b"259 events, 2 expectations\n", self.good("test", "t1", given=text))
        text += b" #" + b"x" * (262144 - len(text) - 2)
        self.assertIn(b"259 events, 2 expectations\n", self.good("test", "t1", given=text))
        before = held(self.part)
        self.assertEqual(self.nib("test", "t1", given=text + b"x"), (b"", "nib: standard input: a script of more than 262144 bytes; "
                                                                   "python3 -m nibtoggle test has no such limit\n"))
        self.assertEqual(held(self.part), before)
        # more bytes come than a list can have, and as many as one can have are expected
        outs = b"c ff " + b"c ec a 00 o 768 " * 115
        text = outs + b"= " + (page * 342).hex(" ").encode()[:3 * 86000 - 1]
        self.assertLess(len(text), 262144)
        said, error = self.nib("test", "t1", given=text)
        self.assertIn("1 of 1 expectations failed", error)
        self.assertEqual(held(self.part), before)
        exact = outs + b"= " + (page * 345).hex(" ").encode()
        bench = Bench.open(self.part)
        self.assertTrue(scripts.run(bench, exact).held)
        bench.close()

    def test_a_part_that_is_not_powered(self) -> None:
        (self.part / "counts").write_bytes(b"\xff" * 64)
        before = held(self.part)
        said, error = self.nib("test", "t1", given=b"c ff ! 13")
        self.assertEqual((said, error), (b"", "nib: t1: power-on refused 25: %s\n" % nibtoggle.RULES[25]))
        self.assertEqual(held(self.part), before)


class Wrapped(Nib):
    """tools/nib: the same with an exit status."""

    def wrapped(self, path: Path, *words: str, given: str = "") -> Tuple[int, str, str]:
        environment = {name: value for name, value in os.environ.items() if name != "NIB_PROGRAM"}
        done = subprocess.run([str(path), *words], cwd=self.folder, env=environment, input=given, stdout=subprocess.PIPE,
                              stderr=subprocess.PIPE, text=True)
        return done.returncode, done.stdout, done.stderr

    def test_statuses_and_symlinks(self) -> None:
        link = self.folder / "nib"
        link.symlink_to(ROOT / "tools" / "nib")
        for nib in (ROOT / "tools" / "nib", link):
            self.assertEqual(self.wrapped(nib, "version"), (0, "nib %s\n" % nibtoggle.__version__, ""))
            self.assertEqual(self.wrapped(nib, "page", "none")[0], 1)
            self.assertEqual(self.wrapped(nib, "nonsense")[0], 2)

    def test_an_expectation_that_failed(self) -> None:
        nib = ROOT / "tools" / "nib"
        self.assertEqual(self.wrapped(nib, "new", "t1")[0], 0)
        self.assertEqual(self.wrapped(nib, "test", "t1", given="c ff ok"), (0, "1 event, 1 expectation\n", ""))
        self.assertEqual(self.wrapped(nib, "test", "t1", given="c ff ! 5"), (
            3, "1 event, 1 expectation\n", "nib: standard input, line 1, place 8: expected refusal 5; event 1 was accepted\n"
            "nib: 1 of 1 expectations failed; nothing was stored\n"))
        self.assertEqual(self.wrapped(nib, "test", "t1", given="ok 1")[0], 1)
        self.assertEqual(self.wrapped(nib, "test", "none", given="ok")[0], 1)
        self.assertEqual(self.wrapped(nib, "test")[0], 2)

    def test_a_machine_without_the_kit(self) -> None:
        # nib runs as it is on x86-64; elsewhere the kit's emulator is missing, which is said
        bare = "/usr/bin:/bin"
        if shutil.which("rt", path=bare):
            self.skipTest("rt stands in " + bare)
        done = subprocess.run([str(ROOT / "tools" / "nib"), "version"], env={"PATH": bare}, stdout=subprocess.PIPE,
                              stderr=subprocess.PIPE, text=True)
        if platform.machine() == "x86_64":
            self.assertEqual((done.returncode, done.stderr), (0, ""))
        else:
            self.assertEqual((done.returncode, done.stdout), (1, ""))
            self.assertIn("rt, the command of the Rattle kit, whose emulator would run it, is not on the PATH", done.stderr)

    def test_a_nib_that_is_not_built(self) -> None:
        (self.folder / "tools").mkdir()
        shutil.copy(ROOT / "tools" / "nib", self.folder / "tools" / "nib")
        status, said, error = self.wrapped(self.folder / "tools" / "nib", "help")
        self.assertEqual((status, said), (1, ""))
        self.assertIn("'tools/build-program nib' proves and builds it", error)


if __name__ == "__main__":
    unittest.main()
