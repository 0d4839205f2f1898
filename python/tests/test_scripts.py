"""Scripts that assert: the library against a second reader and judge, in plain Python; the words of what failed; the command's statuses and
what it stores."""
from __future__ import annotations

import os
import pickle
import random
import subprocess
import sys
import tempfile
import unittest
from pathlib import Path
from typing import Dict, List, NamedTuple, Optional, Tuple, Union

ROOT = Path(__file__).resolve().parent.parent.parent
sys.path[:0] = [str(ROOT / "python"), str(ROOT / "python" / "tests")]

import nibtoggle  # noqa: E402
import test_job_words  # noqa: E402
from nibtoggle import BadWord, Bench, ExpectationFailed, records_of, scripts  # noqa: E402
from nibtoggle.part import Part  # noqa: E402
from nibtoggle.text import Expectation, steps_of  # noqa: E402

T1 = Part(528, 4, 8, 2, 4)
HELD = """\
c 70 ! 2   # before the first FFh
c ff ok
program 1 5 3 0 3c a5 f 1 ok
read 1 5 3 0 f 1 o 2 = 3c a5
o 1 = FF
"""


class Second(NamedTuple):
    """An expectation by the second reader: where it stands, its sign and its values."""

    line: int
    place: int
    sign: str
    values: List[int]


def plainly(text: str) -> List[Union[bytes, Second]]:
    """The second reader, of letters and expectations alone: no jobs, no bad words."""
    steps: List[Union[bytes, Second]] = []
    for number, line in enumerate(text.split("\n"), 1):
        line, letter, place = line.split("#")[0], "", 0
        words: List[Tuple[int, str]] = []
        for byte in line + " ":
            place += 1
            if byte in " \t\r":
                words.append((place, ""))
            elif words and words[-1][1] and words[-1][0] + len(words[-1][1]) == place:
                words[-1] = (words[-1][0], words[-1][1] + byte)
            else:
                words.append((place, byte))
        open_list: Optional[Second] = None
        for place, word in words:
            if not word:
                continue
            if word in ("c", "a", "d", "o", "f", "p", "x", "=", "!", "ok"):
                letter, open_list = word, None
                if word == "ok":
                    steps.append(Second(number, place, "ok", []))
            elif letter in ("c", "a", "d"):
                steps.append(bytes(("cad".index(letter), int(word, 16))))
            elif letter == "o":
                steps.append(b"\3\0" * int(word))
            elif letter in ("f", "p"):
                steps.append(bytes((4 + "fp".index(letter), int(word))))
            elif letter == "x":
                steps.append(bytes((int(word, 16),)))
            elif letter == "=" and open_list:
                open_list.values.append(int(word, 16))
            else:
                step = Second(number, place, letter, [int(word, 16 if letter == "=" else 10)])
                open_list = step if letter == "=" else None
                steps.append(step)
    return steps


def judged(steps: List[Union[bytes, Second]], replies: bytes) -> List[Tuple[int, int]]:
    """Where the expectations stand that fail, by the replies to the whole trace."""
    failed, half, at, since = [], 0, 0, 0
    for step in steps:
        if isinstance(step, bytes):
            half += len(step)
            at = half // 2
            continue
        answers = [(replies[2 * i], replies[2 * i + 1]) for i in range(since, at)]
        refused = [i for i, (first, _) in enumerate(answers) if first > 1]
        came = [second for first, second in answers if first == 1]
        held = {"ok": not refused, "=": not refused and came == step.values,
                "!": refused == [len(answers) - 1] and bool(answers) and answers[-1][1] == (step.values or [0])[0]}[step.sign]
        since = at
        if not held:
            failed.append((step.line, step.place))
    return failed


def some_script(draw: random.Random) -> str:
    """Letters, expectations of every kind, comments and gaps, that may hold."""
    text = draw.choice(("", "c ff ok\n", "c ff\n"))
    for _ in range(draw.randrange(14)):
        text += draw.choice((
            "c 90 a 00 o 2", "c 90 a 20 o 4", "c 70 o 1", "o %d" % draw.randrange(4), "c 77", "c %02x" % draw.randrange(256), "f 0", "p 1", "p 0",
            "c 80 a 00 00 00 00 00 d 3c c 10", "c 60 a 00 00 00 c d0", "x 00", "x 07 09", "c 78 a 20 00 00 o 2", "c ff", "f 1"))
        text += draw.choice((" ", "\n", "\t", " # ok ! 5\n", "\r\n", "#\n"))
        text += draw.choice((
            "", "", "ok", "ok", "! %d" % draw.randrange(1, 13), "! %d %d" % (draw.randrange(1, 13), draw.randrange(1, 13)), "= 2c 68",
            "= 4f 4e 46 49", "= e0", "= %02X" % draw.randrange(256), "= 00 00", "= e0 = e0 ok", "ok ok", "! 3 = 2c 68", "= 80 80"))
        text += draw.choice((" ", "\n", "  ", "#x\n"))
    return text + draw.choice(("", "ok", "! 1", "= 00", "\n"))


class Library(unittest.TestCase):
    def setUp(self) -> None:
        self.draw = random.Random(22)

    def test_drawn_scripts(self) -> None:
        kinds: Dict[Tuple[str, bool], int] = {}
        for _ in range(1500):
            text = some_script(self.draw)
            steps = plainly(text)
            trace = b"".join(step for step in steps if isinstance(step, bytes))
            self.assertEqual(records_of(text), trace, text)
            self.assertEqual(records_of(text, part=T1), trace, text)
            replies = Bench.t1().trace(trace).raw
            outcome = scripts.run(Bench.t1(), text)
            failed = judged(steps, replies)
            self.assertEqual([(failure.line, failure.place) for failure in outcome.failures], failed, text)
            self.assertEqual(outcome.events, len(replies) // 2, text)
            self.assertEqual(outcome.expectations, sum(isinstance(step, Second) for step in steps), text)
            for step in steps:
                if isinstance(step, Second):
                    key = step.sign, (step.line, step.place) in failed
                    kinds[key] = kinds.get(key, 0) + 1
        self.assertEqual(len(kinds), 6, kinds)
        self.assertGreater(min(kinds.values()), 30, kinds)

    def test_jobs_end_before_what_is_expected(self) -> None:
        for _ in range(300):
            words, records = test_job_words.some_job(self.draw, T1)
            sign = self.draw.choice(("ok", "! 7", "= 3c a5", "= 00 # ok", "ok c ff"))
            due = records + (b"\0\xff" if sign == "ok c ff" else b"")
            self.assertEqual(records_of(words + " " + sign, part=T1), due, words)
            steps = list(steps_of(words + " " + sign, part=T1))
            self.assertEqual(steps[0], records)
            self.assertIsInstance(steps[1], Expectation)

    def test_the_signs(self) -> None:
        self.assertEqual(list(steps_of("c ff\n= 3c A5 ok  ! 5 6\n\tok#ok\n=\t00\r\nc 70 = 01 = 02")), [
            b"\0\xff", Expectation(2, 3, wanted=b"\x3c\xa5"), Expectation(2, 9), Expectation(2, 15, refusal=5), Expectation(2, 17, refusal=6),
            Expectation(3, 2), Expectation(4, 3, wanted=b"\0"), b"\0\x70", Expectation(5, 8, wanted=b"\1"), Expectation(5, 13, wanted=b"\2")])

    def test_bad_words(self) -> None:
        none = "no letter of c a d o f p x = ! and no job's word stands before it on its line"
        early = "a letter, a job's word or ok, where the letter before it wants a value; a byte has two hex digits"
        after, number = "a value after ok, which takes none", "not the number of a refusal: 1 to 255, in decimal"
        for text, place, word, why in (
                ("ok 1", 4, "1", after), ("ok 3c", 4, "3c", after), ("ok okk", 4, "okk", after), ("ok ==", 4, "==", after), ("! 0", 3, "0", number),
                ("! 256", 3, "256", number), ("! 5h", 3, "5h", number), ("! -1", 3, "-1", number), ("! 5 0", 5, "0", number), ("! 1000000", 3, "1000000", number),
                ("= 3", 3, "3", "not two hex digits"), ("= 3c5", 3, "3c5", "not two hex digits"), ("= 3c 5g", 6, "5g", "not two hex digits"),
                ("=", 1, "=", "a letter with no value"), ("!", 1, "!", "a letter with no value"), ("= # 3c", 1, "=", "a letter with no value"),
                ("= ok", 3, "ok", early), ("! ok", 3, "ok", early), ("c ok", 3, "ok", early), ("= =", 3, "=", early), ("! c 80", 3, "c", early),
                ("OK", 1, "OK", none), ("Ok", 1, "Ok", none), ("okk", 1, "okk", none), ("oK", 1, "oK", none), ("k", 1, "k", none), ("!5", 1, "!5", none),
                ("=3c", 1, "=3c", none), ("==", 1, "==", none), ("3c", 1, "3c", none), ("ok\n1", 1, "1", none), ("o k", 3, "k", "not a decimal number, or too large"),
                ("program 1 5 ok", 13, "ok", "the job wants a value more"), ("erase 1 5 6 ok", 11, "6", "a value more than the job takes"),
                ("erase = 3c", 7, "=", "the job wants a value more")):
            with self.subTest(text), self.assertRaises(BadWord) as caught:
                records_of(text, part=T1)
            bad = caught.exception
            self.assertEqual((bad.place, bad.word, bad.why), (place, word, why), text)
            bench = Bench.t1()
            bench.reset()
            before = bytes(bench.array), bytes(bench.target)
            with self.assertRaises(BadWord):
                bench.script("program 0 0 0 0 00 f 0 ok\n" + text)
            self.assertEqual((bytes(bench.array), bytes(bench.target)), before)
        for text in ("read 1 5 3 0 ok", "erase 1 5 ! 5"):
            with self.assertRaises(BadWord) as caught:
                records_of(text)
            self.assertEqual(caught.exception.why, "a job's word, which needs a part: text DIR")

    def test_what_is_said(self) -> None:
        rule = {n: "refused %d: %s" % (n, nibtoggle.RULES[n]) for n in nibtoggle.RULES}
        for text, why in (
                ("c 77 ok", "expected ok; event 1 was %s" % rule[2]), ("c ff c 77 c 78 ok", "expected ok; event 2 was %s" % rule[1]),
                ("c ff ! 5", "expected refusal 5; event 1 was accepted"), ("! 5", "expected refusal 5; no event came"),
                ("c ff ok ! 5", "expected refusal 5; no event came"), ("c 77 ! 5", "expected refusal 5; event 1 was %s" % rule[2]),
                ("c ff c 77 c 77 ! 1", "expected refusal 1 of the last event alone; event 2 was %s" % rule[1]),
                ("c 77 c ff ! 2", "expected refusal 2 of the last event alone; event 1 was %s" % rule[2]),
                ("c ff c 90 a 00 o 1 ! 3", "expected refusal 3; event 4 gave 2Ch"),
                ("c ff c 90 a 00 o 2 = 2c 68", None), ("c ff c 90 a 00 o 2 = 2c", "expected bytes 2Ch; 2Ch 68h came"),
                ("c ff c 90 a 00 o 2 = 2c 68 00", "expected bytes 2Ch 68h 00h; 2Ch 68h came"), ("c ff = 00", "expected bytes 00h; no byte came"),
                ("c ff c 90 a 00 o 3 = 2c 68", "expected bytes 2Ch 68h; event 6 was %s" % rule[8]),
                ("c ff c ec a 00 o 17 = " + "00 " * 17, "expected bytes%s ..; 4Fh 4Eh 46h 49h 00h 00h%s .. came" % (
                    " 00h" * 16, "".join(" %02Xh" % byte for byte in nibtoggle.parameter_page()[6:16])))):
            outcome = scripts.run(Bench.t1(), text)
            self.assertEqual([failure.why for failure in outcome.failures][-1:], [why] if why else [], text)
        long = max(nibtoggle.RULES.values(), key=len)
        self.assertLess(len("expected bytes" + " 00h" * 16 + " ..; event 137438953471 was refused 255: " + long), 256)

    def test_a_bench_raises(self) -> None:
        bench = Bench.t1()
        self.assertEqual(bench.script(HELD), scripts.Outcome(23, 5, ()))
        with self.assertRaises(ExpectationFailed) as caught:
            bench.script("c 77 ok\n! 3", "mine")
        self.assertEqual(str(caught.exception), "mine, line 1, place 6: expected ok; event 1 was refused 1: %s\n"
                         "mine, line 2, place 3: expected refusal 3; no event came" % nibtoggle.RULES[1])
        again = pickle.loads(pickle.dumps(caught.exception))
        self.assertEqual((str(again), again.outcome), (str(caught.exception), caught.exception.outcome))
        self.assertIsInstance(caught.exception, AssertionError)


class Command(unittest.TestCase):
    """python3 -m nibtoggle test."""

    def setUp(self) -> None:
        folder = tempfile.TemporaryDirectory()
        self.addCleanup(folder.cleanup)
        self.folder = Path(folder.name)
        nibtoggle.bench.make_folder(self.folder / "t1", "T1")

    def call(self, *words: str, given: str = "") -> Tuple[int, str, str]:
        environment = dict(os.environ, PYTHONPATH=str(ROOT / "python"))
        done = subprocess.run([sys.executable, "-m", "nibtoggle", *words], input=given, cwd=self.folder, env=environment,
                              stdout=subprocess.PIPE, stderr=subprocess.PIPE, text=True)
        return done.returncode, done.stdout, done.stderr

    def held(self) -> Dict[str, Tuple[bytes, int]]:
        return {path.name: (path.read_bytes(), path.stat().st_mtime_ns) for path in sorted((self.folder / "t1").iterdir())}

    def test_what_holds_is_stored(self) -> None:
        before = self.held()
        self.assertEqual(self.call("test", "t1", given=HELD), (0, "23 events, 5 expectations\n", ""))
        after = self.held()
        self.assertEqual(sorted(set(after) - set(before)), ["registers"])
        self.assertNotEqual(before["array"], after["array"])
        bench = Bench.open(self.folder / "t1")
        bench.reset()
        self.assertEqual(bench.read_page(1, 5, 3, count=2), b"\x3c\xa5")
        bench.close()
        self.assertEqual(self.call("test", "t1", given="c ff"), (0, "1 event, 0 expectations\n", ""))

    def test_what_fails_is_not(self) -> None:
        before = self.held()
        for given, said, told in (
                (HELD + "! 3\nc 77 ok\n", "24 events, 7 expectations\n", (
                    "nibtoggle: standard input, line 6, place 3: expected refusal 3; no event came\n"
                    "nibtoggle: standard input, line 7, place 6: expected ok; event 24 was refused 1: %s\n"
                    "nibtoggle: 2 of 7 expectations failed; nothing was stored\n" % nibtoggle.RULES[1])),
                ("c 77 ok", "1 event, 1 expectation\n", (
                    "nibtoggle: standard input, line 1, place 6: expected ok; event 1 was refused 2: %s\n"
                    "nibtoggle: 1 of 1 expectations failed; nothing was stored\n" % nibtoggle.RULES[2]))):
            self.assertEqual(self.call("test", "t1", given=given), (3, said, told))
            self.assertEqual(self.held(), before)

    def test_errors(self) -> None:
        before = self.held()
        status, said, error = self.call("test", "t1", given=HELD + "ok 5\n")
        self.assertEqual((status, said), (1, ""))
        self.assertEqual(error, "nibtoggle: standard input, line 6, place 4: '5': a value after ok, which takes none\n")
        self.assertEqual(self.call("test", "none", given=HELD)[0], 1)
        for words in (["test"], ["test", "t1", "t1"], ["test", "-d"]):
            self.assertEqual(self.call(*words, given=HELD)[0], 2)
        if os.path.exists("/dev/full"):
            environment = dict(os.environ, PYTHONPATH=str(ROOT / "python"))
            with open("/dev/full", "wb") as full:
                done = subprocess.run([sys.executable, "-m", "nibtoggle", "test", "t1"], input=HELD.encode(), cwd=self.folder, env=environment,
                                      stdout=full, stderr=subprocess.PIPE)
            self.assertEqual(done.returncode, 1)
        self.assertEqual(self.held(), before)

    def test_help_has_it(self) -> None:
        self.assertIn("nibtoggle test DIR < TEXT", self.call("help")[1])


if __name__ == "__main__":
    unittest.main()
