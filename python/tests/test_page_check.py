"""The checker for other people's pages, against tools/page_check.py, a second program that shares no code with it."""
from __future__ import annotations

import re
import sys
import unittest
from pathlib import Path

ROOT = Path(__file__).resolve().parent.parent.parent
sys.path[:0] = [str(ROOT / "python"), str(ROOT / "tools")]

import page_check as second  # noqa: E402
from nibtoggle import PAGE_RULES, Bench, NoGoodCopy, WrongLength, check_page, parameter_page  # noqa: E402

HEADER = (ROOT / "include" / "nibtoggle.h").read_text(encoding="utf-8")


def decided(answer: bytes):
    """What the proved library answers, in the second program's form."""
    try:
        check = check_page(answer)
    except WrongLength:
        return "length"
    except NoGoodCopy:
        return "no good copy"
    return check.copy, [rule.byte for rule in check.broken], check.endurance


class AgainstASecondProgram(unittest.TestCase):
    def test_every_answer(self) -> None:
        met = {}
        for number, (answer, expected) in enumerate(second.answers()):
            self.assertEqual(decided(answer), expected, "answer %d" % number)
            kind = expected if isinstance(expected, str) else (expected[0], tuple(expected[1]))
            met[kind] = met.get(kind, 0) + 1
        self.assertGreaterEqual(sum(met.values()), 2000)
        # every set of broken rules in the first good copy, every copy, both other answers
        self.assertEqual(len({kind[1] for kind in met if isinstance(kind, tuple)}), 32)
        self.assertEqual({kind[0] for kind in met if isinstance(kind, tuple)}, {0, 1, 2})
        self.assertTrue(met["length"] and met["no good copy"])

    def test_makers_pages(self) -> None:
        makers = second.makers()
        self.assertEqual(len(makers), 6)
        for answer in makers:
            self.assertEqual(decided(answer), (0, [], 60000))


class Words(unittest.TestCase):
    def test_a_broken_rule_in_words(self) -> None:
        check = check_page(second.WORST * 3)
        self.assertEqual([str(rule) for rule in check.broken], [
            "byte 80, data bytes 513, should be a power of two, at least 512",
            "byte 92, pages a block 3, should be a multiple of 32",
            "byte 100, LUNs 0, should be at least 1",
            "byte 106, endurance multiplier 17, should be at most 16",
            "byte 110, programs a page 0, should be at least 1",
        ])

    def test_other_lengths_say_what_they_are(self) -> None:
        with self.assertRaisesRegex(WrongLength, "256 bytes: one copy of a page"):
            check_page(parameter_page())
        with self.assertRaisesRegex(WrongLength, "767 bytes: an answer to ECh has 768"):
            check_page(bytes(767))

    def test_words_are_the_header_s(self) -> None:
        cases = re.findall(r'case (\d+): return "([^"]*)";', HEADER[HEADER.index("nib_rule_name"):])
        names = {int(byte): words for byte, words in cases[:5]}
        should = {int(byte): words for byte, words in cases[5:10]}
        self.assertEqual(names, {byte: rule[1] for byte, rule in PAGE_RULES.items()})
        self.assertEqual(should, {byte: rule[2] for byte, rule in PAGE_RULES.items()})


class FromTheBench(unittest.TestCase):
    def test_what_ech_gives_can_be_checked(self) -> None:
        bench = Bench(parameter_page(data=2048, spare=64, pages=32, blocks=2), 0x68)
        bench.reset()
        bench.command(0xEC)
        bench.address(0)
        check = check_page(bench.read(768))
        self.assertEqual((check.copy, check.broken, check.endurance), (0, (), 0))


if __name__ == "__main__":
    unittest.main()
