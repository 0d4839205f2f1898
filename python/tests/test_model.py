"""docs/MODEL.md is held to the model: its blocks headed `trace`, and the rows of "What a driver meets"."""
from __future__ import annotations

import re
import sys
import unittest
from pathlib import Path
from typing import Iterator, List, Tuple

ROOT = Path(__file__).resolve().parent.parent.parent
sys.path.insert(0, str(ROOT / "python"))

from nibtoggle import PARTS, Bench, Reply  # noqa: E402

MODEL = (ROOT / "docs" / "MODEL.md").read_text(encoding="utf-8")
KINDS = {"c": 0, "a": 1, "d": 2, "f": 4, "p": 5}


def events_of(text: str) -> List[Tuple[int, int]]:
    """nib's text: a letter, then values; `o 3` is three data outs."""
    events: List[Tuple[int, int]] = []
    letter = ""
    for word in text.split():
        if word in KINDS or word == "o":
            letter = word
        elif letter == "o":
            events += [(3, 0)] * int(word)
        else:
            events.append((KINDS[letter], int(word, 10 if letter in "fp" else 16)))
    return events


def reply_of(word: str) -> Reply:
    """`ok`, a byte in hexadecimal, or a refusal's number in brackets."""
    if word == "ok":
        return Reply(0, 0)
    return Reply(2, int(word.strip("[]"))) if word.startswith("[") else Reply(1, int(word, 16))


def blocks() -> Iterator[Tuple[str, List[Tuple[str, str]]]]:
    """Each block: its part, T1 where it names none, and its lines: events, and the answers of the last of them."""
    for part, block in re.findall(r"(?s)```trace *(\w*)\n(.*?)```", MODEL):
        lines = [line.partition("->") for line in block.strip().split("\n")]
        yield part or "T1", [(text.strip(), answers.strip()) for text, _, answers in lines]


def rows() -> List[Tuple[str, str]]:
    section = MODEL[MODEL.index("## What a driver meets"):]
    return re.findall(r"(?m)^\| `([^`]+)` \| (\S+) \|", section)


class Model(unittest.TestCase):
    def held(self, bench: Bench, text: str, answers: str) -> None:
        """The line's last events are answered so, and all before them are accepted."""
        events = events_of(text)
        last = [reply_of(word) for word in answers.split()]
        replies = list(bench.events(events))
        self.assertGreaterEqual(len(replies), len(last), text)
        self.assertTrue(all(reply.ok for reply in replies[:len(replies) - len(last)]), (text, replies))
        self.assertEqual(replies[len(replies) - len(last):], last, text)

    def test_traces(self) -> None:
        found = list(blocks())
        self.assertGreaterEqual(len(found), 8)
        self.assertEqual({part for part, _ in found}, {"T1", "W"})
        for part, lines in found:
            bench = Bench(PARTS[part].page, PARTS[part].device_id)
            for text, answers in lines:
                self.held(bench, text, answers)

    def test_what_a_driver_meets(self) -> None:
        self.assertGreaterEqual(len(rows()), 13)
        for text, answer in rows():
            self.held(Bench.t1(), text, answer)


if __name__ == "__main__":
    unittest.main()
