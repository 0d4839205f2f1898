"""The worked sequences of tests/sequences: each event is answered as the file says, by the library and by nib."""
from __future__ import annotations

import os
import subprocess
import sys
import tempfile
import unittest
from pathlib import Path
from typing import Dict, List, NamedTuple, Optional, Tuple

ROOT = Path(__file__).resolve().parent.parent.parent
sys.path.insert(0, str(ROOT / "python"))

from nibtoggle import PARTS, Bench, Replies, records_of  # noqa: E402
from nibtoggle.part import crc  # noqa: E402

NIB = Path(os.environ.get("NIB_PROGRAM", ROOT / "target" / "bin" / "nib"))
SEQUENCES = ROOT / "tests" / "sequences"
#: The numbers of W that a case may change: where they stand in its page, and how they are written.
FIELDS = {"features": (6, 2, 16), "optional": (8, 2, 16), "programs": (110, 1, 10)}


class Line(NamedTuple):
    """Events as nib's text, the reply due to each, None for any byte, and the LUNs' blank blocks after them, if any."""

    text: str
    due: List[Optional[Tuple[int, int]]]
    blank: List[int]


class Case(NamedTuple):
    """A case: its title, what it changes of part W, and its lines."""

    title: str
    changes: List[List[str]]
    lines: List[Line]

    @property
    def text(self) -> str:
        return "\n".join(["c ff"] + [line.text for line in self.lines]) + "\n"

    @property
    def due(self) -> List[Optional[Tuple[int, int]]]:
        accepted: Optional[Tuple[int, int]] = (0, 0)
        return [accepted] + [reply for line in self.lines for reply in line.due]

    def page(self) -> bytes:
        page = bytearray(PARTS["W"].page)
        for name, *words in self.changes:
            if name in FIELDS:
                at, size, base = FIELDS[name]
                page[at:at + size] = int(words[0], base).to_bytes(size, "little")
        page[254:256] = crc(bytes(page[:254])).to_bytes(2, "little")
        return bytes(page)

    def placed(self, name: str, length: int) -> bytearray:
        """The counts or the flags: 0 but for what the case says."""
        held = bytearray(length)
        for change, *words in self.changes:
            if change == name:
                held[int(words[0])] = int(words[1])
        return held

    def bench(self) -> Bench:
        counts, flags = self.placed("count", 64), self.placed("flag", 16)
        bench = Bench(self.page(), PARTS["W"].device_id, counts=counts, flags=flags, strict=False)
        if not bench.powered:
            raise AssertionError("power-on of %s" % self.title)
        return bench


def answers(text: str) -> List[Optional[Tuple[int, int]]]:
    """A dot for each event that is accepted, two hex digits for a byte, xx for any, r5 for a refusal."""
    due: List[Optional[Tuple[int, int]]] = []
    for word in text.split():
        if set(word) == {"."}:
            due += [(0, 0)] * len(word)
        elif word == "xx":
            due.append(None)
        else:
            due.append((2, int(word[1:])) if word[0] == "r" else (1, int(word, 16)))
    return due


def cases(path: Path) -> List[Case]:
    found: List[Case] = []
    for line in path.read_text(encoding="ascii").splitlines():
        if line.startswith("# case "):
            found.append(Case(line[len("# case "):], [], []))
        elif line.startswith("# part "):
            found[-1].changes.append(line.split()[2:])
        elif line.strip() and not line.startswith("#"):
            text, _, told = line.partition("#")
            due, _, blank = told.partition("blank")
            found[-1].lines.append(Line(text.strip(), answers(due), [int(n) for n in blank.split(",") if blank]))
    return found


ALL: Dict[str, List[Case]] = {path.stem: cases(path) for path in sorted(SEQUENCES.glob("*.txt"))}


class Sequences(unittest.TestCase):
    def held(self, case: Case, replies: Replies) -> None:
        """Reply by reply, so that a difference is told with its event."""
        self.assertEqual(len(replies), len(case.due), case.title)
        for at, (reply, due) in enumerate(zip(replies, case.due)):
            right = reply.byte is not None if due is None else reply == due
            self.assertTrue(right, "%s: event %d, %s: %s, and not %s" % (case.title, at, replies.event(at), reply, due))

    def numbered(self, case: Case, line: Line, bench: Bench) -> None:
        """The numbers of blank blocks that the line is to end with, where it has them."""
        self.assertIn(len(line.blank), (0, 2), case.title)
        for lun, blank in enumerate(line.blank):
            self.assertEqual(bench.blank(lun), blank, "%s: LUN %d, blank after %s" % (case.title, lun, line.text))

    def test_the_files_are_there(self) -> None:
        for name, least in (("A1", 8), ("A2", 8), ("A4", 6), ("A7", 8)):
            self.assertGreaterEqual(len(ALL[name]), least)
        self.assertGreaterEqual(sum(len(line.blank) == 2 for case in ALL["A7"] for line in case.lines), 37)
        for some in ALL.values():
            self.assertEqual([int(case.title.split(":")[0]) for case in some], list(range(1, len(some) + 1)))
            for case in some:
                self.assertGreater(len(case.due), 1, case.title)

    def test_by_the_library(self) -> None:
        for case in (case for some in ALL.values() for case in some):
            with case.bench() as bench:
                self.held(case, bench.trace(records_of(case.text)))
                self.numbered(case, case.lines[-1], bench)
            with case.bench() as bench:
                single = [bench.event(0, 0xFF)]
                for line in case.lines:
                    single += [bench.event(kind, value) for kind, value in zip(*[iter(records_of(line.text))] * 2)]
                    self.numbered(case, line, bench)
                self.held(case, Replies(bytes(byte for reply in single for byte in reply), records_of(case.text)))

    def test_by_nib(self) -> None:
        for case in (case for some in ALL.values() for case in some):
            with tempfile.TemporaryDirectory() as name:
                folder = Path(name) / "w"
                Bench.new(folder, case.page(), PARTS["W"].device_id, flags=bytes(case.placed("flag", 16))).close()
                (folder / "counts").write_bytes(case.placed("count", 64))
                trace = self.nib("text", given=case.text.encode())
                self.assertEqual(trace, records_of(case.text), case.title)
                told = self.nib("explain", "-v", str(folder), given=trace).decode().splitlines()[1:-1]
                replies = Replies(self.nib("run", str(folder), given=trace), trace)
                self.held(case, replies)
                with case.bench() as bench:
                    bench.trace(trace)
                    self.assertEqual((folder / "array").read_bytes(), bytes(bench.array), case.title)
                    self.assertEqual((folder / "counts").read_bytes(), bytes(bench.counts), case.title)
            self.assertEqual(len(told), len(replies), case.title)
            for reply, line in zip(replies, told):
                if reply.refusal:
                    self.assertIn("refused %d: %s" % (reply.refusal, reply.words), line, case.title)

    def nib(self, *words: str, given: bytes) -> bytes:
        done = subprocess.run([str(ROOT / "tools" / "run-x86"), str(NIB), *words], input=given, stdout=subprocess.PIPE, stderr=subprocess.PIPE)
        self.assertEqual((done.returncode, done.stderr), (0, b""))
        return done.stdout


if __name__ == "__main__":
    unittest.main()
