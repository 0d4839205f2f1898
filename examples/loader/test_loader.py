"""Tests of the loader on the model, under pytest with nibtoggle's fixtures: `part` makes a part by name.

    PYTHONPATH=python pytest -p nibtoggle.pytest_plugin examples/loader      # in a checkout
"""
from __future__ import annotations

import sys
from pathlib import Path
from typing import Any, Callable, List

import pytest

sys.path.insert(0, str(Path(__file__).resolve().parent))

from nibtoggle import Bench, Refused, parameter_page  # noqa: E402

from loader import Loader, LoaderError  # noqa: E402

Part = Callable[..., Bench]
A, B = b"sonar preset A", b"sonar preset B"


class Watched:
    """A bench, and what was on its bus."""

    def __init__(self, bench: Bench) -> None:
        self.bench = bench
        self.commands: List[int] = []
        self.both_worked = False

    def command(self, value: int) -> object:
        self.commands.append(value)
        reply = self.bench.command(value)
        self.both_worked = self.both_worked or all(self.bench.working(lun) for lun in range(self.bench.part.luns))
        return reply

    def __getattr__(self, name: str) -> Any:
        return getattr(self.bench, name)


def held(bench: Bench, lun: int, block: int, count: int) -> bytes:
    return bytes(bench.page_of(lun, block, 0)[:count])


def test_bad_blocks_are_skipped(part: Part) -> None:
    bench = part("T1", bad=[(0, 0), (1, 0), (1, 1)], marks=True, autofinish=3)
    assert Loader(bench).save({0: A, 1: B}) == {0: 1, 1: 2}
    assert held(bench, 0, 1, len(A)) == A and held(bench, 1, 2, len(B)) == B
    # one program each, and no other page was touched
    assert sum(bench.counts) == 2


def test_both_luns_work_at_once(part: Part) -> None:
    bus = Watched(part("T1", autofinish=3))
    Loader(bus).save({0: A, 1: B})
    assert bus.both_worked
    first, second = [at for at, command in enumerate(bus.commands) if command == 0x80]
    assert 0x78 not in bus.commands[first:second]


@pytest.mark.parametrize("polls", [1, 2, 7])
def test_it_polls_until_a_lun_is_ready(part: Part, polls: int) -> None:
    bus = Watched(part("T1", autofinish=polls))
    loader = Loader(bus)
    loader.start_program(0, 0, 0, A)
    bus.commands.clear()
    assert loader.wait(0)
    assert bus.commands == [0x78] * (polls + 1)


def test_a_lun_that_never_gets_ready(part: Part) -> None:
    with pytest.raises(LoaderError, match="LUN 0 does not get ready"):
        Loader(part("T1")).save({0: A})


def test_blocks_in_use_are_skipped(part: Part) -> None:
    bench = part("T1", autofinish=1)
    loader = Loader(bench)
    assert [loader.save({0: A, 1: B}) for _ in range(3)] == [{0: n, 1: n} for n in range(3)]


def test_a_failed_program_goes_to_another_block(part: Part) -> None:
    # the blocks are bad, and nobody has marked them
    bench = part("T1", bad=[(0, 0), (0, 1), (1, 0)], autofinish=2)
    assert Loader(bench).save({0: A, 1: B}) == {0: 2, 1: 1}
    assert held(bench, 0, 0, 1) == b"\xFF" and held(bench, 0, 2, len(A)) == A


def test_page_order(part: Part) -> None:
    # T1 takes a block's pages upward only: a block with a higher page written is no place for a preset
    bench = part("T1", autofinish=1)
    loader = Loader(bench)
    bench.program(0, 0, 3, b"x")
    bench.program(1, 0, 1, b"x")
    assert loader.save({0: A, 1: B}) == {0: 1, 1: 1}
    assert bytes(bench.counts[0:8]) == bytes([0, 0, 0, 1, 1, 0, 0, 0])
    # page 2 of LUN 0's block 2 was programmed and reads FFh still: the program fails there, and goes to the next
    bench.program(0, 2, 2)
    assert loader.save({0: A, 1: B}) == {0: 3, 1: 2}
    assert held(bench, 0, 2, 1) == b"\xFF" and held(bench, 0, 3, len(A)) == A


def test_a_part_with_no_free_block(part: Part) -> None:
    bench = part("T1", bad=[(1, block) for block in range(8)], marks=True, autofinish=1)
    with pytest.raises(LoaderError, match="LUN 1 has no free block"):
        Loader(bench).save({1: B})


def test_the_protect_line(part: Part) -> None:
    bench = part("T1", autofinish=1)
    loader = Loader(bench)
    bench.protect()
    with pytest.raises(Refused) as caught:
        loader.save({0: A})
    assert caught.value.number == 7


def test_presets_that_do_not_fit(part: Part) -> None:
    loader = Loader(part("T1", autofinish=1))
    for lun, preset in ((2, A), (0, bytes(513)), (0, b"")):
        with pytest.raises(LoaderError, match="takes no preset"):
            loader.save({lun: preset})


def test_other_parts(part: Part) -> None:
    bench = part("T2", autofinish=1, bad=[(0, 0)], marks=True)
    assert Loader(bench).save({0: A, 1: B}) == {0: 1, 1: 0}
    plain = Bench(parameter_page(program_clear=False, features=False), 0x68, autofinish=1)
    assert Loader(plain).save({0: A, 1: B}) == {0: 0, 1: 0}
    assert held(plain, 0, 0, len(A)) == A and held(plain, 1, 0, len(B)) == B
