"""Fixtures for loader tests under pytest: `bench`, a fresh part T1, and `part`, which makes parts by name.

An installed package brings them by itself; in a checkout it is `pytest -p nibtoggle.pytest_plugin`.
"""
from __future__ import annotations

from pathlib import Path
from typing import Any, Callable, Iterator, List

import pytest

from .bench import Bench
from .parts import PARTS


@pytest.fixture
def bench() -> Iterator[Bench]:
    """Part T1, erased, powered on and reset: no test sees another's part."""
    with Bench.t1() as made:
        made.reset()
        yield made


@pytest.fixture
def part(tmp_path: Path) -> Iterator[Callable[..., Bench]]:
    """`part("T2")` is that part, powered on and reset; large ones are sparse files that go with the test. Other words go to Bench."""
    made: List[Bench] = []

    def make(name: str, **words: Any) -> Bench:
        known = PARTS[name]
        words.setdefault("array", tmp_path / ("array-%d" % len(made)))
        made.append(Bench(known.page, known.device_id, **words))
        made[-1].reset()
        return made[-1]

    yield make
    for each in made:
        each.close()
