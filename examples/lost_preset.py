#!/usr/bin/env python3
"""A loader test: stations A (LUN 0) and B (LUN 1) save a preset at the same time, and A checks its own from its register.

    python3 examples/lost_preset.py            (after tools/build-host)

The loader trusts that a page register keeps what was sent to it. That holds with program-clear on; without it station B's 80h
clears every register, and A reads FFh: the preset looks lost, though the array has it.
"""
import sys
from pathlib import Path

sys.path.insert(0, str(Path(__file__).resolve().parent.parent / "python"))

from nibtoggle import Bench  # noqa: E402

A, B = (0, b"\x3C\xA5"), (1, b"\x11\x22")         # station's LUN, its preset


def save_both(bench: Bench) -> None:
    """Both stations send and start; then both finish."""
    for lun, preset in (A, B):
        bench.program(lun, block=0, page=0, data=preset, finish=False)
    for lun, _ in (A, B):
        bench.finish(lun)
        assert not bench.status(lun).fail


for clear in (True, False):
    bench = Bench.t1()
    bench.reset()
    bench.program_clear(clear)
    save_both(bench)
    seen = bench.read_out(A[0], count=2)
    kept = bench.read_page(A[0], block=0, page=0, count=2)
    print("program-clear %s: A reads %s from its register, %s from its page: %s" % (
        "on " if clear else "off", seen.hex(" ").upper(), kept.hex(" ").upper(), "kept" if seen == A[1] else "LOST"))
    assert kept == A[1] and (seen == A[1]) == clear
