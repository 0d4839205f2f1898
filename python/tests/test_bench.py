"""The bench from Python: the worked cases, refusals both ways, buffers in place, jobs, files."""
from __future__ import annotations

import ctypes
import os
import pickle
import re
import sys
import tempfile
import unittest
from pathlib import Path
from typing import Callable, List

ROOT = Path(__file__).resolve().parent.parent.parent
sys.path.insert(0, str(ROOT / "python"))

from nibtoggle import (PARTS, RULES, Bench, NotReady, Part, Refused, Replies, Reply, Status,  # noqa: E402
                       UnwrittenZeros, crc, parameter_page, records_of)
from nibtoggle._library import Target  # noqa: E402

HEADER = (ROOT / "include" / "nibtoggle.h").read_text(encoding="utf-8")
#: The record's bytes; what follows is padding.
USED = Target.kept.offset + Target.kept.size


class Layout(unittest.TestCase):
    """ctypes' record is the header's, and the header's is the prover's (tests/c/layout.c)."""

    def test_fields_are_those_of_the_generated_layout(self) -> None:
        layout = (ROOT / "target" / "host" / "layout.h").read_text(encoding="utf-8")
        self.assertEqual(ctypes.sizeof(Target), int(re.search(r"NIB_LAYOUT_SIZE (\d+)", layout).group(1)))
        generated = [(n, int(at), int(size)) for n, at, size in re.findall(r"X\((\w+), (\d+), (\d+)\)", layout)]
        ours = [(n, getattr(Target, n).offset, getattr(Target, n).size) for n, _ in Target._fields_]
        self.assertEqual(generated, ours)
        self.assertGreater(len(ours), 20)

    def test_numbers_of_refusals_are_the_header_s(self) -> None:
        self.assertEqual(sorted(RULES), sorted(int(n) for n in re.findall(r"NIB_REFUSED_\w+ = (\d+)", HEADER)))


class Worked(unittest.TestCase):
    """The requirements' own cases."""

    def test_whole_case(self) -> None:
        bench = Bench.t1()
        replies = bench.trace(bytes.fromhex("00FF 0090 0120 0300 0300 0300 0300 0300"))
        self.assertEqual(replies.raw, bytes.fromhex("0000 0000 0000 014F 014E 0146 0149 0208"))
        self.assertEqual(replies.data, b"ONFI")
        self.assertEqual(replies.refusals, [(7, 8)])
        self.assertEqual(bytes(bench.array), b"\xFF" * 33792)

    def test_rows_and_places(self) -> None:
        t1, t2 = Part.of(parameter_page()), Part.of(parameter_page(pages=3, blocks=5))
        self.assertEqual(t1.array_length, 33792)
        self.assertEqual((t1.row(1, 5, 3), t1.page_start(1, 5, 3)), (55, 29040))
        self.assertEqual(t2.row(0, 4, 2), 18)

    def test_rows_of_t2_that_do_not_exist(self) -> None:
        for row in (15, 20):
            bench = Bench(parameter_page(pages=3, blocks=5), 0x68)
            bench.reset()
            bench.command(0x80)
            bench.address(0, 0, row, 0)
            with self.assertRaises(Refused) as caught:
                bench.address(0)
            self.assertEqual(caught.exception.number, 4)

    def test_and_of_old_and_new(self) -> None:
        bench = Bench.t1()
        bench.reset()
        bench.program(1, 5, 3, b"\xA5")
        bench.program(1, 5, 3, b"\x3C")
        self.assertEqual(bench.array[29040], 0x24)
        self.assertEqual(bench.page_of(1, 5, 3)[:2], b"\x24\xFF")
        self.assertEqual(bench.counts[bench.part.page_number(1, 5, 3)], 2)
        self.assertEqual(sum(bench.counts), 2)

    def test_status(self) -> None:
        bench = Bench.t1(flags=bytes([0, 1]) + bytes(14))
        bench.reset()
        self.assertEqual(bench.status(0), 0xE0)
        bench.program(0, 0, 0, b"x", finish=False)
        self.assertEqual(bench.status(0), 0x80)
        self.assertTrue(bench.working(0))
        self.assertFalse(Status(0x80).ready)
        bench.finish(0)
        bench.program(0, 1, 0, b"x")                    # a factory bad block
        status = bench.status(0)
        self.assertEqual((status, status.fail, status.ready), (0xE1, True, True))
        self.assertEqual(repr(status), "Status(E1h: ready, failed)")
        bench.protect()
        bench.reset()
        self.assertEqual(bench.status(), 0x60)
        self.assertTrue(bench.status().protected)


class Events(unittest.TestCase):
    def setUp(self) -> None:
        self.bench = Bench.t1()

    def test_replies_are_values(self) -> None:
        reply = self.bench.command(0xFF)
        self.assertEqual((reply, reply.ok, reply.byte, reply.refusal, str(reply)), (Reply(0, 0), True, None, 0, "accepted"))
        self.bench.command(0x90)
        replies = self.bench.address(0x20)
        self.assertEqual((len(replies), replies.ok, replies[0]), (1, True, Reply(0, 0)))
        reply = self.bench.event(3, 0)
        self.assertEqual((reply.byte, str(reply)), (0x4F, "byte 4Fh"))
        reply = self.bench.event(4, 0)
        self.assertEqual((reply.ok, reply.refusal, reply.words), (False, 10, RULES[10]))

    def test_a_refusal_raises_with_number_words_and_place(self) -> None:
        with self.assertRaises(Refused) as caught:
            self.bench.command(0x90)
        self.assertEqual((caught.exception.number, caught.exception.words), (2, RULES[2]))
        self.assertEqual((caught.exception.event, caught.exception.index), ((0, 0x90), 0))
        self.assertIn("command 90h refused with 2", str(caught.exception))
        self.bench.reset()
        with self.assertRaises(Refused) as caught:
            self.bench.program(0, 0, 0, bytes(3), column=527)
        self.assertEqual((caught.exception.number, caught.exception.index), (8, 7))
        self.assertEqual(caught.exception.event, (2, 0))
        self.assertEqual(len(caught.exception.replies), 10)

    def test_refusals_as_values(self) -> None:
        self.bench.strict = False
        self.assertEqual(self.bench.command(0x90).refusal, 2)
        self.bench.reset()
        self.assertEqual(self.bench.read(3), b"")
        self.assertEqual(self.bench.replies.refusals, [(0, 3), (1, 3), (2, 3)])
        self.assertEqual(self.bench.program(0, 0, 0, b"ab", column=527).refusals, [(7, 8), (8, 3)])
        self.assertEqual(self.bench.counts[0], 0)
        self.bench.program(1, 0, 0, b"x", finish=False)
        self.bench.load(0, 0, 0, finish=True)
        self.assertIsNone(self.bench.status())          # 70h while another LUN works
        self.assertEqual(self.bench.replies[0].refusal, 6)

    def test_a_refused_job_finishes_nothing(self) -> None:
        self.bench.strict = False
        self.bench.reset()
        self.bench.program(0, 0, 0, b"x", finish=False)
        self.assertFalse(self.bench.program(0, 0, 1, b"y").ok)
        self.assertTrue(self.bench.working(0))

    def test_trace_and_single_events_agree(self) -> None:
        records = bytes.fromhex("00FF 0080 0100 0100 0105 0100 0100 0211 0222 0010 0400 0000 0100 0100 0105 0100 0100 0030 0400") \
            + bytes.fromhex("0300") * 4 + bytes.fromhex("0078 0105 0100 0100 0300 0901 0502")
        one = self.bench.trace(records)
        other = Bench.t1()
        two = [other.event(records[i], records[i + 1]) for i in range(0, len(records), 2)]
        self.assertEqual(list(one), two)
        self.assertEqual(bytes(self.bench.array), bytes(other.array))
        self.assertEqual(bytes(self.bench.registers), bytes(other.registers))
        self.assertEqual(bytes(self.bench.target)[:USED], bytes(other.target)[:USED])
        self.assertEqual(one.data, b"\x11\x22\xFF\xFF\xE0")
        self.assertEqual(self.bench.events([(0, 0xFF), (5, 2)]).raw, b"\x00\x00\x02\x0C")

    def test_odd_byte_and_empty_trace(self) -> None:
        self.assertEqual(self.bench.trace(b"\x00\xFF\x07").raw, b"\x00\x00\x02\x0C")
        self.assertEqual(self.bench.trace(b"").raw, b"")

    def test_replies_as_a_sequence(self) -> None:
        replies = Replies(bytes.fromhex("0000 0141 0203 0142"))
        self.assertEqual(len(replies), 4)
        self.assertEqual(replies[-1], Reply(1, 0x42))
        self.assertEqual(replies[1:3], Replies(bytes.fromhex("0141 0203")))
        self.assertEqual(replies.data, b"AB")
        self.assertEqual(replies.first_refused, 2)
        with self.assertRaises(IndexError):
            replies[4]

    def test_a_damaged_record_is_13(self) -> None:
        self.bench.reset()
        self.bench.target.sequence = 200
        before = bytes(self.bench.target)[:USED]
        with self.assertRaises(Refused) as caught:
            self.bench.command(0xFF)
        self.assertEqual(caught.exception.number, 13)
        self.assertEqual(bytes(self.bench.target)[:USED], before)


class Jobs(unittest.TestCase):
    def setUp(self) -> None:
        self.bench = Bench.t1()
        self.bench.reset()

    def test_program_read_erase(self) -> None:
        data = bytes(i & 0xFF for i in range(528))
        self.assertTrue(self.bench.program(1, 7, 3, data).ok)
        self.assertEqual(self.bench.read_page(1, 7, 3), data)
        self.assertEqual(self.bench.read_page(1, 7, 3, column=500, count=5), data[500:505])
        self.assertEqual(self.bench.read_page(0, 7, 3, count=4), b"\xFF" * 4)
        self.bench.erase(1, 7)
        self.assertEqual(self.bench.read_page(1, 7, 3), b"\xFF" * 528)

    def test_copyback(self) -> None:
        bench = Bench(PARTS["W"].page, 0x68)
        bench.reset()
        bench.program(1, 0, 0, b"preset")
        self.assertFalse(bench.copyback_open(1))
        self.assertTrue(bench.copyback_read(1, 0, 0, finish=False).ok)
        self.assertTrue(bench.working(1) and bench.copyback_open(1))
        with self.assertRaises(Refused) as caught:
            bench.copyback_program(1, 5, 3)
        self.assertEqual((caught.exception.number, caught.exception.index), (5, 5))
        bench.finish(1)
        self.assertEqual(bench.read_out(1, count=3), b"pre")
        self.assertTrue(bench.copyback_program(1, 5, 3, b"SE", column=3).ok)
        self.assertEqual((bench.copyback_open(1), bench.working(1)), (False, False))
        self.assertEqual(bench.read_page(1, 5, 3, count=7), b"preSEt\xFF")
        with self.assertRaises(Refused) as caught:
            bench.copyback_program(1, 5, 2)
        self.assertEqual((caught.exception.number, caught.exception.words), (14, "no copyback is open there"))
        # the same page elsewhere, with no data at all, left working
        bench.copyback_read(1, 0, 0)
        bench.copyback_program(1, 6, 0, finish=False)
        self.assertTrue(bench.working(1))
        bench.finish(1)
        self.assertEqual(bytes(bench.page_of(1, 6, 0)), bytes(bench.page_of(1, 0, 0)))

    def test_page_order(self) -> None:
        # T1 has feature bit 2 clear: a block's pages go upward, and a program below a written one fails
        bench = self.bench
        for lun, block, page, failed in ((1, 5, 1, False), (1, 5, 3, False), (1, 5, 1, True), (1, 5, 2, True),
                                         (1, 5, 3, False), (1, 4, 0, False), (0, 5, 0, False)):
            before = bytes(bench.array), bytes(bench.counts)
            self.assertTrue(bench.program(lun, block, page, b"\0").ok)
            status = bench.status(lun)
            assert status is not None
            self.assertEqual(status.fail, failed, (lun, block, page))
            self.assertEqual((bytes(bench.array), bytes(bench.counts)) == before, failed)
        bench.erase(1, 5)
        bench.program(1, 5, 0, b"\0")
        self.assertEqual((bench.status(1), bench.page_of(1, 5, 0)[0]), (0xE0, 0))

    def test_page_order_is_of_the_part(self) -> None:
        for any_order in (False, True):
            bench = Bench(parameter_page(copyback=True, any_order=any_order), 0x68, counts=bytes([0, 0, 0, 1]) + bytes(60))
            bench.reset()
            self.assertEqual(bool(bench.target.features & 4), any_order)
            due = 0xE0 if any_order else 0xE1
            bench.program(0, 0, 2, b"\0")                   # page 3 was lent with a count
            byte = 0 if any_order else 0xFF
            self.assertEqual((bench.status(0), bench.page_of(0, 0, 2)[0], bench.counts[2]), (due, byte, any_order))
            bench.program(0, 1, 1, b"\0")
            bench.copyback_read(0, 1, 1)
            bench.copyback_program(0, 1, 0)
            self.assertEqual((bench.status(0), bench.page_of(0, 1, 0)[0], bench.counts[4]), (due, byte, any_order))

    def test_blank_blocks(self) -> None:
        bench = Bench.t1(counts=bytes([0, 0, 0, 1]) + bytes(60), bad=[(0, 1)])
        bench.reset()

        def is_blank(block: int) -> bool:
            return not bench.flags[block] and not any(bench.counts[4 * block:4 * block + 4])

        def blank() -> List[int]:
            walked = [sum(map(is_blank, range(first, first + 8))) for first in (0, 8)]
            kept = [bench.blank(lun) for lun in range(2)]
            self.assertEqual(kept, walked)
            return kept

        self.assertEqual(blank(), [6, 8])                   # block 0 is lent with a count, block 1 is bad
        bench.program(1, 5, 0, finish=False)
        self.assertEqual(blank(), [6, 7])                   # at 10h, with no data too
        bench.finish(1)
        bench.program(1, 5, 1, b"again")
        bench.program(0, 1, 0, b"on a bad block")
        self.assertEqual(blank(), [6, 7])
        bench.erase(0, 0, finish=False)
        self.assertEqual(blank(), [7, 7])                   # at D0h
        bench.reset()
        bench.erase(0, 1)
        bench.erase(1, 4)                                   # a bad block, and one that is blank
        self.assertEqual(blank(), [7, 7])
        bench.counts[4] = 1                                 # a bad block's count: no matter
        bench.counts[8] = 1                                 # and a good one's, which power-on sees
        self.assertEqual(bench.blank(0), 7)
        bench.power_on()
        self.assertEqual(blank(), [6, 7])

    def test_blank_blocks_of_a_record_that_is_written_to(self) -> None:
        bench = self.bench
        bench.target.blank[0] = 0
        bench.program(0, 0, 0, b"")
        self.assertEqual(bench.blank(0), 0)
        bench.target.blank[0] = 8
        bench.erase(0, 0)
        self.assertEqual(bench.blank(0), 8)
        bench.target.blank[0] = 9
        for event in ((0, 0xFF), (3, 0), (4, 0), (5, 1)):
            self.assertEqual(bench.event(*event), (2, 13))
        self.assertEqual(bench.blank(0), 9)
        bench.power_on()
        self.assertEqual((bench.blank(0), bench.reset()), (8, (0, 0)))

    def test_copyback_is_an_option(self) -> None:
        self.bench.strict = False
        self.assertEqual(self.bench.copyback_read(0, 0, 0).refusals, [(6, 1)])
        self.assertEqual(self.bench.copyback_program(0, 0, 0).refusals[0], (0, 1))
        self.assertFalse(self.bench.working(0))

    def test_identification(self) -> None:
        self.assertEqual(self.bench.read_id(), b"\x2C\x68")
        self.assertEqual(self.bench.signature(), b"ONFI")
        self.assertEqual(self.bench.parameters(), parameter_page())
        self.assertEqual(self.bench.parameters(3), parameter_page() * 3)
        self.bench.page[64] = 0x98                      # ECh gives the lent bytes as they are
        self.assertEqual(self.bench.parameters()[64], 0x98)

    def test_features(self) -> None:
        self.assertEqual(self.bench.get_feature(), bytes(4))
        self.bench.program_clear(True)
        self.assertEqual(self.bench.get_feature(), b"\x40\0\0\0")
        with self.assertRaises(Refused) as caught:
            self.bench.set_feature(b"\x01\0\0\0")
        self.assertEqual(caught.exception.number, 9)

    def test_the_lost_preset(self) -> None:
        for clear, seen in ((True, b"\x3C\xA5"), (False, b"\xFF\xFF")):
            bench = Bench.t1()
            bench.reset()
            bench.program_clear(clear)
            bench.program(0, 0, 0, b"\x3C\xA5", finish=False)
            bench.program(1, 0, 0, b"\x11\x22", finish=False)
            bench.finish(0)
            bench.finish(1)
            self.assertEqual(bench.read_out(0, count=2), seen)
            self.assertEqual(bench.page_of(0, 0, 0)[:2], b"\x3C\xA5")

    def test_protect(self) -> None:
        self.bench.protect(True)
        with self.assertRaises(Refused) as caught:
            self.bench.erase(0, 0)
        self.assertEqual(caught.exception.number, 7)
        self.bench.protect(False)
        self.assertTrue(self.bench.erase(0, 0).ok)

    def test_rest(self) -> None:
        self.assertEqual(self.bench.rest().buffer, "")
        self.bench.program(1, 0, 0, b"abcdef")
        self.bench.load(1, 0, 0, finish=True)
        self.assertEqual(self.bench.read(2), b"ab")
        rest = self.bench.rest()
        self.assertEqual((rest.buffer, rest.start, len(rest.view)), ("registers", 530, 526))
        self.assertEqual(rest.view[:4], b"cdef")
        rest.view[0] = 0x7A                             # it is the register itself
        self.assertEqual(self.bench.read(1), b"z")

    def test_register_view(self) -> None:
        self.bench.program(1, 0, 0, b"abc")
        self.assertEqual(self.bench.register(1)[:3], b"abc")
        self.assertEqual(self.bench.register(0)[:3], b"\xFF" * 3)


class Polling(unittest.TestCase):
    """Loaders that poll: the status until it says ready, then 00h, and on with what was open before."""

    def setUp(self) -> None:
        self.bench = Bench.t1()
        self.bench.reset()
        self.bench.program(1, 5, 3, b"preset")

    def test_poll_and_resume(self) -> None:
        self.bench.load(1, 5, 3, column=1)
        calls = []
        status = self.bench.poll(finish=lambda n: calls.append(n) or n == 3)
        self.assertEqual((status, calls), (0xE0, [1, 2, 3]))
        self.assertIsInstance(status, Status)
        # four statuses by 70h, and the finish after the third, are the replies of the call
        self.assertEqual(self.bench.replies.records, records_of("c 70 o 1 c 70 o 1 c 70 o 1 f 1 c 70 o 1"))
        self.assertEqual(self.bench.replies.data, b"\x80\x80\x80\xE0")
        self.assertEqual(self.bench.resume(3), b"res")
        self.assertEqual(self.bench.replies.records, records_of("c 00 o 3"))
        self.assertEqual(self.bench.read(2), b"et")             # plain output again
        self.assertEqual(self.bench.poll(), 0xE0)
        self.assertEqual(len(self.bench.resume()), 528 - 6)     # all that is left
        self.bench.poll()
        with self.assertRaises(Refused) as caught:
            self.bench.resume()
        self.assertEqual((caught.exception.number, caught.exception.event), (8, (3, 0)))

    def test_a_function_that_gives_the_finish_itself(self) -> None:
        self.bench.load(1, 5, 3)
        self.assertEqual(self.bench.poll(1, finish=lambda n: self.bench.finish(1) if n == 2 else None), 0xE0)
        self.assertEqual(self.bench.resume(6), b"preset")

    def test_autofinish_goes_on_as_ever(self) -> None:
        for polls in (1, 4):
            self.bench.autofinish = polls
            self.bench.load(1, 5, 3)
            self.assertEqual(self.bench.poll(), 0xE0)
            self.assertEqual(len(self.bench.replies.data), polls + 1)
            self.assertEqual(self.bench.resume(6), b"preset")
        # with both, the first of them finishes it, and the other does nothing
        self.bench.load(1, 5, 3)
        self.assertEqual(self.bench.poll(1, finish=lambda n: n >= 4), 0xE0)
        self.bench.load(1, 5, 3)
        self.assertEqual(self.bench.poll(1, finish=lambda n: n == 2), 0xE0)
        self.assertEqual(self.bench.replies.data, b"\x80\x80\xE0")

    def test_polls_that_run_out(self) -> None:
        self.bench.program(1, 4, 2, b"x", finish=False)
        with self.assertRaisesRegex(NotReady, "LUN 1 is not ready after 7 polls") as caught:
            self.bench.poll(1, 7)
        self.assertEqual((caught.exception.lun, caught.exception.polls, caught.exception.status), (1, 7, 0x80))
        self.assertEqual(len(self.bench.replies.data), 7)
        again = pickle.loads(pickle.dumps(caught.exception))
        self.assertEqual((str(again), again.lun, again.polls, again.status), (str(caught.exception), 1, 7, 0x80))
        with self.assertRaisesRegex(NotReady, "after 1 poll$"):
            self.bench.poll(polls=1)
        self.bench.strict = False
        self.assertEqual(self.bench.poll(1, 2), 0x80)
        self.assertEqual(self.bench.poll(1, 2, finish=lambda n: n == 2), 0x80)      # ready, and not asked again
        self.assertEqual(self.bench.poll(1, 1), 0xE0)

    def test_a_failed_program_is_ready(self) -> None:
        bench = Bench.t1(bad=[(0, 3)], autofinish=2)
        bench.reset()
        bench.program(0, 3, 0, b"x", finish=False)
        status = bench.poll(0)
        assert status is not None
        self.assertEqual((status.ready, status.fail), (True, True))

    def test_70h_or_78h(self) -> None:
        self.bench.poll()
        self.assertEqual(self.bench.replies.records, records_of("c 70 o 1"))
        self.bench.poll(1)
        self.assertEqual(self.bench.replies.records, records_of("c 78 a 20 00 00 o 1"))
        # 70h is refused while a LUN that is not selected works; 78h is not
        self.bench.program(0, 0, 0, b"x", finish=False)
        self.bench.load(1, 5, 3)
        with self.assertRaises(Refused) as caught:
            self.bench.poll()
        self.assertEqual(caught.exception.number, 6)
        self.bench.strict = False
        self.assertIsNone(self.bench.poll())
        self.assertEqual(self.bench.replies.refusals, [(0, 6), (1, 3)])
        # a part without 78h: 70h for the LUN that is selected, and for no other
        plain = Bench(parameter_page(status_78h=False), 0x68, autofinish=1)
        plain.reset()
        plain.program(1, 0, 0, b"x", finish=False)
        self.assertEqual(plain.poll(1), 0xE0)
        self.assertEqual(plain.replies.records, records_of("c 70 o 1 c 70 o 1"))
        with self.assertRaisesRegex(ValueError, "no 78h, and 70h asks LUN 1"):
            plain.poll(0)

    def test_what_is_kept_and_what_is_lost(self) -> None:
        # 78h keeps a register of its own LUN alone
        self.bench.load(1, 5, 3, finish=True)
        self.assertEqual((self.bench.poll(1), self.bench.resume(1)), (0xE0, b"p"))
        self.assertEqual((self.bench.poll(0), self.bench.target.kept), (0xE0, 0))
        self.refused(3, lambda: self.bench.resume(1))
        # IDs, the signature and feature bytes behind 70h
        self.bench.command(0x90)
        self.bench.address(0x20)
        self.assertEqual((self.bench.read(1), self.bench.poll(), self.bench.resume()), (b"O", 0xE0, b"NFI"))
        self.bench.command(0x90)
        self.bench.address(0x00)
        self.assertEqual((self.bench.poll(), self.bench.resume()), (0xE0, b"\x2C\x68"))
        self.bench.program_clear(True)
        self.bench.command(0xEE)
        self.bench.address(0x01)
        self.assertEqual((self.bench.poll(), self.bench.resume()), (0xE0, b"\x40\0\0\0"))
        # without a status it is lost, and so it is by a refused cycle
        self.refused(3, lambda: self.bench.resume(1))
        self.bench.load(1, 5, 3, finish=True)
        self.bench.poll()
        self.refused(3, lambda: self.bench.command(0x10))
        self.bench.poll()
        self.refused(3, lambda: self.bench.resume(1))
        # too early
        self.bench.load(1, 5, 3)
        self.bench.strict = False
        self.bench.poll(polls=1)
        self.assertEqual(self.bench.resume(2), b"")
        self.assertEqual(self.bench.replies.refusals, [(1, 5), (2, 3)])

    def test_the_parameter_page(self) -> None:
        page = parameter_page()
        self.bench.command(0xEC)
        self.bench.address(0x00)
        self.assertEqual((self.bench.poll(), self.bench.resume()), (0xE0, 3 * page))
        # 05h moves within the page's 768 bytes, open or kept
        for column in (0, 64, 576, 767):
            self.bench.poll()
            self.bench.command(0x05)
            self.bench.address(column & 0xFF, column >> 8)
            self.bench.command(0xE0)
            self.assertEqual(self.bench.read(1), page[column % 256:column % 256 + 1])
        self.bench.command(0x05)
        self.bench.address(0x00)
        self.refused(4, lambda: self.bench.address(0x03))

    def refused(self, number: int, call: Callable[[], object]) -> None:
        with self.assertRaises(Refused) as caught:
            call()
        self.assertEqual(caught.exception.number, number)


class PowerOn(unittest.TestCase):
    def test_each_refusal(self) -> None:
        good = parameter_page()
        cases = [
            (20, good[:255], {}),
            (21, b"onfi" + good[4:], {}),
            (22, good[:254] + b"\0\0", {}),
            (23, parameter_page(programs=9), {}),
            (23, parameter_page(data=0xFFFFFFFF), {}),
            (24, good, {"array": bytearray(33791)}),
            (25, good, {"flags": bytes([2]) + bytes(15)}),
            (25, good, {"counts": bytes([5]) + bytes(63)}),
        ]
        for number, page, words in cases:
            with self.subTest(number=number):
                with self.assertRaises(Refused) as caught:
                    Bench(page, 0x68, **words)
                self.assertEqual((caught.exception.number, caught.exception.event), (number, None))
                self.assertIn("power-on refused with %d" % number, str(caught.exception))
                bench = Bench(page, 0x68, strict=False, **words)
                self.assertFalse(bench.powered)
                self.assertEqual(bench.command(0xFF).refusal, 13)

    def test_crc_of_a_maker_s_page(self) -> None:
        pages = (ROOT / "crates" / "test_pages" / "data" / "makers").read_bytes()
        self.assertEqual(crc(pages[:254]), int.from_bytes(pages[254:256], "little"))

    def test_buffers_are_used_in_place(self) -> None:
        array = bytearray(b"\xFF" * 33792)
        bench = Bench.t1(array=array)
        bench.reset()
        bench.program(0, 0, 0, b"in place")
        self.assertEqual(array[:8], b"in place")


class Files(unittest.TestCase):
    def test_an_array_kept_in_a_file(self) -> None:
        with tempfile.TemporaryDirectory() as folder:
            path = Path(folder) / "array"
            with Bench.t1(array=path) as bench:
                bench.reset()
                self.assertEqual(bench.read_page(0, 0, 0, count=2), b"\xFF\xFF")
                bench.program(0, 0, 0, b"kept")
            self.assertEqual(path.stat().st_size, 33792)
            with Bench.t1(array=path) as bench:
                bench.reset()
                self.assertEqual(bench.read_page(0, 0, 0, count=5), b"kept\xFF")
            with self.assertRaises(ValueError):
                Bench(parameter_page(blocks=9), 0x68, array=path)

    def test_a_large_array_is_a_sparse_file(self) -> None:
        # 4 LUNs of 4,096 blocks of 64 pages of 8,640 bytes: 9 GB, of which one block is written
        page = parameter_page(data=8192, spare=448, pages=64, blocks=4096, luns=4)
        with tempfile.TemporaryDirectory() as folder:
            path = Path(folder) / "array"
            with self.assertWarns(UnwrittenZeros):
                bench = Bench(page, 0x68, array=path)
            with bench:
                self.assertEqual(len(bench.array), 9_059_696_640)
                bench.reset()
                bench.erase(3, 4095)
                data = os.urandom(8640)
                bench.program(3, 4095, 63, data)
                self.assertEqual(bench.read_page(3, 4095, 63), data)
                self.assertEqual(bench.read_page(3, 4095, 62), b"\xFF" * 8640)
                self.assertEqual(bench.read_page(0, 0, 0), bytes(8640))
            used = path.stat().st_blocks * 512
            self.assertLess(used, 4 << 20)

    def test_large_without_a_path(self) -> None:
        with self.assertWarns(UnwrittenZeros):
            bench = Bench(parameter_page(data=16384, spare=0, pages=256, blocks=32, luns=1), 0x68)
        with bench:
            bench.reset()
            bench.erase(0, 31)
            bench.program(0, 31, 255, b"end")
            self.assertEqual(bytes(bench.array[-16384:-16381]), b"end")


class Example(unittest.TestCase):
    def said(self, name: str) -> str:
        import subprocess
        done = subprocess.run([sys.executable, str(ROOT / "examples" / name)], capture_output=True, text=True)
        self.assertEqual(done.returncode, 0, done.stderr)
        return done.stdout

    def test_the_lost_preset(self) -> None:
        said = self.said("lost_preset.py")
        self.assertIn("A reads FF FF", said)
        self.assertIn("A reads 3C A5", said)

    def test_polling(self) -> None:
        said = self.said("polling.py")
        self.assertIn("LUN 1, block 5, page 3, after 4 polls: sonar preset", said)
        self.assertIn("parameter page, copy 2: ONFI", said)
        self.assertIn("Status(E0h: ready), and on: preset", said)


if __name__ == "__main__":
    unittest.main()
