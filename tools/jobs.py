#!/usr/bin/env python3
"""A second program for whole jobs (document 02, A5): writer and reader in plain Python, written from the document alone, and
compared with the proved library.

    python3 tools/jobs.py [N [SEED]]     N jobs and N lists (100000 and 1, if not given); needs tools/build-host

The lists are whole jobs, and the same with a record changed, left out, put in, cut off or an odd byte at the end.
"""
import ctypes
import os
import random
import sys

sys.path.insert(0, os.path.join(os.path.dirname(os.path.dirname(os.path.abspath(__file__))), "python"))
from nibtoggle import jobs as proved                                            # noqa: E402
from nibtoggle._library import Library                                          # noqa: E402

COMMAND, ADDRESS, DATA_IN, DATA_OUT, FINISH, PROTECT = range(6)
#: first command, has a column, last command
SHAPES = {"read": (0x00, True, 0x30), "read-out": (0x06, True, 0xE0), "program": (0x80, True, 0x10),
          "erase": (0x60, False, 0xD0), "status": (0x78, False, None)}


def written(kind, column, row, count, data, room):
    """The writer: "wide", "small", or the room with the records in front."""
    first, long, last = SHAPES[kind]
    if row >= 1 << 24 or long and column >= 1 << 16:
        return "wide"
    cycles = [(COMMAND, first)]
    if long:
        cycles += [(ADDRESS, column & 0xFF), (ADDRESS, column >> 8)]
    cycles += [(ADDRESS, row >> shift & 0xFF) for shift in (0, 8, 16)]
    if kind == "program":
        cycles += [(DATA_IN, byte) for byte in data]
    if last is not None:
        cycles.append((COMMAND, last))
    if kind in ("read-out", "status"):
        # a count is not spelled out before it is known to fit
        if len(room) < 2 * len(cycles) + 2 * count:
            return "small"
        cycles += [(DATA_OUT, 0)] * count
    if len(room) < 2 * len(cycles):
        return "small"
    front = bytes(value for cycle in cycles for value in cycle)
    return front + room[len(front):]


def grouped(trace):
    """The reader: the jobs at the front as (kind, row, column, count, data), and the misfit or None."""
    records = [(trace[i], trace[i + 1]) for i in range(0, len(trace) - 1, 2)]
    odd = len(trace) % 2 == 1
    found, at = [], 0

    def is_at(place, kind, value=None):
        return place < len(records) and records[place][0] == kind and (value is None or records[place][1] == value)

    while at < len(records):
        kind = next((k for k, (first, _, _) in SHAPES.items() if records[at] == (COMMAND, first)), None)
        if kind is None:
            return found, at
        _, long, last = SHAPES[kind]
        here, address = at + 1, []
        for _ in range(5 if long else 3):
            if not is_at(here, ADDRESS):
                return found, here
            address.append(records[here][1])
            here += 1
        column = address[0] | address[1] << 8 if long else 0
        row = address[-3] | address[-2] << 8 | address[-1] << 16
        data = bytearray()
        while kind == "program" and is_at(here, DATA_IN):
            data.append(records[here][1])
            here += 1
        if last is not None:
            if not is_at(here, COMMAND, last):
                return found, here
            here += 1
        count = 0
        while kind in ("read-out", "status") and is_at(here, DATA_OUT, 0):
            count += 1
            here += 1
        found.append((kind, row, column, count, bytes(data)))
        at = here
    return found, len(records) if odd else None


def some_job(draw):
    """A job; now and then too wide, or with a count that no room holds."""
    kind = draw.choice(list(SHAPES))
    row = draw.choice((draw.randrange(1 << 24), draw.randrange(64), (1 << 24) - 1, 1 << 24, draw.getrandbits(64)))
    column = draw.choice((draw.randrange(1 << 16), draw.randrange(528), (1 << 16) - 1, 1 << 16, draw.getrandbits(64)))
    count = draw.choice((0, 1, draw.randrange(40), draw.randrange(40), (1 << 63) - 1, 1 << 63, (1 << 64) - 1))
    return kind, column, row, count, draw.randbytes(draw.choice((0, 1, draw.randrange(40))))


def compare_writers(draw, library):
    kind, column, row, count, data = some_job(draw)
    long, cycles = SHAPES[kind][1], len(data) if kind == "program" else count if kind in ("read-out", "status") else 0
    whole = (14 if long else 10 if kind == "erase" else 8) + 2 * cycles
    near = draw.choice((whole - 2, whole - 1, whole, whole + 1, whole + 7)) if whole < 200 else draw.randrange(120)
    room = draw.randbytes(max(near, 0))
    wanted = written(kind, column, row, count, data, room)
    lent = ctypes.create_string_buffer(room, max(len(room), 1))
    answer = library.job_write(list(SHAPES).index(kind) + 1, column, row, count, data, len(data), lent, len(room))
    left = lent.raw[:len(room)]
    told = {1: "wide", 2: "small"}.get(answer, left)
    if told != wanted or isinstance(wanted, str) and left != room or isinstance(wanted, bytes) and answer != whole:
        sys.exit("write %s column %d row %d count %d, %d bytes, room %d: %r and %r" % (
            kind, column, row, count, len(data), len(room), answer, wanted))


def some_list(draw):
    trace = b""
    for _ in range(draw.randrange(5)):
        kind, column, row, count, data = some_job(draw)
        records = written(kind, column % (1 << 16), row % (1 << 24), count % 7, data, bytes(200))
        fixed = 14 if SHAPES[kind][1] else 10 if kind == "erase" else 8
        trace += records[:fixed + 2 * (len(data) if kind == "program" else count % 7 if kind in ("read-out", "status") else 0)]
    trace = bytearray(trace)
    how, at = draw.randrange(7), 2 * draw.randrange(len(trace) // 2 + 1)
    if how == 1 and at < len(trace):
        trace[at + draw.randrange(2)] = draw.choice((0, 1, 2, 3, 4, 0x10, 0x30, 0x85, 0xE0, draw.randrange(256)))
    elif how == 2:
        del trace[at:at + 2]
    elif how == 3:
        trace[at:at] = bytes((draw.randrange(6), draw.choice((0, 0, 1, 0x85, 0x35, 0xFF, draw.randrange(256)))))
    elif how == 4:
        del trace[at:]
    elif how == 5:
        trace.append(draw.randrange(256))
    elif how == 6:
        trace += bytes((DATA_OUT, 0)) * draw.randrange(3)
    return bytes(trace)


def compare_readers(draw, library):
    trace = some_list(draw)
    jobs, misfit = grouped(trace)
    told = proved.group(trace, library)
    plain = [(j.kind, j.row, j.column, j.count, j.data) for j in told.jobs]
    if plain != jobs or told.misfit != misfit or proved.first_misfit(trace, library) != misfit:
        sys.exit("read %s: %r and %r" % (trace.hex(), told, (jobs, misfit)))
    return misfit is None


def main():
    count = int(sys.argv[1]) if len(sys.argv) > 1 else 100000
    draw, library, whole = random.Random(int(sys.argv[2]) if len(sys.argv) > 2 else 1), Library.found(), 0
    for _ in range(count):
        compare_writers(draw, library)
        whole += compare_readers(draw, library)
    print("jobs: %d jobs written and %d lists read (%d of them whole jobs) as the second program does" % (count, count, whole))


if __name__ == "__main__":
    main()
