#!/usr/bin/env python3
"""A second program for the checker of other people's parameter pages, written from the request's words; it shares no code with the first.

    python3 tools/page_check.py FILE      what it decides of 768 bytes, an answer to ECh

`answers()` has the answers that python/tests/test_page_check.py holds the proved library to: the tables of worked answers, the six
makers' pages, and 2,000 that are made: copies damaged in every combination, each rule broken alone and together, every multiplier.
"""
import os
import random
import sys

sys.path.insert(0, os.path.join(os.path.dirname(os.path.abspath(__file__)), 'expect'))
from pages import MAKERS, crc, number, put  # noqa: E402  (the CRC by division)


def good(page):
    """Good signature and CRC."""
    return page[0:4] == b'ONFI' and crc(page[0:254]) == number(page, 254, 255)


def decide(answer):
    """'length', 'no good copy', or (copy, [bytes of the broken rules], endurance or None)."""
    if len(answer) != 768:
        return 'length'
    copies = [answer[0:256], answer[256:512], answer[512:768]]
    choices = [k for k in range(3) if good(copies[k])]
    if not choices:
        return 'no good copy'
    page = copies[choices[0]]
    broken = []
    # data bytes a power of two and at least 512
    if bin(number(page, 80, 83)).count('1') != 1 or number(page, 80, 83) < 512:
        broken.append(80)
    # pages a block a multiple of 32
    if number(page, 92, 95) & 31:
        broken.append(92)
    # zero LUNs
    if page[100] == 0:
        broken.append(100)
    # a multiplier above 16 is listed as broken and no endurance printed
    if page[106] > 16:
        broken.append(106)
    # zero programs a page
    if page[110] == 0:
        broken.append(110)
    return choices[0], broken, None if page[106] > 16 else page[105] * int('1' + '0' * page[106])


# ---------------------------------------------------------------- answers


def page(data=2048, pages=64, luns=1, programs=4, value=75, multiplier=3, fill=None):
    """A page with good signature and CRC; what the checker doesn't look at is drawn if `fill` is given."""
    p = bytearray(fill.randbytes(256) if fill else 256)
    p[0:4] = b'ONFI'
    put(p, 80, 83, data)
    put(p, 92, 95, pages)
    p[100], p[105], p[106], p[110] = luns, value, multiplier, programs
    put(p, 254, 255, crc(p[0:254]))
    return bytes(p)


def damaged(p, at=7, x=1):
    return p[:at] + bytes([p[at] ^ x]) + p[at + 1:]


G = page()
B = damaged(G)
WORST = page(data=513, pages=3, luns=0, programs=0, value=1, multiplier=17)

# What the readings of the request give, by hand.
WORKED = [
    (G + G + G, (0, [], 75000)),
    (B + G + G, (1, [], 75000)),
    (B + B + G, (2, [], 75000)),
    (B + B + B, 'no good copy'),
    ((G + G + G)[:767], 'length'),
    (WORST * 3, (0, [80, 92, 100, 106, 110], None)),
    (page(data=256) * 3, (0, [80], 75000)),
    (page(data=100) + G + G, (0, [80], 75000)),
    (page(pages=0) * 3, (0, [], 75000)),
    (page(value=255, multiplier=16) * 3, (0, [], 2550000000000000000)),
    (page(value=0, multiplier=0) * 3, (0, [], 0)),
]


def makers():
    """The six makers' pages, each thrice as ECh gives it."""
    with open(MAKERS, 'rb') as f:
        data = f.read()
    return [data[512 * k:512 * k + 256] * 3 for k in range(len(data) // 512)]


POWERS = [1 << k for k in range(32)]
DATA = POWERS + [0, 3, 100, 511, 513, 768, 1023, 1025, 4095, 4097, 0x80000001, 0xFFFFFFFF, 0x01000200, 0x02000000 + 512]
PAGES = [0, 1, 31, 32, 33, 64, 96, 128, 129, 255, 256, 0x100, 0x101, 0x10000, 0x1000020, 0x80000000, 0xFFFFFFFF, 0xFFFFFFE0]
MULTIPLIERS = list(range(18)) + [255]


def made(count=2000):
    """The same answers at every run."""
    r = random.Random(20261115)
    done = 0
    # every multiplier with every kind of value; every set of the five rules; every set of damaged copies, in each way
    for m in MULTIPLIERS:
        for v in (0, 1, 9, 75, 255):
            yield page(value=v, multiplier=m, fill=r) * 3
            done += 1
    for s in range(32):
        for copies in range(8):
            p = page(data=r.choice(DATA[32:]) if s & 1 else r.choice(POWERS[9:]), pages=r.choice((1, 31, 33, 129)) if s & 2 else r.choice((0, 32, 64, 96)),
                     luns=0 if s & 4 else r.randrange(1, 256), multiplier=r.randrange(17, 256) if s & 8 else r.randrange(17),
                     programs=0 if s & 16 else r.randrange(1, 256), value=r.randrange(256), fill=r)
            other = page(fill=r)
            parts = [p if k == min((j for j in range(3) if not copies >> j & 1), default=0) else other for k in range(3)]
            yield b''.join(damaged(q, r.choice((0, 1, 2, 3, 4, 80, 106, 253, 254, 255)), 1 << r.randrange(8)) if copies >> k & 1 else q
                           for k, q in enumerate(parts))
            done += 1
    for d in DATA:
        yield page(data=d, fill=r) * 3
        done += 1
    for g in PAGES:
        yield page(pages=g, fill=r) * 3
        done += 1
    # each byte of a good answer changed
    for k in range(768):
        yield damaged(G * 3, k, 1 + r.randrange(255))
        done += 1
    # other lengths
    for n in (0, 1, 255, 256, 257, 511, 512, 767, 769, 1024):
        yield (G * 4)[:n]
        done += 1
    while done < count:
        p = page(r.choice(DATA), r.choice(PAGES), r.choice((0, 1, 2, 255)), r.choice((0, 1, 4, 255)), r.randrange(256), r.choice(MULTIPLIERS), fill=r)
        parts = [damaged(q, r.randrange(256), 1 + r.randrange(255)) if r.random() < 0.5 else q for q in (p, page(fill=r), p)]
        yield b''.join(parts)
        done += 1


def answers():
    """Every answer, and what is expected of it."""
    for answer, expected in WORKED:
        if decide(answer) != expected:
            sys.exit('page_check.py: %r decided of a worked answer, and %r is due' % (decide(answer), expected))
        yield answer, expected
    for answer in makers():
        yield answer, decide(answer)
    for answer in made():
        yield answer, decide(answer)


def main():
    if len(sys.argv) != 2:
        sys.exit(__doc__)
    with open(sys.argv[1], 'rb') as f:
        print(decide(f.read()))


if __name__ == '__main__':
    main()
