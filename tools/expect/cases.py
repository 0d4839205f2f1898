#!/usr/bin/env python3
"""cases.py: writes crates/test_table/data/table and table2, the expectations that the program `test_table` holds the model
to; with --check, only says whether these files are what it would write. A mismatch is told with its line, and the lines
of the second file are counted on from the first's.

Every expectation below is written by hand from the words of document 01 and of requests A1, A2, A4 and A7 of document
02 (quoted or named beside the states); none is taken from the model, which this script neither calls nor reads, and no
state is worked out by running anything. The script only EXPANDS what each state says:
  seq(..)   a place with an open sequence: its own line says which commands, addresses and data fit and what they give;
            every other listed command is refused 3, FFh is accepted, a protect event is refused 11, no byte comes out
            (after a bare 00h the line says what does);
  idle(..)  a place with no open sequence: the first commands are accepted, the others refused 3; its line says what 70h
            shows, which LUNs work, what data out gives, and what it gives after 00h with no address.
Each cell has two replies: the event's own, and that of a data out right after it. The second goes by these words of 01:
a refused bus cycle leaves no output (3; 2 before the first FFh); a bench refusal changes nothing, so the place's own
data out; FFh drops output (3); an accepted command or address leaves what its line says, 3 where that is nothing; finish
and protect events keep the output.

The file's lines, a letter and then words of hexadecimal numbers; times* before a word is 'so often in a row':
  #  a remark
  P  a part, and its name: its page, counts and flags are 00h
  L  lengths of parameter page, array, registers, counts and flags, and the device ID
  G C F  bytes of the parameter page, of the counts, of the flags: place:value
  S  a state, and its name     T  a case, and its name
  W  a case whose expectations are wrong on purpose, each of which must be found
  O  power-on, and the answer, 0 for accepted
  I  events: event=reply, 01xx for any byte
  X  cells: event=reply>reply of a data out after it, each tried from the state that the lines above led to
  D  the bytes of a trace     E  what its reply room is to hold at its start; the rest stays EEh, as all 64 bytes are before
  Y  the trace is run: room lent:answer, 0 for done
  R  the record, with one of its numbers set: number:value (RECORD below)
  A V K  what the array, the registers, the counts are to hold from now on: place:value     Q  they are compared
Array byte i is i mod 251 at power-on, and the registers hold 00h before it; an accepted one "fills the registers with FFh".
"""
import os
import sys

OUT = []
FILES = [('table', 0)]


def line(tag, words=()):
    OUT.append((tag + ' ' + ' '.join(words)).rstrip())


def second():
    """What follows goes to a file of its own, which begins with a part: the program holds one of up to 512 KiB at a time."""
    FILES.append(('table2', len(OUT)))


# Replies as the record's two bytes in one number.
ok = 0x0000


def no(n):
    return 0x0200 | n


def byte(b):
    return 0x0100 | b


# The standard events.
COMMANDS = [0x00, 0x05, 0x06, 0x10, 0x30, 0x35, 0x60, 0x70, 0x78, 0x80, 0x85, 0x90, 0xD0, 0xE0, 0xEC, 0xEE, 0xEF, 0xFF]
UNKNOWN = [0x01, 0x31, 0xED, 0xFA]
ADDRESSES = [0x00, 0x01, 0x02, 0x04, 0x0F, 0x10, 0x20, 0xFF]
DATA = [0x00, 0x01, 0x40, 0xFF]
FINISHES = [0, 1, 2, 3, 0xFF]
BAD = ['0301', '03FF', '0502', '05FF', '0600', '0700', 'FFFF']


# Events as words.
def c(*v):
    return ['00%02X' % x for x in v]


def a(*v):
    return ['01%02X' % x for x in v]


def i(*v):
    return ['02%02X' % x for x in v]


def o(n=1):
    return ['0300'] if n == 1 else ['%X*0300' % n]


def f(*v):
    return ['04%02X' % x for x in v]


def p(v):
    return ['05%02X' % v]


def col(x):
    return a(x % 256, x // 256)


def row(x):
    return a(x % 256, x // 256 % 256, x // 65536)


def refused(words, n):
    return [w + '=%04X' % no(n) for w in words]


def given(*v):
    return folded(['0300=%04X' % byte(x) for x in v])


FF = c(0xFF)


def read(r, x=0):
    return c(0x00) + col(x) + row(r) + c(0x30)


def copyback(r, x=0):
    """A page read for a copyback."""
    return c(0x00) + col(x) + row(r) + c(0x35)


def copied(r, x, *v):
    """A copyback program."""
    return c(0x85) + col(x) + row(r) + i(*v) + c(0x10)


def erase(r):
    return c(0x60) + row(r) + c(0xD0)


def program(r, x, *v):
    return c(0x80) + col(x) + row(r) + i(*v) + c(0x10)


def look(r):
    return c(0x78) + row(r)


CLEAR_ON = c(0xEF) + a(0x01) + i(0x40, 0, 0, 0)


# Parts. CRC: polynomial 8005h, start 4F4Eh, bytes 0-253, most significant bit first, nothing reflected or inverted.
def crc(page):
    r = 0x4F4E
    for b in page[:254]:
        for k in range(7, -1, -1):
            top = r >> 15 & 1
            r = r << 1 & 0xFFFF
            if top != b >> k & 1:
                r ^= 0x8005
    return r


PART = {}


def part(name, data, spare, pages, blocks, luns, programs=2, features=0x0106, optional=0x005C, counts=None, flags=None):
    page = [0] * 256
    page[0:4] = b'ONFI'
    page[6:8] = features % 256, features // 256
    page[8:10] = optional % 256, optional // 256
    page[32:44] = b'BENCH   PART'
    page[64] = 0x2C
    page[80:84] = data.to_bytes(4, 'little')
    page[84:86] = spare.to_bytes(2, 'little')
    page[92:96] = pages.to_bytes(4, 'little')
    page[96:100] = blocks.to_bytes(4, 'little')
    page[100] = luns
    page[101] = 0x23
    page[110] = programs
    k = crc(page)
    page[254], page[255] = k % 256, k // 256
    size = data + spare
    PART.update(page=page, device=0x68, off=set(), luns=luns, sizes=[
        luns * blocks * pages * size, luns * size, luns * blocks * pages, luns * blocks])
    # 78h, 06h, EEh/EFh whose optional bit is 0 (bit 3, 6, 2)
    if not optional >> 3 & 1:
        PART['off'] |= {0x78}
    if not optional >> 6 & 1:
        PART['off'] |= {0x06}
    if not optional >> 2 & 1:
        PART['off'] |= {0xEE, 0xEF}
    # A1: "Optional bit 4; without it 35h, and 85h as a first command, are refusal 1."
    PART['copyback'] = optional >> 4 & 1
    if not PART['copyback']:
        PART['off'] |= {0x35}
    line('P', [name])
    lengths()
    line('G', ['%X:%02X' % (n, b) for n, b in enumerate(page) if b])
    if counts:
        line('C', ['%X:%02X' % x for x in sorted(counts.items())])
    if flags:
        line('F', ['%X:%02X' % x for x in sorted(flags.items())])


def lengths(page=0, array=0, registers=0, counts=0, flags=0):
    lent([256] + PART['sizes'], page, array, registers, counts, flags)


def lent(sizes, *more):
    line('L', ['%X' % n for n in map(sum, zip(sizes, more or [0] * 5))] + ['%X' % PART['device']])


# Cells.
def pair(x, then):
    return x if isinstance(x, tuple) else (x, then)


def spread(x, n):
    return list(x) if isinstance(x, list) else [x] * n


def folded(words):
    """Equal words that follow each other as times*word."""
    kept, out = None, []
    for w in words + [None]:
        if w == kept:
            n += 1
            continue
        if kept is not None:
            out.append(kept if n == 1 else '%X*%s' % (n, kept))
        kept, n = w, 1
    return out


def cells(events, pairs):
    assert len(events) == len(pairs)
    line('X', ['%s=%04X>%04X' % (e, *x) for e, x in zip(events, pairs)])


def put(name, prefix, takes, firsts, address, data, out, then, works, shut, protect, finish, gone):
    line('S', [name])
    line('O', ['0'])
    if prefix:
        line('I', [w if '=' in w else w + ('=01xx' if w.endswith('0300') else '=0000') for w in prefix])
    row1 = []
    for v in COMMANDS + UNKNOWN:
        if v == 0xFF:
            row1.append((ok, no(3)))
        elif gone == 2:
            row1.append((no(2), no(2)))
        elif v in UNKNOWN or v in PART['off'] or (v == 0x85 and not shut and not PART['copyback']):
            row1.append((no(1), no(3)))
        elif v in takes:
            row1.append(pair(takes[v], no(3)))
        else:
            row1.append((no(3), no(3)))
    cells(c(*(COMMANDS + UNKNOWN)), row1)
    row2 = [pair(x, no(gone)) for x in spread(address, len(ADDRESSES)) + spread(data, len(DATA))]
    cells(a(*ADDRESSES) + i(*DATA) + o(), row2 + [(out, then)])
    row3 = [(ok, finish.get(l, out)) if l in works else (no(10), out) for l in FINISHES]
    row3 += [(no(11), out)] * 2 if shut or works else [(ok, protect[0]), (ok, protect[1])]
    cells(f(*FINISHES) + p(0) + p(1) + BAD, row3 + [(no(12), out)] * len(BAD))
    STATES.append(name)


STATES = []


def before(name, prefix):
    """2: bus cycle other than FFh before the first FFh. Order: 12 before it, 1 and 3 after it."""
    put(name, prefix, {}, [], no(2), no(2), no(2), no(2), (), False, (no(2), no(2)), {}, 2)


def seq(name, prefix, takes=None, address=no(3), data=no(3), works=(), out=no(3), then=no(3), finish=None):
    """A sequence is open: no output, but what a bare 00h goes on with, and a protect event is 11."""
    put(name, prefix, takes or {}, [], address, data, out, then, works, True, None, finish or {}, 3)


def idle(name, prefix, seventy=byte(0xE0), out=no(3), then=no(3), works=(), protect=None, finish=None, resumed=no(3)):
    """No sequence is open: first commands are accepted; 90h, ECh, EEh, EFh are 6 while any LUN works, and 70h (seventy: what
    it shows, or no(6)) while a LUN other than the selected one works. Data out after a bare 00h is `resumed`."""
    takes = {v: ok for v in (0x05, 0x06, 0x60, 0x78, 0x80, 0x85)}
    takes[0x00] = (ok, resumed)
    takes.update({v: no(6) if works else ok for v in (0x90, 0xEC, 0xEE, 0xEF)})
    takes[0x70] = no(6) if seventy == no(6) else (ok, seventy)
    put(name, prefix, takes, [], no(3), no(3), out, then, works, False, protect or (out, out), finish or {}, 3)


def only(first, rest=no(4)):
    """Of the standard addresses 00h alone is in range, the others are refused 4."""
    return [first] + [rest] * 7


# Cases.
def case(name):
    line('T', [name])
    line('O', ['0'])


def power(answer):
    line('O', ['%X' % answer])


def run(*groups):
    words = [w for g in groups for w in g]
    line('I', [w if '=' in w else w + '=0000' for w in words])


def array(*x):
    line('A', x)


def registers(*x):
    line('V', x)


def counts(*x):
    line('K', x)


def kept():
    line('Q')


def at(place, *v):
    return ['%X:%02X' % (place + n, b) for n, b in enumerate(v)]


def times(n, place, v):
    return '%X*%X:%02X' % (n, place, v)


# ---------------------------------------------------------------------------------------------------------------------
# Part A: 16+0 bytes, 2 pages, 2 blocks, 2 LUNs. Page 1 bit, block 1 bit, the rest LUN: rows 0 to 3 are LUN 0, 4 to 7 LUN 1,
# and row r is the array's page r, whose byte x is 16 r + x. Rows 2 and 3 are a factory bad block; row 1 has had both of its
# programs, row 5 one of two.
part('A: 16+0, 2 pages, 2 blocks, 2 LUNs, all options', 16, 0, 2, 2, 2, counts={1: 2, 5: 1}, flags={1: 1})

before('before the first FFh', [])
before('before the first FFh, line low', p(0))
before('before the first FFh, after refused cycles', refused(c(0x00) + a(0x00) + c(0x90), 2))
idle('idle', FF)
idle('idle, line low', p(0) + FF, seventy=byte(0x60))
idle('idle, line low after FFh', FF + p(0), seventy=byte(0x60))

# 00h: two column cycles, three row cycles, 30h. "Columns are two cycles, below P. A column is checked at its second cycle; a
# row .. at its third."
seq('00h, 0 addresses', FF + c(0x00), address=ok)
seq('00h, 1 address: 00h', FF + c(0x00) + a(0x00), address=only(ok))
seq('00h, 1 address: 0Fh', FF + c(0x00) + a(0x0F), address=only(ok))
seq('00h, 1 address: 10h, column 16 is P', FF + c(0x00) + a(0x10), address=no(4))
seq('00h, 1 address: FFh', FF + c(0x00) + a(0xFF), address=no(4))
seq('00h, 2 addresses', FF + c(0x00) + col(3), address=ok)
seq('00h, 3 addresses', FF + c(0x00) + col(3) + a(0x08), address=ok)
seq('00h, 4 addresses: row 0', FF + c(0x00) + col(3) + a(0x00, 0x00), address=only(ok))
seq('00h, 4 addresses: row 7', FF + c(0x00) + col(3) + a(0x07, 0x00), address=only(ok))
seq('00h, 4 addresses: row 8 is LUN 2', FF + c(0x00) + col(3) + a(0x08, 0x00), address=no(4))
seq('00h, 4 addresses: row 256', FF + c(0x00) + col(3) + a(0x00, 0x01), address=no(4))
# 30h starts work: a data out before the finish is 5. "35h reads as 30h does."
READ = {0x30: (ok, no(5)), 0x35: (ok, no(5))}
seq('00h, 5 addresses', FF + c(0x00) + col(3) + row(5), READ)
seq('00h, 5 addresses, line low', FF + p(0) + c(0x00) + col(3) + row(5), READ)

# 05h: two column cycles, E0h, for the selected LUN; LUN 0 after FFh, whose register is FFh.
seq('05h, 0 addresses', FF + c(0x05), address=ok)
seq('05h, 1 address: 00h', FF + c(0x05) + a(0x00), address=only(ok))
seq('05h, 1 address: 0Fh', FF + c(0x05) + a(0x0F), address=only(ok))
seq('05h, 1 address: 10h', FF + c(0x05) + a(0x10), address=no(4))
seq('05h, 2 addresses, no read before', FF + c(0x05) + col(0), {0xE0: (ok, byte(0xFF))})
seq('05h, 2 addresses, LUN 1 selected by a read of row 5', FF + read(5) + f(1) + c(0x05) + col(0x0C), {0xE0: (ok, byte(0x5C))})
seq('05h, 2 addresses, LUN 0 selected by 78h', FF + read(6) + f(1) + read(1) + f(0) + look(4) + look(0) + c(0x05) + col(2), {0xE0: (ok, byte(0x12))})
seq('05h, 2 addresses, LUN 1 selected by 78h', FF + read(6) + f(1) + read(1) + f(0) + look(4) + c(0x05) + col(2), {0xE0: (ok, byte(0x62))})

# 06h: five addresses and E0h; of the row only the LUN field is looked at.
seq('06h, 0 addresses', FF + c(0x06), address=ok)
seq('06h, 1 address: 0Fh', FF + c(0x06) + a(0x0F), address=only(ok))
seq('06h, 1 address: 10h', FF + c(0x06) + a(0x10), address=no(4))
seq('06h, 2 addresses', FF + c(0x06) + col(2), address=ok)
seq('06h, 3 addresses', FF + c(0x06) + col(2) + a(0x04), address=ok)
seq('06h, 4 addresses: row 4', FF + c(0x06) + col(2) + a(0x04, 0x00), address=only(ok))
seq('06h, 4 addresses: row 8', FF + c(0x06) + col(2) + a(0x08, 0x00), address=no(4))
# LUN 1's register holds row 6, whatever page the 06h row names.
seq('06h, 5 addresses: LUN 1', FF + read(6) + f(1) + read(1) + f(0) + c(0x06) + col(2) + row(4), {0xE0: (ok, byte(0x62))})
seq('06h, 5 addresses: LUN 0', FF + read(6) + f(1) + read(1) + f(0) + c(0x06) + col(0x0F) + row(3), {0xE0: (ok, byte(0x1F))})

# 60h: three row cycles and D0h.
seq('60h, 0 addresses', FF + c(0x60), address=ok)
seq('60h, 1 address', FF + c(0x60) + a(0x08), address=ok)
seq('60h, 2 addresses: row 0', FF + c(0x60) + a(0x00, 0x00), address=only(ok))
seq('60h, 2 addresses: row 2, a bad block', FF + c(0x60) + a(0x02, 0x00), address=only(ok))
seq('60h, 2 addresses: row 8', FF + c(0x60) + a(0x08, 0x00), address=no(4))
seq('60h, 2 addresses: row 256', FF + c(0x60) + a(0x00, 0x01), address=no(4))
seq('60h, 3 addresses', FF + c(0x60) + row(0), {0xD0: ok})
seq('60h, 3 addresses: a bad block', FF + c(0x60) + row(2), {0xD0: ok})
seq('60h, 3 addresses, line low', FF + p(0) + c(0x60) + row(0), {0xD0: no(7)})

# 78h: three row cycles, then status, and no sequence is open ("until its last command or address cycle").
seq('78h, 0 addresses', FF + c(0x78), address=ok)
seq('78h, 1 address', FF + c(0x78) + a(0x04), address=ok)
seq('78h, 2 addresses: LUN 0', FF + c(0x78) + a(0x00, 0x00), address=only((ok, byte(0xE0))))
seq('78h, 2 addresses: LUN 1', FF + c(0x78) + a(0x07, 0x00), address=only((ok, byte(0xE0))))
seq('78h, 2 addresses: LUN 2', FF + c(0x78) + a(0x08, 0x00), address=no(4))
seq('78h, 2 addresses, line low', FF + p(0) + c(0x78) + a(0x04, 0x00), address=only((ok, byte(0x60))))
idle('78h, 3 addresses: status of LUN 1', FF + look(4), out=byte(0xE0), then=byte(0xE0), protect=(byte(0x60), byte(0xE0)))
idle('78h, its status given three times', FF + look(4) + o(3), out=byte(0xE0), then=byte(0xE0), protect=(byte(0x60), byte(0xE0)))

# 80h: five addresses, data, 10h; 85h and two column cycles move inside it.
PUT = {0x10: ok, 0x85: ok}
seq('80h, 0 addresses', FF + c(0x80), address=ok)
seq('80h, 1 address: 0Fh', FF + c(0x80) + a(0x0F), address=only(ok))
seq('80h, 1 address: 10h', FF + c(0x80) + a(0x10), address=no(4))
seq('80h, 2 addresses', FF + c(0x80) + col(0x0E), address=ok)
seq('80h, 3 addresses', FF + c(0x80) + col(0x0E) + a(0x00), address=ok)
seq('80h, 4 addresses: row 0', FF + c(0x80) + col(0x0E) + a(0x00, 0x00), address=only(ok))
seq('80h, 4 addresses: row 2, a bad block', FF + c(0x80) + col(0x0E) + a(0x02, 0x00), address=only(ok))
seq('80h, 4 addresses: row 8', FF + c(0x80) + col(0x0E) + a(0x08, 0x00), address=no(4))
seq('80h, 5 addresses, no data', FF + c(0x80) + col(0x0E) + row(0), PUT, data=ok)
seq('80h, 1 byte, one place left', FF + c(0x80) + col(0x0E) + row(0) + i(0x55), PUT, data=ok)
# "data in or out past the end": place 16 is P.
seq('80h, 2 bytes, at the end', FF + c(0x80) + col(0x0E) + row(0) + i(0x55, 0xAA), PUT, data=no(8))
seq('80h, 16 bytes, at the end', FF + c(0x80) + col(0) + row(4) + i(*range(16)), PUT, data=no(8))
seq('80h, line low', FF + p(0) + c(0x80) + col(0x0E) + row(0) + i(0x55), {0x10: no(7), 0x85: ok}, data=ok)
seq('80h, program-clear on', FF + CLEAR_ON + c(0x80) + col(0x0E) + row(4), PUT, data=ok)
seq('80h of a full page', FF + c(0x80) + col(0x0E) + row(1), PUT, data=ok)
seq('85h, 0 addresses', FF + c(0x80) + col(0x0E) + row(0) + i(0x55) + c(0x85), address=ok)
seq('85h, 1 address: 0Fh', FF + c(0x80) + col(0x0E) + row(0) + i(0x55) + c(0x85) + a(0x0F), address=only(ok))
seq('85h, 1 address: 10h', FF + c(0x80) + col(0x0E) + row(0) + i(0x55) + c(0x85) + a(0x10), address=no(4))
seq('85h, 2 addresses: one place left', FF + c(0x80) + col(0x0E) + row(0) + i(0x55) + c(0x85) + col(0x0F), PUT, data=ok)
seq('85h, 2 addresses, and 1 byte: at the end', FF + c(0x80) + col(0) + row(0) + c(0x85) + col(0x0F) + i(0x55), PUT, data=no(8))
seq('85h back from the end', FF + c(0x80) + col(0x0F) + row(0) + i(0x55) + c(0x85) + col(0), PUT, data=ok)
seq('85h at the end, 0 addresses, line low', FF + p(0) + c(0x80) + col(0x0F) + row(0) + i(0x55) + c(0x85), address=ok)

# 90h, ECh, EEh, EFh: one address. "90h with 00h: maker ID, device ID. With 20h: 4F 4E 46 49." "EEh/EFh know address 01h only."
seq('90h', FF + c(0x90), address=[(ok, byte(0x2C)), no(4), no(4), no(4), no(4), no(4), (ok, byte(0x4F)), no(4)])
seq('ECh', FF + c(0xEC), address=only((ok, byte(0x4F))))
seq('EEh', FF + c(0xEE), address=[no(4), (ok, byte(0x00))] + [no(4)] * 6)
seq('EEh, program-clear on', FF + CLEAR_ON + c(0xEE), address=[no(4), (ok, byte(0x40))] + [no(4)] * 6)
seq('EFh', FF + c(0xEF), address=[no(4), ok] + [no(4)] * 6)
# Four bytes, "P1 0 or 40h, the rest 0", "9: feature byte not offered, each looked at as it comes".
seq('EFh, 0 bytes', FF + c(0xEF) + a(0x01), data=[ok, no(9), ok, no(9)])
seq('EFh, 1 byte: 00h', FF + c(0xEF) + a(0x01) + i(0x00), data=[ok, no(9), no(9), no(9)])
seq('EFh, 1 byte: 40h', FF + c(0xEF) + a(0x01) + i(0x40), data=[ok, no(9), no(9), no(9)])
seq('EFh, 2 bytes', FF + c(0xEF) + a(0x01) + i(0x40, 0x00), data=[ok, no(9), no(9), no(9)])
seq('EFh, 3 bytes', FF + c(0xEF) + a(0x01) + i(0x40, 0x00, 0x00), data=[ok, no(9), no(9), no(9)])
seq('EFh, 3 bytes, line low', FF + p(0) + c(0xEF) + a(0x01) + i(0x00, 0x00, 0x00), data=[ok, no(9), no(9), no(9)])
idle('EFh, 4 bytes', FF + CLEAR_ON)

# Output, byte by byte: no sequence is open, and each place takes the first commands.
idle('register of LUN 1, bytes left', FF + read(5, 3) + f(1), out=byte(0x53), then=byte(0x54))
idle('register of LUN 1, bytes taken', FF + read(5, 3) + f(1) + o(4), out=byte(0x57), then=byte(0x58))
idle('register, the last byte', FF + read(5, 0x0F) + f(1), out=byte(0x5F), then=no(8))
idle('register, used up', FF + read(5, 0x0F) + f(1) + o(), out=no(8))
idle('register, used up from column 0', FF + read(0) + f(0) + o(16), out=no(8))
idle('register, past the end and refused', FF + read(5, 0x0F) + f(1) + o() + refused(o(), 8))
idle('register after 05h', FF + read(5) + f(1) + c(0x05) + col(9) + c(0xE0), out=byte(0x59), then=byte(0x5A))
idle('register after 06h', FF + read(6) + f(1) + read(1) + f(0) + c(0x06) + col(8) + row(7) + c(0xE0), out=byte(0x68), then=byte(0x69))
idle('register, line low', FF + p(0) + read(5, 3) + f(1), seventy=byte(0x60), out=byte(0x53), then=byte(0x54))
idle('register after a program: as it was put', FF + program(0, 0, 0x11, 0x22) + f(0) + c(0x05) + col(1) + c(0xE0), out=byte(0x22), then=byte(0xFF))
crc_low, crc_high = PART['page'][254], PART['page'][255]
PAGE = FF + c(0xEC) + a(0x00)
idle('parameter page, place 0', PAGE, out=byte(0x4F), then=byte(0x4E))
idle('parameter page, place 1', PAGE + o(), out=byte(0x4E), then=byte(0x46))
idle('parameter page, place 64', PAGE + o(64), out=byte(0x2C), then=byte(0x00))
idle('parameter page, place 254', PAGE + o(254), out=byte(crc_low), then=byte(crc_high))
idle('parameter page, place 255', PAGE + o(255), out=byte(crc_high), then=byte(0x4F))
idle('parameter page, place 256', PAGE + o(256), out=byte(0x4F), then=byte(0x4E))
idle('parameter page, place 511', PAGE + o(511), out=byte(crc_high), then=byte(0x4F))
idle('parameter page, place 512', PAGE + o(512), out=byte(0x4F), then=byte(0x4E))
idle('parameter page, place 767', PAGE + o(767), out=byte(crc_high), then=no(8))
idle('parameter page, place 768', PAGE + o(768), out=no(8))
UP = (byte(0x60), byte(0xE0))
idle('status by 70h', FF + c(0x70), out=byte(0xE0), then=byte(0xE0), protect=UP)
idle('status by 70h, given twice', FF + c(0x70) + o(2), out=byte(0xE0), then=byte(0xE0), protect=UP)
idle('status by 70h, line low', FF + p(0) + c(0x70), seventy=byte(0x60), out=byte(0x60), then=byte(0x60), protect=UP)
idle('status, line lowered while it is open', FF + c(0x70) + o() + p(0), seventy=byte(0x60), out=byte(0x60), then=byte(0x60), protect=UP)
IDS = FF + c(0x90) + a(0x00)
idle('IDs, maker', IDS, out=byte(0x2C), then=byte(0x68))
idle('IDs, device', IDS + o(), out=byte(0x68), then=no(8))
idle('IDs, used up', IDS + o(2), out=no(8))
SIGN = FF + c(0x90) + a(0x20)
idle('signature, 4 left', SIGN, out=byte(0x4F), then=byte(0x4E))
idle('signature, 3 left', SIGN + o(), out=byte(0x4E), then=byte(0x46))
idle('signature, 2 left', SIGN + o(2), out=byte(0x46), then=byte(0x49))
idle('signature, 1 left', SIGN + o(3), out=byte(0x49), then=no(8))
idle('signature, used up', SIGN + o(4), out=no(8))
GET = c(0xEE) + a(0x01)
idle('feature, 4 left', FF + GET, out=byte(0x00), then=byte(0x00))
idle('feature, 1 left', FF + GET + o(3), out=byte(0x00), then=no(8))
idle('feature, used up', FF + GET + o(4), out=no(8))
idle('feature, program-clear on', FF + CLEAR_ON + GET, out=byte(0x40), then=byte(0x00))
idle('feature, program-clear on, 3 left', FF + CLEAR_ON + GET + o(), out=byte(0x00), then=byte(0x00))
idle('feature, program-clear on, used up', FF + CLEAR_ON + GET + o(4), out=no(8))
# "EFh takes hold at its fourth byte."
idle('feature, EFh dropped after 3 bytes', FF + c(0xEF) + a(0x01) + i(0x40, 0, 0) + refused(c(0x30), 3) + GET, out=byte(0x00), then=byte(0x00))
idle('feature, set and set back', FF + CLEAR_ON + c(0xEF) + a(0x01) + i(0, 0, 0, 0) + GET, out=byte(0x00), then=byte(0x00))
idle('feature, set and EFh refused 9 at its fourth byte', FF + CLEAR_ON + c(0xEF) + a(0x01) + i(0, 0, 0) + refused(i(0x40), 9) + GET, out=byte(0x40), then=byte(0x00))
idle('feature after FFh', FF + CLEAR_ON + FF + GET, out=byte(0x00), then=byte(0x00))

# Work. "A LUN works from 30h, 10h or D0h to its finish event." Selected is the LUN of the last accepted row.
idle('LUN 0 reads', FF + read(1, 4), seventy=byte(0x80), out=no(5), works=(0,), finish={0: byte(0x14)})
idle('LUN 1 reads', FF + read(5, 3), seventy=byte(0x80), out=no(5), works=(1,), finish={1: byte(0x53)})
idle('LUN 1 reads, asked too soon', FF + read(5, 3) + refused(o(), 5), seventy=byte(0x80), works=(1,))
idle('LUN 1 read, asked too soon, finished', FF + read(5, 3) + refused(o(), 5) + f(1))
idle('LUN 0 programs', FF + program(0, 0, 0x55), seventy=byte(0x80), works=(0,))
idle('LUN 1 programs', FF + program(4, 0, 0x55), seventy=byte(0x80), works=(1,))
idle('LUN 0 erases', FF + erase(0), seventy=byte(0x80), works=(0,))
idle('LUN 0 programs a bad block', FF + program(2, 0, 0x55), seventy=byte(0x80), works=(0,))
idle('LUN 0 programs a full page', FF + program(1, 0, 0x55), seventy=byte(0x80), works=(0,))
idle('LUN 0 erases a bad block', FF + erase(3), seventy=byte(0x80), works=(0,))
idle('LUN 0 reads, line low', FF + p(0) + read(1, 4), seventy=byte(0x00), out=no(5), works=(0,), finish={0: byte(0x14)})
idle('LUN 1 works, LUN 0 selected by 78h', FF + program(4, 0) + look(0), seventy=no(6), out=byte(0xE0), then=byte(0xE0), works=(1,))
idle('LUN 1 works, LUN 0 selected by a dropped 00h', FF + program(4, 0) + c(0x00) + col(0) + row(0) + refused(c(0xE0), 3), seventy=no(6), works=(1,))
idle('LUN 0 works, LUN 1 selected by a dropped 60h', FF + program(0, 0) + c(0x60) + row(4) + refused(c(0x10), 3), seventy=no(6), works=(0,))
idle('LUN 0 works, LUN 1 selected by a dropped 80h', FF + program(0, 0) + c(0x80) + col(0) + row(4) + refused(c(0x30), 3), seventy=no(6), works=(0,))
idle('LUN 0 works, LUN 1 selected by a dropped 06h', FF + program(0, 0) + c(0x06) + col(0) + row(4) + refused(c(0x30), 3), seventy=no(6), works=(0,))
# A refused row selects nothing.
idle('LUN 0 works, its row named and refused 5', FF + program(0, 0) + c(0x00) + col(0) + a(0, 0) + refused(a(0), 5), seventy=byte(0x80), works=(0,))
idle('LUN 0 works, a row refused 4', FF + program(0, 0) + c(0x00) + col(0) + a(8, 0) + refused(a(0), 4), seventy=byte(0x80), works=(0,))
idle('both work, LUN 1 last', FF + program(0, 0) + read(4), seventy=no(6), out=no(5), works=(0, 1), finish={1: byte(0x40)})
idle('both worked, LUN 0 finished', FF + program(0, 0) + read(4) + f(0), seventy=byte(0x80), out=no(5), works=(1,), finish={1: byte(0x40)})
idle('both worked, LUN 1 finished', FF + program(0, 0) + read(4) + f(1), seventy=no(6), out=byte(0x40), then=byte(0x41), works=(0,))
idle('both worked, both finished', FF + program(0, 0) + read(4) + f(0, 1), seventy=byte(0xE0), out=byte(0x40), then=byte(0x41))
idle('register of LUN 0 while LUN 1 works', FF + read(1) + f(0) + program(4, 0) + c(0x06) + col(7) + row(0) + c(0xE0), seventy=no(6), out=byte(0xFF), then=byte(0xFF), works=(1,))
idle('register of LUN 0 read while LUN 1 works', FF + program(4, 0) + read(1, 6) + f(0), seventy=no(6), out=byte(0x16), then=byte(0x17), works=(1,))
# (A2: 00h and data out after these goes on from a register of a working LUN.)
idle('status of a working LUN by 70h', FF + read(1) + c(0x70), seventy=byte(0x80), out=byte(0x80), then=byte(0x80),
     works=(0,), finish={0: byte(0xE0)}, resumed=no(5))
idle('status of a working LUN by 78h', FF + read(4) + look(4), seventy=byte(0x80), out=byte(0x80), then=byte(0x80),
     works=(1,), finish={1: byte(0xE0)}, resumed=no(5))
idle('status of LUN 0 by 78h while LUN 1 works', FF + read(4) + look(0), seventy=no(6), out=byte(0xE0), then=byte(0xE0), works=(1,))
idle('status of a working LUN, line low', FF + p(0) + read(1) + c(0x70), seventy=byte(0x00), out=byte(0x00),
     then=byte(0x00), works=(0,), finish={0: byte(0x60)}, resumed=no(5))
idle('status of a LUN that will have failed', FF + program(2, 0) + c(0x70), seventy=byte(0x80), out=byte(0x80), then=byte(0x80), works=(0,), finish={0: byte(0xE1)})

# FAIL, shown when ready: "128 if the line is high, plus 96 if ready, plus FAIL if ready".
FAILED = (byte(0x61), byte(0xE1))
idle('failed: a bad block programmed', FF + program(2, 0) + f(0), seventy=byte(0xE1))
idle('failed: a full page programmed', FF + program(1, 0) + f(0), seventy=byte(0xE1))
idle('failed: a bad block erased', FF + erase(2) + f(0), seventy=byte(0xE1))
idle('failed, status open', FF + erase(2) + f(0) + c(0x70), seventy=byte(0xE1), out=byte(0xE1), then=byte(0xE1), protect=FAILED)
idle('failed, line low', FF + erase(2) + f(0) + p(0), seventy=byte(0x61))
idle('failed in LUN 0, LUN 1 selected', FF + erase(2) + f(0) + look(4), seventy=byte(0xE0), out=byte(0xE0), then=byte(0xE0), protect=UP)
idle('failed, then read', FF + erase(2) + f(0) + read(2) + f(0), seventy=byte(0xE0), out=byte(0x20), then=byte(0x21))
idle('failed, then erased elsewhere', FF + erase(2) + f(0) + erase(0) + f(0), seventy=byte(0xE0))
idle('failed, then FFh', FF + erase(2) + f(0) + FF, seventy=byte(0xE0))

# FFh: "sequence and output dropped, registers FFh, program-clear off, every LUN ready, FAIL 0"
idle('FFh while LUN 1 works', FF + read(5) + FF)
idle('FFh while both work', FF + program(0, 0) + read(4) + FF)
idle('FFh inside a program', FF + c(0x80) + col(0) + row(0) + i(1) + FF)
idle('FFh while output is open', FF + read(1) + f(0) + o() + FF)

# Sequences while a LUN works: "a row, and then whether its LUN works, at its third"; 4 before 5.
BUSY = FF + program(4, 0)
seq('00h on a working LUN, 4 addresses', BUSY + c(0x00) + col(0) + a(0x04, 0x00), address=only(no(5)), works=(1,))
seq('00h on a ready LUN, 4 addresses, LUN 1 works', BUSY + c(0x00) + col(0) + a(0x00, 0x00), address=only(ok), works=(1,))
seq('00h, row out of range, LUN 1 works', BUSY + c(0x00) + col(0) + a(0x08, 0x00), address=no(4), works=(1,))
seq('00h, 5 addresses, LUN 1 works', BUSY + c(0x00) + col(2) + row(0), READ, works=(1,))
seq('00h on a LUN that finished inside', BUSY + c(0x00) + col(0) + a(0x04, 0x00) + f(1), address=only(ok))
seq('80h on a working LUN, 4 addresses', BUSY + c(0x80) + col(0) + a(0x04, 0x00), address=only(no(5)), works=(1,))
seq('80h, data, LUN 1 works', BUSY + c(0x80) + col(0) + row(0) + i(0x12), PUT, data=ok, works=(1,))
seq('80h, 85h, LUN 1 works', BUSY + c(0x80) + col(0) + row(0) + c(0x85) + a(0), address=only(ok), works=(1,))
seq('60h on a working LUN, 2 addresses', BUSY + c(0x60) + a(0x04, 0x00), address=only(no(5)), works=(1,))
seq('60h on a ready LUN, 3 addresses, LUN 1 works', BUSY + c(0x60) + row(0), {0xD0: ok}, works=(1,))
seq('06h on a working LUN, 4 addresses', BUSY + c(0x06) + col(0) + a(0x04, 0x00), address=only(no(5)), works=(1,))
seq('06h on a ready LUN, 5 addresses, LUN 1 works', FF + read(1) + f(0) + BUSY[1:] + c(0x06) + col(0) + row(0), {0xE0: (ok, byte(0xFF))}, works=(1,))
# 78h is not refused on a working LUN.
seq('78h on a working LUN, 2 addresses', BUSY + c(0x78) + a(0x04, 0x00), address=only((ok, byte(0x80))), works=(1,))
# 05h: "the busy check at its second column cycle".
seq('05h on a working LUN, 0 addresses', BUSY + c(0x05), address=ok, works=(1,))
seq('05h on a working LUN, 1 address', BUSY + c(0x05) + a(0x00), address=only(no(5)), works=(1,))
seq('05h on a working LUN, 1 address: 10h', BUSY + c(0x05) + a(0x10), address=no(4), works=(1,))
seq('05h on a LUN that finished inside', BUSY + c(0x05) + a(0x00) + f(1), address=only(ok))
seq('05h on LUN 0, 1 address, LUN 1 works', BUSY + look(0) + c(0x05) + a(0x00), address=only(ok), works=(1,))
seq('05h on LUN 0, 2 addresses, LUN 1 works', BUSY + look(0) + c(0x05) + col(0), {0xE0: (ok, byte(0xFF))}, works=(1,))

# A refused bus cycle leaves neither sequence nor output; a bench refusal drops no sequence.
idle('a sequence refused', FF + c(0x00) + a(0x00) + refused(c(0x30), 3))
idle('an output refused', FF + c(0x70) + o() + refused(a(0x00), 3))
idle('an unknown command', FF + c(0x80) + col(0) + row(0) + refused(c(0x01), 1))
idle('data in where none fits', FF + read(1) + f(0) + refused(i(0x00), 3))
seq('00h, 1 address, bench refusals between', FF + c(0x00) + refused(p(0) + p(1), 11) + a(0x0F) + refused(f(0), 10) + refused(BAD, 12), address=only(ok))
idle('register, bench refusals between', FF + read(5, 3) + f(1) + refused(f(1), 10) + refused(BAD, 12) + o() + refused(BAD, 12), out=byte(0x54), then=byte(0x55))
idle('register, protect events between', FF + read(5, 3) + f(1) + p(0) + o() + p(1), out=byte(0x54), then=byte(0x55))

# ---------------------------------------------------------------------------------------------------------------------
# A1, copyback. "00h, five addresses, 35h reads as 30h does and opens a copyback on that LUN."
COPY = FF + copyback(5, 3) + f(1)
idle('copyback: LUN 1 reads', FF + copyback(5, 3), seventy=byte(0x80), out=no(5), works=(1,), finish={1: byte(0x53)})
idle('copyback: open on LUN 1', COPY, out=byte(0x53), then=byte(0x54))
idle('copyback: open on LUN 1, line low', COPY + p(0), seventy=byte(0x60), out=byte(0x53), then=byte(0x54))
idle('copyback: open on both LUNs', COPY + copyback(0, 4) + f(0), out=byte(0x04), then=byte(0x05))
idle('copyback: status of a LUN that reads', FF + copyback(1) + c(0x70), seventy=byte(0x80), out=byte(0x80),
     then=byte(0x80), works=(0,), finish={0: byte(0xE0)}, resumed=no(5))
idle('copyback: failed, then read', FF + erase(2) + f(0) + copyback(2) + f(0), out=byte(0x20), then=byte(0x21))
idle('copyback: FFh while it is open', COPY + FF)

# "85h as a first command (no sequence open), five addresses, data if any, 10h"; it "ends output" as every first command.
seq('copyback 85h, 0 addresses', COPY + c(0x85), address=ok)
seq('copyback 85h, 0 addresses, none open', FF + c(0x85), address=ok)
seq('copyback 85h, 1 address: 0Fh', COPY + c(0x85) + a(0x0F), address=only(ok))
seq('copyback 85h, 1 address: 10h', COPY + c(0x85) + a(0x10), address=no(4))
seq('copyback 85h, 2 addresses', COPY + c(0x85) + col(0x0E), address=ok)
seq('copyback 85h, 3 addresses', COPY + c(0x85) + col(0x0E) + a(0x04), address=ok)
seq('copyback 85h, 5 addresses, no data', COPY + c(0x85) + col(0x0E) + row(4), PUT, data=ok)
seq('copyback 85h, 1 byte, one place left', COPY + c(0x85) + col(0x0E) + row(4) + i(0x55), PUT, data=ok)
seq('copyback 85h, 2 bytes, at the end', COPY + c(0x85) + col(0x0E) + row(4) + i(0x55, 0xAA), PUT, data=no(8))
seq('copyback 85h, line low', COPY + p(0) + c(0x85) + col(0x0E) + row(4) + i(0x55), {0x10: no(7), 0x85: ok}, data=ok)
seq('copyback 85h, program-clear on', FF + CLEAR_ON + COPY[1:] + c(0x85) + col(0x0E) + row(4), PUT, data=ok)
seq('copyback 85h of a full page', FF + copyback(0) + f(0) + c(0x85) + col(0x0E) + row(1), PUT, data=ok)
seq('copyback 85h of a bad block', FF + copyback(0) + f(0) + c(0x85) + col(0x0E) + row(2), PUT, data=ok)
# "85h moves are allowed as in a program."
seq('copyback, a move, 0 addresses', COPY + c(0x85) + col(0x0E) + row(4) + i(0x55) + c(0x85), address=ok)
seq('copyback, a move, 1 address: 0Fh', COPY + c(0x85) + col(0x0E) + row(4) + i(0x55) + c(0x85) + a(0x0F), address=only(ok))
seq('copyback, a move, 1 address: 10h', COPY + c(0x85) + col(0x0E) + row(4) + i(0x55) + c(0x85) + a(0x10), address=no(4))
seq('copyback, a move, 2 addresses', COPY + c(0x85) + col(0) + row(4) + c(0x85) + col(0x0F), PUT, data=ok)
seq('copyback, a move, and 1 byte: at the end', COPY + c(0x85) + col(0) + row(4) + c(0x85) + col(0x0F) + i(0x55), PUT, data=no(8))


def copies(name, prefix, answer, r=4, works=()):
    """What the last row cycle of a copyback program gives: 00h completes the row, any other byte one that is not there."""
    seq('copyback 85h, 4 addresses: ' + name, prefix + c(0x85) + col(2) + a(r % 256, r // 256), address=only(answer), works=works)


# "Its row is checked as 80h's, 5 included"; "new refusal 14, checked after 5 at the last row cycle: no copyback open there".
copies('row 4', COPY, ok)
copies('row 7', COPY, ok, 7)
copies('row 2, a bad block', FF + copyback(0) + f(0), ok, 2)
copies('none open', FF, no(14))
copies('none open on LUN 0', COPY, no(14), 0)
copies('row 8 is LUN 2', COPY, no(4), 8)
copies('row 8, none open', FF, no(4), 8)
copies('row 256', COPY, no(4), 256)
copies('LUN 1 still reads', FF + copyback(5), no(5), works=(1,))
copies('LUN 1 works, none open', BUSY, no(5), works=(1,))
copies('LUN 1 reads, none open on LUN 0', FF + copyback(5), no(14), 0, works=(1,))
copies('open on LUN 0, LUN 1 works', FF + copyback(0) + f(0) + program(4, 0), ok, 0, works=(1,))
copies('both open, LUN 0', COPY + copyback(0) + f(0), ok, 0)
copies('both open, LUN 1', COPY + copyback(0) + f(0), ok)
# "Any later 30h, 80h row or D0h accepted for that LUN, a copyback 10h, or FFh closes it."
copies('closed by 30h', COPY + read(4) + f(1), no(14))
copies('closed by an 80h row, given up', COPY + c(0x80) + col(0) + row(4) + refused(c(0x00), 3), no(14))
copies('closed by a program', COPY + program(4, 0) + f(1), no(14))
copies('closed by D0h', COPY + erase(4) + f(1), no(14))
copies('closed by its 10h', COPY + copied(4, 0) + f(1), no(14))
copies('closed by a 10h after a move', COPY + c(0x85) + col(0) + row(4) + c(0x85) + col(1) + i(0) + c(0x10) + f(1), no(14))
copies('closed by a 10h that failed', FF + copyback(0) + f(0) + copied(2, 0) + f(0), no(14), 0)
copies('closed by FFh', COPY + FF, no(14))
copies('closed by FFh while LUN 1 reads', FF + copyback(5) + FF, no(14))
# Nothing else does: what is refused is not "accepted", and another LUN's is not "for that LUN".
copies('opened again', COPY + copyback(4) + f(1), ok)
copies('80h, four of five cycles', COPY + c(0x80) + col(0) + a(4, 0) + refused(c(0x00), 3), ok)
copies('80h, a row refused 4', COPY + c(0x80) + col(0) + a(8, 0) + refused(a(0), 4), ok)
copies('80h, a row refused 5', FF + copyback(5) + c(0x80) + col(0) + a(4, 0) + refused(a(0), 5) + f(1), ok)
copies('00h, given up', COPY + c(0x00) + col(0) + row(4) + refused(c(0xE0), 3), ok)
copies('60h, given up', COPY + c(0x60) + row(4) + refused(c(0x10), 3), ok)
copies('D0h refused 7', COPY + p(0) + c(0x60) + row(4) + refused(c(0xD0), 7), ok)
copies('10h refused 7', COPY + p(0) + c(0x85) + col(0) + row(4) + i(9) + refused(c(0x10), 7), ok)
copies('data refused 8', COPY + c(0x85) + col(15) + row(4) + i(9) + refused(i(9), 8), ok)
copies('85h, given up', COPY + c(0x85) + col(0) + row(4) + refused(c(0x30), 3), ok)
copies('85h, a row refused 4', COPY + c(0x85) + col(0) + a(8, 0) + refused(a(0), 4), ok)
copies('85h, a row refused 14', COPY + c(0x85) + col(0) + a(0, 0) + refused(a(0), 14), ok)
copies('a read of LUN 0', COPY + read(0) + f(0), ok)
copies('a program of LUN 0', COPY + program(0, 0) + f(0), ok)
copies('an erase of LUN 0', COPY + erase(0) + f(0), ok)
copies('a copyback of LUN 0', COPY + copyback(0) + f(0) + copied(0, 0) + f(0), ok)
copies('05h, 06h, 70h, 78h', COPY + c(0x05) + col(0) + c(0xE0) + c(0x06) + col(0) + row(4) + c(0xE0) + c(0x70) + look(4), ok)
copies('90h, ECh, EEh, EFh', COPY + c(0x90) + a(0x00) + c(0xEC) + a(0x00) + c(0xEE) + a(0x01) + CLEAR_ON, ok)

# "10h programs the register": the LUN works, and FAIL is as for 80h's.
idle('copyback: LUN 1 programs', COPY + copied(4, 0), seventy=byte(0x80), works=(1,))
idle('copyback: LUN 0 programs a bad block', FF + copyback(0) + f(0) + copied(2, 0), seventy=byte(0x80), works=(0,))
idle('copyback failed: a bad block programmed', FF + copyback(0) + f(0) + copied(2, 0) + f(0), seventy=byte(0xE1))
idle('copyback failed: a full page programmed', FF + copyback(0) + f(0) + copied(1, 0) + f(0), seventy=byte(0xE1))
# An accepted row selects its LUN; one that is refused does not.
idle('LUN 1 works, LUN 0 selected by a dropped copyback', FF + copyback(0) + f(0) + program(4, 0) + c(0x85) + col(0) + row(0) + refused(c(0x30), 3), seventy=no(6), works=(1,))
idle('copyback: a row refused 14 selects nothing', FF + erase(2) + f(0) + copyback(5) + f(1) + c(0x85) + col(0) + a(0, 0) + refused(a(0), 14))

# ---------------------------------------------------------------------------------------------------------------------
# Part B: as A with every optional bit and feature bit 8 clear: 78h, 06h, EEh, EFh and 35h are 1 wherever they come, and 85h with
# no sequence open; "E0h is always known".
part('B: as A, no options', 16, 0, 2, 2, 2, features=0x0002, optional=0x0000, counts={1: 2, 5: 1}, flags={1: 1})
before('B: before the first FFh', [])
idle('B: idle', FF)
idle('B: an option refused', FF + refused(c(0x78, 0x06, 0xEE, 0xEF, 0x35, 0x85), 1) + refused(a(0x00), 3))
seq('B: 00h, 0 addresses', FF + c(0x00), address=ok)
seq('B: 00h, 5 addresses', FF + c(0x00) + col(3) + row(5), READ)
seq('B: 05h, 2 addresses', FF + read(5) + f(1) + c(0x05) + col(5), {0xE0: (ok, byte(0x55))})
seq('B: 60h, 3 addresses', FF + c(0x60) + row(0), {0xD0: ok})
seq('B: 80h, data', FF + c(0x80) + col(0) + row(0) + i(1), PUT, data=ok)
seq('B: 90h', FF + c(0x90), address=[(ok, byte(0x2C)), no(4), no(4), no(4), no(4), no(4), (ok, byte(0x4F)), no(4)])
idle('B: register', FF + read(5) + f(1), out=byte(0x50), then=byte(0x51))
idle('B: LUN 1 works', FF + program(4, 0), seventy=byte(0x80), works=(1,))
idle('B: LUN 1 works, LUN 0 selected', FF + program(4, 0) + c(0x60) + row(0) + refused(c(0x60), 3), seventy=no(6), works=(1,))

# Each optional bit by itself.
part('C: as A, optional bit 3 only', 16, 0, 2, 2, 2, features=0x0002, optional=0x0008)
idle('C: idle', FF)
seq('C: 78h, 2 addresses', FF + c(0x78) + a(0x04, 0x00), address=only((ok, byte(0xE0))))
part('D: as A, optional bit 6 only', 16, 0, 2, 2, 2, features=0x0002, optional=0x0040)
idle('D: idle', FF)
seq('D: 06h, 5 addresses', FF + read(5) + f(1) + c(0x06) + col(1) + row(4), {0xE0: (ok, byte(0x51))})
part('E: as A, optional bit 2 only, feature bit 8 clear', 16, 0, 2, 2, 2, features=0xFEFE, optional=0x0004)
idle('E: idle', FF)
# "40h needs feature bit 8."
seq('E: EFh, 0 bytes', FF + c(0xEF) + a(0x01), data=[ok, no(9), no(9), no(9)])
seq('E: EFh, 3 bytes', FF + c(0xEF) + a(0x01) + i(0, 0, 0), data=[ok, no(9), no(9), no(9)])
idle('E: 40h refused', FF + c(0xEF) + a(0x01) + refused(i(0x40), 9))
part('F: as A, every optional bit but 2, 3 and 6', 16, 0, 2, 2, 2, features=0x0102, optional=0xFFB3)
idle('F: idle', FF)
seq('F: 80h, data', FF + c(0x80) + col(0) + row(0) + i(1), PUT, data=ok)
part('J: as A, optional bit 4 only', 16, 0, 2, 2, 2, features=0x0002, optional=0x0010)
idle('J: idle', FF)
idle('J: a copyback open', COPY, out=byte(0x53), then=byte(0x54))
seq('J: 00h, 5 addresses', FF + c(0x00) + col(3) + row(5), READ)
copies('J: none open', FF, no(14))
copies('J: open', COPY, ok)
seq('J: copyback 85h, data', COPY + c(0x85) + col(0) + row(4) + i(1), PUT, data=ok)
# Bit 4 clear, all others set: 35h is 1 wherever it comes, 85h with no sequence open; inside a program it still moves.
part('K: as A, every optional bit but 4', 16, 0, 2, 2, 2, features=0x0102, optional=0xFFEF)
before('K: before the first FFh', [])
idle('K: idle', FF)
idle('K: an option refused', FF + read(5) + f(1) + refused(c(0x85, 0x35), 1) + refused(a(0x00), 3))
seq('K: 00h, 0 addresses', FF + c(0x00), address=ok)
seq('K: 00h, 5 addresses', FF + c(0x00) + col(3) + row(5), READ)
seq('K: 60h, 0 addresses', FF + c(0x60), address=ok)
seq('K: 80h, data', FF + c(0x80) + col(0) + row(0) + i(1), PUT, data=ok)
seq('K: 85h, 1 address', FF + c(0x80) + col(0) + row(0) + c(0x85) + a(0x02), address=only(ok))
seq('K: 85h, 2 addresses', FF + c(0x80) + col(0) + row(0) + c(0x85) + col(2), PUT, data=ok)

# ---------------------------------------------------------------------------------------------------------------------
# Part G: one page, one block, one LUN: page and block fields of 0 bits, so the row is the LUN, and row 0 alone exists.
part('G: 16+0, 1 page, 1 block, 1 LUN', 16, 0, 1, 1, 1, features=0x0100)
idle('G: idle', FF)
seq('G: 00h, 4 addresses: row 0', FF + c(0x00) + col(0) + a(0x00, 0x00), address=only(ok))
seq('G: 00h, 4 addresses: row 1', FF + c(0x00) + col(0) + a(0x01, 0x00), address=no(4))
seq('G: 80h, 4 addresses: row 1', FF + c(0x80) + col(0) + a(0x01, 0x00), address=no(4))
seq('G: 60h, 2 addresses: row 0', FF + c(0x60) + a(0x00, 0x00), address=only(ok))
seq('G: 60h, 2 addresses: row 1', FF + c(0x60) + a(0x01, 0x00), address=no(4))
seq('G: 78h, 2 addresses: row 0', FF + c(0x78) + a(0x00, 0x00), address=only((ok, byte(0xE0))))
seq('G: 78h, 2 addresses: row 1', FF + c(0x78) + a(0x01, 0x00), address=no(4))
seq('G: 06h, 4 addresses: row 1', FF + c(0x06) + col(0) + a(0x01, 0x00), address=no(4))
idle('G: works', FF + read(0), seventy=byte(0x80), out=no(5), works=(0,), finish={0: byte(0x00)})

# ---------------------------------------------------------------------------------------------------------------------
# Part H: 16+1 bytes, 3 pages, 3 blocks, 3 LUNs, none a power of two: page 2 bits, block 2 bits, the rest LUN. Row 2Ah is
# LUN 2, block 2, page 2: array page (2*3+2)*3+2 = 26, whose first byte is 26*17 = 442 mod 251 = 191 = BFh.
part('H: 16+1, 3 pages, 3 blocks, 3 LUNs', 16, 1, 3, 3, 3)
idle('H: idle', FF)
seq('H: 00h, 1 address: 10h, the last column', FF + c(0x00) + a(0x10), address=only(ok))
seq('H: 00h, 1 address: 11h', FF + c(0x00) + a(0x11), address=no(4))
seq('H: 00h, 4 addresses: the last row', FF + c(0x00) + col(0) + a(0x2A, 0x00), address=only(ok))
seq('H: 00h, 4 addresses: page 3', FF + c(0x00) + col(0) + a(0x23, 0x00), address=no(4))
seq('H: 80h, 4 addresses: page 3', FF + c(0x80) + col(0) + a(0x23, 0x00), address=no(4))
seq('H: 60h, 2 addresses: page 3', FF + c(0x60) + a(0x23, 0x00), address=only(ok))
seq('H: 00h, 4 addresses: block 3', FF + c(0x00) + col(0) + a(0x0C, 0x00), address=no(4))
seq('H: 80h, 4 addresses: block 3', FF + c(0x80) + col(0) + a(0x0C, 0x00), address=no(4))
seq('H: 60h, 2 addresses: block 3', FF + c(0x60) + a(0x0C, 0x00), address=no(4))
seq('H: 06h, 4 addresses: block 3, page 3', FF + c(0x06) + col(0) + a(0x2F, 0x00), address=only(ok))
seq('H: 78h, 2 addresses: block 3, page 3', FF + c(0x78) + a(0x2F, 0x00), address=only((ok, byte(0xE0))))
seq('H: 00h, 4 addresses: LUN 3', FF + c(0x00) + col(0) + a(0x30, 0x00), address=no(4))
seq('H: 80h, 4 addresses: LUN 3', FF + c(0x80) + col(0) + a(0x30, 0x00), address=no(4))
seq('H: 60h, 2 addresses: LUN 3', FF + c(0x60) + a(0x30, 0x00), address=no(4))
seq('H: 06h, 4 addresses: LUN 3', FF + c(0x06) + col(0) + a(0x30, 0x00), address=no(4))
seq('H: 78h, 2 addresses: LUN 3', FF + c(0x78) + a(0x30, 0x00), address=no(4))
seq('H: copyback 85h, 4 addresses: page 3', FF + copyback(0x20) + f(2) + c(0x85) + col(0) + a(0x23, 0x00), address=no(4))
seq('H: copyback 85h, 4 addresses: block 3', FF + copyback(0x20) + f(2) + c(0x85) + col(0) + a(0x2C, 0x00), address=no(4))
seq('H: copyback 85h, 4 addresses: LUN 3', FF + copyback(0x20) + f(2) + c(0x85) + col(0) + a(0x30, 0x00), address=no(4))
seq('H: copyback 85h, 4 addresses: LUN 2', FF + copyback(0x20) + f(2) + c(0x85) + col(0) + a(0x2A, 0x00), address=only(ok))
seq('H: 80h at column 16', FF + c(0x80) + col(16) + row(0x2A), PUT, data=ok)
seq('H: 80h at the end', FF + c(0x80) + col(16) + row(0x2A) + i(0), PUT, data=no(8))
idle('H: LUN 2 reads', FF + read(0x2A), seventy=byte(0x80), out=no(5), works=(2,), finish={2: byte(0xBF)})
idle('H: register of LUN 2', FF + read(0x2A) + f(2), out=byte(0xBF), then=byte(0xC0))
idle('H: LUN 0 and 2 work', FF + read(0) + read(0x2A), seventy=no(6), out=no(5), works=(0, 2), finish={2: byte(0xBF)})

# Part I: four LUNs, 2 pages, 1 block: page 1 bit, block 0 bits, the rest LUN. Row 6 is LUN 3, page 0: array page 6.
part('I: 16+0, 2 pages, 1 block, 4 LUNs', 16, 0, 2, 1, 4)
idle('I: idle', FF)
seq('I: 00h, 4 addresses: row 7', FF + c(0x00) + col(0) + a(0x07, 0x00), address=only(ok))
seq('I: 00h, 4 addresses: row 8', FF + c(0x00) + col(0) + a(0x08, 0x00), address=no(4))
idle('I: LUN 3 reads', FF + read(6), seventy=byte(0x80), out=no(5), works=(3,), finish={3: byte(0x60)})
idle('I: all four work', FF + read(0) + read(2) + read(4) + read(6), seventy=no(6), out=no(5), works=(0, 1, 2, 3), finish={3: byte(0x60)})
idle('I: LUN 0 to 2 work, LUN 3 selected', FF + read(0) + read(2) + read(4) + look(6), seventy=no(6), out=byte(0xE0), then=byte(0xE0), works=(0, 1, 2))
idle('I: LUN 1 works, selected', FF + read(3), seventy=byte(0x80), out=no(5), works=(1,), finish={1: byte(0x30)})

# ---------------------------------------------------------------------------------------------------------------------
# Part T1: 512+16, 4 pages, 8 blocks, 2 LUNs. P = 528; page 2 bits, block 3 bits, the rest LUN: rows 0 to 63. No copyback.
T1 = ('T1: 512+16, 4 pages, 8 blocks, 2 LUNs', 512, 16, 4, 8, 2, 4, 0x0102, 0x004C)
part(*T1)
LOW = [ok, ok, ok] + [no(4)] * 5
TEN = [ok, ok] + [no(4)] * 6
idle('T1: idle', FF)
# Column 020Fh is 527, 0210h is 528.
seq('T1: 00h, 1 address: 0Fh', FF + c(0x00) + a(0x0F), address=LOW)
seq('T1: 00h, 1 address: 10h', FF + c(0x00) + a(0x10), address=TEN)
seq('T1: 05h, 1 address: 0Fh', FF + c(0x05) + a(0x0F), address=LOW)
seq('T1: 05h, 1 address: 10h', FF + c(0x05) + a(0x10), address=TEN)
seq('T1: 06h, 1 address: 0Fh', FF + c(0x06) + a(0x0F), address=LOW)
seq('T1: 06h, 1 address: 10h', FF + c(0x06) + a(0x10), address=TEN)
seq('T1: 80h, 1 address: 0Fh', FF + c(0x80) + a(0x0F), address=LOW)
seq('T1: 80h, 1 address: 10h', FF + c(0x80) + a(0x10), address=TEN)
seq('T1: 85h, 1 address: 0Fh', FF + c(0x80) + col(0) + row(0) + c(0x85) + a(0x0F), address=LOW)
seq('T1: 85h, 1 address: 10h', FF + c(0x80) + col(0) + row(0) + c(0x85) + a(0x10), address=TEN)
seq('T1: 00h, row 55', FF + c(0x00) + col(0) + a(55, 0), address=only(ok))
seq('T1: 00h, row 63', FF + c(0x00) + col(0) + a(63, 0), address=only(ok))
seq('T1: 00h, row 64', FF + c(0x00) + col(0) + a(64, 0), address=no(4))
seq('T1: 80h, row 64', FF + c(0x80) + col(0) + a(64, 0), address=no(4))
seq('T1: 60h, row 64', FF + c(0x60) + a(64, 0), address=no(4))
seq('T1: 06h, row 64', FF + c(0x06) + col(0) + a(64, 0), address=no(4))
seq('T1: 78h, row 64', FF + c(0x78) + a(64, 0), address=no(4))
seq('T1: 78h, row 63', FF + c(0x78) + a(63, 0), address=only((ok, byte(0xE0))))
seq('T1: 80h at 527', FF + c(0x80) + col(527) + row(55), PUT, data=ok)
seq('T1: 80h at 528', FF + c(0x80) + col(527) + row(55) + i(0), PUT, data=no(8))
# Row 55 lies at 29,040: its byte 527 is (29,040 + 527) mod 251 = 200.
idle('T1: register, the last byte', FF + read(55, 527) + f(1), out=byte(200), then=no(8))
idle('T1: register, used up', FF + read(55, 527) + f(1) + o(), out=no(8))
idle('T1: LUN 1 works on row 55', FF + read(55, 527), seventy=byte(0x80), out=no(5), works=(1,), finish={1: byte(200)})

# Part T2: as T1 with 3 pages and 5 blocks. The fields stay 2 and 3 bits wide: row 18 is block 4, page 2.
T2 = ('T2: 512+16, 3 pages, 5 blocks, 2 LUNs', 512, 16, 3, 5, 2, 4, 0x0102, 0x004C)
part(*T2)
idle('T2: idle', FF)
seq('T2: 80h, row 18', FF + c(0x80) + col(0) + a(18, 0), address=only(ok))
seq('T2: 00h, row 18', FF + c(0x00) + col(0) + a(18, 0), address=only(ok))
# Row 15 is page 3, row 20 is block 5, row 51 is LUN 1, block 4, page 3; row 63 is LUN 1, block 7, page 3.
seq('T2: 80h, row 15', FF + c(0x80) + col(0) + a(15, 0), address=no(4))
seq('T2: 00h, row 15', FF + c(0x00) + col(0) + a(15, 0), address=no(4))
seq('T2: 60h, row 15', FF + c(0x60) + a(15, 0), address=only(ok))
seq('T2: 80h, row 20', FF + c(0x80) + col(0) + a(20, 0), address=no(4))
seq('T2: 00h, row 20', FF + c(0x00) + col(0) + a(20, 0), address=no(4))
seq('T2: 60h, row 20', FF + c(0x60) + a(20, 0), address=no(4))
seq('T2: 06h, row 20', FF + c(0x06) + col(0) + a(20, 0), address=only(ok))
seq('T2: 78h, row 20', FF + c(0x78) + a(20, 0), address=only((ok, byte(0xE0))))
seq('T2: 60h, row 51', FF + c(0x60) + a(51, 0), address=only(ok))
seq('T2: 80h, row 50', FF + c(0x80) + col(0) + a(50, 0), address=only(ok))
seq('T2: 78h, row 63', FF + c(0x78) + a(63, 0), address=only((ok, byte(0xE0))))
seq('T2: 78h, row 64', FF + c(0x78) + a(64, 0), address=no(4))
# Row 18 is array page 14: byte 0 lies at 7,392, which is 113 mod 251.
idle('T2: register of row 18', FF + read(18) + f(0), out=byte(113), then=byte(114))

# ---------------------------------------------------------------------------------------------------------------------
# Cases on T1.
part(*T1)
case('document 01, the whole case')
line('I', ['00FF=0000', '0090=0000', '0120=0000', '0300=014F', '0300=014E', '0300=0146', '0300=0149', '0300=0208'])
kept()


def trace(records, room, replies, answer=0):
    if records:
        line('D', records.split())
    if replies:
        line('E', replies.split())
    line('Y', ['%X:%X' % (room, answer)])
    kept()


WHOLE = '00 FF 00 90 01 20 03 00 03 00 03 00 03 00 03 00'
WHOLE_OUT = '00 00 00 00 00 00 01 4F 01 4E 01 46 01 49 02 08'
case('document 01, the whole case, as a byte trace')
trace(WHOLE, 16, WHOLE_OUT)

# "If the reply room is too short for all replies, the run is refused once with 16; room past the replies stays as it is." "An
# odd last byte gets 02 0C, or 02 0D where 13 holds." Bad records "drop no sequence": the trace after it goes on.
case('byte traces: reply room, odd last byte')
trace(WHOLE, 15, '', 16)
trace(WHOLE, 0, '', 16)
trace('', 0, '')
trace('03 00', 2, '02 02')
trace(WHOLE, 64, WHOLE_OUT)
trace(WHOLE, 17, WHOLE_OUT)
trace('00 90 01', 3, '', 16)
trace('00 90 01', 4, '00 00 02 0C')
trace('01 20 03', 4, '00 00 02 0C')
trace('03 00 00', 5, '01 4F 02 0C')
trace('03 00 09 09 03', 6, '01 4E 02 0C 02 0C')
trace('03', 1, '', 16)
trace('03', 2, '02 0C')
lengths(flags=-1)
trace('03 00 03', 4, '02 0D 02 0D')
trace('03 00 03', 3, '', 16)
lengths()
trace('03 00 03 00 03 00', 6, '01 46 01 49 02 08')
lengths(flags=1)
power(24)
trace('00 FF 03', 4, '02 0D 02 0D')
lengths()

# (a) T1 array is 33,792 bytes; registers, counts and flags have "exactly these lengths" too. 24 is 18h.
# "A refused power-on gives an unpowered target", and "13: target not powered".
case('(a) the array of T1 is 33,792 bytes')
assert PART['sizes'] == [33792, 1056, 64, 16]
EVERY = FF + c(0x70) + o() + f(0) + p(1) + BAD
for more in (-1, 1):
    for n in range(4):
        lengths(0, *[more if k == n else 0 for k in range(4)])
        power(24)
        kept()
        run(refused(EVERY, 13))
        kept()
lengths()
power(0)
kept()
run(FF)

# (b) Row 55: LUN 1, block 5, page 3, array place 29,040. Programmed with 00h at its ends.
case('(b) T1 row 55 lies at 29,040 and is count 55')
run(FF + program(55, 0, 0x00))
array(*at(29040, 0x00))
counts('37:01')
registers(times(1056, 0, 0xFF), *at(528, 0x00))
kept()
run(f(1) + c(0x80) + col(527) + row(55) + i(0x00) + c(0x10) + f(1))
array(*at(29040 + 527, 0x00))
counts('37:02')
registers(times(1056, 0, 0xFF), *at(1055, 0x00))
kept()
run(erase(0x34) + f(1))
# 60h does not look at the page bits: row 52 is the same block, pages 52 to 55.
array(times(4 * 528, 52 * 528, 0xFF))
counts('37:00')
kept()

case('(f) T1 row 64 refused')
for v in (0x00, 0x80, 0x06):
    run(FF + c(v) + col(0) + a(64, 0) + refused(a(0), 4))
for v in (0x60, 0x78):
    run(c(v) + a(64, 0) + refused(a(0), 4))
kept()

case('(g) column 527 accepted, 528 refused')
run(FF)
for v in (0x00, 0x05, 0x06, 0x80):
    run(c(v) + col(527) + refused(c(0x90), 3))
    run(c(v) + a(0x10) + refused(a(0x02), 4) + refused(a(0x00), 3))
run(c(0x80) + col(0) + row(0) + c(0x85) + col(527) + i(0x77) + refused(c(0x00), 3))
registers(*at(527, 0x77))
run(c(0x80) + col(0) + row(0) + c(0x85) + a(0x10) + refused(a(0x02), 4))
registers(*at(527, 0xFF))
kept()

# (h), and the second error: array byte 165 is A5h.
case('(h) A5h programmed with 3Ch gives 24h, and not the byte of the register')
run(FF + read(0, 0xA5) + f(0) + given(0xA5) + program(0, 0xA5, 0x3C) + f(0))
array(*at(0xA5, 0x24))
counts('0:01')
registers(*at(0xA5, 0x3C))
kept()
run(read(0, 0xA4) + f(0) + given(0xA4, 0x24, 0xA6))
registers(*at(0, *[0x24 if n == 0xA5 else n % 251 for n in range(528)]))
kept()

# (i)
case('(i) status E0h ready, E1h failed, 80h working, 60h ready with line low')
run(FF + c(0x70) + given(0xE0, 0xE0) + read(0) + c(0x70) + given(0x80, 0x80) + f(0) + given(0xE0))
for n in range(4):
    run(program(0, 0) + look(0) + given(0x80) + f(0) + given(0xE0))
run(program(0, 0) + look(0) + given(0x80) + f(0) + given(0xE1, 0xE1))
run(look(32) + given(0xE0) + c(0x70) + given(0xE0) + look(0) + given(0xE1) + c(0x70) + given(0xE1))
run(p(0) + given(0x61) + p(1) + given(0xE1) + read(0) + f(0) + p(0) + c(0x70) + given(0x60))
run(read(0) + c(0x70) + given(0x00) + f(0) + given(0x60))

# (j)
case('(j) data in at 527 accepted, the next refused 8')
run(FF + c(0x80) + col(527) + row(0) + i(0x5A) + refused(i(0x5A), 8) + refused(i(0x5A), 3) + refused(c(0x10), 3))
registers(*at(527, 0x5A))
kept()



# Stations A (LUN 0) and B (LUN 1) save a preset at once: A's work ends among B's addresses, and B's while A reads its register
# out again. With program-clear off, B's 80h has filled A's register; both presets stand in the array either way.
def lost_preset(name, start, seen):
    case('the lost preset, program-clear ' + name)
    run(FF + start + erase(0) + f(0) + erase(32) + f(1))
    run(program(0, 0, 0x3C, 0xA5) + c(0x80) + col(0) + f(0) + row(32) + c(0x85) + col(7) + i(0xC3) + c(0x10))
    run(c(0x06) + col(0) + row(0) + c(0xE0) + given(seen[0]) + f(1) + given(seen[1]) + look(32) + given(0xE0))
    array(times(4 * 528, 0, 0xFF), times(4 * 528, 32 * 528, 0xFF), *at(0, 0x3C, 0xA5), *at(32 * 528 + 7, 0xC3))
    counts('0:01', '20:01')
    registers(*at(0, *seen), *at(528 + 7, 0xC3))
    kept()


lost_preset('on', CLEAR_ON, [0x3C, 0xA5])
lost_preset('off', [], [0xFF, 0xFF])

# ---------------------------------------------------------------------------------------------------------------------
part(*T2)
# (c) and the third error: by division row 18 would be block 6, which is none, and row 4 block 1, page 1.
case('(c) T2 row 18 is block 4, page 2; no field is read by division')
run(FF + program(18, 0, 0x00) + f(0))
array(*at((4 * 3 + 2) * 528, 0x00))
counts('E:01')
registers(times(1056, 0, 0xFF), *at(0, 0x00))
kept()
run(program(4, 1, 0x00) + f(0))
array(*at((1 * 3 + 0) * 528 + 1, 0x00))
counts('3:01')
registers(*at(0, 0xFF, 0x00))
kept()
run(program(32 + 18, 2, 0x00) + f(1))
array(*at(((5 + 4) * 3 + 2) * 528 + 2, 0x00))
counts('1D:01')
registers(*at(0, 0xFF, 0xFF), *at(530, 0x00))
kept()
run(read(18) + f(0) + given(0x00, 114) + erase(19) + f(0))
array(times(3 * 528, 4 * 3 * 528, 0xFF))
counts('E:00')
registers(*at(0, 0x00, *[(7392 + n) % 251 for n in range(1, 528)]))
kept()

case('(d) (e) T2 rows 15 and 20 refused 4 for 80h')
for r in (15, 20, 3, 7, 19, 24, 28, 35, 52):
    run(FF + c(0x80) + col(0) + a(r, 0) + refused(a(0), 4))
for r in (0, 2, 4, 18, 32, 50):
    run(FF + c(0x80) + col(0) + a(r, 0) + a(0))
kept()

# ---------------------------------------------------------------------------------------------------------------------
# Cases on A. Page bytes of row r are 16 r to 16 r + 15.
part('A: 16+0, 2 pages, 2 blocks, 2 LUNs, all options', 16, 0, 2, 2, 2, counts={1: 2, 5: 1}, flags={1: 1})


def page_of(r):
    return range(16 * r, 16 * r + 16)


BOTH = read(0) + f(0) + read(4) + f(1)

# "With program-clear off, 80h fills every register with FFh when it is accepted. With it on, only the addressed LUN's, when
# the last row cycle is accepted."
case('error 1: program-clear off, 80h fills every register at once')
run(FF + BOTH)
registers(*at(0, *page_of(0)), *at(16, *page_of(4)))
kept()
run(c(0x80))
registers(times(32, 0, 0xFF))
kept()
run(col(3) + row(4) + i(0x12, 0x34) + c(0x85) + col(0) + i(0x56))
registers(*at(16, 0x56), *at(19, 0x12, 0x34))
kept()
run(c(0x10) + f(1) + c(0x06) + col(0) + row(0) + c(0xE0) + given(0xFF) + c(0x06) + col(3) + row(4) + c(0xE0) + given(0x12, 0x34, 0xFF))
array(*at(64, 0x56 & 0x40), *at(67, 0x12 & 0x43, 0x34 & 0x44))
counts('4:01')
kept()

case('error 1: off, a row refused later and a working LUN are no matter')
run(FF + BOTH + read(4))
registers(*at(0, *page_of(0)), *at(16, *page_of(4)))
kept()
run(c(0x80))
registers(times(32, 0, 0xFF))
run(col(0) + a(4, 0) + refused(a(0), 5))
kept()

case('error 1: program-clear on, only the addressed LUN, at its last row cycle')
run(FF + CLEAR_ON + BOTH)
registers(*at(0, *page_of(0)), *at(16, *page_of(4)))
run(c(0x80))
kept()
run(col(2) + a(4, 0))
kept()
run(a(0))
registers(times(16, 16, 0xFF))
kept()
run(i(0x0F) + c(0x10) + f(1) + c(0x06) + col(5) + row(0) + c(0xE0) + given(0x05, 0x06) + c(0x06) + col(2) + row(4) + c(0xE0) + given(0x0F, 0xFF))
array(*at(66, 0x42 & 0x0F))
counts('4:01')
registers(*at(18, 0x0F))
kept()
run(c(0x80) + col(0) + a(0, 0) + a(0) + refused(c(0x00), 3))
registers(times(16, 0, 0xFF))
kept()

case('error 1: on, a row that is refused fills none')
run(FF + CLEAR_ON + BOTH + read(4))
registers(*at(0, *page_of(0)), *at(16, *page_of(4)))
run(c(0x80) + col(0) + a(4, 0) + refused(a(0), 5) + c(0x80) + col(0) + a(8, 0) + refused(a(0), 4))
kept()
run(f(1) + FF)
registers(times(32, 0, 0xFF))
kept()
# FFh: program-clear off.
run(BOTH)
registers(*at(0, *page_of(0)), *at(16, *page_of(4)))
kept()
run(c(0x80))
registers(times(32, 0, 0xFF))
kept()

# "No data at all before 10h is allowed."
case('error 2: old AND register, no data, data over data')
run(FF + CLEAR_ON + read(5) + f(1) + program(0, 0, *[0xFF] * 16) + f(0))
registers(*at(16, *page_of(5)))
counts('0:01')
kept()
run(c(0x80) + col(0) + row(4) + c(0x10) + f(1))
registers(times(16, 16, 0xFF))
counts('4:01')
kept()
run(program(6, 0, 0x0F, 0xF0) + f(1))
array(*at(96, 0x60 & 0x0F, 0x61 & 0xF0))
registers(*at(16, 0x0F, 0xF0))
counts('6:01')
kept()
run(program(6, 0, 0xFF, 0xFF, 0x00) + f(1))
array(*at(98, 0x00))
registers(*at(16, 0xFF, 0xFF, 0x00))
counts('6:02')
kept()

# "Keeping output alive after a refusal, so that station B reads station A's register."
case('error 4: no output outlives a refusal')
run(FF + read(1) + f(0) + given(0x10, 0x11))
for word, n in [(c(0x30), 3), (c(0x01), 1), (a(0x00), 3), (i(0x00), 3), (c(0xE0), 3), (c(0x10), 3), (c(0x35), 3)]:
    run(c(0x05) + col(2) + c(0xE0) + given(0x12) + refused(word, n) + refused(o(2), 3))
for word, n in [(c(0x30), 3), (a(0x00), 3), (i(0x00), 3)]:
    run(c(0x70) + given(0xE0) + refused(word, n) + refused(o(), 3))
    run(c(0x90) + a(0x00) + given(0x2C) + refused(word, n) + refused(o(), 3))
    run(c(0xEC) + a(0x00) + given(0x4F) + refused(word, n) + refused(o(), 3))
    run(GET + given(0x00) + refused(word, n) + refused(o(), 3))
# Station A reads LUN 0; station B asks for LUN 1 while it works, or for one that is not there, and reads nothing.
run(read(4) + c(0x05) + a(0x00) + refused(a(0x00), 5) + refused(o(), 3))
run(c(0x06) + col(2) + row(0) + c(0xE0) + given(0x12) + c(0x06) + col(2) + a(4, 0) + refused(a(0), 5) + refused(o(), 3))
run(c(0x06) + col(2) + row(0) + c(0xE0) + given(0x12) + c(0x06) + col(2) + a(8, 0) + refused(a(0), 4) + refused(o(), 3))
run(c(0x06) + col(2) + row(0) + c(0xE0) + given(0x12) + refused(c(0x90), 6) + refused(o(), 3))
run(c(0x06) + col(2) + row(0) + c(0xE0) + given(0x12) + refused(c(0x70), 6) + refused(o(), 3))
# A first command ends output, accepted or not.
run(f(1) + c(0x05) + col(2) + c(0xE0) + given(0x12) + c(0x00) + refused(o(), 3) + refused(a(0), 3))
# Bench refusals keep it.
run(c(0x05) + col(2) + c(0xE0) + given(0x12) + refused(f(0), 10) + refused(BAD, 12) + p(0) + given(0x13) + p(1) + given(0x14))

case('FAIL is set afresh by each of the three, 0 for a read')
run(FF + program(2, 0, 0x00) + c(0x70) + given(0x80) + f(0) + given(0xE1) + read(0) + c(0x70) + given(0x80) + f(0) + given(0xE0))
run(erase(2) + f(0) + c(0x70) + given(0xE1) + program(0, 0, 0x0F) + f(0) + c(0x70) + given(0xE0))
run(program(1, 0, 0x00) + f(0) + c(0x70) + given(0xE1) + erase(4) + f(1) + c(0x70) + given(0xE0) + look(0) + given(0xE1))
run(erase(0) + f(0) + c(0x70) + given(0xE0) + look(4) + given(0xE0))
run(program(3, 0, 0x00) + f(0) + c(0x70) + given(0xE1) + FF + c(0x70) + given(0xE0))
array(times(32, 0, 0xFF), times(32, 64, 0xFF))
counts('0:00', '1:00', '5:00')
kept()

case('a count rises by exactly one, up to programs a page')
run(FF + program(0, 0, 0xFF) + f(0) + c(0x70) + given(0xE0))
counts('0:01')
kept()
run(program(0, 0, 0xFF) + f(0) + c(0x70) + given(0xE0))
counts('0:02')
kept()
run(program(0, 0, 0x00) + f(0) + c(0x70) + given(0xE1))
registers(*at(0, 0x00))
kept()
run(program(5, 15, 0x00) + f(1) + c(0x70) + given(0xE0))
array(*at(95, 0x00))
counts('5:02')
registers(*at(0, 0xFF), *at(31, 0x00))
kept()
run(program(5, 14, 0x00) + f(1) + c(0x70) + given(0xE1))
registers(*at(30, 0x00, 0xFF))
kept()
# 30h, a refused 10h and a 10h on a bad block raise none.
run(p(0) + c(0x80) + col(0) + row(6) + i(0) + refused(c(0x10), 7) + p(1) + program(2, 0, 0) + f(0) + read(6) + f(1))
registers(*at(0, 0x00), *at(16, *page_of(6)))
kept()
run(erase(1) + f(0))
array(times(32, 0, 0xFF))
counts('0:00', '1:00')
kept()
run(program(1, 7, 0x81) + f(0) + c(0x70) + given(0xE0))
array(*at(16 + 7, 0x81))
counts('1:01')
registers(times(32, 0, 0xFF), *at(7, 0x81))
kept()

case('line low: 10h and D0h refused 7, nothing of array and counts moves')
run(FF + p(0) + c(0x80) + col(0) + row(0) + i(0) + refused(c(0x10), 7) + refused(c(0x10), 3) + c(0x60) + row(0) + refused(c(0xD0), 7) + refused(c(0xD0), 3))
registers(times(32, 0, 0xFF), *at(0, 0x00))
kept()
run(FF + read(0) + f(0) + given(0x00, 0x01) + c(0x70) + given(0x60) + p(1) + erase(0) + f(0))
array(times(32, 0, 0xFF))
counts('1:00')
registers(times(32, 0, 0xFF), *at(0, *page_of(0)))
kept()

case('FFh: registers FFh, array and counts as they are, no finish owed')
run(FF + program(0, 0, 0x00))
array(*at(0, 0x00))
counts('0:01')
registers(*at(0, 0x00))
kept()
run(FF + refused(f(0), 10) + c(0x70) + given(0xE0))
registers(times(32, 0, 0xFF))
kept()
run(erase(4) + FF + refused(f(1), 10) + look(4) + given(0xE0) + p(0) + given(0x60))
array(times(32, 64, 0xFF))
counts('5:00')
kept()

case('two LUNs at a time, each told of itself')
run(FF + CLEAR_ON + read(1, 1) + c(0x80) + col(0) + row(4) + i(0x00) + c(0x10) + look(0) + given(0x80) + look(4) + given(0x80))
run(f(0) + look(0) + given(0xE0) + look(4) + given(0x80) + c(0x06) + col(1) + row(0) + c(0xE0) + given(0x11, 0x12))
run(f(1) + given(0x13) + c(0x06) + col(0) + row(4) + c(0xE0) + given(0x00, 0xFF) + refused(f(0) + f(1), 10) + given(0xFF))
array(*at(64, 0x00))
counts('4:01')
registers(*at(0, *page_of(1)), times(16, 16, 0xFF), *at(16, 0x00))
kept()

case('10h, 30h, 35h, D0h, E0h with no sequence, each address and datum astray')
run(FF + refused(c(0x10, 0x30, 0x35, 0xD0, 0xE0) + a(0x00, 0xFF) + i(0x00, 0xFF) + o(), 3))
run(c(0x80) + col(0) + row(0) + c(0x85) + a(0) + refused(c(0x10), 3) + refused(c(0x10), 3))
run(c(0x80) + col(0) + row(0) + c(0x85) + a(0) + refused(c(0x85), 3) + refused(a(0), 3))
run(c(0x80) + col(0) + row(0) + c(0x85) + col(1) + refused(a(0), 3) + refused(i(0), 3))
run(c(0x80) + col(0) + row(0) + c(0x85) + refused(i(0), 3))
run(CLEAR_ON + refused(i(0), 3) + c(0x60) + row(0) + refused(c(0x30), 3) + refused(c(0xD0), 3))
run(c(0x06) + col(0) + row(0) + refused(c(0x30), 3) + c(0x05) + col(0) + refused(c(0x30), 3) + c(0x00) + col(0) + row(0) + refused(c(0xE0), 3))
run(c(0x06) + col(0) + row(0) + refused(c(0x35), 3) + c(0x05) + col(0) + refused(c(0x35), 3) + c(0x80) + col(0) + row(0) + refused(c(0x35), 3))
registers(times(32, 0, 0xFF))
kept()

# "ECh with 00h: the page three times, 768 bytes."
case('ECh: the page three times, byte by byte')
run(FF + c(0xEC) + a(0x00))
for n in range(3):
    run(given(*PART['page']))
run(refused(o(), 8) + refused(o(), 3))
kept()

# ---------------------------------------------------------------------------------------------------------------------
# A1, on A. "10h programs the register without clearing it".
case('copyback: the register is kept, changed and written')
run(FF + copyback(5) + f(1) + given(0x50, 0x51))
registers(*at(16, *page_of(5)))
kept()
run(copied(6, 2, 0x0F) + c(0x70) + given(0x80) + f(1) + given(0xE0))
array(*at(96, *[x & y for x, y in zip(page_of(6), [0x50, 0x51, 0x0F, *range(0x53, 0x60)])]))
counts('6:01')
registers(*at(18, 0x0F))
kept()
# The 10h closed it.
run(c(0x85) + col(0) + a(7, 0) + refused(a(0), 14) + refused(c(0x10), 3))
kept()
# Moves, and a page of the same block; no data at all.
run(copyback(5) + f(1) + c(0x85) + col(1) + row(7) + i(0xAA) + c(0x85) + col(5) + i(0xBB, 0xCC) + c(0x10) + f(1))
registers(*at(16, *page_of(5)), *at(17, 0xAA), *at(21, 0xBB, 0xCC))
array(*at(112, *[x & y for x, y in zip(page_of(7), [0x50, 0xAA, 0x52, 0x53, 0x54, 0xBB, 0xCC, *range(0x57, 0x60)])]))
counts('7:01')
kept()
run(copyback(4) + f(1) + copied(5, 0) + f(1) + c(0x05) + col(3) + c(0xE0) + given(0x43, 0x44))
registers(*at(16, *page_of(4)))
array(*at(80, *[x & y for x, y in zip(page_of(5), page_of(4))]))
counts('5:02')
kept()

# Nothing is cleared, at 85h or at its row, whatever program-clear is.
for name, start in (('off', []), ('on', CLEAR_ON)):
    case('copyback: nothing is cleared, program-clear ' + name)
    run(FF + start + BOTH + copyback(1) + f(0) + copyback(6) + f(1))
    registers(*at(0, *page_of(1)), *at(16, *page_of(6)))
    run(c(0x85))
    kept()
    run(col(0) + row(4) + c(0x10) + f(1))
    array(*at(64, *[x & y for x, y in zip(page_of(4), page_of(6))]))
    counts('4:01')
    kept()
    run(c(0x85) + col(0) + a(8, 0) + refused(a(0), 4) + c(0x85) + col(0) + a(4, 0) + refused(a(0), 14))
    kept()
    run(copied(0, 0) + f(0))
    array(*at(0, *[x & y for x, y in zip(page_of(0), page_of(1))]))
    counts('0:01')
    kept()

# "For that LUN": with program-clear off another LUN's 80h fills this register, and the copyback programs FFh.
case('copyback: a register that another LUN\'s 80h has filled')
run(FF + copyback(1) + f(0) + program(4, 0) + f(1) + copied(0, 0) + f(0) + c(0x70) + given(0xE0))
counts('0:01', '4:01')
kept()
run(FF + CLEAR_ON + copyback(1) + f(0) + program(4, 0) + f(1) + copied(0, 0) + f(0) + c(0x70) + given(0xE0))
registers(*at(0, *page_of(1)))
array(*at(0, *[x & y for x, y in zip(page_of(0), page_of(1))]))
counts('0:02', '4:02')
kept()

# Only accepted events close it; what was given stays in the register.
case('copyback: refused 7 and 8, still open')
run(FF + copyback(5) + f(1) + p(0) + c(0x85) + col(0) + row(4) + i(0x09) + refused(c(0x10), 7) + refused(c(0x10), 3))
registers(*at(16, *page_of(5)), *at(16, 0x09))
kept()
run(p(1) + c(0x85) + col(15) + row(4) + i(0x08) + refused(i(0x07), 8) + refused(c(0x10), 3))
registers(*at(31, 0x08))
kept()
run(copied(4, 1, 0x06) + f(1) + c(0x05) + col(0) + c(0xE0) + given(0x09, 0x06, 0x52))
registers(*at(17, 0x06))
array(*at(64, *[x & y for x, y in zip(page_of(4), [0x09, 0x06, *range(0x52, 0x5F), 0x08])]))
counts('4:01')
kept()

case('copyback: FAIL, and closed')
run(FF + copyback(0) + f(0) + copied(2, 0, 0x00) + c(0x70) + given(0x80) + f(0) + given(0xE1))
registers(*at(0, *page_of(0)), *at(0, 0x00))
run(c(0x85) + col(0) + a(0, 0) + refused(a(0), 14) + c(0x70) + given(0xE1))
kept()
run(copyback(0) + c(0x70) + given(0x80) + f(0) + given(0xE0) + copied(1, 0, 0x00) + f(0) + c(0x70) + given(0xE1))
kept()

# A refused program's moves are first commands: 85h and two columns are accepted, what follows is 3.
case('copyback: the moves of a refused program')
run(FF + read(4) + c(0x80) + col(0) + a(4, 0) + refused(a(0), 5) + refused(i(1), 3) + c(0x85) + col(2) + refused(i(3), 3) + refused(c(0x10), 3))
run(c(0x80) + col(0) + a(4, 0) + refused(a(0), 5) + c(0x85) + a(0x10) + refused(a(0x00), 4) + refused(c(0x10), 3))
run(c(0x80) + col(0) + a(4, 0) + refused(a(0), 5) + c(0x85) + col(2) + refused(c(0x85), 3) + c(0x85) + col(3) + refused(c(0x10), 3) + refused(c(0x10), 3))
run(f(1) + p(1))
registers(*at(16, *[0xFF] * 16))
kept()

# ---------------------------------------------------------------------------------------------------------------------
# Rule 13, on A. "A lent buffer's length is not what the record's geometry gives"; the parameter bytes' "lent length stays 256";
# at power-on that length is 20 (14h), the others 24. "A bench refusal changes nothing, neither record nor buffer, and drops no
# sequence": with the right lengths lent again the sequence and the output go on where they were.
case('13: a lent length one less, one more')
run(FF + BOTH + c(0x05) + col(2) + c(0xE0) + given(0x42))
registers(*at(0, *page_of(0)), *at(16, *page_of(4)))
byte_out = 0x43
for more in (-1, 1):
    for n in range(5):
        lengths(*[more if k == n else 0 for k in range(5)])
        run(refused(EVERY, 13))
        lengths()
        kept()
        run(given(byte_out))
        byte_out += 1
run(c(0x80) + col(2))
registers(times(32, 0, 0xFF))
for more in (-1, 1):
    for n in range(5):
        lengths(*[more if k == n else 0 for k in range(5)])
        run(refused(a(0) + EVERY, 13))
        lengths()
run(row(0) + i(0x00) + c(0x10) + f(0))
array(*at(2, 0x00))
counts('0:01')
registers(*at(2, 0x00))
kept()
for more in (-1, 1):
    lengths(more)
    power(20)
    kept()
    run(refused(EVERY, 13))
lengths()
power(0)
kept()

# "Or a number in the record, taken by itself, is one that no run with that geometry gives it". The record's numbers, as the
# table's R words name them.
RECORD = {
    'powered': 0, 'data bytes': 1, 'pages': 2, 'blocks': 3, 'LUNs': 4, 'programs': 5, 'selected': 6, 'LUN 2 works': 7, 'LUN 3 failed': 8,
    'features': 9, 'optional commands': 10, 'copyback of LUN 0': 11, 'copyback of LUN 2': 12,
    'blank blocks of LUN 0': 0x0D, 'blank blocks of LUN 1': 0x0E, 'blank blocks of LUN 2': 0x0F,
    # the output is the register of LUN 0 from a column on, that of a LUN from column 0 on, the parameter page, a LUN's status,
    # IDs, the signature, the feature, each from a place on
    'register column': 0x10, 'register LUN': 0x11, 'parameter place': 0x12, 'status LUN': 0x13, 'ID place': 0x14,
    'signature place': 0x15, 'feature place': 0x16,
    # the sequence is 00h, 06h, 05h or 60h with all its addresses, the other ones 0; 80h with its next byte's place, or row; 85h
    # with a row and one address; EFh with so many bytes; a copyback program with its next byte's place, or row; a move inside one
    # with a row and one address; a program, or a move, that a command of this byte opened
    '00h column': 0x20, '00h row': 0x21, '06h column': 0x22, '06h row': 0x23, '05h column': 0x24, '60h row': 0x25,
    '80h place': 0x26, '80h row': 0x27, '85h row': 0x28, 'EFh bytes': 0x29, 'copyback place': 0x2A, 'copyback row': 0x2B,
    'copyback move row': 0x2C, 'program opened by': 0x2D, 'move opened by': 0x2E,
    # 05h in the parameter page with both its addresses
    '05h column in the page': 0x2F,
    # a status of LUN 0 is open, and kept behind it is an output as above: the register of LUN 0 from a column on, that
    # of a LUN from column 0 on, the parameter page, a LUN's status, IDs, the signature, the feature, each from a place on
    'kept register column': 0x30, 'kept register LUN': 0x31, 'kept parameter place': 0x32, 'kept status LUN': 0x33,
    'kept ID place': 0x34, 'kept signature place': 0x35, 'kept feature place': 0x36,
}


def spoil(name, value, sizes=None):
    line('#', ['%s: %d' % (name, value)])
    power(0)
    run(FF)
    line('R', ['%X:%X' % (RECORD[name], value)])
    if sizes:
        lent([256] + sizes)


def bad(name, value, sizes=None):
    spoil(name, value, sizes)
    run(refused(EVERY + c(0x30) + a(0) + i(0), 13))
    if sizes:
        lengths()
    else:
        kept()


def fine(name, value, *words):
    spoil(name, value)
    run(*words)


case('13: not powered, sizes outside the house limits')
bad('powered', 0)
fine('powered', 1, c(0x70) + given(0xE0))
# Lengths are lent as the changed sizes would have them (array, registers, counts, flags), so that the limit alone refuses.
bad('data bytes', 15, [120, 30, 8, 4])
bad('pages', 0, [0, 32, 0, 4])
bad('blocks', 0, [0, 32, 0, 0])
bad('LUNs', 0, [0, 0, 0, 0])
bad('LUNs', 5, [320, 80, 20, 10])
bad('programs', 0)
bad('programs', 9)
fine('programs', 1, program(5, 0, 0) + f(1) + c(0x70) + given(0xE1))
fine('programs', 8, program(1, 0, 0) + f(0) + c(0x70) + given(0xE0))
# And with the lengths that were lent before, a size within the limits is refused for them.
for name in ('data bytes', 'pages', 'blocks', 'LUNs'):
    bad(name, 17 if name == 'data bytes' else 1)
    bad(name, 0xFFFF)

case('13: words')
# feature bit 0 is the 16-bit bus; bit 1 allows more LUNs than one
bad('features', 0x0103)
bad('features', 0x0100)
bad('features', 0x0000)
fine('features', 0xFFFE, c(0x70) + given(0xE0))
fine('features', 0x0002, c(0xEF) + a(0x01) + refused(i(0x40), 9))
fine('optional commands', 0x0000, refused(c(0x78), 1) + refused(c(0x06), 1) + refused(c(0xEE), 1) + refused(c(0xEF), 1))
fine('optional commands', 0xFFFF, c(0x78) + row(0) + given(0xE0))

case('13: LUNs')
bad('selected', 2)
bad('selected', 0xFFFF)
fine('selected', 1, c(0x05) + col(0) + c(0xE0) + given(0xFF))
bad('LUN 2 works', 1)
bad('LUN 3 failed', 1)
fine('LUN 2 works', 0, c(0x70) + given(0xE0))
bad('copyback of LUN 2', 1)
fine('copyback of LUN 2', 0, c(0x70) + given(0xE0))
fine('copyback of LUN 0', 1, copied(0, 0, 0xFF) + f(0) + c(0x85) + col(0) + a(0, 0) + refused(a(0), 14))
fine('copyback of LUN 0', 0, c(0x85) + col(0) + a(0, 0) + refused(a(0), 14))

# An output that is used up stands one past its last byte; "8: data in or out past the end".
case('13: output')
bad('register column', 17)
fine('register column', 16, refused(o(), 8))
fine('register column', 15, given(0xFF) + refused(o(), 8))
bad('register LUN', 2)
fine('register LUN', 1, given(0xFF))
bad('parameter place', 769)
fine('parameter place', 768, refused(o(), 8))
fine('parameter place', 767, given(PART['page'][255]))
bad('status LUN', 2)
fine('status LUN', 1, given(0xE0))
bad('ID place', 3)
fine('ID place', 2, refused(o(), 8))
bad('signature place', 5)
fine('signature place', 4, refused(o(), 8))
bad('feature place', 5)
fine('feature place', 4, refused(o(), 8))

# A row or a column that was accepted is in range; the place of the next data byte may be P.
case('13: sequences')
for name in ('00h column', '06h column', '05h column'):
    bad(name, 16)
    fine(name, 15, c(0x30 if name[0:2] == '00' else 0xE0))
for name in ('00h row', '06h row', '60h row', '80h row', '85h row', 'copyback row', 'copyback move row'):
    bad(name, 8)
    bad(name, 0xFFFF)
fine('00h row', 7, c(0x30) + f(1) + given(0x70))
fine('06h row', 7, c(0xE0) + given(0xFF))
fine('60h row', 7, c(0xD0) + f(1))
fine('80h row', 7, i(0) + c(0x10) + f(1))
fine('85h row', 7, a(0) + i(0) + c(0x10) + f(1))
bad('80h place', 17)
fine('80h place', 16, refused(i(0), 8))
fine('80h place', 15, i(0) + refused(i(0), 8))
bad('copyback place', 17)
fine('copyback place', 16, refused(i(0), 8))
fine('copyback place', 15, i(0) + refused(i(0), 8))
fine('copyback row', 7, i(0) + c(0x10) + f(1))
fine('copyback move row', 7, a(0) + i(0) + c(0x10) + f(1))
# "A program taking data (or in a move) names its first command": 80h or 85h, and no other.
for v in (0x00, 0x05, 0x06, 0x60, 0x70, 0x78, 0x90, 0xEC, 0xEE, 0xEF):
    bad('program opened by', v)
    bad('move opened by', v)
for v in (0x80, 0x85):
    fine('program opened by', v, i(0xFF) + c(0x10) + f(0) + c(0x70) + given(0xE0))
    fine('move opened by', v, a(0) + i(0xFF) + c(0x10) + f(0) + c(0x70) + given(0xE0))
bad('EFh bytes', 4)
fine('EFh bytes', 3, i(0) + refused(i(0), 3))

# H has 3 pages and 3 blocks: row 23h is page 3, 0Ch is block 3, 2Fh is LUN 2, block 3, page 3, and 30h is LUN 3.
part('H: 16+1, 3 pages, 3 blocks, 3 LUNs', 16, 1, 3, 3, 3)
case('13: rows whose fields are not full')
for name in ('00h row', '80h row', '85h row', 'copyback row', 'copyback move row'):
    bad(name, 0x23)
    bad(name, 0x0C)
    bad(name, 0x30)
bad('60h row', 0x0C)
bad('60h row', 0x30)
fine('60h row', 0x23, c(0xD0) + f(2))
bad('06h row', 0x30)
fine('06h row', 0x2F, c(0xE0) + given(0xFF))
fine('00h row', 0x2A, c(0x30) + f(2) + given(0xBF))
bad('LUN 3 failed', 1)
fine('LUN 2 works', 1, look(0x2F) + given(0x80) + f(2) + given(0xE0))
fine('copyback of LUN 2', 1, copied(0x2A, 0, 0xFF) + f(2) + c(0x70) + given(0xE0))

# "A mark without its option passes": an option is no geometry.
part('K: as A, every optional bit but 4', 16, 0, 2, 2, 2, features=0x0102, optional=0xFFEF)
case('13: a copyback open, or a copyback program, on a part that has none')
fine('copyback of LUN 0', 1, refused(c(0x85), 1) + c(0x70) + given(0xE0))
fine('copyback place', 0, i(0xFF) + c(0x85) + col(1) + i(0xFF) + c(0x10) + f(0) + c(0x70) + given(0xE0))

# ---------------------------------------------------------------------------------------------------------------------
# The second file: the requests from A2 on.
second()
part('A: 16+0, 2 pages, 2 blocks, 2 LUNs, all options', 16, 0, 2, 2, 2, counts={1: 2, 5: 1}, flags={1: 1})
# A2, polling loaders, on A. "After status, 00h with no address and then data out goes on from the output that was open
# before, at its next byte."
def behind(name, prefix, resumed, seventy=byte(0xE0), works=(), protect=UP):
    """A status is open, of a LUN that is ready, and this is kept behind it."""
    idle('behind a status: ' + name, prefix, seventy=seventy, out=byte(0xE0), then=byte(0xE0), works=works,
         protect=protect, resumed=resumed)


KEEP = FF + read(5, 3) + f(1)
S70 = c(0x70)
# "70h keeps that memory": every output but a status.
behind('register of LUN 1', KEEP + S70, byte(0x53))
behind('register of LUN 1, the status read', KEEP + S70 + o(3), byte(0x53))
behind('register of LUN 1, bytes taken', KEEP + o(4) + S70 + o(), byte(0x57))
behind('register, the last byte', FF + read(5, 0x0F) + f(1) + S70, byte(0x5F))
behind('register, used up', FF + read(5, 0x0F) + f(1) + o() + S70, no(8))
behind('register, its LUN finished meanwhile', FF + read(1, 4) + S70 + o(2) + f(0) + o(), byte(0x14))
behind('register after 05h', KEEP + c(0x05) + col(9) + c(0xE0) + o() + S70, byte(0x5A))
behind('register after 06h', FF + read(6) + f(1) + read(1) + f(0) + c(0x06) + col(8) + row(7) + c(0xE0) + S70,
       byte(0x68))
behind('register for a copyback', COPY + o() + S70, byte(0x54))
behind('parameter page, place 0', PAGE + S70, byte(0x4F))
behind('parameter page, place 64', PAGE + o(64) + S70 + o(), byte(0x2C))
behind('parameter page, place 767', PAGE + o(767) + S70, byte(crc_high))
behind('parameter page, all read', PAGE + o(768) + S70, no(8))
behind('IDs, maker', IDS + S70, byte(0x2C))
behind('IDs, device', IDS + o() + S70, byte(0x68))
behind('IDs, used up', IDS + o(2) + S70, no(8))
behind('signature, 4 left', SIGN + S70, byte(0x4F))
behind('signature, 1 left', SIGN + o(3) + S70, byte(0x49))
behind('signature, used up', SIGN + o(4) + S70, no(8))
behind('feature, program-clear on', FF + CLEAR_ON + GET + S70, byte(0x40))
behind('feature, 1 left', FF + CLEAR_ON + GET + o(3) + S70, byte(0x00))
behind('feature, used up', FF + GET + o(4) + S70, no(8))
idle('behind a status: line low', FF + p(0) + KEEP[1:] + S70, seventy=byte(0x60), out=byte(0x60), then=byte(0x60),
     protect=UP, resumed=byte(0x53))
idle('behind a status: a LUN that failed', FF + erase(2) + f(0) + IDS[1:] + S70, seventy=byte(0xE1), out=byte(0xE1),
     then=byte(0xE1), protect=FAILED, resumed=byte(0x2C))
# A second status hands on what the first keeps; what is shown is no output to be kept.
behind('two statuses', KEEP + S70 + o() + S70, byte(0x53))
behind('three statuses, the page', PAGE + o(2) + S70 + S70 + o() + S70, byte(0x46))
behind('70h with nothing open before', FF + S70 + S70, no(3))
# "78h keeps it only if the row names the register's LUN", whatever else that row names.
behind('78h of its LUN', KEEP + look(4), byte(0x53))
behind('78h of its LUN, another block and page', KEEP + o() + look(7) + o(2), byte(0x54))
behind('78h of its LUN, a page that is not the one read', FF + read(1, 2) + f(0) + look(3), byte(0x12))
behind('78h of another LUN', KEEP + look(0), no(3))
behind('78h of another LUN, then of its own', KEEP + look(0) + look(4), no(3))
behind('78h of its LUN, then of another', KEEP + look(4) + look(1), no(3))
behind('70h, then 78h of its LUN', KEEP + S70 + look(6), byte(0x53))
behind('78h of its LUN, then 70h', KEEP + look(6) + S70, byte(0x53))
behind('70h, then 78h of another LUN', KEEP + S70 + look(3), no(3))
behind('78h and the parameter page', PAGE + look(0), no(3))
behind('70h, then 78h, and the parameter page', PAGE + S70 + look(0), no(3))
behind('78h and IDs', IDS + look(0), no(3))
behind('78h and the signature', SIGN + look(0), no(3))
behind('78h and the feature', FF + GET + look(0), no(3))
# While another LUN works 70h is refused, and 78h is not.
ONE_WORKS = FF + program(4, 0) + read(1, 6) + f(0)
behind('78h, while LUN 1 works', ONE_WORKS + look(0), byte(0x16), seventy=no(6), works=(1,), protect=None)
behind('a refused 70h has lost it', ONE_WORKS + refused(S70, 6) + look(0), no(3), seventy=no(6), works=(1,),
       protect=None)
# "Any other first command or a refused bus cycle (12 and 13 apart) loses it, since the memory counts as output".
behind('a refused address between', KEEP + S70 + refused(a(0x00), 3) + S70, no(3))
behind('refused data in between', KEEP + S70 + refused(i(0x00), 3) + S70, no(3))
behind('a command that does not fit between', KEEP + S70 + refused(c(0x30), 3) + S70, no(3))
behind('an unknown command between', KEEP + S70 + refused(c(0x01), 1) + S70, no(3))
behind('78h, a row refused 4', KEEP + S70 + c(0x78) + a(8, 0) + refused(a(0), 4) + S70, no(3))
behind('78h, given up', KEEP + S70 + c(0x78) + a(4) + refused(S70, 3) + S70, no(3))
behind('a bare 00h, and a command that is refused there', KEEP + S70 + c(0x00) + refused(S70, 3) + S70, no(3))
behind('a bare 00h, refused 8', FF + read(5, 0x0F) + f(1) + o() + S70 + c(0x00) + refused(o(), 8) + S70, no(3))
behind('a bare 00h, refused 5, asked again', FF + read(5, 3) + S70 + c(0x00) + refused(o(), 5) + f(1) + S70, no(3))
behind('an erase between', KEEP + S70 + erase(4) + f(1) + S70, no(3))
behind('a program between', KEEP + S70 + program(4, 0) + f(1) + S70, no(3))
behind('a read between: its own register', KEEP + S70 + read(1, 2) + f(0) + S70, byte(0x12))
behind('IDs between: they are kept', KEEP + S70 + IDS[1:] + o() + S70, byte(0x68))
behind('EFh between', KEEP + S70 + CLEAR_ON + S70, no(3))
behind('05h between: the register from there', KEEP + S70 + c(0x05) + col(9) + c(0xE0) + S70, byte(0x59))
behind('FFh between', KEEP + S70 + FF + S70, no(3))
# Bench events and bench refusals keep it; so does 12.
behind('bench events and refusals between', KEEP + S70 + refused(f(1), 10) + refused(BAD, 12) + p(0) + p(1) + o(),
       byte(0x53))
behind('finish of the other LUN between', FF + program(0, 0) + read(5, 3) + f(1) + look(4) + f(0), byte(0x53))

# 00h, and no address: a sequence is open, so commands but FFh are 3 and protect events 11, and data out gives what was
# kept. "An address after 00h makes it a plain read."
def bare(name, prefix, out=no(3), then=no(3), works=(), finish=None, more=()):
    seq('bare 00h: ' + name, prefix + c(0x00) + list(more), address=ok, works=works, out=out, then=then, finish=finish)


bare('register of LUN 1', KEEP + S70, byte(0x53), byte(0x54))
bare('register of LUN 1, bytes taken, the status read', KEEP + o(4) + S70 + o(2), byte(0x57), byte(0x58))
bare('register, the last byte', FF + read(5, 0x0F) + f(1) + S70, byte(0x5F), no(8))
bare('register, used up', FF + read(5, 0x0F) + f(1) + o() + S70, no(8))
bare('register of a working LUN', FF + read(5, 3) + S70, no(5), works=(1,), finish={1: byte(0x53)})
bare('register, its LUN finished after it', FF + read(5, 3) + S70, byte(0x53), byte(0x54), more=f(1))
bare('register of LUN 0, LUN 1 works', FF + program(4, 0) + read(1, 6) + f(0) + look(0), byte(0x16), byte(0x17),
     works=(1,))
bare('behind 78h of its LUN', KEEP + look(7), byte(0x53), byte(0x54))
bare('behind 78h of another LUN', KEEP + look(3))
bare('parameter page, place 1', PAGE + o() + S70, byte(0x4E), byte(0x46))
bare('parameter page, place 767', PAGE + o(767) + S70, byte(crc_high), no(8))
bare('parameter page, all read', PAGE + o(768) + S70, no(8))
bare('IDs', IDS + S70, byte(0x2C), byte(0x68))
bare('IDs, used up', IDS + o(2) + S70, no(8))
bare('signature', SIGN + o(2) + S70, byte(0x46), byte(0x49))
bare('feature', FF + CLEAR_ON + GET + S70, byte(0x40), byte(0x00))
bare('line low', FF + p(0) + KEEP[1:] + S70, byte(0x53), byte(0x54))
bare('bench refusals between', KEEP + S70, byte(0x53), byte(0x54), more=refused(p(0) + p(1), 11) + refused(f(1),
     10) + refused(BAD, 12))
bare('status, and nothing before it', FF + S70)
bare('straight after output', KEEP + o())
bare('straight after the parameter page', PAGE)
bare('gone on with, and no status since', KEEP + S70 + c(0x00) + o())
seq('00h after a status, 1 address', KEEP + S70 + c(0x00) + a(0x00), address=only(ok))
seq('00h after a status, 1 address: 10h', KEEP + S70 + c(0x00) + a(0x10), address=no(4))
seq('00h after a status, 5 addresses', KEEP + S70 + c(0x00) + col(3) + row(5), READ)
idle('gone on with: plain output', KEEP + S70 + c(0x00) + o(), out=byte(0x54), then=byte(0x55))
idle('gone on with: used up', FF + read(5, 0x0F) + f(1) + S70 + c(0x00) + o(), out=no(8))
idle('gone on with: parameter page', PAGE + o(255) + S70 + c(0x00) + o(), out=byte(0x4F), then=byte(0x4E))
idle('gone on with: IDs', IDS + S70 + c(0x00) + o(), out=byte(0x68), then=no(8))
behind('gone on with, and kept again', KEEP + S70 + c(0x00) + o(2) + S70 + o() + look(5), byte(0x55))

# 78h decides at its third row cycle; inside its cycles no byte comes out.
seq('78h over a register, 0 addresses', KEEP + c(0x78), address=ok)
seq('78h over a register, 1 address', KEEP + S70 + c(0x78) + a(0x04), address=ok)
seq('78h over a register, 2 addresses', KEEP + c(0x78) + a(0x04, 0x00), address=only((ok, byte(0xE0))))
seq('78h over the parameter page, 2 addresses', PAGE + S70 + c(0x78) + a(0x00, 0x00), address=only((ok, byte(0xE0))))

# "With the parameter page open, or kept behind 70h, 05h moves within its 768 bytes instead, columns below 768." 0000h,
# 0100h, 0200h and 0400h are 0, 256, 512 and 1,024; 00FFh, 01FFh and 02FFh are 255, 511 and 767.
IN_PAGE = [ok, ok, ok] + [no(4)] * 5
seq('05h in the page, 0 addresses', PAGE + c(0x05), address=ok)
seq('05h in the page, 1 address: 00h', PAGE + c(0x05) + a(0x00), address=IN_PAGE)
seq('05h in the page, 1 address: FFh', PAGE + c(0x05) + a(0xFF), address=IN_PAGE)
seq('05h in the page, all read, 1 address', PAGE + o(768) + c(0x05) + a(0xFF), address=IN_PAGE)
seq('05h in the page, behind 70h, 1 address', PAGE + S70 + o() + c(0x05) + a(0xFF), address=IN_PAGE)
seq('05h in the page, behind 70h twice, 1 address', PAGE + S70 + S70 + c(0x05) + a(0x10), address=IN_PAGE)
seq('05h in the page, all read, behind 70h, 1 address', PAGE + o(768) + S70 + c(0x05) + a(0x00), address=IN_PAGE)
seq('05h in the page, gone on with, 1 address', PAGE + S70 + c(0x00) + o() + c(0x05) + a(0x00), address=IN_PAGE)
seq('05h behind 78h, 1 address: 00h', PAGE + look(0) + c(0x05) + a(0x00), address=only(ok))
seq('05h behind 78h, 1 address: FFh', PAGE + S70 + look(0) + c(0x05) + a(0xFF), address=no(4))
seq('05h after IDs, 1 address', IDS + c(0x05) + a(0xFF), address=no(4))
seq('05h behind 70h, a register kept, 1 address', KEEP + S70 + c(0x05) + a(0x10), address=no(4))
seq('05h after the page was lost, 1 address', PAGE + refused(a(0x00), 3) + c(0x05) + a(0xFF), address=no(4))
seq('05h in the page refused 4, and 05h again', PAGE + c(0x05) + a(0x00) + refused(a(0x03), 4) + c(0x05) + a(0x10),
    address=no(4))
seq('05h in the page, 2 addresses: 64', PAGE + c(0x05) + col(64), {0xE0: (ok, byte(0x2C))})
seq('05h in the page, 2 addresses: 576', PAGE + o(768) + c(0x05) + col(576), {0xE0: (ok, byte(0x2C))})
seq('05h in the page, 2 addresses: 767', PAGE + S70 + c(0x05) + col(767), {0xE0: (ok, byte(crc_high))})
seq('05h in the page, 2 addresses, line low', FF + p(0) + PAGE[1:] + S70 + c(0x05) + col(256), {0xE0: (ok, byte(0x4F))})
seq('05h behind 78h, 2 addresses: the register', KEEP + PAGE[1:] + look(4) + c(0x05) + col(4), {0xE0: (ok, byte(0x54))})
idle('page from 05h on, place 255', PAGE + c(0x05) + col(255) + c(0xE0), out=byte(crc_high), then=byte(0x4F))
idle('page from 05h on, place 767', PAGE + S70 + c(0x05) + col(767) + c(0xE0), out=byte(crc_high), then=no(8))
idle('page from 05h on, all read', PAGE + S70 + c(0x05) + col(767) + c(0xE0) + o(), out=no(8))
behind('page from 05h on', PAGE + c(0x05) + col(320) + c(0xE0) + S70, byte(0x2C))
# Without a page 05h is the register's, whose column is below P.
seq('05h in the page, then 05h of a register', PAGE + c(0x05) + col(767) + c(0xE0) + read(1, 2) + f(0) + c(0x05) +
    a(0x0F), address=only(ok))

# On B, which has no 78h.
part('B: as A, no options', 16, 0, 2, 2, 2, features=0x0002, optional=0x0000, counts={1: 2, 5: 1}, flags={1: 1})
idle('B: behind 70h', FF + read(5) + f(1) + c(0x70), out=byte(0xE0), then=byte(0xE0), protect=UP, resumed=byte(0x50))
seq('B: bare 00h', FF + read(5) + f(1) + o() + c(0x70) + c(0x00), address=ok, out=byte(0x51), then=byte(0x52))
idle('B: a refused 78h has lost it', FF + read(5) + f(1) + c(0x70) + refused(c(0x78), 1) + c(0x70), out=byte(0xE0),
     then=byte(0xE0), protect=UP)

# On T1 0210h is 528, a column of the parameter page and of no register.
part(*T1)
seq('T1: 05h in the page, 1 address: 10h', PAGE + c(0x05) + a(0x10), address=LOW)
seq('T1: 05h in the page, behind 70h, 1 address: 10h', PAGE + c(0x70) + c(0x05) + a(0x10), address=LOW)
seq('T1: 05h behind 78h, 1 address: 10h', PAGE + look(0) + c(0x05) + a(0x10), address=TEN)
seq('T1: 05h in the page, 2 addresses: 576', PAGE + c(0x05) + col(576), {0xE0: (ok, byte(0x2C))})

# On M P is 1,040, above 768: 0300h, 768, is a column of a register and of no parameter page.
part('M: 1024+16, 1 page, 1 block, 1 LUN', 1024, 16, 1, 1, 1, features=0x0100)
# Byte 1,024 of the array is 1,024 mod 251 = 20.
bare('M, register at 1,024', FF + read(0, 1024) + f(0) + S70, byte(20), byte(21))
bare('M, register at 1,039', FF + read(0, 1039) + f(0) + S70, byte(35), no(8))
case('polling: columns of the parameter page end at 768, those of a register at P')
run(FF + read(0) + f(0) + c(0x05) + col(768) + c(0xE0) + given(768 % 251) + c(0x05) + col(1039) + c(0xE0) + given(1039 % 251))
registers(*at(0, *[n % 251 for n in range(1040)]))
for poll in ([], S70, S70 + given(0xE0) + S70):
    run(PAGE[1:] + poll + c(0x05) + col(767) + c(0xE0) + given(PART['page'][255]))
    run(PAGE[1:] + poll + c(0x05) + a(0x00) + refused(a(0x03), 4))
    run(PAGE[1:] + poll + c(0x05) + a(0x0F) + refused(a(0x04), 4))
run(PAGE[1:] + look(0) + c(0x05) + col(768) + c(0xE0) + given(768 % 251))
run(PAGE[1:] + look(0) + c(0x05) + a(0x10) + refused(a(0x04), 4))
kept()

# ---------------------------------------------------------------------------------------------------------------------
# Cases of A2 on A.
part('A: 16+0, 2 pages, 2 blocks, 2 LUNs, all options', 16, 0, 2, 2, 2, counts={1: 2, 5: 1}, flags={1: 1})
case('polling: a page, the parameter page, IDs and the feature, byte by byte')
run(FF + CLEAR_ON + read(5, 1) + c(0x70) + given(0x80, 0x80) + f(1) + given(0xE0) + c(0x00))
registers(*at(16, *page_of(5)))
run(given(*range(0x51, 0x58)) + c(0x70) + given(0xE0) + c(0x70) + c(0x00) + given(*range(0x58, 0x60)) + refused(o(),
    8) + refused(o(), 3))
run(c(0xEC) + a(0x00))
for n in range(0, 768, 32):
    run(given(*[PART['page'][k % 256] for k in range(n, n + 32)]) + c(0x70) + given(0xE0) + c(0x00))
run(refused(o(), 8) + refused(o(), 3))
run(c(0x90) + a(0x20) + given(0x4F) + c(0x70) + given(0xE0) + c(0x00) + given(0x4E) + c(0x70) + c(0x00) + given(0x46,
    0x49) + refused(o(), 8))
run(c(0x90) + a(0x00) + c(0x70) + c(0x00) + given(0x2C) + c(0x70) + c(0x00) + given(0x68) + c(0x70) + c(0x00) +
    refused(o(), 8))
run(GET + c(0x70) + c(0x00) + given(0x40) + c(0x70) + c(0x00) + given(0, 0, 0) + refused(o(), 8))
kept()

case('polling: 05h in the parameter page')
run(FF + c(0xEC) + a(0x00))
for n in (0, 1, 3, 15, 16, 64, 80, 110, 254, 255, 256, 257, 320, 511, 512, 576, 766, 767):
    run((c(0x70) if n % 3 == 0 else []) + c(0x05) + col(n) + c(0xE0) + given(PART['page'][n % 256]))
run(c(0x05) + a(0x00) + refused(a(0x03), 4) + c(0x05) + a(0x10) + refused(a(0x00), 4))
for x in (768, 769, 1023, 1024, 0xFFFF):
    run(c(0xEC) + a(0x00) + c(0x05) + a(x % 256) + refused(a(x // 256), 4) + refused(c(0xE0), 3))
    run(c(0xEC) + a(0x00) + c(0x70) + c(0x05) + a(x % 256) + refused(a(x // 256), 4) + refused(o(), 3))
run(c(0xEC) + a(0x00) + c(0x05) + refused(c(0xE0), 3) + c(0xEC) + a(0x00) + c(0x05) + col(1) + refused(a(0), 3))
run(c(0xEC) + a(0x00) + c(0x05) + col(1) + refused(o(), 3) + c(0xEC) + a(0x00) + c(0x70) + c(0x00) + refused(c(0x05),
    3) + c(0x70) + c(0x00) + refused(o(), 3))
kept()

# "Any other first command .. loses it, since the memory counts as output, and then it is 3."
case('polling: each first command but 70h, 78h and 00h loses it')
run(FF + read(1) + f(0))
registers(*at(0, *page_of(1)))
for word in (c(0x06) + col(0) + row(0), c(0x60) + row(0)):
    run(c(0x05) + col(2) + c(0xE0) + given(0x12) + c(0x70) + word + refused(c(0x00), 3) + c(0x70) + given(0xE0) +
        c(0x00) + refused(o(), 3))
for word in (c(0x90) + a(0x00), c(0x90) + a(0x20), c(0xEC) + a(0x00), GET):
    run(c(0x05) + col(2) + c(0xE0) + given(0x12) + c(0x70) + word + refused(c(0x30), 3) + c(0x70) + given(0xE0) +
        c(0x00) + refused(o(), 3))
for word in (CLEAR_ON, c(0x05) + col(0) + c(0xE0) + refused(a(0), 3), erase(4) + f(1) + look(0)):
    run(c(0x05) + col(2) + c(0xE0) + given(0x12) + c(0x70) + word + c(0x70) + given(0xE0) + c(0x00) + refused(o(), 3))
array(times(32, 64, 0xFF))
counts('5:00')
kept()

case('polling: 13 keeps it')
run(FF + read(5, 3) + f(1) + c(0x70))
registers(*at(16, *page_of(5)))
lengths(counts=1)
run(refused(FF + c(0x00) + o() + f(0) + p(1) + BAD, 13))
lengths()
run(c(0x00))
lengths(array=-1)
run(refused(a(0) + o() + c(0x30), 13))
lengths()
run(given(0x53, 0x54))
kept()

# What is kept is an output of its own, in the same ranges, and never a status.
case('13: what is kept behind a status')
GO_ON = given(0xE0) + c(0x00)
bad('kept register column', 17)
bad('kept register column', 0xFFFF)
fine('kept register column', 16, GO_ON + refused(o(), 8))
fine('kept register column', 15, GO_ON + given(0xFF) + refused(o(), 8))
bad('kept register LUN', 2)
bad('kept register LUN', 0xFFFF)
fine('kept register LUN', 1, GO_ON + given(0xFF))
fine('kept register LUN', 1, look(0) + GO_ON + refused(o(), 3))
bad('kept parameter place', 769)
fine('kept parameter place', 768, GO_ON + refused(o(), 8))
fine('kept parameter place', 767, GO_ON + given(PART['page'][255]) + refused(o(), 8))
fine('kept parameter place', 768, c(0x05) + col(576) + c(0xE0) + given(0x2C))
bad('kept status LUN', 0)
bad('kept status LUN', 1)
bad('kept status LUN', 2)
bad('kept ID place', 3)
fine('kept ID place', 2, GO_ON + refused(o(), 8))
fine('kept ID place', 1, GO_ON + given(0x68))
bad('kept signature place', 5)
fine('kept signature place', 4, GO_ON + refused(o(), 8))
fine('kept signature place', 3, GO_ON + given(0x49))
bad('kept feature place', 5)
fine('kept feature place', 4, GO_ON + refused(o(), 8))
fine('kept feature place', 0, GO_ON + given(0, 0, 0, 0))

# 05h within the page: its whole column is below 768.
case('13: 05h within the parameter page')
bad('05h column in the page', 768)
bad('05h column in the page', 0xFFFF)
fine('05h column in the page', 767, c(0xE0) + given(PART['page'][255]) + refused(o(), 8))
fine('05h column in the page', 16, c(0xE0) + given(PART['page'][16]))

# ---------------------------------------------------------------------------------------------------------------------
# A4, page order. "If feature bit 2 is 0, a 10h for a page lower than some page of that block with count above 0 does not
# proceed and gives FAIL, as a full count does. The same page again is allowed up to its count." No refusal: 10h is
# accepted, and the LUN works. Parts A, E, H and I have the bit set, so that their pages go in any order; the others
# have it clear.
#
# Part U: 16+0 bytes, 4 pages, 2 blocks, 2 LUNs, bit 2 clear. Rows 0 to 3 and 4 to 7 are LUN 0's blocks, 8 to 11 and 12 to
# 15 LUN 1's, and row r is the array's page r. Lent counts: row 6 has had one program of two, row 11 both. The block of
# rows 12 to 15 is bad.
U = ('U: 16+0, 4 pages, 2 blocks, 2 LUNs, pages upward', 16, 0, 4, 2, 2, 2, 0x0102, 0x005C, {6: 1, 11: 2}, {3: 1})
part(*U)
E0, E1 = byte(0xE0), byte(0xE1)


def order(name, prefix, seventy, lun=0):
    """What the status is after a program, and while it works."""
    idle('%s, working' % name, FF + prefix, seventy=byte(0x80), works=(lun,))
    idle(name, FF + prefix + f(lun), seventy=seventy)


seq('U: 80h of a page below a written one', FF + c(0x80) + col(0x0E) + row(5) + i(0x55), PUT, data=ok)
seq('U: 80h of a page below a written one, line low', FF + p(0) + c(0x80) + col(0x0E) + row(5), {0x10: no(7), 0x85: ok}, data=ok)
seq('U: 80h of a page below a written one, at the end', FF + c(0x80) + col(0x0F) + row(5) + i(0x55), PUT, data=no(8))
# Counts that were lent are counts.
order('U: page 0, page 2 written', program(4, 0, 0x00), E1)
order('U: page 1, page 2 written', program(5, 0, 0x00), E1)
order('U: page 2 again', program(6, 0, 0x00), E0)
order('U: page 3, page 2 written', program(7, 0, 0x00), E0)
order('U: page 0, page 3 full', program(8, 0, 0x00), E1, 1)
order('U: page 2, page 3 full', program(10, 0, 0x00), E1, 1)
order('U: page 3, full', program(11, 0, 0x00), E1, 1)
order('U: page 0 of a bad block', program(12, 0, 0x00), E1, 1)
order('U: page 0, with no data', program(4, 0), E1)
# "Of that block": neither the next block's pages nor those of the block before, nor another LUN's.
order('U: page 3 of a block, the next one written', program(3, 0, 0x00), E0)
order('U: page 0 of a block, the next one written', program(0, 0, 0x00), E0)
order('U: page 0, the block of the other LUN written', program(8, 0) + f(1) + program(0, 0), E0)
# Upward, with pages left out, and back.
order('U: pages 0, 1', program(0, 0) + f(0) + program(1, 0), E0)
order('U: pages 0, 2', program(0, 0) + f(0) + program(2, 0), E0)
order('U: pages 0, 3', program(0, 0) + f(0) + program(3, 0), E0)
order('U: pages 0, 2, 1', program(0, 0) + f(0) + program(2, 0) + f(0) + program(1, 0), E1)
order('U: pages 0, 2, 0', program(0, 0) + f(0) + program(2, 0) + f(0) + program(0, 0), E1)
order('U: pages 0, 2, 2', program(0, 0) + f(0) + program(2, 0) + f(0) + program(2, 0), E0)
order('U: pages 0, 2, 2, 2', program(0, 0) + f(0) + program(2, 0) + f(0) + program(2, 0) + f(0) + program(2, 0), E1)
order('U: pages 0, 2, 1, 3', program(0, 0) + f(0) + program(2, 0) + f(0) + program(1, 0) + f(0) + program(3, 0), E0)
order('U: pages 3, 0', program(3, 0) + f(0) + program(0, 0), E1)
# A program that did not proceed, and one that was given up or refused 7, leave the counts as they are.
order('U: page 3 of a bad block, then page 0 of the block before', program(15, 0) + f(1) + program(9, 0), E1, 1)
order('U: page 1 given up, page 0', c(0x80) + col(0) + row(1) + i(0) + refused(c(0x30), 3) + program(0, 0), E0)
order('U: page 1 refused 7, page 0', p(0) + c(0x80) + col(0) + row(1) + refused(c(0x10), 7) + p(1) + program(0, 0), E0)
# D0h sets the block's counts to 0; the other block's stay.
order('U: erased, then page 0', erase(5) + f(0) + program(4, 0), E0)
order('U: the other block erased, then page 0', erase(0) + f(0) + program(4, 0), E1)
order('U: a page written after an erase, and one below', erase(4) + f(0) + program(5, 0) + f(0) + program(4, 0), E1)
# FAIL is told as ever: when ready, by 70h and 78h, afresh by each work, 0 after FFh; the counts stay at FFh.
idle('U: out of order, status open', FF + program(5, 0) + c(0x70), seventy=byte(0x80), out=byte(0x80), then=byte(0x80), works=(0,), finish={0: E1})
idle('U: out of order, failed, status open', FF + program(5, 0) + f(0) + look(0), seventy=E1, out=E1, then=E1, protect=FAILED)
idle('U: out of order, line low', FF + program(5, 0) + f(0) + p(0), seventy=byte(0x61))
idle('U: out of order, then read', FF + program(5, 0, 0x00) + f(0) + read(5) + f(0), out=byte(0x50), then=byte(0x51))
idle('U: out of order, then FFh', FF + program(5, 0) + FF)
idle('U: out of order, FFh, and again', FF + program(5, 0) + FF + program(5, 0) + f(0), seventy=E1)
idle('U: out of order, the other LUN selected', FF + program(5, 0) + f(0) + look(8), out=E0, then=E0, protect=UP)
# "A 10h" is a copyback's too; it closes the copyback, as one that fails on a bad block does.
order('U: copyback, page 1, page 2 written', copyback(6) + f(0) + copied(5, 0), E1)
order('U: copyback, page 0, a move and data', copyback(0) + f(0) + c(0x85) + col(0) + row(4) + c(0x85) + col(3) + i(0) + c(0x10), E1)
order('U: copyback, page 2 again', copyback(6) + f(0) + copied(6, 0), E0)
order('U: copyback, page 3, page 2 written', copyback(6) + f(0) + copied(7, 0), E0)
order('U: copyback, to the other block', copyback(6) + f(0) + copied(0, 0), E0)
copies('U: closed by a 10h out of order', FF + copyback(6) + f(0) + copied(5, 0) + f(0), no(14), 5)
copies('U: open, page 1, page 2 written', FF + copyback(6) + f(0), ok, 5)

# Part V: the same with bit 2 set, "any order".
V = ('V: as U, pages in any order', 16, 0, 4, 2, 2, 2, 0x0106, 0x005C, {6: 1, 11: 2}, {3: 1})
part(*V)
order('V: page 0, page 2 written', program(4, 0, 0x00), E0)
order('V: page 1, page 2 written', program(5, 0, 0x00), E0)
order('V: page 2, page 3 full', program(10, 0, 0x00), E0, 1)
order('V: page 3, full', program(11, 0, 0x00), E1, 1)
order('V: page 0 of a bad block', program(12, 0, 0x00), E1, 1)
order('V: pages 3, 1, 0, 2', program(3, 0) + f(0) + program(1, 0) + f(0) + program(0, 0) + f(0) + program(2, 0), E0)
order('V: pages 3, 1, 1, 1', program(3, 0) + f(0) + program(1, 0) + f(0) + program(1, 0) + f(0) + program(1, 0), E1)
order('V: copyback, page 1, page 2 written', copyback(6) + f(0) + copied(5, 0), E0)

# ---------------------------------------------------------------------------------------------------------------------
# A4, on U: "does not proceed": array and count stay. The register stays as data in left it.
part(*U)
case('page order: a page below a written one stays, and FAIL')
run(FF + program(3, 0, 0x0F) + f(0) + c(0x70) + given(0xE0))
array(*at(48, 0x30 & 0x0F))
counts('3:01')
registers(times(32, 0, 0xFF), *at(0, 0x0F))
kept()
run(program(1, 2, 0x00) + c(0x70) + given(0x80) + f(0) + given(0xE1))
registers(*at(0, 0xFF, 0xFF, 0x00))
kept()
run(program(0, 0) + f(0) + c(0x70) + given(0xE1) + program(2, 0, *[0x00] * 16) + f(0) + c(0x70) + given(0xE1))
registers(times(16, 0, 0x00))
kept()
# The same page again, up to its count; page 3 of the block below has no page above it in its block.
run(program(3, 1, 0x00) + f(0) + c(0x70) + given(0xE0))
array(*at(49, 0x00))
counts('3:02')
registers(times(16, 0, 0xFF), *at(1, 0x00))
kept()
run(program(3, 2, 0x00) + f(0) + c(0x70) + given(0xE1))
registers(*at(1, 0xFF, 0x00))
kept()
# The next block's page 2 was lent with a count of 1.
run(program(5, 0, 0x00) + f(0) + c(0x70) + given(0xE1) + program(6, 0, 0x00) + f(0) + c(0x70) + given(0xE0))
array(*at(96, 0x00))
counts('6:02')
registers(times(16, 0, 0xFF), *at(0, 0x00))
kept()
# An erase makes its block new, and no other.
run(erase(2) + f(0) + program(1, 0, 0x12) + f(0) + c(0x70) + given(0xE0) + program(0, 0, 0x00) + f(0) + c(0x70) + given(0xE1))
array(times(64, 0, 0xFF), *at(16, 0x12))
counts('3:00', '1:01')
kept()
run(program(4, 0, 0x00) + f(0) + c(0x70) + given(0xE1))
kept()

case('page order: upward, pages left out, two LUNs')
run(FF + CLEAR_ON + erase(8) + f(1) + program(8, 0, 0x00) + program(0, 0, 0x01) + f(0, 1) + program(10, 0, 0x02) + program(2, 0, 0x03))
array(times(64, 128, 0xFF), *at(0, 0x00 & 0x01), *at(32, 0x20 & 0x03), *at(128, 0x00), *at(160, 0x02))
counts('B:00', '0:01', '2:01', '8:01', 'A:01')
registers(times(32, 0, 0xFF), *at(0, 0x03), *at(16, 0x02))
kept()
run(look(8) + given(0x80) + f(1) + given(0xE0) + f(0) + look(0) + given(0xE0))
run(program(9, 0, 0x00) + program(3, 0, 0x00) + f(1) + look(8) + given(0xE1) + f(0) + look(0) + given(0xE0))
array(*at(48, 0x00))
counts('3:01')
registers(times(32, 0, 0xFF), *at(0, 0x00), *at(16, 0x00))
kept()

case('page order: a copyback downward stays, gives FAIL and is closed')
run(FF + copyback(6) + f(0) + copied(5, 1, 0x00) + c(0x70) + given(0x80) + f(0) + given(0xE1))
registers(times(16, 16, 0xFF), *at(0, *page_of(6)), *at(1, 0x00))
kept()
run(c(0x85) + col(0) + a(7, 0) + refused(a(0), 14))
kept()
run(copyback(6) + f(0) + copied(7, 1, 0x00) + f(0) + c(0x70) + given(0xE0))
array(*at(112, *[x & y for x, y in zip(page_of(7), [0x60, 0x00, *range(0x62, 0x70)])]))
counts('7:01')
kept()
run(copyback(7) + f(0) + copied(6, 0) + f(0) + c(0x70) + given(0xE1))
registers(*at(0, *[x & y for x, y in zip(page_of(7), [0x60, 0x00, *range(0x62, 0x70)])]))
kept()

# The word in the record is looked at, and at each 10h.
case('page order: the feature word of the record')
fine('features', 0x0102, program(5, 0, 0x00) + f(0) + c(0x70) + given(0xE1))
fine('features', 0x0106, program(5, 0, 0x00) + f(0) + c(0x70) + given(0xE0))
fine('features', 0xFFFA, program(5, 0, 0x00) + f(0) + c(0x70) + given(0xE1))
fine('features', 0x0006, program(5, 0, 0x00) + f(0) + c(0x70) + given(0xE0))
fine('80h row', 5, c(0x10) + f(0) + c(0x70) + given(0xE1))
fine('85h row', 5, a(0) + i(0) + c(0x10) + f(0) + c(0x70) + given(0xE1))
fine('copyback row', 5, c(0x10) + f(0) + c(0x70) + given(0xE1))
fine('copyback row', 7, c(0x10) + f(0) + c(0x70) + given(0xE0))

part(*V)
case('page order: any order, where feature bit 2 is set')
run(FF + program(3, 0, 0x0F) + f(0) + program(1, 2, 0x00) + c(0x70) + given(0x80) + f(0) + given(0xE0))
array(*at(48, 0x30 & 0x0F), *at(18, 0x00))
counts('3:01', '1:01')
registers(times(32, 0, 0xFF), *at(2, 0x00))
kept()
run(copyback(6) + f(0) + copied(4, 0) + f(0) + c(0x70) + given(0xE0))
array(*at(64, *[x & y for x, y in zip(page_of(4), page_of(6))]))
counts('4:01')
registers(*at(0, *page_of(6)))
kept()

# ---------------------------------------------------------------------------------------------------------------------
# A7, on U, where a LUN has 2 blocks: "Keep the number in the LUN record from power-on." A run gives it 0 to blocks, and
# 0 to a LUN past the count. LUN 0's first block (rows 0 to 3) is blank, its second (row 6 written) is not; LUN 1 has
# none: row 11 is written, and rows 12 to 15 are bad. The table has no word for the number itself: rule 13 shows it.
part(*U)
READY, FAILS = c(0x70) + given(0xE0), c(0x70) + given(0xE1)
ZERO, ONE, TWO = 'blank blocks of LUN 0', 'blank blocks of LUN 1', 'blank blocks of LUN 2'
case('13: blank blocks')
for name in (ZERO, ONE):
    bad(name, 3)
    bad(name, 0xFFFF)
    for number in (0, 1, 2):
        fine(name, number, READY + FF + READY)
bad(TWO, 1)
bad(TWO, 2)
bad(TWO, 3)
fine(TWO, 0, READY)

# "A lent record .. may make it untrue: it then stops at 0 and at blocks, and the record passes 13": a number that went
# on would make 13 of all that comes after.
case('blank blocks: an untrue number stops at 0 and at blocks')
fine(ZERO, 0, program(0, 0) + c(0x70) + given(0x80) + f(0) + given(0xE0))
fine(ZERO, 0, copyback(6) + f(0) + copied(0, 0) + f(0) + READY)
fine(ZERO, 2, erase(4) + c(0x70) + given(0x80) + f(0) + given(0xE0))
fine(ONE, 2, erase(8) + c(0x70) + given(0x80) + f(1) + given(0xE0))
# From 0: 0, 1, 2, 1; from 0: 1, 0, 0; from 2: 2, 1, 2, 1.
fine(ZERO, 0, program(0, 0) + f(0) + erase(0) + f(0) + erase(4) + f(0) + program(4, 0) + f(0) + READY)
fine(ZERO, 0, erase(4) + f(0) + program(0, 0) + f(0) + program(4, 0) + f(0) + READY)
fine(ZERO, 2, erase(5) + f(0) + program(7, 0) + f(0) + erase(6) + f(0) + program(3, 0) + f(0) + READY)
# What does not proceed, a bad block, a full page, a page out of order; the other LUN's number; FFh.
fine(ONE, 2, erase(12) + f(1) + FAILS)
fine(ONE, 0, program(12, 0) + f(1) + FAILS + program(11, 0) + f(1) + FAILS)
fine(ZERO, 0, program(5, 0) + f(0) + FAILS)
fine(ONE, 0, program(0, 0) + f(0) + FF + READY)
fine(ZERO, 2, erase(8) + FF + READY)

# ---------------------------------------------------------------------------------------------------------------------
# Wrong on purpose, so that the program shows that it compares: eleven expectations here are wrong, of each kind at
# least one.
line('W', ['expectations that are wrong'])
power(24)
power(0)
line('I', ['00FF=0203', '0070=0000', '0300=01E1', '0080=01xx'])
cells(c(0xFF) + c(0x05) + a(0x00), [(no(3), no(3)), (no(3), ok), (ok, no(3))])
array(*at(17, 18))
registers(*at(3, 0x00))
counts('1:01')
kept()
line('D', ['00', '33'])
line('E', ['02', '03'])
line('Y', ['4:10'])

ROOT = os.path.dirname(os.path.dirname(os.path.dirname(os.path.abspath(__file__))))
each = len(COMMANDS) + len(UNKNOWN) + len(ADDRESSES) + len(DATA) + 1 + len(FINISHES) + 2 + len(BAD)
ends = [start for _, start in FILES[1:]] + [len(OUT)]
for (name, start), end in zip(FILES, ends):
    text = '\n'.join(OUT[start:end]) + '\n'
    assert len(text) <= 524288, 'the program can hold no such file'
    path = os.path.join(ROOT, 'crates', 'test_table', 'data', name)
    if sys.argv[1:] == ['--check']:
        with open(path) as stored:
            if stored.read() != text:
                sys.exit('crates/test_table/data/%s is not what this script writes' % name)
        continue
    with open(path, 'w') as out:
        out.write(text)
    print(name, len(text), 'bytes', end - start, 'lines', file=sys.stderr)
print(len(STATES), 'states,', len(STATES) * each, 'cells', file=sys.stderr)
