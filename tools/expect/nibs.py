#!/usr/bin/env python3
"""The files of crates/test_nib/data, all but the scripts and `look`'s words: the folders and pages, the scripts'
traces, those of worked sequences, and a long trace with its text, by a reader and a writer of their own.

    python3 tools/expect/nibs.py            # writes them anew
    python3 tools/expect/nibs.py --check    # says whether they are so
"""
import os, random, sys

TOP = os.path.dirname(os.path.dirname(os.path.dirname(os.path.abspath(__file__))))
ROOT = os.path.join(TOP, 'crates')
DATA = os.path.join(ROOT, 'test_nib', 'data')
LOOK = 'c ff  c 00  a 00 00 01 00 00  c 30  f 0  o 16\nc 78  a 00 00 00  o 1\n'
NONE = ('c 80  a 00 00 0a 00 00  d 01 02  c 85  a 02 00  d 03  c 10  f 1\n'    # a program with a move
        'c 80  a 00 00 00 00 00  f 0  d 05 06 07  c 10\n'                      # a finish inside one
        'c 00  a 00  c 60  a 0e 00 00  c d0\n'                                 # a read that an erase cuts off; no block 3
        'c 00  a 10 00 00 00 00  c 30  c 78  a 10 00 00  o 1  o 16\n'          # no column 16; no LUN 2; 17 data outs
        'c 70  o 1  x 03 07  p 0  c 80  a 00 00 00\nx 05\n')                   # it ends inside a program, with an odd byte
FOLDS = ('c ff  c 80  a 00 00 0a 00 00  d 01  c ff\n'                                # one byte by itself
         'c 80  a 0e 00 0a 00 00  d 11 22 33 44\n'                                 # a refusal ends a run: 2 fit
         'c 80  a 00 00 0a 00 00  d 01 02 03 04 05 06 07 08 09 0a 0b 0c 0d 0e 0f 10  c 10\n'    # 16 bytes, all shown
         'c 78  a 0a 00 00  o 3  f 1  o 2  c 70  o 1  o 1\n'                         # statuses: the same, and others
         'c ec  a 00  o 17  c ec  a 00  o 768  o 1  c ec  a 00  o 768  c ec  a 00  o 768\n'    # more than 16; across pieces
         'c 90  a 20  o 4  c ee  a 01  o 4  o 1  c ef  a 01  d 40 00 00 00\n'       # signature, feature, and past its end
         'p 0  c 70  o 2  p 1  d 01  o 1  d 02  o 2')                              # line low; refused ones are not folded
ROWS = ('c ff  c 00  a 00 00 05 00 00  c ff  c 60  a 0b 00 00  c ff  c 80  a 00 00 03 00 00  c ff  c 78  a 0c 00 00  o 1\n'
        'c 06  a 00  c 00  a 00 00 ff ff ff  c 60  a 04 00 00  c d0  c 78  a 04 00 00  o 2  f 0  o 2\n')
KINDS = {'c': 0, 'a': 1, 'd': 2, 'f': 4, 'p': 5}
#: The jobs' words: first command, last command, and the values after the word.
JOBS = {'read': (0x00, 0x30, 'lun block page column'), 'read-out': (0x06, 0xE0, 'lun column count'),
        'program': (0x80, 0x10, 'lun block page column'), 'erase': (0x60, 0xD0, 'lun block'), 'status': (0x78, None, 'lun count')}


def crc(data):
    c = 0x4F4E
    for x in data:
        for k in range(7, -1, -1):
            bit = (c >> 15 ^ x >> k) & 1
            c = (c << 1) & 0xFFFF
            if bit:
                c ^= 0x8005
    return c


def page(luns, cycles):
    """Part TINY: 16-byte pages, 2 pages a block, 3 blocks, 2 LUNs, EEh/EFh and 78h, one program a page."""
    p = bytearray(256)
    p[0:4] = b'ONFI'
    p[6:10] = bytes([2, 1, 0x0C, 0])
    p[32:64] = b'NIBTOGGLE   TINY                '
    p[64], p[80], p[92], p[96], p[100], p[101], p[110] = 0x2C, 16, 2, 3, luns, cycles, 1
    p[254:256] = crc(p[:254]).to_bytes(2, 'little')
    return bytes(p)


def bad_page():
    """Part TINY's page with every rule of `nib check` broken: 513 data bytes, 3 pages a block, no LUN, no program, endurance 1 and 17."""
    p = bytearray(page(0, 0x23))
    p[80:84], p[92], p[105], p[106], p[110] = (513).to_bytes(4, 'little'), 3, 1, 17, 0
    p[254:256] = crc(p[:254]).to_bytes(2, 'little')
    return bytes(p)


def job(word, values):
    """A job's records on TINY, whose rows have one bit of page and two of block."""
    first, last, names = JOBS[word]
    names = names.split()
    at = dict(zip(names, map(int, values)))
    data = [int(value, 16) for value in values[len(names):]]
    row = (at['lun'] * 4 + at.get('block', 0)) * 2 + at.get('page', 0)
    address = [at['column'] & 255, at['column'] >> 8] if 'column' in at else []
    records = [(0, first)] + [(1, byte) for byte in address + [row & 255, row >> 8 & 255, row >> 16]]
    records += [(2, byte) for byte in data] + [(0, last)] * (last is not None) + [(3, 0)] * at.get('count', 0)
    return bytes(byte for record in records for byte in record)


def read(text):
    """Text to trace."""
    out = bytearray()
    for line in text.split('\n'):
        letter, values = None, []
        for word in line.split('#')[0].split() + ['c']:
            head = word in JOBS or word in tuple('cadofpx')
            if letter in JOBS and head:
                out += job(letter, values)
            if head:
                letter, values = word, []
            elif letter in JOBS:
                values.append(word)
            elif letter in 'cad':
                out += bytes([KINDS[letter], int(word, 16)])
            elif letter == 'o':
                out += bytes([3, 0]) * int(word)
            elif letter in 'fp':
                out += bytes([KINDS[letter], int(word)])
            else:
                out.append(int(word, 16))
    return bytes(out)


def write(records):
    """Trace to text: addresses and data in up to 16 a line, data outs in a row as one count, every other record on a
    line."""
    lines = []
    for kind, value in records:
        letter = {0: 'c', 1: 'a', 2: 'd', 4: 'f', 5: 'p'}.get(kind, 'x')
        letter = 'o' if (kind, value) == (3, 0) else letter
        said = {'f': '%d' % value, 'p': '%d' % value, 'x': '%02x %02x' % (kind, value)}.get(letter, '%02x' % value)
        room = {'a': 16, 'd': 16, 'o': 65535}.get(letter, 1)
        if lines and lines[-1][0] == letter and len(lines[-1]) <= room:
            lines[-1].append(said)
        else:
            lines.append([letter, said])
    return ''.join('o %d\n' % (len(l) - 1) if l[0] == 'o' else ' '.join(l) + '\n' for l in lines)


def worked(request, case):
    """A case of tests/sequences, on a part just reset: its trace."""
    text = open(os.path.join(TOP, 'tests', 'sequences', request + '.txt')).read()
    lines = text.split('\n# case %d:' % case)[1].split('\n# case ')[0].split('\n')
    return read('c ff\n' + '\n'.join(line for line in lines[1:] if not line.startswith('#')))


def many():
    every = [(k, v) for k in range(8) for v in range(256)]
    mixed = every[:]
    random.Random(8).shuffle(mixed)
    return every + mixed + [(3, 0)] * 40 + [(1, i) for i in range(33)] + [(2, i) for i in range(17)] + [(3, 0)]


def files():
    makers = open(os.path.join(ROOT, 'test_pages', 'data', 'makers'), 'rb').read()
    for name, count in (('tiny', 0), ('dark', 2)):
        yield name + '/page', page(2, 0x23)
        yield name + '/id', b'\x68'
        yield name + '/array', b'\xff' * 192
        yield name + '/counts', bytes([count] + [0] * 11)
        yield name + '/flags', bytes([0, 0, 1, 0, 0, 0])
    yield 'real_page', makers[:256]
    yield 'damaged_page', makers[256:512]
    yield 'wrong_page', page(7, 0x24)
    yield 'answer', makers[:256] * 3
    yield 'bad_answer', makers[256:512] + bad_page() + makers[:256]
    yield 'trace', read(open(os.path.join(DATA, 'script')).read())
    yield 'look', read(LOOK)
    yield 'job_trace', read(open(os.path.join(DATA, 'job_script')).read())
    yield 'no_jobs', read(NONE)
    yield 'cut_off', read('c 60  a 01 00 00  c d0  f 0  c 80  a 00 00 00')
    yield 'nothing', b''
    yield 'folds', read(FOLDS)
    yield 'rows', read(ROWS)
    yield 'copyback', worked('A1', 1)
    yield 'polling', worked('A2', 1)
    yield 'many', bytes(x for r in many() for x in r) + b'\x03'
    yield 'many_text', (write(many()) + 'x 03\n').encode()


wrong = 0
for name, data in files():
    path = os.path.join(DATA, name)
    if '--check' in sys.argv:
        if open(path, 'rb').read() != data:
            print(name, 'differs')
            wrong = 1
    else:
        os.makedirs(os.path.dirname(path), exist_ok=True)
        open(path, 'wb').write(data)
sys.exit(wrong)
