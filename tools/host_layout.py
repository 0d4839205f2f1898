#!/usr/bin/env python3
"""What the prover and its compiler have of the exported record and functions, as a C header for tests/c/layout.c.

    python3 tools/host_layout.py nib_ crates/host/out/rlib/host.rlib host.ll [RLIB MODULE..] > layout.h

The first library has the record; the functions of all are told. Three sources that `rt` wrote, and they must agree:

- the proved library's interface (host.rlib/lang/src): the names of the record's fields, in order, and the functions'
  types;
- the proved MIR (host.rlib/toolchain/mir.json), which the proofs are about: how wide each field is;
- the LLVM module that was compiled: how large the record is, and the place and width of each store that makes one.

Places are computed from the first two by C's rules, as `#[repr(C)]` asks, and held to the third.
"""
import json
import os
import re
import sys

BITS = {'i8': 1, 'i16': 2, 'i32': 4, 'i64': 8}
WIDTHS = {'u8': 1, 'u16': 2, 'u32': 4, 'u64': 8, 'usize': 8}
C_TYPES = {'': 'void', 'u8': 'uint8_t', 'u16': 'uint16_t', 'u32': 'uint32_t', 'u64': 'uint64_t', 'usize': 'size_t'}


def fail(why):
    sys.exit('host_layout: ' + why)


def interface(rlib):
    """All of the interface's text, one space between words."""
    text = []
    for folder, _, names in sorted(os.walk(os.path.join(rlib, 'lang', 'src'))):
        for name in sorted(names):
            if name.endswith('.rt'):
                with open(os.path.join(folder, name), encoding='utf-8') as file:
                    text.append(file.read())
    return ' '.join(' '.join(text).split())


def functions(text, prefix):
    """The exported functions: name -> (parameters as (name, type), result)."""
    found = {}
    pattern = r'# \[ unsafe \( no_mangle \) \] pub extern "C" fn (%s\w+) \(([^()]*)\)(?: -> (\w+))?' % re.escape(prefix)
    for name, inside, result in re.findall(pattern, text):
        parameters = [part.strip().split(' : ', 1) for part in inside.split(' , ') if part.strip(' ,')]
        found[name] = ([(n, t.strip(' ,')) for n, t in parameters], result)
    if not found:
        fail('no exported function begins with ' + prefix)
    return found


def record_name(exported):
    """The one struct that the exported functions are lent."""
    names = set()
    for parameters, _ in exported.values():
        for _, kind in parameters:
            lent = re.fullmatch(r'& (?:mut )?(\w+)', kind)
            if lent:
                names.add(lent.group(1))
    if len(names) != 1:
        fail('the exported functions are lent these records, and one is looked for: %s' % sorted(names))
    return names.pop()


def fields_of(text, name):
    """The record's fields as (name, element type, how many or None)."""
    found = re.search(r'# \[ repr \( C \) \] (?:# \[ [^]]* \] )*pub struct %s \{ (.*?) \}' % name, text)
    if not found:
        fail('no #[repr(C)] struct ' + name)
    fields = []
    for field, one, element, many in re.findall(r'pub (\w+) : (?:(\w+)|\[ (\w+) ; (\d+) \]) ,', found.group(1) + ' ,'):
        kind = one or element
        if kind not in WIDTHS:
            fail('%s.%s is a %s, which is no plain number' % (name, field, kind))
        fields.append((field, kind, int(many) if many else None))
    if len(fields) != found.group(1).count('pub '):
        fail('a field of %s was not understood' % name)
    return fields


def shapes_below(value, name):
    """Each shape that the record has in a part of the MIR, as text."""
    if isinstance(value, dict):
        if str(value.get('name', '')).split('::')[-1] == name and 'Fields' in (value.get('shape') or {}):
            yield json.dumps(value['shape']['Fields'])
        value = list(value.values())
    if isinstance(value, list):
        for below in value:
            yield from shapes_below(below, name)


def shape_in_mir(rlib, name):
    """The record's fields in the proved MIR, as (bytes, how many or None)."""
    with open(os.path.join(rlib, 'toolchain', 'mir.json'), encoding='utf-8') as file:
        shapes = set(shapes_below(json.load(file), name))
    if len(shapes) != 1:
        fail('%d shapes of %s in the MIR' % (len(shapes), name))
    widths = []
    for field in json.loads(shapes.pop()):
        many = None
        if isinstance(field, dict) and 'Array' in field:
            field, many = field['Array'][0], field['Array'][1]['Lit']
        if not (isinstance(field, dict) and 'Int' in field):
            fail('%s has a field in the MIR that is no plain number: %s' % (name, field))
        widths.append((field['Int'] // 8, many))
    return widths


def c_layout(fields):
    """Places by C's rules: each field at the next multiple of its alignment, the whole a multiple of the largest."""
    at, largest, places = 0, 1, []
    for name, kind, many in fields:
        width = WIDTHS[kind]
        at = -(-at // width) * width
        places.append((name, at, width * (many or 1)))
        at += width * (many or 1)
        largest = max(largest, width)
    return places, -(-at // largest) * largest, largest


def check_exports(module, exported):
    """The exports ask nothing of a pointer: no nonnull, no dereferenceable, no noalias. So NULL with length 0 is a
    pointer like another."""
    for name in exported:
        line = re.search(r'^define .*@%s\((.*)\)' % name, module, re.M)
        if not line:
            fail('the module does not export ' + name)
        for word in ('nonnull', 'dereferenceable', 'noalias', 'align'):
            if re.search(r'\b' + word, line.group(1)):
                fail('%s asks %s of a pointer, and the header does not say so' % (name, word))


def stores_of(body, size):
    """Each local of the record's size in a function: the set of (place, width) that is stored into it."""
    locals_ = {n: set() for n in re.findall(r'(%%\w+) = alloca \[%d x i8\]' % size, body)}
    places = {n: (n, 0) for n in locals_}
    for line in body.splitlines():
        step = re.search(r'(%\w+) = getelementptr i8, ptr (%\w+), i64 (\d+)', line)
        if step and step.group(2) in places:
            base, at = places[step.group(2)]
            places[step.group(1)] = (base, at + int(step.group(3)))
        store = re.search(r'store (i\d+) [^,]+, ptr (%\w+)', line)
        if store and store.group(2) in places:
            base, at = places[store.group(2)]
            locals_[base].add((at, BITS[store.group(1)]))
        move = re.search(r'memmove[^(]*\(ptr (%\w+), ptr %\w+, i64 (\d+)', line)
        if move and move.group(1) in places:
            base, at = places[move.group(1)]
            locals_[base].add((at, int(move.group(2))))
    return locals_


def check_module(module, places, size):
    """A record is made in the module by stores at just these places, of just these widths: how many times."""
    wanted = {(at, width) for _, at, width in places}
    made = 0
    for body in re.findall(r'^define .*?^}', module, re.M | re.S):
        for stored in stores_of(body, size).values():
            made += stored == wanted
    if not made:
        fail('no function of the module stores a record of %d bytes at the places that C gives it' % size)
    return made


def prototype(name, parameters, result, record):
    words = []
    for parameter, kind in parameters:
        if kind == '& mut ' + record:
            words.append('nib_target *')
        elif kind == '& ' + record:
            words.append('const nib_target *')
        elif kind == '& mut [ u8 ]':
            words.append('uint8_t *, size_t')
        elif kind == '& [ u8 ]':
            words.append('const uint8_t *, size_t')
        elif kind == '& [ usize ]':
            words.append('const size_t *, size_t')
        elif kind == '& mut [ usize ]':
            words.append('size_t *, size_t')
        elif kind == '& mut [ u64 ]':
            words.append('uint64_t *, size_t')
        elif kind in C_TYPES:
            words.append(C_TYPES[kind])
        else:
            fail('%s: parameter %s is a %s' % (name, parameter, kind))
    return '%s %s(%s);' % (C_TYPES[result], name, ', '.join(words) or 'void')


def main():
    if len(sys.argv) < 4 or len(sys.argv) % 2:
        sys.exit(__doc__)
    prefix, rlib, module_file = sys.argv[1:4]
    text = interface(rlib)
    exported = functions(text, prefix)
    record = record_name(exported)
    fields = fields_of(text, record)
    if [(WIDTHS[kind], many) for _, kind, many in fields] != shape_in_mir(rlib, record):
        fail('the interface and the MIR differ on ' + record)
    places, size, alignment = c_layout(fields)
    with open(module_file, encoding='utf-8') as file:
        module = file.read()
    check_exports(module, exported)
    made = check_module(module, places, size)
    for rlib, module_file in zip(sys.argv[4::2], sys.argv[5::2]):
        more = functions(interface(rlib), prefix)
        with open(module_file, encoding='utf-8') as file:
            check_exports(file.read(), more)
        if set(more) & set(exported):
            fail('%s are exported twice' % sorted(set(more) & set(exported)))
        exported.update(more)

    print('/* Written by tools/host_layout.py from the proved libraries and their LLVM modules '
          '(%d places there make a record). */' % made)
    print('#define NIB_LAYOUT_SIZE %d' % size)
    print('#define NIB_LAYOUT_ALIGNMENT %d' % alignment)
    print('#define NIB_LAYOUT_FIELDS %d' % len(places))
    print('#define NIB_LAYOUT_FUNCTIONS %d' % len(exported))
    print('/* X(field, place, bytes) */')
    print('#define NIB_LAYOUT(X) \\')
    print(' \\\n'.join('    X(%s, %d, %d)' % place for place in places))
    print('#define NIB_LAYOUT_FUNCTIONS %d' % len(exported))
    print('/* The functions\' types; after nibtoggle.h the compiler refuses a difference. */')
    for name, (parameters, result) in sorted(exported.items()):
        print(prototype(name, parameters, result, record))


if __name__ == '__main__':
    main()
