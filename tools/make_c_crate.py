#!/usr/bin/env python3
"""Writes the thin static library crate whose exports are those of the repository's libraries for hosts, so that C callers keep
one archive with every symbol: each exported function again, under its name and with its clauses, with a body that calls the
library's own.

    python3 tools/make_c_crate.py nib_c host nib_speech           at the top of the checkout: writes crates/nib_c/src/lib.rt
    python3 tools/make_c_crate.py --check nib_c host nib_speech   writes nothing; status 1 where the file is another one

What it reads: crates/LIBRARY/src/*.rt, the functions below `#[unsafe(no_mangle)]`, their comments, signatures and clauses, and of
the `ghost use` and `use` lines the words that these need. It prints the line of crates.txt.
"""
import os
import re
import sys

MARK = '#[unsafe(no_mangle)]'
HEAD = '''// The archive for C, Python and Rust hosts: each exported function of {libraries}, under its name and with its clauses.
// Written by tools/make_c_crate.py.
#![tactic(auto)]
'''
WORD = re.compile(r"[A-Za-z_][A-Za-z0-9_']*|◌[^◌\s,]+◌")


def exports(text):
    """Each exported function: its comment, its text from `pub` to before the body, its name, and its parameters' names."""
    lines = text.split('\n')
    for at, line in enumerate(lines):
        if line.strip() != MARK:
            continue
        above = at
        while above and lines[above - 1].startswith('//') and not lines[above - 1].startswith('// ----'):
            above -= 1
        end = next(k for k in range(at, len(lines)) if lines[k] == '{')
        head = lines[at + 1:end]
        whole = ' '.join(head)
        name = re.search(r'pub extern "C" fn (\w+)\(', whole).group(1)
        open_at = whole.index('(')
        deep, close = 0, open_at
        for close in range(open_at, len(whole)):
            deep += (whole[close] == '(') - (whole[close] == ')')
            if not deep:
                break
        names = re.findall(r'(\w+):', whole[open_at:close])
        yield lines[above:at], head, name, names


def uses(text, kind):
    """The words that a file brings in by `use` or `ghost use`: word -> its path."""
    found = {}
    for path, words in re.findall(r'^%suse ([\w.:]+?)(?:\.|::)\{([^}]*)\};' % kind, text, re.M | re.S):
        for word in words.split(','):
            if word.strip():
                found[word.strip()] = path
    for path, word in re.findall(r'^%suse ([\w.:]+)(?:\.|::)(\w+);' % kind, text, re.M):
        found[word] = path
    return found


def main():
    words = sys.argv[1:]
    check = words[:1] == ['--check']
    words = words[check:]
    if len(words) < 2 or not os.path.isfile('crates.txt'):
        sys.exit(__doc__)
    name, libraries = words[0], words[1:]
    ghosts, plain, bodies, crates, seen = {}, {}, [], list(libraries), {}
    for library in libraries:
        folder = os.path.join('crates', library, 'src')
        names = sorted(os.listdir(folder), key=lambda n: (n != 'lib.rt', n))
        for file_name in names:
            with open(os.path.join(folder, file_name), encoding='utf-8') as file:
                text = file.read()
            brought, types = uses(text, 'ghost '), uses(text, '')
            own = set(re.findall(r'^pub (?:struct|enum) (\w+)', text, re.M))
            module = [] if file_name == 'lib.rt' else [file_name[:-3]]
            for comment, head, function, parameters in exports(text):
                if function in seen:
                    sys.exit('%s is exported by %s and by %s' % (function, seen[function], library))
                seen[function] = library
                for word in WORD.findall('\n'.join(head)):
                    if word in brought:
                        if ghosts.setdefault(word, brought[word]) != brought[word]:
                            sys.exit('%s: %s is of %s and of %s' % (function, word, ghosts[word], brought[word]))
                        crate = re.match(r'Rattle\.(\w+)\.', brought[word])
                        if crate and crate.group(1) not in crates + ['std']:
                            crates.append(crate.group(1))
                    elif word in own:
                        plain[word] = '::'.join([library] + module)
                    elif word in types and word[:1].isupper():
                        plain[word] = types[word]
                call = '::'.join([library] + module + [function])
                bodies.append('\n'.join(comment + [MARK] + head + ['{', '    %s(%s)' % (call, ', '.join(parameters)), '}']))
    lines = []
    for path in sorted(set(ghosts.values()), key=lambda p: (p != 'Rattle.std.specs.Prelude', p)):
        lines.append('ghost use %s.{%s};' % (path, ', '.join(w for w in ghosts if ghosts[w] == path)))
    lines.append('')
    for path in sorted(set(plain.values())):
        held = sorted(w for w in plain if plain[w] == path)
        lines.append('use %s::%s;' % (path, held[0] if len(held) == 1 else '{%s}' % ', '.join(held)))
    text = HEAD.format(libraries=' and '.join(libraries)) + '\n' + '\n'.join(lines) + '\n\n' + '\n\n'.join(bodies) + '\n'
    path = os.path.join('crates', name, 'src', 'lib.rt')
    if check:
        with open(path, encoding='utf-8') as file:
            return 0 if ''.join(file.read().split()) == ''.join(text.split()) else 1
    os.makedirs(os.path.dirname(path), exist_ok=True)
    with open(path, 'w', encoding='utf-8') as file:
        file.write(text)
    print('%s staticlib: %s' % (name, ' '.join(crates)))
    print('%d exported functions in %s; lay it out by rt fmt' % (len(bodies), path), file=sys.stderr)
    return 0


if __name__ == '__main__':
    sys.exit(main())
