#!/usr/bin/env python3
"""Refusal words are written once, as the literals of `rule_words` in crates/nib_words/src/say.rt: nib says
those, and Python asks the library for them. C has them as strings of the header, which this writes.

    python3 tools/words.py            # writes the header's nib_words anew
    python3 tools/words.py --check    # says whether it is so
"""
import re
import sys
from pathlib import Path

ROOT = Path(__file__).resolve().parent.parent
SAY = ROOT / 'crates' / 'nib_words' / 'src' / 'say.rt'
HEADER = ROOT / 'include' / 'nibtoggle.h'
BEGIN, END = '    switch (refusal) {\n', '    default: return "";\n'


def rules():
    """Number -> words."""
    text = SAY.read_text(encoding='utf-8')
    body = re.search(r'fn rule_words\(.*?\n}\n', text, re.S).group(0)
    cases = re.findall(r'^ +(\d+) => b"((?:[^"\\]|\\.)*)",$', body, re.M)
    assert len(cases) == body.count(' => b"') - 1, 'an arm for each rule, and one for all others'
    return {int(number): words for number, words in cases}


def main():
    cases = ''.join('    case %d: return "%s";\n' % rule for rule in sorted(rules().items()))
    text = HEADER.read_text(encoding='utf-8')
    at = text.index(BEGIN) + len(BEGIN)
    new = text[:at] + cases + text[text.index(END, at):]
    if '--check' not in sys.argv:
        HEADER.write_text(new, encoding='utf-8')
    elif new != text:
        print('words: nib_words of the header is not what crates/nib_words/src/say.rt says; tools/words.py writes it')
        return 1
    return 0


if __name__ == '__main__':
    sys.exit(main())
