#!/usr/bin/env python3
"""Brings the names of definitions and lemmas to today's spelling: words in snake case, a dash only where it joins two names.

usage: python3 tools/respell.py        once, at the top of the repository, after the kit's port.py
       python3 tools/respell.py --dry  only says what it would rename, and which names would fall together

Types and modules keep their camel case; functions of src/, C names and strings are not touched, since none of them has such a name.
"""

import collections
import pathlib
import re
import sys

ROOT = pathlib.Path(__file__).resolve().parent.parent
NAME = re.compile(r"(?<![\w'◌·-])[A-Za-z][A-Za-z0-9_']*(?:-[A-Za-z0-9_'≤<]+)*(?![\w◌])")
CAMEL = re.compile(r"[a-z][a-z0-9]*(?:[A-Z][A-Za-z0-9]*)+[A-Za-z0-9_']*$")
DECLARED = re.compile(
    r"^\s*(?:(?:unfoldable|abbrev|opaque|pub|data|record|ruleset|transparent)\s+)*([^\s:(){}λ=→.,;\[\]◌?]+)(?:\s*(?:\([^)]*\)|\{[^}]*\}))*\s*:\s"
)
# made by Rattle: named after the code, and turned with the proof files
MADE = ("Need-", "In-", "After-", "At-", "Then", "Else")
OPERATOR = re.compile(r"◌([a-z][A-Za-z]*)◌")
# lemmas that port.py gave the name that their function gets here
LEMMAS = {'row_number', 'layout_row', 'row_has', 'plain_row'}
LEMMA = re.compile(r"(?<![\w'◌·.-])(?:" + '|'.join(sorted(LEMMAS)) + r")(?![\w'◌-])")


def files():
    for path in sorted((ROOT / 'crates').rglob('*')):
        if path.suffix in ('.antt', '.rt', '.edit') and 'out' not in path.parts:
            yield path
    yield from sorted((ROOT / 'tests' / 'laws.d').glob('*.edit'))


def snake(word):
    word = re.sub(r"([a-z0-9])([A-Z])", r"\1_\2", word)
    word = re.sub(r"([A-Z]+)([A-Z][a-z])", r"\1_\2", word)
    return word.lower()


def part_spelling(part):
    return snake(part) if CAMEL.match(part) else part


def declared(texts):
    """Names declared in files of definitions and lemmas."""
    found = set()
    for path, text in texts.items():
        if path.suffix != '.antt' or path.name in ('Proof.antt', 'Lib.antt'):
            continue
        for line in text.splitlines():
            m = DECLARED.match(line.split('--')[0] if line.lstrip().startswith('--') else line)
            if m:
                found.add(m[1])
    return found


def words_of_std():
    return {'length', 'set', 'map', 'get_or', 'take', 'drop', 'replicate', 'append', 'eqb', 'min', 'max', 'mul', 'add', 'div', 'sub', 'neg', 'ne', 'cond'}


def joined(parts, known):
    """The parts, with a dash only between two names."""
    out, left = '', ''
    for i, part in enumerate(parts):
        if i == 0:
            left = part
            continue
        right = '_'.join(parts[i:])
        name = any('_'.join(parts[i:j]) in known for j in range(i + 1, len(parts) + 1))
        if left in known and name:
            out += left + '-'
            left = part
        else:
            left += '_' + part
    return out + left


def table(texts):
    names = declared(texts)
    plain = {part_spelling(n) for n in names if '-' not in n} | words_of_std()
    renamed = {}
    for text in texts.values():
        for m in NAME.finditer(text):
            if CAMEL.match(m[0]):
                renamed[m[0]] = snake(m[0])
    functions = set(renamed.values()) | {n for n in names if '-' not in n}
    for n in names:
        if '-' in n and n[0].islower() and not n.startswith(MADE):
            new = joined([part_spelling(p) for p in n.split('-')], plain)
            renamed[n] = new + '_lem' if new in functions else new
    return {old: new for old, new in renamed.items() if old != new}


def together(texts, renamed):
    """Names that would become one with another, with the files that have both."""
    inverse = collections.defaultdict(set)
    for old, new in renamed.items():
        inverse[new].add(old)
    for new, olds in sorted(inverse.items()):
        if len(olds) > 1:
            print(f"together: {' and '.join(sorted(olds))} would both be {new}")
    for path, text in texts.items():
        if path.name == 'Proof.antt':
            continue
        tokens = {m[0] for m in NAME.finditer(text)}
        for old in sorted(tokens & renamed.keys()):
            if renamed[old] in tokens:
                print(f"both: {path.relative_to(ROOT)}: {old} would be {renamed[old]}, which stands there")


def main():
    texts = {path: path.read_text(encoding='utf-8') for path in files()}
    renamed = table(texts)
    together(texts, renamed)
    if '--dry' in sys.argv:
        for old, new in sorted(renamed.items()):
            print(f'{old} {new}')
        return

    def turn(m):
        return renamed.get(m[0], m[0])

    for path, text in texts.items():
        new = text
        if path.suffix == '.antt' and 'proofs' in path.parts:
            new = LEMMA.sub(lambda m: m[0] + '_lem', new)
        new = NAME.sub(turn, new)
        new = OPERATOR.sub(lambda m: '◌' + snake(m[1]) + '◌', new)
        if new != text:
            path.write_text(new, encoding='utf-8')


main()
