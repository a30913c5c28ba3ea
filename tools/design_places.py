#!/usr/bin/env python3
"""Prints the places in crates/*/src/ that docs/DESIGN-PASS.md counts, point by point.

    tools/design_places.py [--count] [POINT..]

With --count it prints how many there are alone. It reads the checkout that it stands in.
"""
import collections
import difflib
import pathlib
import re
import sys

TOP = pathlib.Path(__file__).resolve().parent.parent
FILES = {
    path.relative_to(TOP / 'crates').as_posix(): path.read_text()
    for path in sorted(TOP.glob('crates/*/src/**/*.rt'))
}


def grep(pattern, names=None):
    """The lines that the pattern meets, as (file, line number, text)."""
    found = []
    for name, text in FILES.items():
        if names and not re.search(names, name):
            continue
        for number, line in enumerate(text.splitlines(), 1):
            if re.search(pattern, line) and not line.lstrip().startswith('//'):
                found.append((name, number, line.strip()))
    return found


class Function:
    def __init__(self, name, file, line, parameters, contract, body):
        self.name, self.file, self.line = name, file, line
        self.parameters, self.contract, self.body = parameters, contract, body

    def place(self):
        return (self.file, self.line, 'fn ' + self.name)


def functions():
    head = re.compile(r'^( *)(?:pub )?(?:extern "C" )?fn (\w+)', re.M)
    found = []
    for file, text in FILES.items():
        for m in head.finditer(text):
            end = re.compile(r'^' + m.group(1) + r'\}', re.M).search(text, m.end())
            if not end:
                continue
            whole = text[m.start():end.end()]
            brace = re.search(r'^' + m.group(1) + r'\{|\{\n', whole, re.M)
            at = brace.start() if brace else len(whole)
            signature, body = whole[:at], whole[at:]
            contract = signature[signature.find('    requires'):] if '    requires' in signature else ''
            inside = signature[signature.find('(') + 1:]
            parameters = re.findall(r'(\w+): (&(?:\'\w+ )?(?:mut )?\[?\w+\]?|[\w\[\]; ]+)', inside.split('->')[0])
            found.append(Function(m.group(2), file, text.count('\n', 0, m.start()) + 1, parameters, contract, body))
    return found


def shape(f):
    """The tokens of a body, with names, numbers and types left out."""
    body = re.sub(r'//.*', '', f.body)
    words = re.findall(r'b?"[^"]*"|\w+|[^\w\s]', body)
    keep = {'if', 'else', 'while', 'for', 'in', 'return', 'let', 'mut', 'match', 'loop', 'break', 'as'}
    return [w if w in keep or not re.match(r'\w', w) else 'x' for w in words]


def twins():
    """Groups of functions whose bodies have the same shape, a group a place."""
    big = [(f, s) for f in functions() if len(s := shape(f)) >= 14]
    group = list(range(len(big)))
    for i, (_, s) in enumerate(big):
        for j in range(i + 1, len(big)):
            t = big[j][1]
            if abs(len(s) - len(t)) > 0.15 * max(len(s), len(t)):
                continue
            match = difflib.SequenceMatcher(None, s, t, autojunk=False)
            if match.quick_ratio() >= 0.93 and match.ratio() >= 0.93:
                old, new = group[j], group[i]
                group = [new if g == old else g for g in group]
    members = collections.defaultdict(list)
    for g, (f, _) in zip(group, big):
        members[g].append(f)
    return [(fs[0].file, fs[0].line, ', '.join(f'{f.file.split("/")[0]}::{f.name}' for f in fs)) for fs in members.values() if len(fs) > 1]


def facts():
    """Facts that stand in the `requires` of three functions or more."""
    where = collections.defaultdict(list)
    for f in functions():
        for clause in re.findall(r'requires(?: \w+)? \{(.*?)\}\s*(?=requires|ensures|$)', f.contract.split('    ensures')[0] + ' ', re.S):
            for fact in re.split(r'×', re.sub(r'\s+', ' ', clause)):
                fact = fact.strip(' ()')
                fact = re.sub(r'\.(now|old|entry|new)\b', '', fact)
                if fact:
                    where[fact].append(f)
    return [(f.file, f.line, f'fn {f.name} requires {fact}') for fact, fs in sorted(where.items()) if len(fs) >= 3 for f in fs]


def travellers():
    """Functions with four parameters or more in a row that another two functions have too."""
    rows = collections.defaultdict(set)
    every = functions()
    for f in every:
        names = [p[0] for p in f.parameters if p[0] != 'self']
        for n in range(4, len(names) + 1):
            for i in range(len(names) - n + 1):
                rows[tuple(names[i:i + n])].add((f.file, f.line))
    found = []
    for f in every:
        names = [p[0] for p in f.parameters if p[0] != 'self']
        best = max((tuple(names[i:i + n]) for n in range(4, len(names) + 1) for i in range(len(names) - n + 1)
                    if len(rows[tuple(names[i:i + n])]) >= 3), key=len, default=None)
        if best:
            found.append((f.file, f.line, f'fn {f.name}: {", ".join(best)}'))
    return found


POINTS = {
    '1': [
        ('own enums', lambda: grep(r'^(pub )?enum ')),
        ('constants that number a kind, a refusal or a figure that is missing', lambda: [
            p for p in grep(r'^\s*(pub )?const [A-Z_]+: (u8|u16|u32|u64|usize) =')
            if re.search(r'^(cases/src/(memory|order|script)|engine)|: u(16|32) =', p[0] + p[2])
        ]),
        ('numbers given back, made or tested as refusals', lambda: grep(
            r'engine::[A-Z]+\b|\b(number|unfit|last|first)\b != 0\b|^(pub )?fn \w*number\w*\(.*-> u32|^\) -> u32|\bnumber: (0|number|unfit)\b')),
        ('flags, and figures in which a number stands for none', lambda: grep(
            r'^\s+(pub )?\w+: bool,|\b(65535|256|512)\b *(,|\)|;|=|$)', r'^(?!geometry)')),
    ],
    '2': [('functions of one shape', twins)],
    '3': [('loops that count by hand', lambda: grep(r'^\s*while '))],
    '4': [('equality, order, copies, conversions and printing by hand', lambda: grep(
        r'fn (number|value|sum_of|wide\d+|narrow\d+|least|index_after|bare|figure_of|line_of_access|of_slot|of_row|is_empty|slot|row|choose'
        r'|numbered|placed|put|put_\w+|copy_\w+|clear_\w+|bytes_of|spell|append|field|with_field|is_digit|is_gap|pack|digit|cut'
        r'|other_\w+|difference)\b'))],
    '5': [('facts in three contracts or more', facts), ('parameters that travel together', travellers)],
    '6': [
        ('functions that give back zeros', lambda: grep(r'^\s*(pub )?fn \w*(buffer|unmarked)\w*\(\)')),
        ('a count or a place beside a buffer', lambda: [
            f.place() for f in functions()
            if any('[' in t for _, t in f.parameters) and any(n in ('count', 'at', 'from', 'to', 'n', 'entries', 'size', 'first') for n, _ in f.parameters)
        ]),
        ('arrays beside one another, with lengths', lambda: grep(r'^\s+(pub )?\w+: \[\w+; \w+\],')),
    ],
    '7': [('a switch on a number', lambda: grep(r'== (script|memory)::[A-Z]|== TICK|^\s+match (part|verb|i|u64::trailing_zeros.*) \{|<= script::|< script::|verb == [A-Z]'))],
}


def main():
    words = [w for w in sys.argv[1:] if w != '--count']
    for point, kinds in POINTS.items():
        if words and point not in words:
            continue
        for kind, find in kinds:
            found = find()
            print(f'{point} {kind}: {len(found)}')
            if '--count' not in sys.argv:
                for file, line, text in found:
                    print(f'    {file}:{line}: {text}')


main()
