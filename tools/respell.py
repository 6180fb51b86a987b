#!/usr/bin/env python3
"""Brings this repository's own names of specs/ and proofs/ to snake case, and types and facts to camel case.
usage: python3 tools/respell.py [FOLDER]      once, after port.py, at the top of a checkout (or in FOLDER)

A name is the repository's own where one of its .antt files binds it: a definition, a lemma, a field, a constructor,
a parameter or a local. Names that the toolchain makes, and those of the library, stay as they are. Strings,
comments and functions of src/ stay too. Prints the names that would fall together, and then changes nothing.
"""
import collections
import pathlib
import re
import sys

top = pathlib.Path(next((a for a in sys.argv[1:] if not a.startswith('--')), '.'))
WORD = r"[A-Za-z_][\w']*(?:-[\w']+)*"
MADE = {'Answers.antt', 'Invariants.antt', 'Choices.antt', 'Proof.antt'}
# words of an older library inside names
OLDER = {'getD': 'get_or'}
# text that is no name: strings and comments
PLAIN = re.compile(r'"(?:[^"\\\n]|\\.)*"|(?://|--(?= |$))[^\n]*', re.M)


def pieces(text):
    """The text in turns of code and of strings or comments."""
    at = 0
    for m in PLAIN.finditer(text):
        yield True, text[at:m.start()]
        yield False, m.group()
        at = m.end()
    yield True, text[at:]


def code(text):
    return ''.join(part if own else ' ' for own, part in pieces(text))


def bound(path, text):
    """The names that a file binds."""
    found = set()
    if path.name not in MADE:
        return set(re.findall(WORD, text))
    found |= set(re.findall(rf'\blet\s+({WORD})\s*[:=]', text))
    for names in re.findall(rf'[({{]((?:{WORD}\s+)*{WORD})\s+:', text):
        found |= set(names.split())
    for names in re.findall(rf'λ\s+((?:{WORD}\s+)*{WORD})\s*\.', text):
        found |= set(names.split())
    return found


def spelled(name):
    words = [OLDER.get(w, w) for w in name.split('-')]
    if name[0].isupper():
        return ''.join(w[:1].upper() + w[1:] for w in words)
    return '_'.join(words)


files = sorted(p for p in (top / 'crates').rglob('*') if p.suffix in ('.antt', '.rt') and 'out' not in p.parts)
texts = {p: p.read_text() for p in files}
own, imported = set(), set()
for p, t in texts.items():
    if p.suffix == '.antt':
        own |= {n for n in bound(p, code(t)) if '-' in n}
    for path, names in re.findall(r'use ((?:[\w◌]+\.)+)\{([^}]*)\}', code(t)):
        if not any(path.startswith(f'Rattle.{c.name}.') for c in (top / 'crates').iterdir()):
            imported |= {n.strip().split(' as ')[0] for n in names.split(',')}
own -= imported
new = {n: spelled(n) for n in own}

taken = collections.defaultdict(set)
for p, t in texts.items():
    for n in set(re.findall(WORD, code(t))):
        taken[n].add(p)
clash = [(n, s) for n, s in sorted(new.items()) if s in taken]
both = [k for k, c in collections.Counter(new.values()).items() if c > 1]
for n, s in clash:
    print(f'look: {n} becomes {s}, which stands in {", ".join(sorted(str(p) for p in taken[s])[:3])}')
for s in both:
    print(f'look: several names become {s}')
if '--list' in sys.argv:
    print('\n'.join(f'{n} {s}' for n, s in sorted(new.items())))
    sys.exit(0)

name = re.compile(rf"(?<![\w'-])({WORD})(?![\w'-]*[\w'])")
changed = 0
for p, t in texts.items():
    u = ''.join(name.sub(lambda m: new.get(m.group(1), m.group(1)), part) if own_part else part for own_part, part in pieces(t))
    if u != t:
        p.write_text(u)
        changed += 1
print(f'{len(new)} names, {changed} files')
