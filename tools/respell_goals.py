#!/usr/bin/env python3
"""In the proof files of functions, spells what the toolchain names after the source as the source does.
usage: python3 tools/respell_goals.py      once, after respell.py, at the top of a checkout

A dash joins the parts of a name that the toolchain makes; a part that comes from src/ or is one of the
toolchain's own words has underscores.
"""
import pathlib
import re

top = pathlib.Path('.')
MADE = ('Answers.antt', 'Invariants.antt')
WORDS = ['in_ok', 'in_err', 'in_default', 'invariant_of', 'from_residual', 'as_bytes', 'as_str', 'as_slice', 'from_utf8', 'push_str', 'strip_prefix', 'copy_from_slice', 'is_empty', 'write_str', 'unwrap_or']

source = set(WORDS)
for f in sorted((top / 'crates').glob('*/src/**/*.rt')):
    code = re.sub(r'//[^\n]*|"[^"\n]*"', ' ', f.read_text())
    source |= {w for w in re.findall(r'[a-z]\w*', code) if '_' in w.strip('_')}
dashed = {w.replace('_', '-'): w for w in source}
name = re.compile(r"(?<![\w'-])(?:" + '|'.join(sorted(map(re.escape, dashed), key=len, reverse=True)) + r")(?![\w'])|(?<=-)(?:" + '|'.join(sorted(map(re.escape, dashed), key=len, reverse=True)) + r")(?![\w'])")
changed = 0
for f in sorted((top / 'crates').rglob('*.antt')):
    if f.name not in MADE or 'out' in f.parts:
        continue
    t = f.read_text()
    lines = []
    for line in t.split('\n'):
        if not line.startswith('use ') or '.Goals' in line or '.Given' in line:
            line = name.sub(lambda m: dashed[m.group()], line)
        lines.append(line)
    u = '\n'.join(lines)
    if u != t:
        f.write_text(u)
        changed += 1
print(changed, 'files')
