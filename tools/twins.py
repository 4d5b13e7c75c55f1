#!/usr/bin/env python3
"""Functions whose text is the same once types, sizes, constants and their own names are taken out: the twins that docs/DESIGN-PASS.md counts.

    tools/twins.py [--closures]     with --closures also the names of the functions that they call are taken out
"""
import collections
import glob
import re
import sys

closures = '--closures' in sys.argv
groups = collections.defaultdict(list)
for path in sorted(glob.glob('crates/*/src/**/*.rt', recursive=True)):
    lines = open(path, encoding='utf-8').read().split('\n')
    at = 0
    while at < len(lines):
        head = re.match(r'^( *)(?:pub )?(?:extern "C" )?fn (\w+)', lines[at])
        if not head:
            at += 1
            continue
        end = at
        while end < len(lines) - 1 and not re.match(head.group(1) + r'\}$|.*\{ *\}$|.*;$', lines[end]):
            end += 1
        while end < len(lines) - 1 and lines[end].endswith(';') and not re.match(head.group(1) + r'\}$', lines[end]):
            end += 1
        text = [line for line in lines[at:end + 1] if not re.match(r'^ *(//|requires|ensures)', line)]
        text = ' '.join(text)
        at = end + 1
        text = re.sub(r'^ *(pub )?(extern "C" )?fn \w+', 'fn', text)
        text = re.sub(r'\b(u8|u16|u32|u64|usize)\b', 'T', text)
        text = re.sub(r'\b(\w+::)?[A-Z][A-Z_0-9]+\b|\b[0-9]+\b|b\'.\'|b".*?"', 'N', text)
        text = re.sub(r'\b\w+::(?=[a-z])', '', text)
        if closures:
            text = re.sub(r'\b[a-z_0-9]+\(', 'f(', text)
        names = {}
        text = re.sub(r'(?<![.\w])[a-z_][a-z_0-9]*\b(?!\()', lambda m: names.setdefault(m.group(0), f'v{len(names)}') if m.group(0) not in
            ('fn', 'let', 'mut', 'if', 'else', 'return', 'for', 'in', 'while', 'loop', 'match', 'break', 'as', 'true', 'false', 'self') else m.group(0), text)
        text = re.sub(r'\s+', ' ', text)
        if len(text) > 60:
            groups[text].append(f'{path}: {head.group(2)}')
count = 0
for text, places in sorted(groups.items(), key=lambda g: -len(g[1])):
    if len(places) > 1:
        count += len(places)
        print(f'{len(places)}: ' + ', '.join(places))
print(f'{count} functions')
