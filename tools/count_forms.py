#!/usr/bin/env python3
"""Counts forms of code in crates/*/src that read like an older Rattle, point by point, with the places on request.

usage: tools/count_forms.py [-v] [FOLDER]"""
import collections
import glob
import os
import re
import sys

args = [a for a in sys.argv[1:] if a != '-v']
verbose = '-v' in sys.argv
root = args[0] if args else '.'
files = {}
for path in sorted(glob.glob(os.path.join(root, 'crates/*/src/**/*.rt'), recursive=True)):
    files[os.path.relpath(path, root)] = open(path).read()


def lines(pattern):
    found = []
    for path, text in files.items():
        for number, line in enumerate(text.split('\n'), 1):
            if re.search(pattern, line) and not line.lstrip().startswith('//'):
                found.append('%s:%d: %s' % (path, number, line.strip()))
    return found


def functions(least):
    found = []
    for path, text in files.items():
        for m in re.finditer(r'\bfn (\w+)(<[^(]*>)?\(([^)]*)\)', text):
            count = len([p for p in re.split(r',\s*(?![^<]*>)', m.group(3)) if p.strip()])
            if count >= least:
                found.append('%s: %s, %d' % (path, m.group(1), count))
    return found


def repeated(least):
    facts = collections.Counter()
    for text in files.values():
        for m in re.finditer(r'^\s+requires (?:\w+ )?(\{.*\})$', text, re.M):
            facts[m.group(1)] += 1
    return ['%d times %s' % (n, fact) for fact, n in facts.most_common() if n >= least]


def twins():
    names = collections.defaultdict(list)
    for path, text in files.items():
        crate = path.split('/')[1]
        for m in re.finditer(r'^(?:pub(?:\(crate\))? )?(?:fn|const) (\w+)', text, re.M):
            if m.group(1) not in ('main', 'run', 'tell'):
                names[m.group(1)].append(path)
    return ['%s in %s' % (name, ', '.join(paths)) for name, paths in sorted(names.items()) if len(paths) > 1]


points = [
    ('1 enums', lines(r'\benum [A-Z]')),
    ('1 flags', lines(r'let mut \w+(: \w+)? = (false|true);')),
    ('1 letters and numbers that stand for something else', lines(r'\b(number|short|code|digits)(: | = )(u8|0\b)|letter: char, number: u16|number: u8')),
    ('1 refusals and faults handed on by hand', lines(r'Err\(\w+\) => (Err|\w+::\w+)\(|Err\(\w+::\w+\(At')),
    ('1 and 3 arms that do nothing', lines(r'None => \{\}')),
    ('2 free functions and constants of one name in two files', twins()),
    ('3 loops over a range of numbers', lines(r'^\s*for \w+ in .*\.\.')),
    ('3 loops that count beside what they go over', lines(r'^\s*for .*enumerate\(\)')),
    ('4 conversions by `as`', lines(r' as (u8|u16|u32|u64|usize)\b')),
    ('4 numbers of enums, letter by letter', lines(r'::\w+ => \d+,$')),
    ('5 functions of five parameters or more', functions(5)),
    ('5 facts that three or more functions require', repeated(3)),
    ('6 lists of a fixed length, filled in part', lines(r'let mut \w+ = \[.*; (\d+|[A-Z]+)\]')),
]
for name, found in points:
    print('%4d  %s' % (len(found), name))
    if verbose:
        for place in found:
            print('        ' + place)
