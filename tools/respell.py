"""Respells the names that this repository's definitions and lemmas give, once, after the kit's own port script.

Functions, lemmas, fields and constructors go to snake case, facts and records to camel case. A dash stays only
where it joins two functions, as in `length-places`. Names of the kit, names that the check makes, and all names of
the code keep their spelling, and so do comments and texts. Run it at the top of the repository.
"""

import collections
import glob
import re
import sys

HEADS = {'abbrev', 'pub', 'unfoldable', 'record', 'data', 'mutual'}
TOKEN = re.compile(r"[^\s(){}\[\],;.:\"⌜⌝]+")
SPELLED = re.compile(r"^[A-Za-z][A-Za-z0-9]*(?:['_-]?[A-Za-z0-9]+)*'*$")
LISTS = {'length', 'get_or', 'take', 'drop', 'append', 'map', 'replicate'}
MADE = re.compile(r'^(loop|returns|bounds|overflow|invariant|decreases|unreachable)-|-requires|-requires-\d+$|^(if|then|else|in_?\w*)-.*-(lt|eq|gt|le|ge)')

# where the plain rule would give a name that is taken: a lemma with the name of its function, and two of one name
OTHERWISE = {name: name.replace('-', '_') + '_lem' for name in (
    'all-at', 'all-at-end', 'at-end', 'calls-through', 'key-of', 'lane-at', 'lane-of', 'listed-as', 'move-at', 'no-queues', 'places-from',
    'queues-done', 'rest-fed', 'tally-fits',
)}
OTHERWISE |= {'lineUp': 'line_up_of', 'steps-in': 'steps_within'}


def parts_of(text, rust):
    """The text in pieces: (is it code, piece)."""
    mark = '//' if rust else '--'
    literal = r"'(?:\\.|[^\\'])'|" if rust else ''
    comment = r'//[^\n]*' if rust else r'(?:(?<=\s)|^)--(?=\s|$)[^\n]*'
    split = re.compile(r'(' + comment + r'|' + literal + r'"(?:\\.|[^"\\])*")', re.M)
    at = 0
    for m in split.finditer(text):
        yield True, text[at:m.start()]
        yield False, m.group(0)
        at = m.end()
    yield True, text[at:]


def code_of(text, rust=False):
    return ''.join(piece if code else ' ' for code, piece in parts_of(text, rust))


def defined(text):
    """The names that a file defines: of records and types, of their members, and the others."""
    tops, members = set(), set()
    inside = None   # how deep the members of a record or type stand
    for line in code_of(text).split('\n'):
        words = line.split()
        if not words or words[0] in ('use', 'mod', 'module', 'unfolding') or words[:2] == ['pub', 'mod']:
            continue
        deep = len(line) - len(line.lstrip())
        if inside is not None and deep <= inside:
            inside = None
        k = 0
        while k < len(words) and words[k] in HEADS:
            k += 1
        if k == len(words):
            continue
        if {'record', 'data'} & set(words[:k]):
            tops.add(words[k])
            inside = deep
            continue
        names = []
        j = k
        while j < len(words) and words[j] != ':' and not set(words[j]) & set('(){}=↦'):
            names.append(words[j])
            j += 1
        if j == len(words) or words[j] != ':' or not names or len(names) > 6:
            continue
        if ' : goal.' in line or ' : need.' in line:
            continue
        (members if inside is not None else tops).update(names)
    return tops, members


def antt_files():
    return sorted(glob.glob('crates/*/specs/**/*.antt', recursive=True) + glob.glob('crates/*/proofs/**/*.antt', recursive=True))


def rust_files():
    return sorted(glob.glob('crates/*/src/**/*.rt', recursive=True))


def odd(name):
    if not SPELLED.match(name) or MADE.search(name):
        return False
    return '-' in name or (name[0].islower() and re.search('[A-Z]', name) is not None)


def snake(word):
    word = word.replace('getD', 'get_or')
    word = re.sub(r'([a-z0-9])([A-Z])', r'\1_\2', word)
    return re.sub(r'([a-z])(\d)', r'\1_\2', word).lower()


def respelled(name, lemma, functions):
    if name in OTHERWISE:
        return OTHERWISE[name]
    words = name.split('-')
    if name[0].isupper():
        return ''.join(w[0].upper() + w[1:] for w in words)
    words = [snake(w) for w in words]
    joins = len(words) == 2 and all(w in functions or w in LISTS for w in words) and (words[0] in LISTS or words[1] in LISTS)
    return ('-' if lemma and joins else '_').join(words)


def brought(code):
    """The names that a file brings in from elsewhere, and whether they are this repository's own."""
    own, others = set(), set()
    for m in re.finditer(r'\buse\s+([^\s;{]+?)\.\{([^}]*)\}', code):
        path, names = m.group(1), [n.strip() for n in m.group(2).split(',')]
        mine = re.match(r'Rattle\.(\w+)\.(specs|proofs)\b', path)
        made = re.search(r'\.(Goals|Given|declared|TheVariants)\b|\.declared\.', path)
        mine = mine and mine.group(1) != 'std' and not made
        for n in names:
            for w in n.split(' as '):
                (own if mine else others).add(w.strip())
    return own, others


def main():
    texts = {f: open(f, encoding='utf-8').read() for f in antt_files() + rust_files()}
    tops, members = set(), set()
    for f, text in texts.items():
        if f.endswith('.antt'):
            t, m = defined(text)
            tops |= t
            members |= m
    functions = {snake(n) for f, text in texts.items() if '/specs/' in f for n in defined(text)[0]}
    names = {}
    for n in tops | members:
        if odd(n):
            names[n] = respelled(n, n in tops and n not in members, functions)
    # names of variables go the same way
    plain = collections.Counter()
    for f, text in texts.items():
        if not f.endswith('.antt'):
            continue
        code = code_of(text)
        others = brought(code)[1]
        for m in TOKEN.finditer(code):
            n = m.group(0)
            if m.start() and code[m.start() - 1] == '.' and not re.search(r'\s$', code[:m.start() - 1][-1:] or ' '):
                continue
            if odd(n) and n not in others and n not in names:
                names[n] = respelled(n, False, functions)
                plain[n] += 1
    turned = collections.defaultdict(set)
    for old, new in names.items():
        turned[new].add(old)
    everywhere = collections.defaultdict(set)
    for f, text in texts.items():
        for m in TOKEN.finditer(code_of(text, f.endswith('.rt'))):
            everywhere[m.group(0)].add(f)
    for new, olds in sorted(turned.items()):
        if len(olds) > 1:
            print('together:', ' '.join(sorted(olds)), '->', new)
        if new in everywhere:
            both = set().union(*(everywhere[o] for o in olds)) & everywhere[new]
            print('taken' if both else 'also elsewhere', ':', ' '.join(sorted(olds)), '->', new, sorted(both)[:3], sorted(everywhere[new])[:3])
    print('variables:', ' '.join(sorted(plain)))
    if '--dry' in sys.argv:
        return
    for f, text in texts.items():
        rust = f.endswith('.rt')
        code = code_of(text, rust)
        others = brought(code)[1]
        out = []
        for is_code, piece in parts_of(text, rust):
            if not is_code:
                out.append(piece)
                continue

            def turn(m):
                n = m.group(0)
                if n not in names or n in others:
                    return n
                if rust and n in plain:
                    return n
                dotted = m.start() and piece[m.start() - 1] == '.' and m.start() > 1 and not piece[m.start() - 2].isspace()
                if dotted and n not in members and n not in tops:
                    return n
                return names[n]

            out.append(TOKEN.sub(turn, piece))
        new = ''.join(out)
        if new != text:
            with open(f, 'w', encoding='utf-8', newline='') as file:
                file.write(new)


main()
