#!/usr/bin/env python3
"""Brings this repository's own words to one spelling: snake case, with no dash and no capital inside, in .antt files and in clauses.

usage: respell.py FOLDER [--check]

FOLDER has crates/. Run it once, right after port.py. A type, and what begins with a capital, keeps its name; so does what Rattle makes
(names of goals and steps), and what a file brings from another library. Two words that would fall together: the one with a dash gets _lem.
"""
import os
import re
import sys

TOP = sys.argv[1]
CHECK = '--check' in sys.argv
WORD = re.compile(r"[^\s(){}.;,@\"«»\[\]\\]+")
TOKEN = re.compile(r"--[^\n]*|\"(?:[^\"\\]|\\.)*\"|[^\s(){}.;,@\"«»\[\]\\]+")
DECLARED = re.compile(r"(?m)^( *)(?:(?:pub|abbrev|unfoldable|let|mutual|infixl|infixr) )*([^\s(){}.;,@\"«»\[\]\\]+)(?: \{[^{}\n]*\})* : *(\S*)")
USE = re.compile(r"\buse ([^\s;{]+)(?:\{([^;]*?)\}(?=;|[ \t]*$))?", re.M)
RUST = re.compile(r"\b(?:const|static|struct|enum|type|fn|mod|let|let mut) (\w+)|\b(\w+):(?!:)")


def own_files(top):
    for folder, dirs, files in os.walk(os.path.join(top, 'crates')):
        dirs[:] = sorted(d for d in dirs if d not in ('out', '.git', 'data'))
        for f in sorted(files):
            if f.endswith(('.antt', '.rt')):
                yield os.path.join(folder, f)


def read(p):
    with open(p, encoding='utf-8') as f:
        return f.read()


CRATES = set(os.listdir(os.path.join(TOP, 'crates')))


def yours(path):
    steps = path.strip('.').split('.')
    return len(steps) > 1 and steps[0] == 'Rattle' and steps[1] in CRATES


def snake(word):
    if word.startswith('◌') or word.endswith('◌'):
        return ''.join(snake(w) if w and w != '◌' else w for w in re.split('(◌)', word))
    word = re.sub(r"(?<=[a-z0-9])([A-Z]+)", lambda m: '_' + m[1].lower(), word)
    return word.replace('-', '_')


declared, goals = {}, {}
texts = {p: read(p) for p in own_files(TOP)}
rust = set()
for p, t in texts.items():
    if p.endswith('.antt'):
        for _, name, kind in DECLARED.findall(t):
            if kind.startswith(('tie.', 'goal.')):
                goals.setdefault(name, []).append(p)
            elif not name.startswith(('?', ':')):
                declared.setdefault(name, []).append(p)
    else:
        code = re.sub(r'//[^\n]*|"(?:\\.|[^"\\])*"|ghost use [^;]*;', ' ', t)
        for a, b in RUST.findall(code):
            rust.add(a or b)

turned = {}
for name in declared:
    bare = name.strip('◌')
    if not bare or bare[0].isupper() or not re.match(r'[a-z]', bare) and not re.search('[A-Za-z]', bare):
        continue
    new = snake(name)
    if new != name:
        turned[name] = new
# words that fall together
taken = {}
for name in declared:
    taken.setdefault(turned.get(name, name), []).append(name)
clashes = []
for new, olds in sorted(taken.items()):
    if len(olds) > 1:
        # a definition in camel case has the plain name
        kept = [o for o in olds if re.search('[a-z0-9][A-Z]', o)] or [o for o in olds if o not in turned] or olds[:1]
        for o in olds:
            if o != kept[0]:
                turned[o] = new + '_lem'
                clashes.append((o, new, 'with ' + kept[0]))
for o, new in list(turned.items()):
    if new in rust and '-' in o and not new.endswith('_lem'):
        clashes.append((o, new, 'Rust'))
        turned[o] = new + '_lem'
if CHECK:
    for o, n in sorted(turned.items()):
        print(o, n, len(declared[o]))
    print('CLASHES', len(clashes))
    for c in clashes:
        print(*c)

# operators are used without their holes
for o, n in list(turned.items()):
    if '◌' in o:
        turned[o.strip('◌')] = n.strip('◌')

said = []
for p, t in texts.items():
    code = re.sub(r'--[^\n]*' if p.endswith('.antt') else r'//[^\n]*', ' ', t)
    theirs = set()
    for path, items in USE.findall(code):
        if not yours(path):
            theirs.update(WORD.findall(items or path.split('.')[-1]))
            theirs.update(w.strip('◌') for w in WORD.findall(items or ''))
    local_goals = {n for n, ps in goals.items() if p in ps}
    is_proof = '/proofs/' in p
    table = {o: n for o, n in turned.items() if o not in theirs and o not in local_goals}
    present = set(WORD.findall(code))
    for o, n in table.items():
        if o in present and n in present:
            said.append(f'look: {os.path.relpath(p, TOP)}: {o} becomes {n}, which stands there')

    def one(m, text):
        w = m.group(0)
        if w.startswith('--'):
            # in comments: only what cannot be prose
            return re.sub(r"[\w◌][\w'◌-]*", lambda k: table.get(k[0], k[0]) if re.search('[a-z][A-Z]', k[0]) else k[0], w)
        if w.startswith('"') or w not in table:
            return w
        before = text[:m.start()]
        if before.endswith(('goal.', 'tie.')):
            return w
        return table[w]

    if p.endswith('.antt'):
        new = TOKEN.sub(lambda m: one(m, t), t)
    else:
        def rt(m):
            w = m[0]
            if w.startswith('"'):
                return w
            if w.startswith('//'):
                return re.sub(r"\w[\w'-]*", lambda k: table.get(k[0], k[0]) if re.search('[a-z][A-Z]', k[0]) else k[0], w)
            return table.get(w, w)
        new = re.sub(r"//[^\n]*|\"(?:\\.|[^\"\\])*\"|[^\s(){}.;,@\"«»\[\]\\:&<>!|]+", rt, t)
    if new != t and not CHECK:
        with open(p, 'w', encoding='utf-8') as f:
            f.write(new)
print('\n'.join(said))
print(len(turned), 'words turned;', len(clashes), 'fell together')
