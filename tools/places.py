#!/usr/bin/env python3
# Lists the places of docs/DESIGN-PASS.md in crates/*/src: tools/places.py [ROOT] [POINT..]. Each line: file, function or type, what was found.
# 1 results shaped by hand, flags beside values, numbers for kinds and for "none"; 2 twins; 3 loops that are not `for`; 4 conversions, copies, comparisons
# and printing by hand; 5 facts of three or more contracts, parameters that travel together; 6 buffers with a length beside; 7 switches on a step;
# 8 lines of answers and lemmas. What is found is a candidate: the page says what is made of each.
import collections
import glob
import os
import re
import sys

root = sys.argv[1] if len(sys.argv) > 1 and not sys.argv[1].isdigit() else os.path.join(os.path.dirname(os.path.abspath(__file__)), '..')
wanted = [a for a in sys.argv[1:] if a.isdigit()] or list('12345678')


def sources():
    for path in sorted(glob.glob(os.path.join(root, 'crates/*/src/*.rt'))):
        yield os.path.relpath(path, os.path.join(root, 'crates')), open(path).read()


HEAD = re.compile(r'^( *)(?:pub(?:\([a-z]+\))? )?(?:extern "C" )?fn (\w+)', re.M)


# Name, comment above, signature with clauses, body of each function.
def functions(text):
    heads = list(HEAD.finditer(text))
    for h in heads:
        indent = h.group(1)
        start = h.start()
        body = re.compile(r'^' + indent + r'\{|\{$', re.M)
        end = re.compile(r'^' + indent + r'\}', re.M).search(text, h.end())
        if not end:
            continue
        whole = text[start:end.end()]
        m = re.search(r'^' + indent + r'\{\n', whole, re.M) or re.search(r'\{\n', whole)
        if not m:
            continue
        above = text[:start].rstrip('\n').split('\n')
        comment = []
        for line in reversed(above):
            if not line.strip().startswith('//') and not line.strip().startswith('#['):
                break
            comment.insert(0, line.strip())
        yield h.group(2), ' '.join(comment), whole[:m.start()], whole[m.end():]


def parameters(head):
    head = re.sub(r'pub\([a-z]+\)', 'pub', head)
    m = re.search(r'\((.*?)\)(?: ->|\n|$| requires| ensures)', head, re.S)
    inside = m.group(1) if m else ''
    return [tuple(s.strip() for s in p.split(':', 1)) for p in re.split(r',(?![^\[]*\])', inside) if ':' in p]


def clauses(head):
    for m in re.finditer(r'^\s*requires(?: \w+)? \{ (.*) \}$', head, re.M):
        yield m.group(1)


# A clause's conjuncts, parentheses around them taken off.
def atoms(clause):
    parts, depth, cut = [], 0, 0
    for i, c in enumerate(clause):
        depth += (c == '(') - (c == ')')
        if c == '×' and depth == 0:
            parts.append(clause[cut:i])
            cut = i + 1
    parts.append(clause[cut:])
    if len(parts) == 1:
        p = parts[0].strip()
        return atoms(p[1:-1]) if p.startswith('(') and p.endswith(')') and balanced(p[1:-1]) and '×' in p else [p[1:-1] if p.startswith('(') and p.endswith(')') and balanced(p[1:-1]) else p]
    return [a for p in parts for a in atoms(p.strip())]


def balanced(text):
    depth = 0
    for c in text:
        depth += (c == '(') - (c == ')')
        if depth < 0:
            return False
    return depth == 0


found = collections.defaultdict(list)


def note(point, where, what):
    found[point].append((where, what))


KEEP = set('fn let mut if else while for in return match true false as loop break'.split())
shapes = collections.defaultdict(list)
facts = collections.defaultdict(list)
groups = collections.defaultdict(list)

for path, text in sources():
    for m in re.finditer(r'^(?:pub(?:\([a-z]+\))? )?enum (\w+) \{\n(.*?)^\}', text, re.M | re.S):
        variants = re.findall(r'^    (\w+)([({,])', m.group(2), re.M)
        bare = [v for v, c in variants if c == ',']
        if any(c != ',' for _, c in variants) and (bare or len(variants) == 2 or 'Accepted' in m.group(2)):
            note('1', path, 'enum ' + m.group(1) + ': ' + ', '.join(v for v, _ in variants))
    for m in re.finditer(r'^(?:pub(?:\([a-z]+\))? )?struct (\w+) \{\n(.*?)^\}', text, re.M | re.S):
        flags = re.findall(r'(\w+): bool', m.group(2))
        if flags:
            note('1', path, 'struct ' + m.group(1) + ': flag ' + ', '.join(flags))
        arrays = re.findall(r'(\w+): \[', m.group(2))
        if len(arrays) > 1:
            note('6', path, 'struct ' + m.group(1) + ': arrays side by side ' + ', '.join(arrays))
    kinds = re.findall(r'const ([A-Z0-9_]+): u8 = [0-9]+;', text)
    for k in kinds:
        note('1', path, 'number for a kind: ' + k)
    for name, comment, head, body in functions(text):
        where = path + ' ' + name
        result = re.search(r'-> (u64|usize|u8)\b', head)
        if result and (re.search(r'return (?:WIDTH|0|count|\d+);|\n\s+(?:Bucket::ROWS|WIDTH)\n', body) and re.search(r'none|where it is not|else 0|`ROWS`|WIDTH', comment)):
            note('1', where, 'number that says none')
        if re.search(r'-> (u64|usize)\b', head) and re.search(r'if there is none|where there is none', comment) and not re.search(r'return (?:WIDTH|0|count|\d+);', body):
            note('1', where, 'number that says none')
        if re.search(r'held == 0', body):
            note('1', where, 'number that says none: held')
        for line in body.split('\n'):
            if re.match(r'\s*(while|loop)\b', line):
                note('3', where, line.strip())
        if re.search(r'^\s*\w+ as (usize|u64|u8)\n', body) and body.count('\n') <= 2:
            note('4', where, 'a conversion')
        if re.search(r'\w+\[[^\]]+\] (=|!=) \w+\[[^\]]+\]', body):
            note('4', where, 'copies or compares element by element')
        if re.search(r'\[i\] = 0;|\[at\] = 0;', body):
            note('4', where, 'fills element by element')
        if re.search(r'(Answer::\w+(\(_\))? => (\d+|0),)', body):
            note('4', where, 'a number for each case')
        if re.search(r'digits\[', body):
            note('4', where, 'prints by hand')
        for m in re.finditer(r'match (edit|verb|kind)\b', body):
            note('7', where, 'match ' + m.group(1))
        for c in clauses(head):
            for a in atoms(c):
                facts[re.sub(r'\b(t|part|left|window|tables|ws|plane|d|out|words|to|old|new|pairs|kept|b|draft|from|p|e|sums|s)\.(now|old)', r'_', a)].append(where)
        ps = parameters(head)
        names = [n for n, _ in ps]
        types = dict(ps)
        for i in range(len(ps)):
            for j in range(i + 1, len(ps)):
                groups[(ps[i], ps[j])].append(where)
        for (n, t), (n2, t2) in zip(ps, ps[1:]):
            if '[u' in t and t.startswith('&') and t2 in ('usize', 'u64') and n2 in ('count', 'n', 'm', 'k', 'held', 'place', 'i'):
                note('6', where, n + ' with ' + n2)
        tokens = re.findall(r'[A-Za-z_][A-Za-z0-9_:]*|\d[\w_]*|[^\s\w]', re.sub(r'//.*', '', body))
        seen, shape = {}, []
        for t in tokens:
            if t in KEEP or not re.match(r'\w', t):
                shape.append(t)
            elif t[0].isdigit():
                shape.append('0')
            else:
                shape.append(str(seen.setdefault(t, len(seen))))
        if len(tokens) > 14:
            shapes[' '.join(shape)].append(where)

for s, ws in shapes.items():
    if len(ws) > 1:
        note('2', ws[0], 'twins: ' + ', '.join(ws[1:]))
for f, ws in facts.items():
    if len(set(ws)) >= 3:
        note('5', str(len(set(ws))) + ' contracts', f)
for (a, b), ws in groups.items():
    if len(set(ws)) >= 4:
        note('5', str(len(set(ws))) + ' functions', ' '.join((a[0] + ': ' + a[1] + ', ' + b[0] + ': ' + b[1]).split()))
for kind in ('Answers', 'Invariants'):
    n = sum(len(open(p).read().split('\n')) for p in glob.glob(os.path.join(root, 'crates/*/proofs/**/' + kind + '.antt'), recursive=True))
    note('8', kind + '.antt', str(n) + ' lines')
n = sum(len(open(p).read().split('\n')) for p in glob.glob(os.path.join(root, 'crates/*/proofs/*.antt')))
note('8', 'lemmas', str(n) + ' lines')

for p in wanted:
    print('point', p + ':', len(found[p]))
    for where, what in found[p]:
        print('   ', where + ':', what)
