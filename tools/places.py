#!/usr/bin/env python3
"""Finds the places that docs/DESIGN-PASS.md counts: python3 tools/places.py [TREE] [POINT].

Without POINT it prints a count for each point, with POINT (1 to 7) the places, as FILE:LINE: TEXT.
It reads crates/*/src/*.rt of the tree as text.
A reason, a line `// Kept: ..` in the block of lines above a place, is told with it."""
import os, re, sys
from collections import defaultdict

tree = sys.argv[1] if len(sys.argv) > 1 else '.'
only = int(sys.argv[2]) if len(sys.argv) > 2 else 0

files = []
for root, _, names in os.walk(os.path.join(tree, 'crates')):
    if '/src' in root and '/out/' not in root:
        files += [os.path.join(root, n) for n in sorted(names) if n.endswith('.rt')]
files.sort()
text = {f: open(f).read() for f in files}

# The names of what is asked: for each point, what is looked for (a name, a regular expression over the whole file).
LOOKED = {
    1: [
        ('let-else that hands None or Err on', r'let [^;=]*?\belse \{\s*return (None|Err\([^;]*\));\s*\}'),
        ('if-let or match arm that hands Err or None on', r'(Err\((\w+)\) => return Err\(\2\)|Err\((\w+)\) => Err\(\3\)|if let Err\((\w+)\) = [^{]*\{\s*return Err\(\4\);|if let Some\((\w+)\) = [^{]*\{\s*return Err\(\5\);|Some\((\w+)\) => Some\(\6\),|None => None)'),
        ('match that only changes Option and Result', r'(None => Err\(|Some\((\w+)\) => Ok\(\2\)|Err\(_\) => Err\()'),
        ('if that ends in Some(..) or None', r'\{\s*Some\([^{}]*(\{[^{}]*\})?[^{}]*\)\s*\} else \{\s*None\s*\}|\{\s*None\s*\} else \{\s*Some\([^{}]*(\{[^{}]*\})?[^{}]*\)\s*\}'),
        ('Option<Refusal> for a refusal', r'-> Option<Refusal>'),
        ('a number for a kind or a sort', r'\bsort: u8|\bkind: u8|\bwith_slip: bool|-> u8\b(?=[^{]*number)|pub fn from_number|pub fn number\('),
        ('own enum with a variant that holds nothing beside one that holds a value', r'enum \w+(<[^>]*>)? \{\s*(//[^\n]*\n\s*)*(None|Taken|Free),'),
        ('a result in a result', r'Result<Result<'),
    ],
    3: [
        ('for over a range of numbers', r'for \w+ in [^{\n]*\.\.[^{\n]*\{'),
        ('while let over next', r'while let '),
        ('loop that only answers a bool', r'for [^{]*\{\s*if [^{]*\{\s*return (true|false);\s*\}\s*\}\s*(true|false)'),
        ('counted by hand beside a loop', r'(\w+) = \1\.(saturating_add|wrapping_add)\(|\b(\w+) \+= (1|[a-z]\w*\.[^;]*len\(\));'),
    ],
    4: [
        ('impl of equality, order or copying by hand', r'impl(<[^{]*?>)? (PartialEq|Eq|PartialOrd|Ord|Clone|Copy) for'),
        ('numbers of two counters compared', r'\w\.0 (==|!=|<=|>=|<|>) [\w.]+\.0\b'),
        ('a named comparison', r'fn (equal|one_page|same_page|same_mark|same_bytes|bytes_above|outranks|higher|raise)\('),
        ('conversion by hand', r'fn (from_number|pool_of|told|made|taken|by_lots|by_maker|mark_at|two_at|four_at|word_at|eight_bytes)[(<]'),
        ('a field named only to be printed', r'let \w+ = [\w.]+\.(0|number\(\)|offset|len\(\)|lots|maker|fill\.len)(\[0\])?;(?=(\s*let [^;]*;)*\s*println!)'),
    ],
    6: [
        ('array with a length beside it', r'\[\w+; \d+\],\s*len: usize'),
        ('array written out member by member', r'\[\s*key\('),
        ('outbox and fill', r'out: &(mut )?\[u8\],\s*fill: &(mut )?Fill'),
    ],
    7: [
        ('match on a kind that picks a step', r'match (kind|certified|proposal|next\.stage|\(kind, holds\)|&m\.holds|m\.holds|holds|self\.0\.state\.stage) \{'),
    ],
}

def line_of(s, i):
    return s.count('\n', 0, i) + 1

def kept(f, line):
    """The reason that stands in the same block of lines, above the place or just below its first line."""
    rows = text[f].split('\n')
    first = line - 1
    while first > 0 and rows[first - 1].strip():
        first -= 1
    for row in rows[first:line + 2]:
        if 'Kept:' in row:
            return row.strip()[3:]
    return ''

def by_text(point):
    found = []
    for name, rule in LOOKED[point]:
        for f in files:
            for m in re.finditer(rule, text[f]):
                found.append((name, f, line_of(text[f], m.start()), ' '.join(m.group(0).split())[:90]))
    return found

FN = re.compile(r'(?:^|\n)[ \t]*(?:pub(?:\(crate\))? )?fn (\w+)')

# Parameters that may travel together: names, or names with the same meaning.
GROUPS = [('out', 'fill'), ('draft', 'out'), ('height', 'round'), ('pool', 'len|seal_len'), ('checker', 'head'), ('rchg', 'cand'),
          ('head', 'slip', 'own', 'votes'), ('heap', 'sealer'), ('heap', 'sealers'), ('latest', 'round'), ('core', 'turn', 'records'),
          ('rt', 'book'), ('key', 'statement'), ('pool', 'own')]

def functions():
    """Each function: file, line, name, parameters, clauses, body."""
    for f in files:
        s = text[f]
        for m in FN.finditer(s):
            i = s.index('(', m.end(1))
            depth, j = 0, i
            while True:
                depth += {'(': 1, ')': -1}.get(s[j], 0)
                j += 1
                if depth == 0:
                    break
            params = s[i + 1:j - 1]
            k, clauses, result = j, [], ''
            while k < len(s) and s[k] not in '{;':
                n = re.compile(r'\s*(requires|ensures)\*?( \w+)? (?=\{)').match(s, k)
                if n:
                    e, depth = n.end(), 0
                    while True:
                        depth += {'{': 1, '}': -1}.get(s[e], 0)
                        e += 1
                        if depth == 0:
                            break
                    clauses.append((n.group(1), ' '.join(s[n.end() + 1:e - 1].split())))
                    k = e
                    while k < len(s) and s[k] in ' \n\t':
                        k += 1
                else:
                    k += 1
            if k >= len(s) or s[k] == ';':
                continue
            e, depth = k, 0
            while True:
                depth += {'{': 1, '}': -1}.get(s[e], 0)
                e += 1
                if depth == 0:
                    break
            yield f, line_of(s, m.start(1)), m.group(1), params, clauses, s[k:e]

def shape(body):
    body = re.sub(r'//[^\n]*', '', body)
    body = re.sub(r'"[^"]*"', 'S', body)
    body = re.sub(r"b?'.'", 'N', body)
    body = re.sub(r'\b0x[0-9a-fA-F_]+|\b\d[\d_]*(u8|u16|u32|u64|usize)?\b', 'N', body)
    body = re.sub(r'\b(write|lay|send|bad|on|add)_\w+\b', 'F', body)
    body = re.sub(r'\b[A-Z]\w*\b', 'T', body)
    body = re.sub(r'\b(first|second|a|b|c|lots|maker|single|row|rchg|cand|parent|own|short|long)\b', 'v', body)
    return ' '.join(body.split())

def twins():
    by = defaultdict(list)
    for f, line, name, params, clauses, body in functions():
        s = shape(body)
        if len(s) > 40:
            by[s].append((f, line, name))
    return [('functions of one shape', f, line, name) for group in by.values() if len(group) > 1 for f, line, name in group]

def facts():
    said, together = defaultdict(set), defaultdict(set)
    for f, line, name, params, clauses, body in functions():
        for kind, c in clauses:
            for piece in re.findall(r'box_of S\.Sealer\.meaning R\.Rulebook\.admitted R\.Rulebook\.ranked|ghost_name ≡ [\w.]+ghost_name|\.start ≡ [\w.]+\.start|opens \(place_of \w+\)\.text ≡ true|Whole\w* [\w.]+ →|fill\.old\.len fill\.new\.len out\.old out\.new|draft\.old\.fill\.now\.len draft\.new\.fill\.now\.len|\(s : Settings\) → s\.pool ≡ pool →|length message\.now ≤ 760', c):
                piece = re.sub(r'(Whole\w*) [\w.]+ →', r'Whole.. →', piece)
                piece = re.sub(r'(\w+\.)+(fill\.ghost_name|ghost_name)', 'ghost_name', piece)
                piece = re.sub(r'\w+\.(new|old)\.start', 'start', piece)
                piece = re.sub(r'place_of \w+', 'place_of reader', piece)
                said[piece].add((f, line, name))
        names = set(re.findall(r'(?:^|[,(]\s*)(?:mut )?(\w+):', re.sub(r'\s+', ' ', params)))
        for group in GROUPS:
            if all(names & set(one.split('|')) for one in group):
                together[' + '.join(group)].add((f, line, name))
    found = [('fact: ' + k, *p) for k, v in said.items() if len(v) >= 3 for p in sorted(v)]
    found += [('together: ' + k, *p) for k, v in together.items() if len(v) >= 3 for p in sorted(v)]
    return found

def places(point):
    if point == 2:
        return twins()
    if point == 5:
        return facts()
    return by_text(point)

for point in range(1, 8):
    if only and point != only:
        continue
    found = places(point)
    spots = {(f, line) for _, f, line, _ in found}
    with_reason = {(f, line) for _, f, line, _ in found if kept(f, line)}
    print(f'point {point}: {len(spots)} places, {len(with_reason)} of them with a reason beside them')
    names = defaultdict(set)
    for name, f, line, _ in found:
        names[name].add((f, line))
    for name in sorted(names):
        print(f'    {len(names[name])}  {name}')
    if only:
        for name, f, line, what in sorted(found, key=lambda p: (p[1], p[2])):
            print(f'{os.path.relpath(f, tree)}:{line}: {what}' + (f'   [{kept(f, line)}]' if kept(f, line) else ''))
