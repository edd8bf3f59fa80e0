#!/usr/bin/env python3
"""count-places.py [FOLDER]: the places of docs/DESIGN-PASS.md's points 1 to 7 in crates/*/src of a checkout (here, without FOLDER). With -v each place is
printed. It reads text, not types: what it finds is a place to look at, and the page says of each kind that is left why."""
import glob, os, re, sys
from collections import defaultdict

show = '-v' in sys.argv
top = next((a for a in sys.argv[1:] if a != '-v'), '.')
files = {os.path.relpath(p, top): open(p).read() for p in sorted(glob.glob(f'{top}/crates/*/src/**/*.rt', recursive=True))}
bare = {f: re.sub(r'//[^\n]*', '', s) for f, s in files.items()}

class Fn:
    pass

def functions():
    for f, s in bare.items():
        for m in re.finditer(r'^( *)((?:pub )?(?:const )?(?:extern "C" )?)fn (\w+)(<[^>{(]*>)?\(', s, re.M):
            i, depth = m.end(), 1
            while depth:
                depth += {'(': 1, ')': -1}.get(s[i], 0)
                i += 1
            fn = Fn()
            fn.file, fn.name, fn.public = f, m[3], 'pub' in m[2]
            fn.params = re.sub(r'\s+', ' ', s[m.end():i - 1]).strip().strip(',')
            j = s.index('\n' + m[1] + '{\n', i) if '\n' + m[1] + '{\n' in s[i:] else s.index('{', i)
            head = s[i:j]
            fn.result = (re.match(r'\s*->\s*([^\n{]*?)\s*(?:\n|$)', head) or ['', ''])[1].strip()
            fn.clauses = re.findall(r'(requires|ensures)(?: \w+)? \{ ?(.*?) ?\}\s*(?:\n|$)', head)
            k = s.index('{', j)
            depth, e = 1, k + 1
            while depth:
                depth += {'{': 1, '}': -1}.get(s[e], 0)
                e += 1
            fn.body, fn.line = s[k + 1:e - 1], s[:m.start()].count('\n') + 1
            yield fn

fns = list(functions())
found = defaultdict(list)

def note(point, where, what):
    found[point].append(f'{where}: {what}')

def at(f, s, m):
    return f'{f}:{s[:m.start()].count(chr(10)) + 1}'

# 1. own enums of the shape of Option or Result; a truth value in a struct, an enum or beside another parameter; numbers for kinds
for f, s in bare.items():
    for m in re.finditer(r'\benum (\w+)[^{]*\{(.*?)\n\}', s, re.S):
        variants = re.findall(r'(\w+)(\([^)]*\))?,', m[2])
        plain = [v for v, held in variants if not held]
        names = {v for v, _ in variants}
        if len(variants) == 2 and (len(plain) == 1 or len(plain) == 0 and names & {'Refused', 'Stopped', 'Err', 'Failed', 'Unlisted'}) or names & {'Refused', 'Stopped'}:
            note(1, at(f, s, m), f'enum {m[1]}')
        for v, held in variants:
            if 'bool' in held:
                note(1, at(f, s, m), f'truth value in {m[1]}::{v}')
    for m in re.finditer(r'\bstruct (\w+)[^{;]*\{(.*?)\n\}', s, re.S):
        fields = re.findall(r'(\w+): ([^,\n]+),', m[2])
        for n, t in fields:
            if t == 'bool' and m[1] != 'Lh5801':
                note(1, at(f, s, m), f'truth value {n} in {m[1]}')
for fn in fns:
    for n, t in re.findall(r'(\w+): ([^,]+)', fn.params):
        if t.strip() == 'bool' and ('u8' in fn.params or 'u16' in fn.params or 'Lh5801' in fn.params) and fn.params.count('bool') == 1:
            note(1, f'{fn.file}:{fn.line}', f'truth value {n} beside others in {fn.name}')
        if t.strip() == 'u8' and n in ('n', 'function', 'number', 'shape', 'c', 'nr', 'flag', 'o', 'k'):
            note(1, f'{fn.file}:{fn.line}', f'number {n} in {fn.name}')
    if fn.result == 'u8' and re.search(r'=>\s*\d+,', fn.body):
        note(1, f'{fn.file}:{fn.line}', f'number of a kind from {fn.name}')
    for m in re.finditer(r'if (n|function|k|i) (?:==|<) \d+', fn.body):
        note(1, f'{fn.file}:{fn.line}', f'kind by number in {fn.name}: {m[0]}')

# 2. twins: bodies that are equal but for literals, types, constants, cases, fields, the way up or down, and the names of their variables
def normal(fn):
    b = re.sub(r'\b(?:0x[0-9a-f_]+|\d[\d_]*)(?:u\d+)?\b', '0', fn.body)
    b = re.sub(r'\b(?:true|false)\b', '0', b)
    b = re.sub(r'\b(?:u8|u16|u32|u64|usize|bool)\b', 'T', b)
    b = re.sub(r'\b[A-Z]\w*(?:::[A-Z]\w*)+|\b[A-Z][A-Z0-9_]+\b|\b[A-Z]\b', 'V', b)
    b = re.sub(r'\bwith_\w+|\.(?!with_)[a-z]\w*(?!\w*\()', lambda m: 'with_F' if m[0][0] == 'w' else '.F', b)
    # a step up or down, a row of a table: the same but for the way or the place
    b = re.sub(r'\b(?:inc|dec)(_\w+)?\(', r'count\1(', b)
    b = re.sub(r'wrapping_(?:add|sub)', 'wrapping', b)
    b = re.sub(r'\brow_\w+\(', 'row(', b)
    names = {}
    params = re.findall(r'(\w+):', fn.params) + re.findall(r'let (?:mut )?(\w+)', b)
    for p in params:
        b = re.sub(rf'(?<![.\w]){p}\b', names.setdefault(p, f'v{len(names)}'), b)
    b = re.sub(rf'\b{fn.name}\b', 'SELF', b)
    return re.sub(r'\s+', ' ', b).strip()

groups = defaultdict(list)
for fn in fns:
    groups[normal(fn)].append(fn)
families = [g for n, g in groups.items() if len(g) > 1 and len(n) > 8]
for g in families:
    note(2, g[0].file, f'{len(g)} functions: ' + ', '.join(x.name for x in g))
structs = defaultdict(list)
for f, s in bare.items():
    for m in re.finditer(r'\b(struct|enum) (\w+)[^{;]*\{(.*?)\n\}', s, re.S):
        n = re.sub(r'\b(?:u8|u16|u32|u64|usize|bool)\b', 'T', re.sub(r'\s+', ' ', m[3]))
        structs[m[1] + n].append((f, m[2]))
for g in structs.values():
    if len(g) > 1:
        note(2, g[0][0], 'types: ' + ', '.join(n for _, n in g))

# 3. loops that count an index by hand, and recursion that counts down
for fn in fns:
    for m in re.finditer(r'\bwhile [^{]*|\bloop \{', fn.body):
        note(3, f'{fn.file}:{fn.line}', f'{fn.name}: {m[0].strip()}')
    for m in re.finditer(r'for (\w+) in [\w.]*\.\.|for \((\w+),', fn.body):
        i = m[1] or m[2]
        if re.search(rf'\[[^\]]*\b{i}\b[^\]]*\]|get\({i}\)', fn.body[m.end():]):
            note(3, f'{fn.file}:{fn.line}', f'{fn.name}: {m[0]} and an index')
    if re.search(rf'(?<![.:\w])(?:self\.)?{fn.name}\(', fn.body):
        note(3, f'{fn.file}:{fn.line}', f'{fn.name}: calls itself')

# 4. conversion by hand: `as`, the forms of std::num, halves of words by / and %, and functions that convert or print
for f, s in bare.items():
    for m in re.finditer(r'\bas (?:u8|u16|u32|u64|usize)\b', s):
        note(4, at(f, s, m), s[s.rfind('\n', 0, m.start()) + 1:s.find('\n', m.end())].strip())
    for m in re.finditer(r'std::num::\w+', s):
        note(4, at(f, s, m), m[0])
    for m in re.finditer(r'[%/] 256\b', s):
        note(4, at(f, s, m), s[s.rfind('\n', 0, m.start()) + 1:s.find('\n', m.end())].strip())
for fn in fns:
    if re.match(r'(bit_of|\w+_number|wide|two|four|eight|hex_digit|put_decimal|put_hex|limited|of_\w+|record_of|from_record|each|stop|number|byte|offset)$', fn.name):
        note(4, f'{fn.file}:{fn.line}', f'fn {fn.name}')

# 5. parameters that travel together, and facts that three or more functions ask or promise
def kinds(fn):
    return [(n, re.sub(r"&(?:'\w+ )?(?:mut )?", '&', t.strip())) for n, t in re.findall(r'(\w+): ((?:[^,\[]|\[[^\]]*\])+)', fn.params)]
pairs = defaultdict(list)
for fn in fns:
    ks = kinds(fn)
    for i, a in enumerate(ks):
        for b in ks[i + 1:]:
            pairs[a, b].append(fn)
for (a, b), g in pairs.items():
    if len(g) >= 5:
        note(5, f'{len(g)} functions', f'{a[0]}: {a[1]} with {b[0]}: {b[1]}')
facts = defaultdict(set)
for fn in fns:
    for kind, c in fn.clauses:
        for part in re.split(r'\) × \(|×', c) if kind == 'requires' else []:
            part = re.sub(r'\s+', ' ', part).strip(' ()')
            facts[part].add((fn.file, fn.name))
for part, g in facts.items():
    if len(g) >= 3:
        note(5, f'{len(g)} functions', f'requires {part}')

# 6. a buffer with a place or a length beside it
for fn in fns:
    ks = kinds(fn)
    if any('[' in t for _, t in ks) and any(n in ('at', 'len', 'from', 'used', 'length', 'log_used') and t in ('usize', 'u64') for n, t in ks):
        note(6, f'{fn.file}:{fn.line}', f'{fn.name}({fn.params})')
for f, s in bare.items():
    for m in re.finditer(r'\bstruct (\w+)[^{;]*\{(.*?)\n\}', s, re.S):
        if re.search(r'(\w+_)?len\w*: usize', m[2]):
            note(6, at(f, s, m), f'struct {m[1]}')

# 7. a number that says which step to run, in chains of tests
for fn in fns:
    for m in re.finditer(r'match (\w+) \{\n\s*\d+ =>', fn.body):
        note(7, f'{fn.file}:{fn.line}', f'{fn.name}: match {m[1]} by number')
    tests = re.findall(r'if (\w+) (?:==|<|>=|<=) \d+', fn.body)
    if len(tests) >= 2 and len(set(tests)) < len(tests):
        note(7, f'{fn.file}:{fn.line}', f'{fn.name}: {len(tests)} tests of a number in a chain')

names = {1: 'own Option or Result, flags, numbers for kinds', 2: 'twins', 3: 'loops by hand', 4: 'conversions by hand', 5: 'travelling parameters and repeated facts', 6: 'buffers with a length beside', 7: 'chains that choose a step'}
print(f'{len(fns)} functions')
for p in range(1, 8):
    extra = f' ({sum(int(x.split(": ")[1].split()[0]) for x in found[2] if "functions" in x)} functions)' if p == 2 else ''
    print(f'{p}. {names[p]}: {len(found[p])}{extra}')
    if show:
        for x in found[p]:
            print('   ', x)
