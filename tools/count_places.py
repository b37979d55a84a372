#!/usr/bin/env python3
"""The places of docs/DESIGN-PASS.md, point by point: count_places.py [CHECKOUT] [-v]. Reads crates/*/src/*.rt."""
import collections, pathlib, re, sys

root = pathlib.Path(next((a for a in sys.argv[1:] if not a.startswith('-')), '.'))
verbose = '-v' in sys.argv
files = sorted(root.glob('crates/*/src/**/*.rt'))
texts = {f: f.read_text() for f in files}


def code(text):
    return '\n'.join(re.sub(r'//.*', '', l) for l in text.split('\n'))


def lines(pattern):
    for f, text in texts.items():
        for n, l in enumerate(code(text).split('\n'), 1):
            if re.search(pattern, l):
                yield f'{f.relative_to(root)}:{n}: {l.strip()}'


def functions():
    for f, text in texts.items():
        for m in re.finditer(r'^(?P<head>[ \t]*(?:pub(?:\([a-z]+\))? )?(?:extern "C" )?fn (?P<name>\w+)[^;{]*?)(?P<clauses>(?:\n\s*(?:requires|ensures)[^\n]*)*)\s*\{(?P<body>.*?)^\1?\}', code(text), re.M | re.S):
            yield f.relative_to(root), m['name'], m['head'], m['clauses'], m['body']


def show(title, found):
    found = list(found)
    print(f'{len(found):4} {title}')
    if verbose:
        for x in found:
            print('        ', x)


show('1 enums with a variant that says no more than that there is no value',
     lines(r'^\s+(Unsettled|Malformed|Unread|TooLong|Refused\(u32\)),'))
show('1 flags in structs', lines(r'^\s+(pub(\(\w+\))? )?\w+: bool,'))
show('1 refusals as numbers: results, fields and parameters', lines(r'(fn \w*refusal\w*\(.*-> u32)|\b(verdict|refusal): u32|return (Err\()?\d+;|Refused\('))
show('1 kinds as numbers: matches on them', lines(r'match (kop|index|function|number)\b'))


def normal(body):
    body = re.sub(r'"[^"]*"', 'S', body)
    body = re.sub(r'\b\d[\w.]*\b', 'N', body)
    return re.sub(r'\s+', '', re.sub(r'\b[A-Za-z_]\w*\b', lambda m: m[0] if m[0] in ('if', 'else', 'let', 'mut', 'while', 'for', 'in', 'match', 'return') else 'i', body))


groups = collections.defaultdict(list)
for f, name, head, clauses, body in functions():
    if len(normal(body)) >= 40:
        groups[normal(body)].append(f'{f}:{name}')
show('2 functions that share a shape of at least 40 signs (groups)', (', '.join(g) for g in groups.values() if len(g) > 1))
structs = collections.defaultdict(list)
for f, text in texts.items():
    for m in re.finditer(r'struct (\w+)(?:<[^>]*>)? \{(.*?)\n\}', code(text), re.S):
        fields = re.findall(r':\s*([^,\n]+),', m[2])
        structs[tuple(fields)].append(f'{f.relative_to(root)}:{m[1]}')
show('2 structs with the same types of fields in the same order (groups)', (', '.join(g) for k, g in structs.items() if len(g) > 1 and len(k) > 1))
show('3 while and loop', lines(r'^\s*(\w+: )?(while|loop)\b'))
show('3 for and iterator chains', lines(r"^\s*(\w+: )?for |\.iter\(\)|\.iter_mut\(\)"))
show('4 smaller or larger by hand', lines(r'if (\w+) <=? (\w+) \{ (\1|\2) \} else \{ (\1|\2) \}'))
show('4 bytes, bits and signs converted by hand', lines(r'% 256\b|/ 256\b|\* 256\b|0xffff_ffff|4294967295 -|0 - \(?v|b - 48|b - 87'))
facts = collections.defaultdict(set)
for f, name, head, clauses, body in functions():
    for r in re.findall(r'requires[^{]*\{(.*)\}', clauses):
        for fact in re.split(r' × ', r):
            fact = re.sub(r'\.(old|now|new)\b', '', fact.strip()).strip('() ')
            facts[fact].add(f'{f}:{name}')
show('5 facts that stand in the requires of three functions or more', (f'{k}: ' + ', '.join(sorted(v)) for k, v in facts.items() if len(v) > 2))
together = collections.defaultdict(set)
for f, name, head, clauses, body in functions():
    ps = re.findall(r'(\w+): ([^,()]+(?:\([^)]*\))?)', head)
    for i in range(len(ps)):
        for j in range(i + 1, len(ps)):
            together[(ps[i], ps[j])].add(f'{f}:{name}')
show('5 pairs of parameters that stand together in four functions or more', (f'{a[0]}, {b[0]}: {len(v)} functions' for (a, b), v in together.items() if len(v) > 3))
show('6 a buffer with a length or a place beside it: parameters', (f'{f}:{name}' for f, name, head, c, b in functions()
     if re.search(r'&mut \[u8\]', head) and re.search(r'\b(at|held): usize', head)))
show('7 matches that choose a step or an entry of a table', lines(r'match (list|place|k)\b'))
proofs = [p for p in root.glob('crates/*/proofs/**/*.antt')]
print(f'{sum(len(p.read_text().split(chr(10))) - 1 for p in proofs):6} 8 lines of proofs in {len(proofs)} files;',
      sum(len(re.findall(r'^pub \S+ : goal\.', p.read_text(), re.M)) for p in proofs), 'answers,',
      sum(1 for f in root.glob('crates/*/src/*.rt') if f.name in ('lib.rt', 'main.rt') and '#![tactic(auto)]' in f.read_text()), 'roots with #![tactic(auto)]')
