#!/usr/bin/env python3
# Places that docs/DESIGN-PASS.md counts and no grep finds, over crates/*/src.
#   twins    functions whose bodies are the same but for names, types and constants
#   facts    facts that stand in the `requires` of three functions or more
#   groups   parameters, name and type, that three functions or more have together
#   consts   constants that two files or more have by the same name and value
import collections, glob, itertools, re, sys


def sources():
    for path in sorted(glob.glob('crates/*/src/*.rt')):
        yield path.split('/')[1], re.sub(r'//.*', '', open(path).read())


def functions():
    head = r'^(?: {4})?(?:pub )?(?:extern "C" )?fn (\w+)(?:<[^(]*>)?\((.*?)\)(.*?)\{\n(.*?)^(?: {4})?\}'
    for crate, text in sources():
        for m in re.finditer(head, text, re.M | re.S):
            yield f'{crate}::{m.group(1)}', m.group(2), m.group(3), m.group(4)


def shape(parameters, body):
    text = f'{parameters}|{body}'
    text = re.sub(r'<[^<>()]*>', '', text)
    plain = r'b?"[^"]*"|b\'.\'|0x[0-9a-f_]+|\b\d[\d_.]*\b|\b[A-Z][A-Za-z0-9_:]*\b|\b[uif](8|16|32|64|size)\b|\bbool\b'
    text = re.sub(plain, '#', text)
    names = {}
    text = re.sub(r'\b[a-z_]\w*\b', lambda w: names.setdefault(w.group(), f'v{len(names)}'), text)
    return re.sub(r'\s+', '', text)


def twins():
    found = collections.defaultdict(list)
    for name, parameters, _, body in functions():
        found[shape(parameters, body)].append(name)
    return [(names, '') for names in found.values() if len(names) > 1]


def facts():
    found = collections.defaultdict(set)
    for name, _, clauses, _ in functions():
        for clause in re.findall(r'requires(?: \w+)? \{(.*)\}', clauses):
            for fact in clause.split(' × '):
                fact = re.sub(r'\.(old|now)\b', '', fact.strip().strip('()'))
                word = fact.split()[0]
                found[word if word[0].isupper() else fact].add(name)
    return [(sorted(names), fact) for fact, names in found.items() if len(names) > 2]


def groups():
    found = collections.defaultdict(list)
    for name, parameters, _, _ in functions():
        parts = [re.sub(r'\s', '', p) for p in re.split(r',(?![^\[]*\])', parameters) if ':' in p]
        for size in range(2, len(parts) + 1):
            for group in itertools.combinations(sorted(parts), size):
                found[group].append(name)
    wide = {g: n for g, n in found.items() if len(n) > 2}
    largest = [g for g in wide if not any(set(g) < set(h) and wide[g] == wide[h] for h in wide)]
    return [(wide[g], ', '.join(g)) for g in largest]


def consts():
    found = collections.defaultdict(list)
    for crate, text in sources():
        for m in re.finditer(r'^(?:pub )?const (\w+: \w+ = .*?);', text, re.M):
            found[m.group(1)].append(crate)
    return [(crates, const) for const, crates in found.items() if len(crates) > 1]


for names, what in sorted({'twins': twins, 'facts': facts, 'groups': groups, 'consts': consts}[sys.argv[1]](), key=lambda x: -len(x[0])):
    print(len(names), what, '|', ' '.join(names))
