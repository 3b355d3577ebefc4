#!/usr/bin/env python3
"""Counts places in crates/*/src where an older form of code stands, one group of patterns for each
point of docs/DESIGN-PASS.md. `tools/places.py` prints the counts, by point and crate;
`tools/places.py -v [POINT]` prints each place. It goes by text: it finds candidates, which a reader judges."""
import collections
import glob
import re
import sys

FN = re.compile(r'^\s*(?:pub(?:\(crate\))? )?(?:extern "C" )?fn (\w+)', re.M)


def functions(text):
    """name, parameters, clauses and body of each function, without its comments"""
    plain = re.sub(r'//[^\n]*', lambda m: ' ' * len(m.group(0)), text)
    for m in FN.finditer(plain):
        i = plain.index('(', m.end())
        depth, j = 0, i
        while True:
            depth += plain[j] in '([<{'
            depth -= plain[j] in ')]}' or (plain[j] == '>' and plain[j - 1] != '-')
            if depth == 0:
                break
            j += 1
        rest = plain[j + 1:]
        line = text.count('\n', 0, m.start()) + 1
        yield m.group(1), plain[i + 1:j], rest, line


def body_of(rest):
    """clauses and body: the body starts at a brace that ends a line"""
    m = re.search(r'\{[ \t]*\n', rest)
    if not m:
        return rest, ''
    depth, j = 0, m.start()
    while j < len(rest):
        depth += rest[j] == '{'
        depth -= rest[j] == '}'
        if depth == 0:
            break
        j += 1
    return rest[:m.start()], rest[m.start():j + 1]


LINES = {
    1: [r'\benum \w+', r'\w+: bool\b', r'bool, i32', r'(?:==|>|:|=>) 255\b', r'REFUSED', r'\btag: u8', r'-> \(\w+, \w+\)', r'^const [A-Z_]+: u8'],
    3: [r'^\s*(?:\'\w+: )?while ', r'\bfor \w+ in [^{]*\.\.', r'\bat \+= |\bi \+= |\bto \+= |\bm \+= |\bleft -= '],
    4: [r'\* 256 \+', r'/ 256\b|% 256\b', r'\{ 1 \} else \{ 0 \}', r'=> true,', r'=> false,', r'None => None', r'Err\(_\) => (?:None|false|0)', r'Ok\((\w+)\) => \1,',
        r'fn (?:same|equal|moment|operator|signed|unsigned|number|flag|one_if|copy|copied|taken|watched|is_own|less|count|low|numbered|meaning|name|status)\b', r'as u(?:8|16|32|64)\b.*\* 256', r'from_be_bytes\(\[\w+\[',
        r'if \w+ < [\w.]+ \{ [\w.]+ \} else \{ [\w.]+ \}'],
    6: [r'^\s*(?:pub(?:\(crate\))? )?\w+: \[\w+; \w+\],', r'mut \w+ = \[[^;\]]+; \d+\]'],
    7: [r'\bmatch (?:task|l|x|name)\b', r'(?:if|else if) name == ', r'fn\(', r'task: Task'],
}


def places(root='crates'):
    found = collections.defaultdict(list)
    shapes = collections.defaultdict(list)
    clauses = collections.defaultdict(set)
    groups = collections.defaultdict(set)
    for path in sorted(glob.glob(root + '/*/src/**/*.rt', recursive=True)):
        text = open(path).read()
        crate = path.split('/')[1]
        for n, line in enumerate(text.split('\n'), 1):
            if line.lstrip().startswith('//'):
                continue
            for point, patterns in LINES.items():
                if any(re.search(p, line) for p in patterns):
                    found[point].append((crate, f'{path}:{n}: {line.strip()}'))
        for name, params, rest, line in functions(text):
            clause, body = body_of(rest)
            tokens = re.findall(r'[A-Za-z_]\w*|\d+|\S', body)
            keep = {'match', 'if', 'else', 'for', 'while', 'let', 'return', 'Some', 'None', 'Ok', 'Err', 'self', 'Result', 'true', 'false', 'in', 'mut', 'as'}
            shape = ' '.join(t if t in keep or not re.match(r'\w', t) else 'n' if t[0].isdigit() else 'w' for t in tokens)
            if len(tokens) > 14:
                shapes[shape].append((crate, f'{path}:{line}: {name}'))
            where = (crate, f'{path}:{line}: {name}')
            for c in re.findall(r'requires (?:\w+ )?\{(.*)\}\s*$', clause, re.M):
                for part in re.split(r' × ', c):
                    fact = re.sub(r'\b(old|now|new)\b', 'v', part.strip(' ()'))
                    clauses[(crate, fact)].add(where)
            names = sorted(p for p in (q.strip() for q in re.split(r',(?![^<\[(]*[>\])])', params)) if ':' in p)
            names = [p for p in names if not p.startswith(('rt:', 'f:'))]
            for a in range(len(names)):
                for b in range(a + 1, len(names)):
                    groups[(crate, names[a] + ', ' + names[b])].add(where)
    for shape, where in shapes.items():
        if len(where) > 1:
            found[2] += [(c, p + f'   (one of {len(where)} of this shape)') for c, p in where]
    for (crate, fact), where in sorted(clauses.items()):
        if len(where) >= 3:
            found[5].append((crate, f'requires {fact}: in {len(where)} functions'))
    for (crate, pair), where in sorted(groups.items()):
        if len(where) >= 3:
            found[5].append((crate, f'parameters {pair}: in {len(where)} functions'))
    for path in sorted(glob.glob(root + '/*/proofs/**/*.antt', recursive=True)):
        crate = path.split('/')[1]
        for m in re.finditer(r'^(?:abbrev )?(?:pub )?[^\s:]+ : goal\.(?!invariant|decreases).*$', open(path).read(), re.M):
            found[8].append((crate, f'{path}: {m.group(0)}'))
    return found


def main():
    found = places()
    wanted = [int(a) for a in sys.argv[1:] if a.isdigit()] or range(1, 9)
    for point in wanted:
        where = found[point]
        tests = sum(c.endswith(('_tests', '_cases')) for c, _ in where)
        by = collections.Counter(c for c, _ in where)
        print(f'{point}: {len(where)} ({tests} of them in tests): ' + ', '.join(f'{c} {n}' for c, n in sorted(by.items())))
        if '-v' in sys.argv:
            for _, p in where:
                print('   ', p)


main()
