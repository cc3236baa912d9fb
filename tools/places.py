#!/usr/bin/env python3
"""Lists the places in src/ that an older Rattle wrote in its own way, point by point.

    python3 tools/places.py [POINT ..]      in the top folder of a checkout

Each line may be one: FILE:LINE and its text. What a line is judged to be is in docs/DESIGN-PASS.md."""
import re, sys, glob, itertools, collections

FILES = sorted(glob.glob('crates/*/src/**/*.rt', recursive=True))
TEXT = {f: open(f).read().split('\n') for f in FILES}


def lines(pattern, skip=None):
    for f in FILES:
        for n, line in enumerate(TEXT[f], 1):
            code = line.split('//')[0]
            if re.search(pattern, code) and not (skip and re.search(skip, code)):
                yield f'{f[7:]}:{n}', line.strip()


def functions():
    """File, line, name, parameters, result, clauses and body of each function with a body; tests are left out."""
    for f in FILES:
        text = '\n'.join(TEXT[f])
        cut = text.find('#[cfg(test)]')
        text = text if cut < 0 else text[:cut]
        for m in re.finditer(r'\bfn (\w+)(?:<[^{(]*?>)?\(', text):
            i, depth = m.end(), 1
            while depth:
                depth += {'(': 1, ')': -1}.get(text[i], 0)
                i += 1
            params = text[m.end():i - 1]
            rest = text[i:]
            head = re.match(r'((?:.|\n)*?)(?:\n\s*\{\n|;| \{\n)', rest)
            if not head:
                continue
            clauses = head.group(1)
            ends = i + head.end()
            body = ''
            if text[ends - 1] == '\n':
                d, j = 1, ends
                while d and j < len(text):
                    d += {'{': 1, '}': -1}.get(text[j], 0)
                    j += 1
                body = text[ends:j - 1]
            yield f[7:], text[:m.start()].count('\n') + 1, m.group(1), params, clauses, body


FUNCTIONS = list(functions())


def point_1():
    yield from lines(r'^\s*(pub(\(crate\))? )?enum ')
    yield from lines(r'^\s*(pub(\(crate\))? )?\w+: bool,')
    yield from lines(r'&mut.*-> (\(.*bool.*\)|bool)')
    yield from lines(r'^\s*(pub(\(crate\))? )?const [A-Z]+: u\d+ = \d+;')
    yield from lines(r'fn (code|from_code|number|told)\b')
    yield from lines(r'match .*\.(kind|verb|cause)\b')


def skeleton(body):
    words = re.findall(r'\w+|[^\s\w]', re.sub(r'//.*', '', body))
    keep = {'if', 'else', 'match', 'for', 'while', 'return', 'let', 'self', 'mut', 'in'}
    return [w if w in keep or not re.match(r'\w', w) else 'x' for w in words]


def point_2():
    kinds = collections.defaultdict(list)
    for f, n, name, _, _, body in FUNCTIONS:
        s = skeleton(body)
        if len(s) >= 8:
            kinds[tuple(s)].append((f, n, name))
    for same in kinds.values():
        if len(same) > 1:
            yield f'{same[0][0]}:{same[0][1]}', ' = '.join(f'{f.split("/")[0]} {name}' for f, _, name in same)


def point_3():
    yield from lines(r'\bwhile (?!let)')
    yield from lines(r'\bfor \w+ in \w+\.\.')
    yield from lines(r'\.enumerate\(\)')
    for f, n, name, _, _, body in FUNCTIONS:
        if re.search(r'\bfor ', body) and re.search(r'for (?:.|\n)*?return (true|false|Some|None)', body):
            yield f'{f}:{n}', f'{name}: a search by a loop'


def point_4():
    yield from lines(r'^impl.* (Clone|Copy|PartialEq|Eq|Ord|Default|From<.*>|TryFrom<.*>|(fmt::)?Display) for ')
    yield from lines(r'\bprint(ln)?!')
    yield from lines(r'fn (code|from_code|to_record|of|number)\b')
    for f, n, name, _, _, body in FUNCTIONS:
        if re.fullmatch(r'\s*(\S+ == \S+\s*(&&)?\s*)+', body) and body.count('==') > 1:
            yield f'{f}:{n}', f'{name}: equality field by field'
    for f in FILES:
        text = '\n'.join(TEXT[f])
        for m in re.finditer(r'(\w+: 0,\s*){3,}', text):
            yield f'{f[7:]}:{text[:m.start()].count(chr(10)) + 1}', 'a value of zeros'


def point_5():
    seen = collections.defaultdict(set)
    for f, n, name, _, clauses, _ in FUNCTIONS:
        for clause in re.findall(r'(?:ensures|requires)\*?(?: \w+)? (\{.*\})', clauses):
            shape = re.sub(r'\b(self|result|bytes|cells|entries|runner)\b', '_', clause)
            seen[f.split('/')[0], shape].add((f, n, name))
    for (_, shape), fs in sorted(seen.items()):
        if len(fs) >= 3:
            f, n, _ = min(fs)
            yield f'{f}:{n}', f'in {len(fs)} contracts: {shape[:100]}'
    pairs = collections.defaultdict(set)
    for f, n, name, params, _, _ in FUNCTIONS:
        ps = sorted(set(re.sub(r'\s+', ' ', p.strip()) for p in params.split(',') if ':' in p))
        for pair in itertools.combinations(ps, 2):
            pairs[f.split('/')[0], pair].add((f, n, name))
    for (_, pair), fs in sorted(pairs.items()):
        if len(fs) >= 3:
            f, n, _ = min(fs)
            yield f'{f}:{n}', f'in {len(fs)} functions: {" with ".join(pair)}'


def point_6():
    yield from lines(r'^\s*(pub(\(crate\))? )?(len|count|at|left|n): (usize|u\d+),')
    yield from lines(r': \[\w+; \w+\]')
    yield from lines(r'Bounded<')


def point_7():
    yield from lines(r'\bmatch (side|class|section|aim|step\.reach|call|verb|\(aim, .*)\b')
    yield from lines(r'\bfn\(|dyn |impl Fn')


def point_8():
    for f in sorted(glob.glob('crates/*/proofs/*/**/Answers.antt', recursive=True)):
        text = open(f).read()
        yield f[7:], f'{len(re.findall(r"^pub ", text, re.M))} answers, {text.count(chr(10))} lines'


def main():
    for point in sys.argv[1:] or '12345678':
        found = list(globals()[f'point_{point}']())
        print(f'point {point}: {len(found)}')
        for place, what in found:
            print(f'  {place}  {what}')


main()
