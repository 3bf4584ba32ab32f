#!/usr/bin/env python3
"""Lists the places in crates/*/src where an older form may stand, by the points of docs/DESIGN-PASS.md.

    python3 tools/places.py          how many of each
    python3 tools/places.py POINT    each, with its file and line

It goes by the text alone. What it finds is read by a person: docs/DESIGN-PASS.md says what became of each.
"""
import re, sys, pathlib, collections

TOP = pathlib.Path(__file__).resolve().parent.parent
FILES = sorted((TOP / 'crates').glob('*/src/*.rt'))


def text_of(file):
    return file.read_text()


def at(file, text, position):
    return f'{file.relative_to(TOP)}:{text.count(chr(10), 0, position) + 1}'


def lines(pattern):
    """Each place in the sources that fits the pattern, with its match."""
    for file in FILES:
        text = text_of(file)
        for m in re.finditer(pattern, text, re.M):
            yield at(file, text, m.start()), m


def blocks(word):
    """Each item that begins with the word: its file, place, head and body."""
    for file in FILES:
        text = text_of(file)
        for m in re.finditer(rf'^ *(?:pub(?:\([a-z]+\))? )?(?:extern "C" )?{word} (\w+)', text, re.M):
            brace = body_start(text, m.end())
            if brace is None:
                continue
            end, depth = brace, 0
            while end < len(text):
                depth += {'{': 1, '}': -1}.get(text[end], 0)
                end += 1
                if depth == 0:
                    break
            yield file, at(file, text, m.start()), m.group(1), text[m.start():brace], text[brace:end]


def body_start(text, i):
    """Where the body's brace is: past the clauses, whose braces stand on the lines of requires and ensures."""
    while True:
        brace = text.find('{', i)
        if brace < 0:
            return None
        before = text[text.rfind('\n', 0, brace) + 1:brace].strip()
        if before.startswith(('requires', 'ensures')):
            depth, end = 0, brace
            while True:
                depth += {'{': 1, '}': -1}.get(text[end], 0)
                end += 1
                if depth == 0:
                    break
            i = end
        else:
            return brace


def clauses(head):
    for m in re.finditer(r'requires(?: \w+)? \{(.*?)\}\s*(?=\n *(?:requires|ensures)|\Z|\n)', head, re.S):
        yield ' '.join(m.group(1).split())


def point1():
    """Enums with a variant without data beside one with data, or with a variant Refused; fields bool of a struct; numbers that stand for none."""
    for file, place, name, head, body in blocks('enum'):
        variants = re.findall(r'^\s*(\w+)(\(.*\))?,', body, re.M)
        bare = [v for v, d in variants if not d]
        full = [v for v, d in variants if d]
        if (len(bare) == 1 and len(full) == 1) or 'Refused' in full or any(b in ('None', 'Unreadable', 'Nothing', 'OutOfLimits', 'Bad') for b in bare):
            yield place, f'enum {name}'
    for file, place, name, head, body in blocks('struct'):
        flags = re.findall(r'(\w+): bool', body)
        if flags:
            yield place, f'struct {name}: {", ".join(flags)}'
    for place, m in lines(r'^ *// .*\b(?:or 0|0 if|0 of|0 where|of none 0|else 0|256 if|other byte 16|; 0)\b.*$'):
        yield place, m.group(0).strip()


def skeleton(body):
    keep = {'if', 'else', 'while', 'for', 'in', 'match', 'return', 'let', 'mut', 'self'}
    return re.sub(r'\b\w+\b', lambda m: m.group(0) if m.group(0) in keep else '_', re.sub(r'//.*', '', body)).split()


def point2():
    """Functions of the same shape: the same words of the language and signs, whatever the names and numbers (five lines or more)."""
    shapes = collections.defaultdict(list)
    for file, place, name, head, body in blocks('fn'):
        if body.count('\n') >= 5:
            shapes[' '.join(skeleton(body))].append((place, name))
    for shape, fns in sorted(shapes.items(), key=lambda s: s[1]):
        if len(fns) > 1:
            for place, name in fns:
                yield place, f'fn {name}, of {len(fns)}: {", ".join(n for _, n in fns)}'


def point3():
    """`while`, and `for` over a range of numbers."""
    for place, m in lines(r'^ *(while .*|for \w+ in [^{]*\.\..*)\{'):
        yield place, m.group(1).strip()


def point4():
    """Functions that are one `match` with an arm of a constant for each variant; fields written `x: x`."""
    for file, place, name, head, body in blocks('fn'):
        arms = re.findall(r'=> ([^,{}]+),', body)
        flat = [a for a in arms if re.fullmatch(r"true|false|\d+|b'.'|\w+::\w+|.*b\".*\"\)", a.strip())]
        if body.count('match ') == 1 and len(arms) >= 2 and len(flat) == len(arms):
            yield place, f'fn {name}: {len(arms)} arms'
    for place, m in lines(r'^ +(\w+): \1,$'):
        yield place, m.group(0).strip()


def point5():
    """Facts that stand in the requires of three functions or more; four parameters, by name and type, that stand side by side in three or more."""
    facts = collections.defaultdict(list)
    groups = collections.defaultdict(list)
    for file, place, name, head, body in blocks('fn'):
        for clause in clauses(head):
            for fact in re.split(r' × ', clause):
                fact = fact.strip()
                while fact.startswith('(') and fact.endswith(')'):
                    fact = fact[1:-1].strip()
                facts[fact].append((place, name))
        m = re.search(r'\((.*?)\)(?: ->|\s*\n? *(?:requires|ensures|\{|$))', head, re.S)
        words = [' '.join(p.split()) for p in re.split(r',(?![^<\[]*[>\]])', m.group(1))] if m else []
        words = [w for w in words if ':' in w]
        for i in range(len(words) - 2):
            groups[tuple(words[i:i + 3])].append((place, name))
    for fact, fns in sorted(facts.items()):
        if len(fns) >= 3 and fact.strip() not in ('', '?'):
            yield fns[0][0], f'{len(fns)} functions: {fact}'
    for group, fns in sorted(groups.items()):
        if len(fns) >= 3:
            yield fns[0][0], f'{len(fns)} functions: {", ".join(group)}'


def point6():
    """Structs with an array or slice, and a number of how much of it counts."""
    for file, place, name, head, body in blocks('struct'):
        if re.search(r'\w+: (?:&\S* ?)?(?:mut )?\[', body) and re.search(r'(count|length|len|end|size|field): usize', body):
            yield place, f'struct {name}'


def point7():
    """Enums that choose a test or a change, and their functions."""
    for place, m in lines(r'^ *(?:pub )?enum (\w*(?:Test|Change|Work))\b|fn \w+\([^)]*: (?:EntryTest|IdTest|NodeTest|EntryChange)\b[^)]*\)'):
        yield place, m.group(0).strip()


def point8():
    """The answers, the invariants and the lemmas of proofs/."""
    for kind, pattern in (('answers', 'Answers.antt'), ('invariants', 'Invariants.antt')):
        for file in sorted((TOP / 'crates').glob(f'*/proofs/**/{pattern}')):
            n = len(re.findall(r'^(?:abbrev )?pub ', file.read_text(), re.M))
            yield str(file.relative_to(TOP)), f'{n} {kind}'
    for file in sorted((TOP / 'crates').glob('*/proofs/*.antt')):
        n = len(re.findall(r'^ *(?:abbrev |unfoldable )?(?:pub )?[\w-]+ : ', file.read_text(), re.M))
        if file.name != 'Lib.antt':
            yield str(file.relative_to(TOP)), f'{n} lemmas'


POINTS = [point1, point2, point3, point4, point5, point6, point7, point8]

if len(sys.argv) > 1:
    for place, what in POINTS[int(sys.argv[1]) - 1]():
        print(place, what)
else:
    for i, point in enumerate(POINTS, 1):
        found = list(point())
        print(f'{i}. {len(found):4}  {point.__doc__.splitlines()[0]}')
