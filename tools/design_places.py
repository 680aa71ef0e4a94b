#!/usr/bin/env python3
"""Places in crates/*/src of the forms that docs/DESIGN-PASS.md counts, by its points 1 to 8: a line each with --list, else the counts.

usage: tools/design_places.py [--list] [POINT ..]      at the top of a checkout
"""
import collections
import glob
import re
import sys

FUNCTION = re.compile(r'^( *)(?:pub(?:\(crate\))? )?fn (\w+)')


def sources():
    for path in sorted(glob.glob('crates/*/src/**/*.rt', recursive=True)):
        yield path, open(path, encoding='utf-8').read().split('\n')


def functions():
    """Each function as (path, line number, name, contract lines, body lines)."""
    for path, lines in sources():
        i = 0
        while i < len(lines):
            m = FUNCTION.match(lines[i])
            if not m:
                i += 1
                continue
            close = m.group(1) + '}'
            end = i
            while end < len(lines) and lines[end] != close and not lines[end].rstrip().endswith(';') or end == i and lines[end].endswith(','):
                end += 1
                if end - i > 200:
                    break
            # The body begins at the first line that is an opening brace alone, or at the end of the head.
            start = next((k for k in range(i, end) if lines[k] == m.group(1) + '{'), None)
            if start is None:
                start = next((k for k in range(i, end) if lines[k].rstrip().endswith('{')), i)
            end = next((k for k in range(start, len(lines)) if lines[k] == close), start)
            yield path, i + 1, m.group(2), lines[i:start + 1], lines[start + 1:end]
            i = end + 1


def enums():
    for path, lines in sources():
        for i, line in enumerate(lines):
            m = re.match(r'(?:pub(?:\(crate\))? )?enum (\w+)', line)
            if m:
                end = next(k for k in range(i, len(lines)) if lines[k] == '}')
                variants = [v.strip().rstrip(',') for v in lines[i + 1:end] if v.strip() and not v.strip().startswith('//')]
                yield path, i + 1, m.group(1), variants


def structs():
    for path, lines in sources():
        for i, line in enumerate(lines):
            m = re.match(r'(?:pub(?:\(crate\))? )?struct (\w+)', line)
            if m and line.rstrip().endswith('{'):
                end = next(k for k in range(i, len(lines)) if lines[k] == '}')
                yield path, i + 1, m.group(1), [v.strip() for v in lines[i + 1:end]]


def point1():
    """Enums of two variants or with a refusal among them, flags and answers beside values, numbers of refusals, numbers for none."""
    for path, n, name, variants in enums():
        payload = [v for v in variants if '(' in v]
        refuses = any(re.match(r'(Refused|Stopped|Failed|Absent|Over|Nothing|Nowhere|NoName|Gap|BadHex)', v) for v in variants)
        if payload and (len(variants) == 2 or refuses):
            yield path, n, 'enum ' + name
    for path, n, name, fields in structs():
        for f in fields:
            if re.match(r'(pub )?(answer: Answer|found: bool|live: bool|known: bool|done: bool)', f) and len(fields) > 2:
                yield path, n, 'struct %s: %s' % (name, f)
    for path, lines in sources():
        for i, line in enumerate(lines):
            if re.search(r'(Refused|Stopped|refuse)\(\d+|FOREIGN_RECORD|^ +return [1-9]\d*;$|cause: u8|-> u8\b.*cause', line) and not line.strip().startswith('//'):
                yield path, i + 1, line.strip()
            if re.match(r' *//', line) and re.search(r'\b(or 0\b|0 for none|0 for no |0 where none|0 where the|0 where it|, or 64|64, which is none|0 if it has none|0 is no |or that there is none)', line):
                yield path, i + 1, line.strip()


def shape(body):
    names = {}

    def rename(m):
        w = m.group(0)
        if w in ('let', 'mut', 'if', 'else', 'while', 'for', 'in', 'return', 'match', 'loop', 'break', 'as', 'usize', 'u8', 'u16', 'u64', 'bool'):
            return w
        return names.setdefault(w, 'x%d' % len(names))
    text = ' '.join(re.sub(r'//.*', '', l).strip() for l in body)
    return re.sub(r'\w+', rename, re.sub(r'\s+', ' ', text))


def point2():
    """Functions whose bodies are the same but for names and numbers."""
    groups = collections.defaultdict(list)
    for path, n, name, head, body in functions():
        s = shape(body)
        if len(s) >= 24:
            groups[s].append((path, n, name))
    for s, g in sorted(groups.items()):
        if len(g) > 1:
            for path, n, name in g:
                yield path, n, '%s [%s]' % (name, ', '.join(x[2] for x in g if x[1] != n or x[0] != path))


def point3():
    """Loops that count an index by hand, or take a mask or a chain apart by hand."""
    for path, n, name, head, body in functions():
        for k, line in enumerate(body):
            m = re.match(r' *(while .*|loop) \{$', line)
            if not m:
                continue
            depth = len(line) - len(line.lstrip())
            end = next((j for j in range(k + 1, len(body)) if re.match(r' {%d}\}' % depth, body[j])), len(body))
            inner = '\n'.join(body[k + 1:end])
            if re.search(r'\b(\w+) [+-]= (1|2 \* b)\b|= next\.rest|= taken\.rest|link = |\bat [+-]= |\w+ = \w+ [+-] 1;|at = before', inner):
                yield path, n, '%s: %s' % (name, line.strip())


def point4():
    """Equality, order, conversion and printing by hand: bodies that only cast, compare fields or map each variant to a truth."""
    for path, n, name, head, body in functions():
        text = ' '.join(l.strip() for l in body)
        if re.fullmatch(r'\w+(\.\w+)? as (u8|u16|u32|u64|usize)', text):
            yield path, n, name + ': ' + text
        elif re.search(r'=> (true|false),.*=> (true|false),', text):
            yield path, n, name + ': a truth for each variant'
        elif re.match(r'(key_less|same|equal|is_equal|less|differs|code)', name) and len(body) < 20:
            yield path, n, name


def facts():
    for path, n, name, head, body in functions():
        text = ' '.join(l.strip() for l in head)
        for clause in re.findall(r'requires(?: \w+)? \{ (.*?) \}(?= *(?:requires|ensures|\{|$))', text):
            for atom in re.split(r' × ', clause):
                yield path, n, name, atom.strip().strip('()')


def point5():
    """Facts that stand in the requires of three or more functions."""
    seen = collections.defaultdict(list)
    for path, n, name, atom in facts():
        seen[atom].append((path, n, name))
    for atom, places in sorted(seen.items(), key=lambda x: -len(x[1])):
        if len(places) >= 3:
            for path, n, name in places:
                yield path, n, '%s: %s' % (name, atom)


def point6():
    """Arrays with a count beside them, in structs and in parameters, and parallel arrays."""
    for path, n, name, fields in structs():
        arrays = [f for f in fields if re.search(r': \[', f)]
        counts = [f for f in fields if re.match(r'(pub )?(count|length|rows|sets|row_count|set_count|rounds|steps): (usize|u8)', f)]
        if arrays and counts or len(arrays) > 1:
            yield path, n, 'struct ' + name
    for path, n, name, head, body in functions():
        text = ' '.join(l.strip() for l in head)
        if re.search(r'high: &?(mut )?\[?&?.*low: ', text) and '[u64' in text:
            yield path, n, name + ': high and low'
        elif re.search(r'(words|letters|sets|rows|looped|rounds|names): &?(mut )?\[[^\]]*\],( \w+: &?(mut )?\[[^\]]*\],)* (\w*count|n|k): (usize|u8)', text):
            yield path, n, name + ': an array and its count'


def point7():
    """Switches on a value without a payload that says which step to run."""
    plain = {name for _, _, name, variants in enums() if not any('(' in v for v in variants) and name not in ('Verdict',)}
    for path, n, name, head, body in functions():
        text = ' '.join(l.strip() for l in body)
        for e in plain:
            arms = re.findall(e + r'::\w+ => [\w:.]+\(', text)
            if len(arms) >= 2:
                yield path, n, '%s: by %s' % (name, e)


def point8():
    """Answers of one word in crates/*/proofs."""
    for path in sorted(glob.glob('crates/*/proofs/**/Answers.antt', recursive=True)):
        for i, line in enumerate(open(path, encoding='utf-8').read().split('\n')):
            if re.search(r' = (omega arith|search rules|tt|refl)$', line):
                yield path, i + 1, line.strip()


def main():
    words = [w for w in sys.argv[1:] if not w.startswith('--')]
    for p in range(1, 9):
        if words and str(p) not in words:
            continue
        f = globals()['point%d' % p]
        found = list(f())
        print('%d: %d places. %s' % (p, len(found), f.__doc__))
        if '--list' in sys.argv:
            for path, n, what in found:
                print('  %s:%d: %s' % (path, n, what))


main()
