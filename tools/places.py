#!/usr/bin/env python3
"""Counts the places of docs/DESIGN-PASS.md in crates/*/src: tools/places.py [POINT] [-l]; -l lists them.

1  enums shaped like Option or Result, structs of a flag with values beside, numbers for kinds
2  functions that differ only in names, types and numbers: those with a twin
3  loops that count an index
4  equality, order, copying, conversion and printing by hand
5  functions of three or more parameters that are the tables' columns; clauses that require a valid plan of them
6  parameters of an array with a length beside it, parallel arrays of a function
7  flags and goals handed in that say which step to run
8  proof files, their lines, and answers that only call the search
"""
import glob
import re
import sys

COLUMNS = 'rates blockings extras periods counts lengths jitters hops routes'.split()
ABSENT = re.compile(r'^(None|Nothing|No[A-Z]\w*|Not[A-Z]\w*|Bad[A-Z]?\w*|Short\w*|Refused|Failed|Malformed|Cut|Stop|Wrong|Absent\w*|Idle|Unfinished)$')


def sources():
    for path in sorted(glob.glob('crates/*/src/**/*.rt', recursive=True)):
        yield path, open(path, encoding='utf-8').read()


def functions(text):
    """Name, line, parameters, clauses and body of each function."""
    for m in re.finditer(r'^( *)(?:pub(?:\(crate\))? )?(?:unsafe )?(?:extern "C" )?fn (\w+)(?:<[^>]*>)?\(', text, re.M):
        i, deep = m.end(), 1
        while deep:
            deep += {'(': 1, ')': -1}.get(text[i], 0)
            i += 1
        parameters = text[m.end():i - 1]
        start = text.find('\n' + m.group(1) + '{\n', i)
        brace = text.find('{\n', i)
        line_end = text.find('\n', i)
        at = brace if brace != -1 and brace < line_end else start + 1
        end = text.find('\n' + m.group(1) + '}', at)
        if at <= 0 or end < 0:
            continue
        yield m.group(2), text.count('\n', 0, m.start()) + 1, parameters, text[i:at], text[at:end]


def names(parameters):
    return re.findall(r'(\w+)\s*:(?!:)', parameters)


def point1():
    for path, text in sources():
        for m in re.finditer(r'^(?:pub(?:\(crate\))? )?enum (\w+)[^{]*\{\n(.*?)^\}', text, re.M | re.S):
            body = re.sub(r'//.*', '', m.group(2))
            flat = re.sub(r'\{[^}]*\}|\([^)]*\)', '+', body)
            variants = [v.strip() for v in flat.split(',') if v.strip()]
            plain = [v.split('+')[0].strip() for v in variants]
            carries = any('+' in v for v, n in zip(variants, plain) if not ABSENT.match(n))
            if any(ABSENT.match(n) for n in plain) and (carries or len(plain) > 2) and not re.search(r'Refusal|Fault|Error', m.group(1)):
                yield path, text.count('\n', 0, m.start()) + 1, 'enum ' + m.group(1)
        for m in re.finditer(r'^(?:pub(?:\(crate\))? )?struct (\w+)[^{;]*\{\n(.*?)^\}', text, re.M | re.S):
            if re.search(r': bool,', m.group(2)):
                yield path, text.count('\n', 0, m.start()) + 1, 'struct ' + m.group(1)
        for m in re.finditer(r'^(?:pub(?:\(crate\))? )?fn (code)\(', text, re.M):
            yield path, text.count('\n', 0, m.start()) + 1, 'fn ' + m.group(1)


def shape(body):
    """The body with names, types, numbers and texts taken out."""
    body = re.sub(r'//.*', '', body)
    body = re.sub(r'b?"[^"]*"|b\'.\'', '0', body)
    body = re.sub(r'\b\d[\w_]*', '0', body)
    keep = {'if', 'else', 'while', 'loop', 'for', 'in', 'match', 'return', 'let', 'mut', 'as', 'true', 'false', 'break', 'continue'}
    body = re.sub(r'[A-Za-z_]\w*', lambda m: m.group(0) if m.group(0) in keep else 'n', body)
    return re.sub(r'\s+', '', body)


def point2():
    groups = {}
    for path, text in sources():
        for name, line, _, _, body in functions(text):
            if body.count('\n') >= 4:
                groups.setdefault(shape(body), []).append((path, line, name))
    for group in groups.values():
        if len(group) > 1:
            for path, line, name in group:
                yield path, line, name + ' ~ ' + ' '.join(sorted({n for _, _, n in group} - {name}))


def point3():
    for path, text in sources():
        lines = text.split('\n')
        for i, line in enumerate(lines):
            m = re.match(r'( *)(?:let \w+ = )?(?:\'\w+: )?(while (.*) \{|loop \{)$', line)
            if not m:
                continue
            end = next(j for j in range(i + 1, len(lines)) if lines[j].startswith(m.group(1) + '}'))
            counted = {c for l in lines[i + 1:end] for c in re.findall(r'^ *(\w+) \+= \d+;$', l)}
            tested = set(re.findall(r'\w+', m.group(3) or ''))
            if counted & tested or (not m.group(3) and counted):
                yield path, i + 1, line.strip()


def point4():
    for path, text in sources():
        for m in re.finditer(r'^ *(?:pub(?:\(crate\))? )?fn (same|code|equal\w*|\w+_number|number_of|name_of|say_name)\(', text, re.M):
            yield path, text.count('\n', 0, m.start()) + 1, 'fn ' + m.group(1)


def point5():
    for path, text in sources():
        for name, line, parameters, clauses, _ in functions(text):
            if len(set(names(parameters)) & set(COLUMNS)) >= 3:
                yield path, line, name
            elif re.search(r'requires[^{]*\{[^}]*valid_plan', clauses):
                yield path, line, name + ' (requires valid_plan)'


def point6():
    for path, text in sources():
        for name, line, parameters, _, body in functions(text):
            if re.search(r'\[\w+(?:; \w+)?\]', parameters) and re.search(r'\b(count|len|size|files|hops|ports|listed): (usize|u8|u64)\b', parameters):
                yield path, line, name
            elif len(re.findall(r'let mut \w+ = \[[^;]*; \w+\];', body)) > 1:
                yield path, line, name + ' (parallel arrays)'


def point7():
    for path, text in sources():
        for name, line, parameters, _, _ in functions(text):
            if re.search(r'\b\w+: (bool|Goal)\b', parameters):
                yield path, line, name


def point8():
    for path in sorted(glob.glob('crates/*/proofs/**/*.antt', recursive=True)):
        text = open(path, encoding='utf-8').read()
        for m in re.finditer(r'^(\S+) c = search rules$', text, re.M):
            yield path, text.count('\n', 0, m.start()) + 1, m.group(1)


def main():
    wanted = [a for a in sys.argv[1:] if a.isdigit()] or list('12345678')
    for n in wanted:
        found = list(globals()['point' + n]())
        print(f'point {n}: {len(found)}')
        if '-l' in sys.argv:
            for path, line, what in found:
                print(f'  {path}:{line}: {what}')
    files = glob.glob('crates/*/proofs/**/*.antt', recursive=True)
    if '8' in wanted:
        print('proof files:', len(files), 'lines:', sum(open(f, encoding='utf-8').read().count('\n') for f in files))


main()
