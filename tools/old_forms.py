#!/usr/bin/env python3
"""Lists the places of older forms in src/, a point of docs/DESIGN-PASS.md each: `tools/old_forms.py [COMMIT]`. With a commit, of that commit's tree.

A place is a line that its point's pattern finds. `--lines` prints each place, else a count a point and a crate. It reads text: a row is a place to look at.
"""
import re
import subprocess
import sys
from collections import Counter

ROOT = subprocess.run(['git', 'rev-parse', '--show-toplevel'], capture_output=True, text=True, check=True).stdout.strip()


def sources(commit):
    if commit:
        names = subprocess.run(['git', 'ls-tree', '-r', '--name-only', commit], cwd=ROOT, capture_output=True, text=True, check=True).stdout.split()
    else:
        names = subprocess.run(['git', 'ls-files'], cwd=ROOT, capture_output=True, text=True, check=True).stdout.split()
    for name in sorted(names):
        if re.fullmatch(r'crates/\w+/src/\w+\.rt', name):
            if commit:
                yield name, subprocess.run(['git', 'show', f'{commit}:{name}'], cwd=ROOT, capture_output=True, text=True, check=True).stdout
            else:
                yield name, open(f'{ROOT}/{name}').read()


# A function: its first line, its head (up to the brace of its body) and its body.
FUNCTION = re.compile(r'^( *)(?:pub )?(?:extern "C" )?fn (\w+)(.*?)^\1\{\n(.*?)^\1\}', re.M | re.S)


def functions(text):
    for found in FUNCTION.finditer(text):
        yield text.count('\n', 0, found.start()) + 1, found[2], found[3], found[4]


def point1(text):
    # A number for a kind, a state, a refusal: a constant of a byte or of a wrapped byte, beside others of its sort.
    for n, line in enumerate(text.split('\n'), 1):
        if re.match(r' *(pub )?const [A-Z]\w*: (u8|CoreState) = ', line):
            yield n, 'number for a kind', line.strip()
        if re.match(r' *pub struct \w+\(pub u8\)', line):
            yield n, 'wrapped number', line.strip()
    for n, name, head, body in functions(text):
        result = re.search(r'-> (?:&\S+ )?(\w+)', head)
        # A refusal's number as the result.
        if result and result[1] == 'u8' and re.search(r'^ *(return )?(OK|[A-Z]+_[A-Z_]+|[A-Z]{4,});?$', body, re.M) or result and result[1] == 'u8' and 'refused' in body:
            yield n, 'number of a refusal', f'fn {name}'
        # A number that says "none".
        elif result and result[1] in ('usize', 'u8', 'u32') and re.search(r'^ *(return )?(0|NO_\w+);?$', body, re.M):
            yield n, 'number for none', f'fn {name}'
        if re.search(r'\bletter: u32|\bfirst: u32|\bplace: usize|\bkind: u8|\bevent: u8|\bsource: u8', head):
            yield n, 'number for a letter, kind or event', f'fn {name}'
    for found in re.finditer(r'^(?:pub )?struct (\w+) \{\n((?:    .*\n)*?)\}', text, re.M):
        fields = re.findall(r'^    (?:pub )?(\w+): (\S+),', found[2], re.M)
        if any(t in ('bool',) for _, t in fields) or any(f in ('answer',) for f, _ in fields) or {'n', 'rank'} & {f for f, t in fields if t == 'usize'}:
            yield text.count('\n', 0, found.start()) + 1, 'flag or code with a value', f'struct {found[1]}'


def point2(text):
    # Functions of a crate whose bodies are the same but for names and numbers, of four lines and more; and pairs by name.
    shapes = {}
    names = {}
    for n, name, head, body in functions(text):
        lines = [line.strip() for line in body.split('\n') if line.strip()]
        if len(lines) >= 4:
            shape = re.sub(r'\b[a-z_]\w*\b|\b[A-Z][A-Z_0-9]*\b|\b\d\w*\b', 'x', '\n'.join(lines))
            shapes.setdefault(shape, []).append((n, name))
        names[name] = n
    for same in shapes.values():
        for n, name in same if len(same) > 1 else []:
            yield n, 'same shape', f'fn {name}'
    shaped = {name for same in shapes.values() if len(same) > 1 for _, name in same}
    for name, n in names.items():
        for one, two in (('_r', '_n'), ('soft', 'hard'), ('lock_', 'safe_'), ('draw_', 'number_'), ('HARD', 'SOFT')):
            twin = name.replace(one, two) if one in name else name.replace(two, one) if two in name else None
            if twin and twin != name and twin in names and name not in shaped:
                yield n, 'twin by name', f'fn {name}'


def point3(text):
    for n, line in enumerate(text.split('\n'), 1):
        if re.match(r' *while .*\{', line):
            yield n, 'while', line.strip()
        if re.match(r' *loop \{', line):
            yield n, 'loop', line.strip()


def point4(text):
    for n, name, head, body in functions(text):
        lines = [line.strip() for line in body.split('\n') if line.strip()]
        if len(lines) == 1 and re.fullmatch(r'\w+ as \w+|\w+ [|&+] \w+|\w+ as \w+ \+ 1', lines[0]):
            yield n, 'conversion or operator by hand', f'fn {name}'
        if len(lines) in (4, 5) and re.search(r'^if (\w+) [<>=]+ (\w+) \{\nreturn \w+;\n\}\n\w+$', '\n'.join(lines)):
            yield n, 'larger, first or next by hand', f'fn {name}'
        if re.search(r'65536|% 256', body):
            yield n, 'bytes of a number by hand', f'fn {name}'
        if re.search(r'48 \+', body) or name in ('put_number', 'put_signed', 'magnitude'):
            yield n, 'printing by hand', f'fn {name}'


def point5(text):
    for n, name, head, body in functions(text):
        for fact in ('desk_size ≤ length desk', 'history_size ≤ length history', 'HeldIn desk', 'Cored desk'):
            if fact in head:
                yield n, f'clause: {fact}', f'fn {name}'
        if re.search(r'desk\d?: &(mut )?\[u8\].*sheet\d?: &(mut )?\[u8\].*seen\d?: &(mut )?\[u8\]', head, re.S):
            yield n, 'desk, sheet and seen side by side', f'fn {name}'


def point6(text):
    for n, name, head, body in functions(text):
        if re.search(r'out: &mut \[u8\],\s*at: usize', head):
            yield n, 'a buffer and a place', f'fn {name}'
        if re.search(r'\(piece: &\[u8\], at: usize|bytes: &\[u8\], at: usize', head):
            yield n, 'a slice and a place', f'fn {name}'
    for found in re.finditer(r'^(?:pub )?struct (\w+)[^{]* \{\n((?:    .*\n)*?)\}', text, re.M):
        if len(re.findall(r': \[u8; \w+\],', found[2])) and re.search(r'\b(n|count): usize', found[2]):
            yield text.count('\n', 0, found.start()) + 1, 'array with a length beside', f'struct {found[1]}'
        if 'at: usize' in found[2]:
            yield text.count('\n', 0, found.start()) + 1, 'slice and a place', f'struct {found[1]}'


def point7(text):
    for n, name, head, body in functions(text):
        tests = re.findall(r'^ *(?:\} else )?if (\w+(?:\([^)]*\))?) (?:==|<) [\w:.]+ \{', body, re.M)
        if tests and Counter(tests).most_common(1)[0][1] >= 2:
            yield n, 'a switch by ifs', f'fn {name}'


POINTS = [point1, point2, point3, point4, point5, point6, point7]


def main():
    words = [word for word in sys.argv[1:] if word != '--lines']
    commit = words[0] if words else None
    files = list(sources(commit))
    for number, point in enumerate(POINTS, 1):
        places = [(name.split('/')[1], n, sort, what) for name, text in files for n, sort, what in point(text)]
        print(f'point {number}: {len(places)}')
        if '--lines' in sys.argv:
            for crate, n, sort, what in places:
                print(f'    {crate}:{n}: {sort}: {what}')
        else:
            for sort, count in Counter(sort for _, _, sort, _ in places).most_common():
                print(f'    {count:3} {sort}')


main()
