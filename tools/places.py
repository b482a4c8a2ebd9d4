#!/usr/bin/env python3
"""Lists the places of the design pass's points in the sources of a checkout: tools/places.py [FOLDER] [POINT].

The points are those of docs/DESIGN-PASS.md. A place is a line of crates/*/src/*.rt, or for point 2 a group of functions or structs.
"""
import glob
import os
import re
import sys

NUMBERS = 'OFF_SIZE|BAD_CUT|WRONG_STAGE|NO_SUCH_PLACE|DONE_ALREADY|WRONG_TRAY|BLANK_VOXEL|STRAY_LABEL|LAYERS_DIFFER|TABLE_FULL|BAD_RECORD|BAD_READING'
# a refusal or a kind as a number, a value that stands for none, a flag beside a value
FLAGS = [
    r'^pub const (%s): u32' % NUMBERS,
    r'^\s+return (%s);' % NUMBERS,
    r'^const NO_[A-Z]+: u\d+|^const NOT_[A-Z]+: u\d+',
    r'^\s+(pub )?(refusal|sound|open|broken): (u32|bool),$',
    r'\bif [a-z_.]*(number|declined|refusal) [!=]= 0\b',
    r'-> u32$.*axis',
]
LOOPS = [r'^\s*(while|loop)\b']
# equality, order, copies and conversions by hand, and names for one operator
BY_HAND = [
    r'^\s*(pub )?fn (wide|both|larger|less|least|pick|ordered|alone|same_row|same_stage|stage_number|magnitude|is_blank|one_if|within|also|three|near_one)\b',
    r'\b([a-z_]+)\[0\] == ([a-z_]+)\[0\]',
    r'\bif (\w+) < (\w+) \{ \2 \} else \{ \1 \}|\bif (\w+) < (\w+) \{ \3 \} else \{ \4 \}',
    r'\{ true \} else \{ false \}|\{ false \} else \{ true \}',
]
TOGETHER = [
    r'\bnx: (u16|u32|usize)\b',
    r'\bcx: &',
    r'\bxs: &\[u32\]',
    r'\box: (u16|usize)\b',
    r'\bx: (u32|u64|usize), y: (u32|u64|usize), z:',
    r'\bface_entries: u32\b',
    r'\ba: usize, w: usize, b: usize|^\s+w: usize,$',
]
BUFFERS = [
    r'^pub struct Sink|^struct Span',
    r'\bvalues: &\[f64\], kinds: &\[u8\]',
    r'\bat: \[u32; 6\], rows: \[\[u32; 6\]; 6\]|\bnumbers: \[u32; 6\], rows: \[\[u32; 6\]; 6\]',
    r'size != 0 \{$',
]
SWITCHES = [r'^\s*match (call|task|kind|stage)\b', r'^\s+if n == [12] \{|^\s+if curve \{|^\s+if order == \d \{']
TYPES = {'u8', 'u16', 'u32', 'u64', 'usize', 'f64', 'i64'}
KEYWORDS = {'fn', 'pub', 'let', 'mut', 'if', 'else', 'while', 'loop', 'for', 'in', 'return', 'match', 'struct', 'enum', 'self', 'true', 'false', 'as'}


def sources(folder):
    for path in sorted(glob.glob(os.path.join(folder, 'crates/*/src/*.rt'))):
        with open(path) as file:
            yield os.path.relpath(path, folder), file.read().split('\n')


def lines(folder, patterns):
    for path, text in sources(folder):
        for n, line in enumerate(text, 1):
            if line.lstrip().startswith('//') or 'ghost use' in line:
                continue
            if any(re.search(p, line) for p in patterns):
                yield f'{path}:{n}: {line.strip()}'


def items(folder):
    """Each function without its clauses, and each struct, by path and name."""
    for path, text in sources(folder):
        n = 0
        while n < len(text):
            start = re.match(r'\s*(pub )?(extern "C" )?(fn|struct) (\w+)', text[n])
            if not start:
                n += 1
                continue
            depth, body, first = 0, [], n
            while n < len(text):
                line = text[n].split('//')[0]
                if re.match(r'\s*(requires|ensures)\b', line) or (body and re.match(r'\s*[(×].*[)}]$', line) and '{' not in ''.join(body)):
                    n += 1
                    continue
                body.append(line)
                depth += line.count('{') - line.count('}')
                n += 1
                if depth == 0 and re.search(r'[};]\s*$', line):
                    break
            yield path, first + 1, start.group(4), '\n'.join(body)


def shape(body):
    names, out = {}, []
    for token in re.findall(r'[A-Za-z_]\w*|\d[\d_]*(?:\.\d+)?|\S', body):
        if token in TYPES:
            out.append('T')
        elif token[0].isdigit():
            out.append('N')
        elif token in KEYWORDS or not (token[0].isalpha() or token[0] == '_'):
            out.append(token)
        else:
            out.append(str(names.setdefault(token, len(names))))
    return tuple(out)


def twins(folder):
    groups = {}
    for path, n, name, body in items(folder):
        key = shape(body)
        if len(key) > 16:
            groups.setdefault(key, []).append(f'{path}:{n} {name}')
    for group in sorted(groups.values()):
        if len(group) > 1:
            yield ' = '.join(group)


POINTS = {
    '1': lambda f: lines(f, FLAGS),
    '2': twins,
    '3': lambda f: lines(f, LOOPS),
    '4': lambda f: lines(f, BY_HAND),
    '5': lambda f: lines(f, TOGETHER),
    '6': lambda f: lines(f, BUFFERS),
    '7': lambda f: lines(f, SWITCHES),
    '8': lambda f: (os.path.relpath(p, f) for p in sorted(glob.glob(os.path.join(f, 'crates/*/proofs/**/Proof.antt'), recursive=True))),
}


def main():
    folder = sys.argv[1] if len(sys.argv) > 1 else '.'
    for point, places in POINTS.items():
        if len(sys.argv) > 2 and sys.argv[2] != point:
            continue
        found = list(places(folder))
        print(f'point {point}: {len(found)}')
        if len(sys.argv) > 2:
            print('\n'.join(found))


main()
