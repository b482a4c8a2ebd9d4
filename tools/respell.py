"""Brings the repository's own definitions and lemmas to today's spelling: words in snake case, types in camel case.

usage: python3 tools/respell.py          at the top of the repository, once, after port.py
       python3 tools/respell.py --pages  the names in the pages of README.md and docs/, those of docs/PROGRESS.md and docs/PORT.md apart

tools/respell.txt has a line for each name: the old one and the new one. Lines that begin with a path are for the files below it alone.
A name is turned where it stands whole. Strings of Rust, and names in a comment that have a dash, stay (a dash there is mostly English).
"""
import glob
import os
import re
import sys

HERE = os.path.dirname(os.path.realpath(__file__))
NAME = re.compile(r"[^\W\d][\w'\-₀-₉ℕ]*")
COMMENT = re.compile(r'(?:^|(?<=\s))(?:--|//)')


def table():
    everywhere, local = {}, []
    with open(os.path.join(HERE, 'respell.txt'), encoding='utf-8') as f:
        for line in f:
            words = line.split()
            if len(words) == 2:
                everywhere[words[0]] = words[1]
            elif len(words) == 3:
                local.append(tuple(words))
    return everywhere, local


def turned(text, names, dashes=True):
    return NAME.sub(lambda m: names.get(m.group(), m.group()) if dashes or '-' not in m.group() else m.group(), text)


def bare(text, old, new):
    """Turns a name only where it is no part of a path and no field."""
    return re.sub(r"(?<![\w'.\-])" + re.escape(old) + r"(?![\w'\-]|\.[^\W\d])", new, text)


def line_turned(line, names):
    at = COMMENT.search(line)
    code, comment = (line[:at.start()], line[at.start():]) if at else (line, '')
    comment = re.sub(r'`[^`]*`', lambda m: turned(m.group(), names), turned(comment, names, dashes=False))
    return turned(code, names) + comment


def sources():
    for pattern in ('specs/**/*.antt', 'proofs/**/*.antt', 'src/**/*.rt', 'must-fail/*.edit'):
        yield from sorted(glob.glob('crates/*/' + pattern, recursive=True))


def rewrite(path, turn):
    with open(path, encoding='utf-8', newline='') as f:
        old = f.read()
    new = turn(old)
    if new != old:
        with open(path, 'w', encoding='utf-8', newline='') as f:
            f.write(new)
    return new != old


def main():
    names, local = table()
    changed = 0
    if sys.argv[1:] == ['--pages']:
        for path in ['README.md'] + sorted(glob.glob('docs/*.md')):
            if os.path.basename(path) not in ('PROGRESS.md', 'PORT.md'):
                changed += rewrite(path, lambda text: re.sub(r'`[^`\n]*`', lambda m: turned(m.group(), names), text))
    else:
        for path in sources():
            def turn(text):
                for place, old, new in local:
                    if path.startswith(place) and path.endswith('.antt'):
                        text = bare(text, old, new)
                return '\n'.join(line_turned(line, names) for line in text.split('\n'))
            changed += rewrite(path, turn)
    print(f'{changed} files')


main()
