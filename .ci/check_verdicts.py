"""Checks, after rt ci, that each library was proved with no assumed contract: check_verdicts.py LOG LIBRARY.

LOG is what rt ci printed, LIBRARY what rt printed when it built the static library.

Assumed contracts come with foreign functions alone, and those that are reached lie below std. A library may neither declare one nor
reach one:
- it uses no library of the kit, names nothing of std or core by a path, takes no handle on the system, and has no foreign block;
- rt ci says that it is proved, and its verdict counts none; or rt ci says that an earlier run on this machine proved the very same;
- the verdict of the static library, which is given over all code that is linked into it, counts none, and names none of any library of the kit.
"""
import os
import re
import sys

# The paths, handles and blocks by which code reaches past itself. An export of the static library is defined here, and no foreign function.
BEYOND = re.compile(r'\b(?:std|core)\s*::|\b(?:HostRuntime|LibcRuntime|Global|Print|Eprint|Input|Alloc|AllocGlobal|Abort|Wait|Threads)\b|\bextern\s*"[^"]*"\s*(?:\{|fn\b)|\bextern\s*\{')
EXPORT = re.compile(r'#\[unsafe\(no_mangle\)\]\s*pub extern "C" fn \w+')
COUNTED = re.compile(r' foreign=| axioms=(?!0\b)')


def crates():
    """The libraries of each crate of crates.txt, and the static libraries among the crates."""
    uses, static = {}, []
    with open('crates.txt', encoding='utf-8') as f:
        for line in f:
            entry = re.match(r'(\w+)( staticlib)?:(.*)', line.split('#')[0])
            if entry:
                uses[entry.group(1)] = entry.group(3).split()
                static += [entry.group(1)] if entry.group(2) else []
    return uses, static


def beyond(name, uses):
    """What the library reaches past itself and the libraries of the repository."""
    found = sorted(set(uses[name]) - set(uses))
    for folder, _, files in os.walk(f'crates/{name}/src'):
        for file in files:
            with open(os.path.join(folder, file), encoding='utf-8') as f:
                code = re.sub(r'//.*', '', f.read())
            found += BEYOND.findall(EXPORT.sub('', code))
    return found


def verdicts(text):
    """The verdict lines of a text that do not count any assumed contract, and the lines that do, or that are no proof."""
    lines = re.findall(r'^(?:logic=|axioms ).*$', text, re.M)
    bad = [line for line in lines if line.startswith('logic=') and (not line.startswith('logic=proved ') or COUNTED.search(line))]
    bad += [line for line in lines if line.startswith('axioms ') and ': none reached of ' not in line]
    return [line for line in lines if line.startswith('logic=') and line not in bad], bad


def section(name, log):
    """What rt ci printed of the crate's proof, or None where an earlier run had proved the same."""
    if re.search(rf'^rt: {name} is kept: an earlier run on this machine proved the same files', log, re.M):
        return None
    found = re.search(rf'^== {name}\n(.*?)^rt: {name} proved$', log, re.M | re.S)
    return found.group(1) if found else ''


def main(log, library):
    with open(log, encoding='utf-8') as f:
        log = f.read()
    with open(library, encoding='utf-8') as f:
        library = f.read()
    uses, static = crates()
    libraries = [name for name in uses if not os.path.exists(f'crates/{name}/src/main.rt')]
    bad = 0
    for name in libraries:
        said = section(name, log)
        good, faults = verdicts(said) if said is not None else (['kept'], [])
        faults += beyond(name, uses)
        if faults or not good:
            print(f'{name}: {faults or "no verdict"}')
            bad += 1
    last = library[library.rfind('\ncrate '):]
    good, faults = verdicts(last)
    if len(static) != 1 or not last.startswith(f'\ncrate {static[0]}:') or not good or faults or 'axioms libc: none reached' not in last:
        print(f'the static library: {faults or "no verdict"}')
        bad += 1
    print(f'no assumed contract in {len(libraries)} libraries of {len(uses)} crates' if not bad else f'{bad} faults')
    return 1 if bad else 0


sys.exit(main(*sys.argv[1:]))
