"""Checks that no source gives a symbol of the kit's libraries a meaning of its own, that proofs name their places, that imports are used, and that crates.txt is true.

The libraries are read from the kit: of those that definitions and proofs cite (LIBRARIES) every module that some source imports from, and those in
CORE. The kit's others are the program logic behind the generated proofs; no source imports from them but proofs by hand (LOGIC). A module's symbols
are the functions and types that it exports or passes on; record fields and constructors are left out, since they stand with their type.

No function and no type of a crate has the name of a symbol, exported or not, and no import is given such a name. The
symbols of the modules in CORE, which definitions cite bare, may not be fields, constructors or locals either.
Names that the kit's form of a proof file asks for (the answer to a need, the proved statement) are not the author's.

A place on the way of a proof that is more than four steps back has a name: no chain of `.before` is longer than four.

Every name that a source imports is used in it.

crates.txt lists, for each crate, the libraries of the repository that its sources name and no others, and each crate stands under the heading of
its level, one above the highest that it uses.
"""
import glob
import json
import os
import re
import subprocess
import sys

LIBRARIES = ('lib', 'mathlib', 'native', 'text', 'std', 'borrow.Author', 'Rattle.core', 'Rattle.std', 'Rattle.std_alloc', 'Rattle.std_collections')
LOGIC = ('borrow.Fn.PlainCycle', 'borrow.Fn.Kinds', 'denote.Ref')
NATIVE = 'ℕ zero suc ◌+◌ ◌-◌ ◌*◌ ◌/◌ ◌%◌ ◌^◌ ◌≤◌ ◌<◌ min max'.split()
CORE = {'Prim.Native.Nat', 'lib.ListN', 'lib.Seq', 'lib.Dec', 'lib.Arith', 'mathlib.Core.List', 'mathlib.Core.Bool', 'mathlib.Core.Path', 'mathlib.Core.Logic'}
WORDS = r'(?:pub |ghost |unfoldable |abbrev )*'
EXPORT = re.compile(r'\s*(?:unfoldable |abbrev )?pub (?:unfoldable |abbrev )?(?!use |mod |module )(?:data |record )?([^\s:({]+)')
IMPORT = re.compile(r'^' + WORDS + r'use ([^\s{;]+?)\.\{([^}]*)\}', re.M)
CITED = re.compile(r'^' + WORDS + r'use ([^\s{;]+)', re.M)
PASSED = re.compile(r'^pub use \S+?\.\{([^}]*)\}', re.M)
TYPE = re.compile(r'\s*' + WORDS + r'(data|record) ([^\s:({]+)')
NAMES = re.compile(r'\s*' + WORDS + r'(let )?((?:[^\s:({})=λ.→]+ )+): ')
USE = re.compile(r'^(ghost |)use ([^;{\n]+(?:\{[^}]*\})?(?: as \S+?)?);?\s*?$', re.M)
CLAUSE = re.compile(r'^ *(?:requires|ensures)\b[^{\n]*', re.M)
WORD = re.compile(r'(?<=\.\.)\w+|(?<![^\s()\[\]{},;λ])[^\s()\[\]{},;λ.][^\s()\[\]{},;λ]*|\[\]')
BINDER = re.compile(r'(?:\n|[({;]|\bpub|\babbrev|\bunfoldable|\blet) *$')
LET = re.compile(r'\blet (\S+) = ')
CHAIN = re.compile(r'(?:\.before\)*){5}')
ASKED = re.compile(r'\s*(?:abbrev )?(?:pub )?\S+ : (?:tie\.|goal\.|\{M : Type 1\} → statement M)')


def lines_of(path):
    """The lines of a source without comments, each with the block that it stands in: 'data', 'record', 'where' or ''."""
    blocks = []
    with open(path, encoding='utf-8') as f:
        for line in f:
            line = re.sub(r'(^|\s)(--|//).*$', '', line).rstrip()
            if not line.strip():
                continue
            depth = len(line) - len(line.lstrip())
            while blocks and depth <= blocks[-1][0]:
                blocks.pop()
            yield line, blocks[-1][1] if blocks else ''
            kind = TYPE.match(line)
            if kind:
                blocks.append((depth, kind.group(1)))
            elif line.strip() == 'where':
                blocks.append((depth, 'where'))


def file_of(module, kit, mounts):
    """The file of a module of the kit, if it has one."""
    root, *parts = module.split('.')
    return os.path.join(kit if root == 'Rattle' else mounts.get(root, kit), *parts) + '.antt'


def mounts_of(kit):
    """The folder of each library of the program logic."""
    found = {}
    with open(os.path.join(kit, 'logic/antt-project.json'), encoding='utf-8') as f:
        for name, folder in json.load(f)['mounts'].items():
            folder = os.path.normpath(os.path.join(kit, 'logic', folder))
            with open(os.path.join(folder, 'antt-project.json'), encoding='utf-8') as g:
                found[name] = os.path.normpath(os.path.join(folder, json.load(g).get('src', 'src')))
    return found


def is_library(module):
    return any((module + '.').startswith(name + '.') for name in LIBRARIES)


def exported(texts):
    """Each symbol of the libraries' modules that the texts import from, with the modules that export it."""
    guide = subprocess.run(['rt', 'doc'], capture_output=True, text=True, check=True).stdout.strip()
    kit = os.path.join(os.path.dirname(guide), 'rattle')
    mounts = mounts_of(kit)
    cited = {module.rstrip('.') for text in texts for module in CITED.findall(text)}
    homes = {name: {'Prim.Native.Nat'} for name in NATIVE}
    for module in sorted({module for module in cited if is_library(module)} | CORE - {'Prim.Native.Nat'}):
        path = file_of(module, kit, mounts)
        if not os.path.exists(path) and module not in CORE:
            continue  # what rt writes, as the declared types of a crate
        for line, block in lines_of(path):
            symbol = EXPORT.match(line)
            if symbol and block not in ('data', 'record'):
                homes.setdefault(symbol.group(1), set()).add(module)
        with open(path, encoding='utf-8') as f:
            for names in PASSED.findall(f.read()):
                for name in names.split(','):
                    homes.setdefault(name.split(' as ')[-1].strip(), set()).add(module)
    return homes


def imported(text, homes):
    for module, names in IMPORT.findall(text):
        library = is_library(module) or module in LOGIC or module.startswith('Prim.')
        if not library and not module.startswith('Rattle.'):
            yield f'{module} is the program logic and is imported from'
        for item in names.split(','):
            name, *new = [n.strip() for n in item.split(' as ')]
            for n in new + ([] if library else [name]):
                if n in homes and (n in new or homes[n] & CORE):
                    yield f'{n} is a symbol of {", ".join(sorted(homes[n]))} and is taken from {module}'


def uses(text):
    """The names that a text uses. A field is none, nor is a name where it is defined or bound; of m.n only m is one."""
    for word in WORD.finditer(text):
        bound = text[word.end():word.end() + 3] in (' : ', ' = ') and BINDER.search(text[max(0, word.start() - 40):word.start()])
        if not bound:
            yield re.split(r'\.|::', word.group().lstrip('!&') or word.group())[0]


def clauses(text):
    """The clauses of the contracts of a text, and the rest of it."""
    inside, outside, at = [], [], 0
    for clause in CLAUSE.finditer(text):
        end, depth = clause.end() + 1, 1
        while depth and end < len(text):
            depth += {'{': 1, '}': -1}.get(text[end], 0)
            end += 1
        inside.append(text[clause.end():end])
        outside.append(text[at:clause.start()])
        at = end
    return ' '.join(inside), ' '.join(outside + [text[at:]])


def idle(text, is_code):
    """The names that are imported and not used: of a `ghost use`, in no clause of a contract."""
    rest = USE.sub('', text)
    contracts, code = clauses(rest) if is_code else ('', rest)
    used = {'ghost ': set(uses(contracts)), '': set(uses(re.sub(r'[<>]|\.\.=?', ' ', code) if is_code else code))}
    for ghost, item in USE.findall(text):
        names = re.search(r'\{([^}]*)\}$', item)
        for name in names.group(1).split(',') if names else re.split(r'::|\.| as ', item)[-1:]:
            name = name.split(' as ')[-1].strip()
            if not name:
                continue  # after the last comma of a list on lines of its own
            parts = [part for part in name.split('◌') if part] if '◌' in name else []
            if not used[ghost] & {name, *parts}:
                yield f'{name} is imported and not used'


def defined(path, homes):
    for line, block in lines_of(path):
        for n in LET.findall(line):
            if homes.get(n, set()) & CORE:
                yield f'{n} is a symbol of {", ".join(sorted(homes[n]))} and is a local here'
        kind, names = TYPE.match(line), NAMES.match(line)
        if ASKED.match(line) or not (kind or names):
            continue
        bare = block == '' and not (names and names.group(1))
        for n in [kind.group(2)] if kind else names.group(2).split():
            if n in homes and (bare or homes[n] & CORE):
                yield f'{n} is a symbol of {", ".join(sorted(homes[n]))} and is defined here'


def sources():
    """Each source with its text, comments left out."""
    for path in sorted(glob.glob('crates/*/src/**/*.rt', recursive=True) + glob.glob('crates/*/specs/**/*.antt', recursive=True) + glob.glob('crates/*/proofs/**/*.antt', recursive=True)):
        with open(path, encoding='utf-8') as f:
            yield path, re.sub(r'(--|//).*$', '', f.read(), flags=re.M)


def listed():
    """Each crate of crates.txt with its libraries and the level that it stands under."""
    crates, level = {}, None
    with open('crates.txt', encoding='utf-8') as f:
        for line in f:
            heading, entry = re.match(r'# ---- level (\d+)', line), re.match(r'(\w+)(?: staticlib)?:(.*)', line)
            if heading:
                level = int(heading.group(1))
            elif entry:
                crates[entry.group(1)] = (entry.group(2).split(), level)
    return crates


def untrue(crates, texts):
    """What crates.txt says of a crate and its sources do not."""
    for crate, (libraries, level) in crates.items():
        own = [name for name in libraries if name in crates]
        text = ' '.join(texts.get(crate, []))
        for name in crates:
            used = name != crate and re.search(rf'\bRattle\.{name}\.|\b{name}::', text)
            if bool(used) != (name in own):
                yield f'crates.txt: {crate} {"uses" if used else "lists"} {name} and {"does not list it" if used else "does not use it"}'
        if level != 1 + max((crates[name][1] for name in own), default=-1):
            yield f'crates.txt: {crate} does not stand under the heading of its level'
    levels = [level for _, level in crates.values()]
    if levels != sorted(levels):
        yield 'crates.txt: the levels do not ascend'


def main():
    read = list(sources())
    homes = exported([text for _, text in read])
    texts = {}
    found = 0
    for path, text in read:
        texts.setdefault(path.split('/')[1], []).append(text)
        faults = list(imported(text, homes)) + (list(defined(path, homes)) if path.endswith('.antt') else [])
        faults += list(idle(text, path.endswith('.rt')))
        faults += ['a chain of .before is longer than four: name a place on the way by let'] if CHAIN.search(text) else []
        for fault in faults:
            print(f'{path}: {fault}')
        found += len(faults)
    for fault in untrue(listed(), texts):
        print(fault)
        found += 1
    return 1 if found else 0


sys.exit(main())
