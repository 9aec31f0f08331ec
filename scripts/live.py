#!/usr/bin/env python3
"""live.py: every function of the crates is reached, and every public one says what it answers.

- A function or constant of crates/*/src that nothing reaches from an exported function (pub extern "C") or a program's
  main is a fault, unless DEAD names it with a reason.
- A `pub fn` without an `ensures` is a fault, unless SILENT names it with a reason; those of programs too.
Names in contracts do not count as reached: they are not code. A trait's functions are those of its impls. Ends with
status 1 if there is a fault; `--self-test`
tries this script on small sources first.
"""
import glob
import os
import re
import sys

DEAD = {}    # 'crate::module::name': why it stays although nothing reaches it
SILENT = {}  # 'crate::module::name': why it has no statement of its result

CLAUSE = re.compile(r'\b(requires|ensures|decreases|invariant|modifies)\b[^{}]*$')
WORD = re.compile(r'(?<![\w.])((?:[A-Za-z_]\w*::)*[A-Za-z_]\w*)\s*(?:::<[^>]*>)?\s*(\(?)')
METHOD = re.compile(r'\.\s*([a-z_]\w*)\s*\(')
HANDED = re.compile(r'\.\s*map\s*\(\s*([a-z_]\w*)\s*\)')


def blanked(text):
    """The text with comments and what stands in quotes made harmless, every other character in its place."""
    def blank(match):
        found = match[0]
        if found.startswith('//'):
            return ' ' * len(found)
        quote = found.index(found[-1])
        return found[:quote + 1] + '_' * (len(found) - quote - 2) + found[-1]
    return re.sub(r'//[^\n]*|b?"(?:\\.|[^"\\])*"|b?\'(?:\\.|[^\'\\\n])\'', blank, text)


def end_of(text, at, opening, closing):
    """The place after the bracket that closes the one at a place."""
    depth = 0
    for k in range(at, len(text)):
        depth += (text[k] == opening) - (text[k] == closing)
        if depth == 0:
            return k + 1
    raise ValueError(f'no {closing} for the {opening} at {at}')


class Item:
    def __init__(self, crate, module, owner, name, public, root, promised, body):
        self.crate, self.module, self.owner, self.name = crate, module, owner, name
        self.public, self.root, self.promised, self.body = public, root, promised, body

    def path(self):
        return '::'.join([self.crate] + [p for p in (self.module, self.owner, self.name) if p])


def function_parts(text, at):
    """The clauses and the body of a function whose parameters open at a place."""
    last = end_of(text, at, '(', ')')
    start = last
    while True:
        brace = text.index('{', last)
        end = end_of(text, brace, '{', '}')
        if not CLAUSE.search(text[last:brace]):
            return text[start:brace], text[brace:end]
        last = end


def items_of(crate, module, text):
    """The functions and constants of a file."""
    owners = []
    for match in re.finditer(r'\bimpl(?:\s*<[^>]*>)?\s+(\w+)[^{;]*\{', text):
        owners.append((match.start(), end_of(text, match.end() - 1, '{', '}'), match[1]))
    traits = [(match.start(), end_of(text, match.end() - 1, '{', '}'))
              for match in re.finditer(r'\btrait\s+\w+[^{;]*\{', text)]

    def owner_at(at):
        return next((name for low, high, name in owners if low < at < high), '')
    found = []
    for match in re.finditer(r'(\bghost\s+)?(\bpub\s+)?(\bextern\s+"_*"\s+)?\bfn\s+(\w+)\s*(?:<[^>(]*>)?\s*\(', text):
        if match[1] or any(low < match.start() < high for low, high in traits):
            continue  # a trait's functions are those of its impls
        clauses, body = function_parts(text, match.end() - 1)
        name, root = match[4], bool(match[3]) or (match[4] == 'main' and module == '')
        promised = bool(re.search(r'\bensures\b', clauses))
        found.append(Item(crate, module, owner_at(match.start()), name, bool(match[2]), root, promised, body))
    for match in re.finditer(r'\bconst\s+([A-Z_0-9]+)\s*:[^=]*=([^;]*(?:;[^;\]]*\][^;]*)*);', text):
        found.append(Item(crate, module, owner_at(match.start()), match[1], False, False, True, match[2]))
    return found


def imports_of(text):
    """Name -> path, of the `use` lines of a file that are not ghost."""
    found = {}
    for match in re.finditer(r'(\bghost\s+)?\buse\s+([\w:]+?)(?:::\{([^}]*)\})?\s*;', text):
        if match[1]:
            continue
        names = match[3].split(',') if match[3] else [match[2].split('::')[-1]]
        base = match[2] if match[3] else '::'.join(match[2].split('::')[:-1])
        for name in filter(None, (n.strip() for n in names)):
            found[name] = f'{base}::{name}' if base else name
    return found


def read(root):
    """All items, and each file's imports by (crate, module)."""
    items, imports = [], {}
    for path in sorted(glob.glob(os.path.join(root, 'crates', '*', 'src', '**', '*.rt'), recursive=True)):
        crate, _, rest = os.path.relpath(path, os.path.join(root, 'crates')).split(os.sep, 2)
        module = '' if rest in ('lib.rt', 'main.rt') else rest[:-3].replace(os.sep, '::').removesuffix('::mod')
        with open(path, encoding='utf8') as f:
            text = blanked(f.read())
        items += items_of(crate, module, text)
        imports[crate, module] = imports_of(text)
    return items, imports


def places(crate, module, path, imports, crates, depth=0):
    """The (crate, module, owner, name) that a path can mean in a module; through imports, public ones of others too."""
    words, here = path.split('::'), [p for p in module.split('::') if p]
    own = imports.get((crate, module), {})
    found = []
    if words[0] in own and depth < 4 and own[words[0]] != words[0]:
        found += places(crate, module, '::'.join([own[words[0]]] + words[1:]), imports, crates, depth + 1)
    if words[0] in ('crate', 'self', 'super'):
        here = {'crate': [], 'self': here, 'super': here[:-1]}[words[0]]
        return found + places(crate, '::'.join(here), '::'.join(words[1:]), imports, crates, depth + 1)
    if words[0] in crates and len(words) > 1 and depth < 6:
        found += places(words[0], '', '::'.join(words[1:]), imports, crates, depth + 1)
    owner = words[-2] if len(words) > 1 and words[-2][0].isupper() else ''
    inner = words[:-2] if owner else words[:-1]
    for base in ('::'.join(here + inner), '::'.join(inner)):
        found.append((crate, base, owner, words[-1]))
        passed_on = imports.get((crate, base), {}).get(words[-1])
        if inner and passed_on and depth < 4:
            found += places(crate, base, passed_on, imports, crates, depth + 1)
    return found


def reached(items, imports):
    """The items that a root reaches."""
    crates = {item.crate for item in items}
    by_place, by_method, by_owner = {}, {}, {}
    for item in items:
        by_place.setdefault((item.crate, item.module, item.owner, item.name), []).append(item)
        if item.owner:
            by_method.setdefault(item.name, []).append(item)
            by_owner.setdefault((item.owner, item.name), []).append(item)
    live, todo = set(), [item for item in items if item.root]
    while todo:
        item = todo.pop()
        if item in live:
            continue
        live.add(item)
        for path, bracket in WORD.findall(item.body):
            if '::' not in path and not bracket and not path.isupper():
                continue
            found = []
            for place in places(item.crate, item.module, path, imports, crates):
                found += by_place.get(place, [])
                if place[2]:
                    found += by_owner.get((item.owner if place[2] == 'Self' else place[2], place[3]), [])
            # a function of a trait, called by a type parameter or by a type that has the trait
            owned = '::' in path and path.split('::')[-2][0].isupper()
            todo += found or (by_method.get(path.split('::')[-1], []) if owned else [])
        for name in METHOD.findall(item.body):
            todo += by_method.get(name, [])
        for name in HANDED.findall(item.body):
            todo += by_place.get((item.crate, item.module, '', name), [])
    return live


def faults_of(items, imports, dead, silent):
    live = reached(items, imports)
    faults = [f'{item.path()}: nothing reaches it' for item in items if item not in live and item.path() not in dead]
    faults += [f'{item.path()}: public, and nothing says what it answers' for item in items
               if item.public and not item.promised and item.path() not in silent]
    paths = {item.path() for item in items}
    faults += [f'{path}: named in live.py and not in the tree' for path in list(dead) + list(silent)
               if path not in paths]
    return sorted(faults)


GOOD = {('low', ''): 'mod deep;\npub use deep::passed;\npub const USED: u8 = 1;\n'
                     'pub fn low(x: u8) -> u8\n    ensures a { result ≡ {x} dead }\n'
                     '{ helper(x) + USED } // dead()\nfn helper(x: u8) -> u8 { match x { _ => b"}dead()"[0] } }\n',
        ('low', 'deep'): 'pub fn passed() ensures a { b } { }\n'
                         'impl Rate { pub fn code(self) -> u8 ensures a { c } { 1 } }\n'
                         'trait Side { fn of() -> u8 ensures a { d }; }\nimpl Side for Rate { fn of() -> u8 { 2 } }\n'
                         'pub fn both<T: Side>() ensures a { e } { T::of() }',
        ('top', ''): 'use low::deep::Rate;\n#[unsafe(no_mangle)]\npub extern "C" fn top() -> u8\n'
                     '    requires { x }\n    ensures a { y }\n{ low::passed(); low::low(3) + Rate::code(4)'
                     ' + low::deep::both::<Rate>() }\n'}
WRONG = [
    (('low', ''), 'fn helper', 'fn dead() {}\nfn helper', 'low::dead: nothing reaches it'),
    (('low', ''), 'fn helper', 'const DEAD: u8 = 2;\nfn helper', 'low::DEAD: nothing reaches it'),
    (('top', ''), 'low::low(3) + ', '', 'low::low: nothing reaches it'),
    (('top', ''), 'low::passed(); ', '', 'low::deep::passed: nothing reaches it'),
    (('top', ''), ' + Rate::code(4)', '', 'low::deep::Rate::code: nothing reaches it'),
    (('low', 'deep'), 'T::of()', '3', 'low::deep::Side::of: nothing reaches it'),
    (('top', ''), ' + low::deep::both::<Rate>()', '', 'low::deep::both: nothing reaches it'),
    (('low', 'deep'), 'ensures a { c } ', '', 'low::deep::Rate::code: public, and nothing says what it answers'),
]


def self_test():
    def said(texts):
        items = [item for (crate, module), text in texts.items() for item in items_of(crate, module, blanked(text))]
        return faults_of(items, {place: imports_of(blanked(text)) for place, text in texts.items()}, {}, {})
    if said(GOOD):
        sys.exit(f'live.py: self-test: good sources are refused: {said(GOOD)}')
    for place, old, new, fault in WRONG:
        assert old in GOOD[place]
        if fault not in said({**GOOD, place: GOOD[place].replace(old, new, 1)}):
            sys.exit(f'live.py: self-test: not found: {fault}')


def main():
    if sys.argv[1:] == ['--self-test']:
        self_test()
    items, imports = read('.')
    faults = faults_of(items, imports, DEAD, SILENT)
    for fault in faults:
        print('live.py:', fault)
    print(f'live.py: {len(items)} functions and constants, {len(faults)} faults')
    sys.exit(1 if faults else 0)


main()
