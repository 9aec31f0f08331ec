#!/usr/bin/env python3
"""believed.py: lists the definitions that a reader must believe, in docs/PROMISES.md.

    scripts/believed.py            writes the list
    scripts/believed.py --check    tries itself on a small tree, then says what is wrong with this one

A definition of crates/*/specs must be believed if the contract of an exported call or a promise reaches it: a promise
is a row of the calls, refusals or demands (scripts/promises.py), and it reaches what its text names, and what that
names in turn. Laws of the lower crates are proved and lead up to these; what only they and the contracts inside need
are working notions, and say so in a comment line: in the head of a file for all of it, or directly above a definition.

    -- working notion: what it serves

A fault is a definition that nothing reaches and that is not marked; a marked one that is reached; and a list that is
not what the tree gives. Lines are counted without comments, imports and blank ones.
"""
import os
import re
import sys

import promises

MARK = re.compile(r'\s*-- working notion: \S')
START = re.compile(r'^( *)(?:(?:abbrev|unfoldable|opaque|pub|private)\s+)*(?:(?:record|data)\s+)?([^\s:(){}]+)\s*'
                   r'(?:[({][^\n]*)?(?::\s|where\b|$)')
PLAIN = re.compile(r'(?:abbrev|unfoldable|opaque|pub|private|record|data)\s')
HEAD = '| File | Lines | Calls | Promises | Working |\n|---|---|---|---|---|\n'


def stripped(name):
    """A name as it stands in a text: an operator without its places."""
    return name.strip('◌')


class Spec:
    """A file of definitions: the lines of each, what it brings in, and which are marked."""

    def __init__(self, path, text):
        self.path, self.lines, self.marked = path, {}, set()
        self.used = imports(text)
        head, current, inner, comment = True, None, 0, []
        everything = False
        for line in re.sub(r'^(?:ghost )?use [^\n{]*(?:\{[^}]*\})?;?\n', '\n', text, flags=re.M).split('\n'):
            if line.lstrip().startswith('--'):
                everything = everything or (head and bool(MARK.match(line)))
                comment.append(line)
                continue
            if not line.strip():
                head, comment = False, []
                continue
            head = False
            if re.match(r' *module\b', line):
                inner, current, comment = len(line) - len(line.lstrip()) + 2, None, []
                continue
            name = self.begins(line, inner, current)
            if name:
                inner = inner if line.startswith(' ') else 0
                current = name
                self.lines[name] = []
                if everything or any(MARK.match(above) for above in comment):
                    self.marked.add(name)
            comment = []
            if current:
                self.lines[current].append(line)

    def begins(self, line, inner, current):
        """The name of the definition that starts in a line, or None."""
        match = START.match(line)
        depth = len(line) - len(line.lstrip())
        if not match or depth not in (0, inner) or line.startswith(('mod ', 'pub mod ')):
            return None
        named = PLAIN.match(line.lstrip()) or re.match(r'\S+ : ', line.lstrip())
        return stripped(match[2]) if named and (depth == 0 or inner) else None


def imports(text):
    """Name to the module that it is brought in from."""
    found = {}
    for module, names in re.findall(r'^(?:ghost )?use ([^\s{;]+)\.\{([^}]*)\};?', text, re.M):
        for name in filter(None, (n.strip() for n in names.split(','))):
            whole, _, alias = name.partition(' as ')
            found[stripped(alias or whole)] = (module, stripped(whole))
    for module, alias in re.findall(r'^(?:ghost )?use ([^\s{;]+) as ([^\s;]+)', text, re.M):
        found[alias] = (module, None)
    return found


def file_of(module):
    """The file of definitions that a module is, or None."""
    match = re.fullmatch(r'Rattle\.(\w+)\.specs\.(\S+)', module)
    return f'crates/{match[1]}/specs/' + match[2].replace('.', '/') + '.antt' if match else None


def words(lines):
    text = '\n'.join(re.sub(r'--.*', '', line) for line in lines)
    return {stripped(word) for word in re.findall(r'[^\s(){}\[\],;.]+', text)}


def named(specs, path, used, tokens):
    """The definitions that words of a file mean."""
    found = set()
    for token in tokens:
        if path in specs and token in specs[path].lines:
            found.add((path, token))
        module, whole = used.get(token, ('', token))
        other = specs.get(file_of(module))
        if other and whole is None:
            found.update((other.path, name) for name in other.lines if name in tokens)
        elif other and whole in other.lines:
            found.add((other.path, whole))
    return found


def closure(specs, roots):
    seen, todo = set(), list(roots)
    while todo:
        path, name = todo.pop()
        if (path, name) not in seen:
            seen.add((path, name))
            todo += named(specs, path, specs[path].used, words(specs[path].lines[name]))
    return seen


def contracts(tree, specs):
    """The definitions that the contracts of the exported calls name."""
    found = set()
    for path in tree.matching(r'crates/dsss/src/.*\.rt'):
        text = tree.text(path)
        # a clause ends at its last brace, and may hold others
        for clause in re.findall(r'\bensures\b[^{]*(\{(?:[^{}]|\{[^{}]*\})*\})', text):
            found |= named(specs, path, imports(text), words([clause]))
    return found


def promises_of(tree, specs, rows):
    """The definitions that are rows of the calls, refusals and demands or stand beside one; records of promises."""
    fields = promises.promised(tree)
    found = {(path, name) for path, spec in specs.items() for name in spec.lines if name.endswith('Promised')}
    for row in rows:
        if promises.table_of(row, fields) == 'laws':
            continue
        for name in [row.name.split('.')[0]] + row.listed('with'):
            crate, _, bare = name.rpartition('/')
            places = [path for path in specs if bare in specs[path].lines and (not crate or f'/{crate}/' in path)]
            own = [p for p in places if p == row.path] or [p for p in places if p.split('/')[1] == row.crate]
            found.update((path, bare) for path in (own or places))
    return found


def list_of(tree, rows):
    """The list's text."""
    specs = {path: Spec(path, tree.text(path)) for path in tree.matching(r'crates/\w+/specs/.*\.antt')}
    roots = contracts(tree, specs)
    wanted = roots | promises_of(tree, specs, rows)
    calls, everything = closure(specs, roots), closure(specs, wanted)
    # what has begun and has not landed may need a working notion of what has
    early = promises.begun(tree.root)
    landed = closure(specs, {one for one in wanted if one[0].split('/')[1] not in early})
    crates, lines, sums = promises.order_of(tree), [], [0, 0, 0, 0]
    for path in sorted(specs, key=lambda p: (crates.index(p.split('/')[1]) if p.split('/')[1] in crates else 0, p)):
        spec, counts = specs[path], [0, 0, 0, 0]
        for name, body in spec.lines.items():
            reached, marked = (path, name) in everything, name in spec.marked
            if (path, name) in landed and marked:
                tree.fault(path, f'{name} is marked as a working notion, and a promise reaches it')
            if not reached and not marked:
                tree.fault(path, f'{name}: no promise reaches it, and it is not marked as a working notion')
            for at, counted in enumerate((True, (path, name) in calls, reached, not reached)):
                counts[at] += len(body) if counted else 0
        sums = [a + b for a, b in zip(sums, counts)]
        if spec.lines:
            lines.append(f'| `{path}` | ' + ' | '.join(str(n) if n else '' for n in counts) + ' |\n')
    return HEAD + ''.join(lines) + '| together | ' + ' | '.join(f'{n:,}' for n in sums) + ' |\n'


def looked_at(root):
    tree = promises.Tree(root)
    rows = promises.all_rows(tree)
    tree.faults = []  # those of the tags are for promises.py to say
    text = promises.between(tree, tree.text(promises.DOCUMENT), 'definitions', list_of(tree, rows), 'believed.py')
    return tree, text


def checked(root):
    tree, text = looked_at(root)
    if text != tree.text(promises.DOCUMENT):
        tree.fault(promises.DOCUMENT, 'its list of definitions is not what the tree gives: run scripts/believed.py')
    return tree


# ---- the script tried on a small tree

LOW = ('-- Numbers.\nuse Rattle.std.specs.Prelude.{ℕ}\n\n-- twice\nabbrev pub twice : ℕ → ℕ\ntwice n = n + n\n\n'
       'pub record Even (n : ℕ) : Type 0 where\n  pub half : ℕ\n  pub is : n ≡ twice half\n\n'
       '-- working notion: of the loop\nabbrev pub step : ℕ → ℕ\nstep n = n\n\n'
       'unfoldable pub ◌⊕◌ : ℕ → ℕ → ℕ\na ⊕ b = a\n')
SMALL = {
    'docs/PROMISES.md': ''.join(promises.marks('definitions')).replace('promises.py', 'believed.py'),
    'crates.txt': 'low:\npromises: low\ndsss: promises\n',
    'crates/low/specs/Low.antt': LOW,
    'crates/low/specs/Loop.antt': '-- The loop.\n-- working notion: of the loop\n\n'
                                  'pub data At : Type 0 where\n  at : At\n',
    'crates/promises/specs/Calls.antt': 'use Rattle.low.specs.Low.{Even}\n\npub record Wrote (n : ℕ) : Type 0 where\n'
                                        '  pub answer : Even n\n',
    'crates/promises/specs/Promises.antt': 'use Rattle.low.specs.Low.{◌⊕◌}\n\n-- promise: It is one\n-- rule: 2.1\n'
                                           'abbrev pub One : Type 0\nOne = 1 ⊕ 0 ≡ 1\n',
    'crates/dsss/src/lib.rt': 'ghost use Rattle.promises.specs.Calls.{Wrote};\n'
                              'pub extern "C" fn dsss(n: u64)\n    ensures wrote { Wrote n }\n',
}
WRONG = [
    ('crates/low/specs/Low.antt', '-- working notion: of the loop\n', '', 'step: no promise reaches it'),
    ('crates/low/specs/Loop.antt', '-- working notion: of the loop\n', '', 'At: no promise reaches it'),
    ('crates/low/specs/Low.antt', '-- twice\n', '-- working notion: twice\n', 'twice is marked as a working notion'),
    ('crates/promises/specs/Promises.antt', '1 ⊕ 0', '1', '⊕: no promise reaches it'),
    ('crates/promises/specs/Promises.antt', '-- promise: It is one\n', '', 'One: no promise reaches it'),
    ('crates/dsss/src/lib.rt', 'Wrote n', 'n', 'Wrote: no promise reaches it'),
    ('docs/PROMISES.md', '| 9 | 5 | 7 | 2 |', '| 9 | 5 | 6 | 3 |', 'its list of definitions is not what'),
]


def main():
    root = os.path.dirname(os.path.dirname(os.path.abspath(__file__)))
    if sys.argv[1:] == ['--check']:
        promises.self_test('believed.py', SMALL, WRONG, lambda r: looked_at(r)[1], lambda r: checked(r).faults)
        tree = checked(root)
    elif not sys.argv[1:]:
        tree, text = looked_at(root)
        promises.lay(root, {promises.DOCUMENT: text})
    else:
        sys.exit('believed.py: a word it does not know; it takes --check or nothing')
    promises.end('believed.py', tree.faults)


if __name__ == '__main__':
    main()
