#!/usr/bin/env python3
"""respell.py: the definitions, lemmas, fields and constructors that this repository declares, in snake case.

    tools/respell.py            respells crates/ once, behind port.py
    tools/respell.py --check    writes nothing, and prints the names that would fall together in a file

`port.py` (docs/PORT.md) respelled only those names that a library has too. This turns the others: `barkerWord` and
`barker-word` to `barker_word`. It goes by what each file declares and imports, so that a name of a library, or one that
Rattle makes of the code, stays as it is. A name behind a dot turns if it is a field of a record of ours, or if what
stands before the dot is a module of ours. Types and facts, which begin with a capital, stay.
"""
import os
import re
import sys

NAME = r'[^\s(){}.;,@"«»]+'
WORDS = re.compile(r'(?P<comment>--[^\n]*|//[^\n]*)|(?P<text>"[^"\n]*")|(?P<name>' + NAME
                   + r')|(?P<dot>\.)|(?P<other>[\s(){};,@"«»])')
MODIFIERS = r'(?:(?:pub|abbrev|unfoldable|private|data|record|let|where) +)*'
DECLARED = re.compile(r'(?m)^ *' + MODIFIERS + '(' + NAME + r')(?: +\{[^{}\n]*\}| +\([^()\n]*\))* +:(?=\s)')
FIELD = re.compile(r'(?m)^ +pub (' + NAME + r') +:(?=\s)')
USE = re.compile(r'\buse +([^\s;{]+?)(?:\.?\{([^}]*)\}| as +([^\s;]+)|(?=[\s;]))')
# spelled apart from the rule: `get_or` is today's word for `getD`
APART = {
    'get_d_tabulate': 'get_or_tabulate', 'front_of': 'front_of_lem', 'exact_bytes': 'exact_bytes_lem',
    'entry-at': 'entry_at_lem'}
# the definitions of specs/ in snake case: a lemma whose name would be that of one gets `_lem`
DEFINED = set()


def plain(name):
    name = APART.get(name, name)
    name = re.sub(r'^getD(?=-)', 'get_or', name)
    return re.sub(r'(?<=[a-z0-9])[A-Z]', lambda m: '_' + m[0].lower(), name).replace('-', '_')


def snake(name):
    return plain(name) + '_lem' * ('-' in name and plain(name) in DEFINED)


def turns(name):
    return name[:1].isascii() and name[:1].islower() and plain(name) != name


def files():
    for folder, folders, names in os.walk('crates'):
        folders[:] = sorted(f for f in folders if f != 'out')
        for name in sorted(names):
            if name.endswith(('.antt', '.rt')):
                yield os.path.join(folder, name)


def code_of(text):
    return re.sub(r'--[^\n]*', '', text)


def imports(text, ours):
    """The names that a file imports from our crates, from elsewhere, and the names that it gives our modules."""
    own, other, modules = set(), set(), set()
    for path, names, alias in USE.findall(code_of(text)):
        steps = path.split('.')
        mine = len(steps) > 1 and steps[0] == 'Rattle' and steps[1] in ours
        if alias:
            if mine and not re.search(r'\.(Tie|Goals|Given|Statement)$', path):
                modules.add(alias)
        for item in names.split(','):
            words = item.split()
            if words:
                (own if mine else other).add(words[0])
                if len(words) == 3 and mine:
                    own.add(words[2])
    return own, other, modules


class Tree:
    def __init__(self):
        self.ours = {c for c in os.listdir('crates') if os.path.isdir(os.path.join('crates', c))}
        self.texts = {path: open(path, encoding='utf8').read() for path in files()}
        for path, text in self.texts.items():
            if path.endswith('.antt'):
                DEFINED.update(plain(n) for n in DECLARED.findall(code_of(text))
                               if '-' not in n and ('/specs/' in path or plain(n) != n))
        self.declared = {p: {n for n in DECLARED.findall(code_of(t)) if turns(n)} if p.endswith('.antt') else set()
                         for p, t in self.texts.items()}
        self.names = set().union(*self.declared.values())
        self.fields = {n for p, t in self.texts.items() if p.endswith('.antt') and '/specs/' in p or '/proofs/' in p
                       for n in FIELD.findall(code_of(t)) if turns(n)}
        # a constructor or a lemma is indented like a field: only what some record literal or projection names is one
        self.fields &= self.names

    def known(self, path):
        own, other, modules = imports(self.texts[path], self.ours)
        return ((own & self.names) | self.declared[path]) - other, modules

    def respelled(self, path):
        """The text with its names turned, and those that fall together."""
        text = self.texts[path]
        known, modules = self.known(path)
        out, before, met, stay = [], [], {}, set()
        ours = False
        for m in WORDS.finditer(text):
            kind, word = m.lastgroup, m[0]
            if kind == 'comment':
                out.append(re.sub(NAME, lambda n: self.in_comment(n[0], known), word))
                continue
            if kind == 'name':
                dotted = before[-1:] == ['.']
                head = before[-2] if dotted and len(before) > 1 else ''
                literal = before[-1:] in (['{'], [';']) and re.match(r'\s+=\s', text[m.end():])
                if dotted:
                    turn = word in self.names and (word in self.fields or head in modules)
                elif literal:
                    turn = word in self.fields or word in known
                else:
                    turn = word in known
                if turn:
                    met.setdefault(snake(word), set()).add(word)
                    out.append(snake(word))
                else:
                    if not dotted:
                        stay.add(word)
                    out.append(word)
            else:
                out.append(word)
            if not word.isspace():
                before = (before + [word])[-3:]
            elif before[-1:] == ['.']:
                # a dot with a blank behind it ends the variables of a λ
                before = before[:-1] + ['λ']
        together = [(new, sorted(old)) for new, old in met.items() if len(old) > 1]
        together += [(new, sorted(old) + ['(as it is)']) for new, old in met.items() if new in stay]
        return ''.join(out), together

    def in_comment(self, word, known):
        bare = word.strip("`'\":?!*[]<>|/\\")
        return word.replace(bare, snake(bare)) if bare in known else word


def main():
    os.chdir(os.path.join(os.path.dirname(os.path.realpath(__file__)), '..'))
    tree = Tree()
    for path in tree.texts:
        text, together = tree.respelled(path)
        for new, old in together:
            print(f'{path}: {", ".join(old)}: {new}')
        if '--check' not in sys.argv and text != tree.texts[path]:
            with open(path, 'w', encoding='utf8') as f:
                f.write(text)


if __name__ == '__main__':
    main()
