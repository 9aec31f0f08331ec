"""edit.py: an edit is a wrong program or definition that the prover must refuse. It is a file,
crates/NAME/refused/ERROR_IT_IS.edit, or one of must-fail/ beside it, which `rt ci` tries too:

    # an input on which the wrong version answers otherwise, and how
    by: the file of the crate that must refuse it, with an error of its own
    file: a file of the crate, in src/, specs/ or proofs/
    old: a text that stands there once
    new: what stands there in its place
    for: the promises that it is for (scripts/promises.py)

More pairs of old and new may follow a file, and more files the first. Of an edit of definitions or statements the file
that refuses is a file of proofs/, with the fact or the law that no longer holds. Of an edit of a function's body it is
the function's own proof, Proof.antt, Answers.antt or Invariants.antt of proofs/FUNCTION/, or the function's file in
src/ where it has none.
"""
import os
import re


class Edit:
    def __init__(self, path):
        self.path = path
        self.crate, self.folder, name = path.split('/')[-3:]
        self.label = name.removesuffix('.edit')
        self.by, self.pairs = None, []
        with open(path, encoding='utf8') as f:
            self.lines = f.read().split('\n')
        self.read()

    def read(self):
        file, old = '', ''
        for line in self.lines:
            word, _, rest = line.partition(':')
            rest = rest.removeprefix(' ')
            if word == 'by':
                self.by = rest
            elif word == 'file':
                file = rest
            elif word == 'old':
                old = rest
            elif word == 'new':
                self.pairs.append((file, old, rest))

    def text_fault(self):
        """What is wrong with the file's own form; None if nothing is."""
        if not re.match(r'# \S', self.lines[0]):
            return "its first line names no input, '# ..'"
        if not self.by or self.lines[1] != 'by: ' + self.by:
            return "its second line does not name the file that refuses, 'by: ..'"
        if not re.fullmatch(r'(proofs/[\w/+]+\.antt|src/[\w/]+\.rt)', self.by):
            return f'its second line names no file that can refuse: {self.by}'
        return None if self.pairs else "it has no pair of 'old:' and 'new:'"

    def apply(self, folder, write=True):
        """Makes the replacements in a folder of the crate; answers what stands in the way, or None."""
        texts = {}
        if not os.path.isfile(os.path.join(folder, self.by or '')):
            return f'there is no file {self.by}'
        for file, old, new in self.pairs:
            path = os.path.join(folder, file)
            if not re.match(r'(src|specs|proofs)/', file) or '..' in file or not os.path.isfile(path):
                return f'there is no file {file}'
            if path not in texts:
                with open(path, encoding='utf8') as f:
                    texts[path] = f.read()
            if not old or old == new or texts[path].count(old) != 1:
                return f'its old text stands {texts[path].count(old) if old else 0} times in {file}: {old}'
            texts[path] = texts[path].replace(old, new)
        for path, text in texts.items() if write else []:
            with open(path, 'w', encoding='utf8') as f:
                f.write(text)
        return None

    def functions(self, folder):
        """The functions whose bodies the edit touches, as `module/name`; None if it touches anything else."""
        found = set()
        for file, old, _ in self.pairs:
            name = function_at(os.path.join(folder, file), old) if file.startswith('src/') else None
            if not name:
                return None
            module = re.sub(r'^src/|(/mod)?\.rt$', '', file)
            found.add(name if module in ('lib', 'main') else f'{module}/{name}')
        return found or None


def function_at(path, old):
    """The function in whose body a text stands, a method as `Type/name`: behind its contract, up to the brace that
    closes it."""
    with open(path, encoding='utf8') as f:
        text = f.read()
    at = text.find(old)
    for fn in re.finditer(r'^(    )?(?:pub )?(?:extern "C" )?fn (\w+)', text, re.M):
        indent, name = fn.group(1) or '', fn.group(2)
        body = re.compile(rf'^{indent}\{{$|^{indent}(?:pub )?(?:extern "C" )?fn .*\{{$', re.M).search(text, fn.start())
        end = text.find(f'\n{indent}}}', fn.start())
        if body and body.end() <= at < end and body.start() < end:
            of = impl_at(text, fn.start()) if indent else ''
            return None if of is None else of + name
    return None


def impl_at(text, at):
    """The folder of an impl's methods: `Type/`, or `TypeTraitArgument/` of a trait's; None where it is of another
    form."""
    heads = re.findall(r'^impl(?:<[^>]*>)? (?:(\w+)(?:<(\w+)>)? for )?(\w+)(?:<[^>]*>)? \{$', text[:at], re.M)
    if not heads or len(heads) != len(re.findall(r'^(?:impl|trait|pub trait)\b', text[:at], re.M)):
        return None
    trait, argument, of = heads[-1]
    return of[:1].upper() + of[1:] + trait + argument[:1].upper() + argument[1:] + '/'


def edits_of(crates, name, folders=('must-fail', 'refused')):
    """The edits of a crate, by folder and by name."""
    found = []
    for folder in folders:
        place = os.path.join(crates, name, folder)
        labels = sorted(os.listdir(place)) if os.path.isdir(place) else []
        found += [Edit(os.path.join(place, label)) for label in labels if label.endswith('.edit')]
    return found
