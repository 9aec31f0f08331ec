#!/usr/bin/env python3
"""imports.py: names that a file of Rattle or antt brings in and does not use. With --mend it takes them out.

A name counts as used where it stands in the file outside its import; an operator, as ◌+◌, where its sign stands.
"""
import os
import re
import subprocess
import sys

IMPORT = re.compile(r'^((?:ghost )?use )([^\s{;]+)\.\{([^}]*)\}(;?)\n', re.M)


def files():
    command = ['git', 'ls-files', '-co', '--exclude-standard', 'crates/*.antt', 'crates/*.rt']
    out = subprocess.run(command, capture_output=True, text=True, check=True).stdout
    return [p for p in out.split('\n') if p and os.path.isfile(p)]


def rest_of(text):
    """The text without comments and imports of names in braces."""
    text = IMPORT.sub('', text)
    return re.sub(r'(--|//)[^\n]*', '', text)


def used(name, text):
    """Whether a name, or the sign of an operator, stands in the text."""
    if '◌' in name:
        return all(part in text for part in name.split('◌') if part)
    return re.search(r"(?<![\w\-'.])%s(?![\w\-'])" % re.escape(name), text) is not None


def import_of(match, names):
    """An import of these names, on one line or a name a line, as it was; `rt fmt` does the rest."""
    start, path, listed, end = match.groups()
    if '\n' not in listed:
        return f'{start}{path}.{{{", ".join(names)}}}{end}\n'
    return f'{start}{path}.{{\n' + ''.join(f'  {n},\n' for n in names) + f'}}{end}\n'


def main():
    mend = '--mend' in sys.argv[1:]
    count = 0
    for path in files():
        with open(path, encoding='utf8') as f:
            text = f.read()
        rest = rest_of(text)

        def kept(match):
            nonlocal count
            names = [n.strip() for n in match.group(3).split(',') if n.strip()]
            good = [n for n in names if used(n.split(' as ')[-1], rest)]
            if len(good) == len(names):
                return match.group(0)
            count += len(names) - len(good)
            if not mend:
                print(f'imports.py: {path}: {match.group(2)}: {", ".join(n for n in names if n not in good)}')
            return import_of(match, good) if good else ''

        changed = IMPORT.sub(kept, text)
        if mend and changed != text:
            with open(path, 'w', encoding='utf8') as f:
                f.write(changed)
    print(f'imports.py: {count} names brought in and not used')
    sys.exit(1 if count and not mend else 0)


if __name__ == '__main__':
    main()
