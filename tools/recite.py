#!/usr/bin/env python3
"""recite.py: the names that texts cite, in today's spelling.

    tools/recite.py FILE..    in comments and documents, names in `code` and in tags (for:, with:, code:)

`respell.py` turned the definitions and lemmas, and of comments those names that the file itself knows. This turns the
others, wherever a name of the last commit in the older form (the first line of docs/PORT.md) is cited that has another
spelling today. Nothing but comments changes in a file of code.
"""
import os
import re
import subprocess
import sys

sys.dont_write_bytecode = True
import respell

TAG = re.compile(r'^(\s*(?:--|//|#|/\*|\*)?\s*(?:for|with|code): )(.*)$')
CODE = re.compile(r'`[^`\n]+`')
WORD = re.compile(r"(?<![\w\-′'./])[A-Za-z_][\w\-′]*(?![\w\-′/]|\.antt|\.rt|\.edit)")
TAGGED = re.compile(r"(?<![\w\-′'])[A-Za-z_][\w\-′]*(?![\w\-′])")
MARKS = {'.antt': '--', '.rt': '//', '.rs': '//', '.c': '/*', '.h': '/*', '.cpp': '//'}


def git(*words):
    return subprocess.run(['git', *words], capture_output=True, text=True, check=True).stdout


def spelled():
    """Each name of the older form with today's, where that is another."""
    with open('docs/PORT.md', encoding='utf8') as f:
        landed, ported = f.readline().strip(), f.readline().strip()
    old, between = set(), set()
    for commit, names in ((landed, old), (ported, between)):
        for path in git('ls-tree', '-r', '--name-only', commit, 'crates').split('\n'):
            if path.endswith('.antt'):
                names.update(respell.DECLARED.findall(respell.code_of(git('show', f'{commit}:{path}'))))
    now = set()
    for path in respell.files():
        if path.endswith('.antt'):
            with open(path, encoding='utf8') as f:
                now.update(respell.DECLARED.findall(respell.code_of(f.read())))
    respell.DEFINED.update(respell.plain(n) for n in old | between if '-' not in n)
    found = {}
    for name in old | between:
        plain = respell.plain(name)
        law = name in respell.APART or '-' in name and f'{plain}_lem' in now and (name in between or plain not in now)
        new = f'{plain}_lem' if law and not plain.endswith('_lem') else plain
        new = respell.APART.get(new, new) if name not in between else new
        if new in now and new != name and re.search(r'[A-Z-]', name[1:]) and name[:1].islower():
            found[name] = new
    return found


def turned(text, names, word=WORD):
    return word.sub(lambda m: names.get(m[0], m[0]), text)


def recited(path, text, names):
    """The text with the names turned that its comments, or the document, cite."""
    mark, out = MARKS.get(os.path.splitext(path)[1], '#'), []
    inside = False
    for line in text.split('\n'):
        if path.endswith('.md'):
            out.append(CODE.sub(lambda m: turned(m[0], names), line))
            continue
        if path.endswith('.edit'):
            tagged = line.startswith('for: ')
            out.append(TAG.sub(lambda m: m[1] + turned(m[2], names, TAGGED), line) if tagged else line)
            continue
        head = line.find(mark)
        at = 0 if inside else head
        inside = mark == '/*' and '*/' not in line[max(head, 0):] and (inside or head >= 0)
        if at < 0:
            out.append(line)
            continue
        before, comment = line[:at], line[at:]
        tag = TAG.match(comment)
        comment = tag[1] + turned(tag[2], names, TAGGED) if tag else CODE.sub(lambda m: turned(m[0], names), comment)
        out.append(before + comment)
    return '\n'.join(out)


def main():
    names = spelled()
    for path in sys.argv[1:]:
        with open(path, encoding='utf8') as f:
            text = f.read()
        new = recited(path, text, names)
        if new != text:
            with open(path, 'w', encoding='utf8') as f:
                f.write(new)


if __name__ == '__main__':
    main()
