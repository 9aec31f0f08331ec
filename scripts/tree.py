#!/usr/bin/env python3
"""tree.py: holds the text of the tree to its own rules.

- lines of C, Rust, scripts (a file that starts with #! is one) and documents are at most 120 characters wide; a table
  of a document may be wider. Code of Rattle and antt is as wide as `rt fmt` leaves it, which `rt ci` asks for; lines
  that are a comment there are at most 125;
- a Rattle file has at most 250 lines, a definitions file 250, a proof file 400;
- no tracked file holds a path of a machine;
- crates.txt names just those crates that a crate uses;
- the first line of a function's proof names the function by its path;
- a file that starts with #! can be run as it stands;
- each edit, of must-fail/ or refused/, has the form that scripts/edit.py says, and its old texts stand just once.
Prints each fault, and ends with status 1 if there is one.
"""
import os
import re
import subprocess
import sys
from edit import Edit

faults = []


def tracked():
    command = ['git', 'ls-files', '-co', '--exclude-standard']
    out = subprocess.run(command, capture_output=True, text=True, check=True).stdout
    return [p for p in out.split('\n') if p and os.path.isfile(p)]


def limits(path, text):
    """Widest line and most lines allowed, or None."""
    if path.endswith('.rt'):
        return 125, 250
    if path.endswith('.antt'):
        return 125, 250 if '/specs/' in path else 400
    if path.endswith(('.c', '.h', '.cpp', '.rs', '.py', '.sh', '.md')) or text.startswith('#!'):
        return 120, 1000
    return None


def text_of(path):
    with open(path, encoding='utf8') as f:
        return f.read()


def check_sizes(path, text):
    allowed = limits(path, text)
    if not allowed:
        return
    width, most = allowed
    lines, laid_out = text.split('\n'), path.endswith(('.rt', '.antt'))
    for number, line in enumerate(lines, 1):
        free = not line.lstrip().startswith(('--', '//')) if laid_out else line.startswith('|')
        if len(line) > width and not free:
            faults.append(f'{path}:{number}: {len(line)} characters, more than {width}')
    if len(lines) - 1 > most:
        faults.append(f'{path}: {len(lines) - 1} lines, more than {most}')


def check_machine_paths(path, text):
    for number, line in enumerate(text.split('\n'), 1):
        if re.search(r'(^|[^A-Za-z0-9_.$}])/(work|tmp|root|home|farm|opt)/[a-z]', line):
            faults.append(f'{path}:{number}: a path of a machine')


def check_proof_head(path, text):
    """crates/NAME/proofs/../FUNCTION/Proof.antt starts with the function's path."""
    match = re.fullmatch(r'crates/(\w+)/proofs/(.+)/Proof\.antt', path)
    if match:
        function = '::'.join([match[1]] + match[2].split('/'))
        if not text.startswith(f'-- `{function}` '):
            faults.append(f'{path}:1: does not start with `{function}`')


def check_mode(path, text):
    if text.startswith('#!') and not os.access(path, os.X_OK):
        faults.append(f'{path}: starts with #! and cannot be run')


def stack():
    """The crates of crates.txt with those that each names."""
    lines = [line.split(':') for line in text_of('crates.txt').split('\n') if ':' in line and line[0] != '#']
    return {name.split()[0]: deps.split() for name, deps in lines}


def check_crates():
    crates = stack()
    for name, deps in crates.items():
        own = [p for p in tracked() if p.startswith(f'crates/{name}/') and p.endswith(('.rt', '.antt'))]
        text = '\n'.join(re.sub(r'(--|//)[^\n]*', '', text_of(p)) for p in own)
        own_modules = set(re.findall(r'^(?:pub )?mod (\w+);', text, re.M))
        called = set(re.findall(r'\b([a-z_0-9]+)::', text)) - own_modules
        used = set(re.findall(r'\bRattle\.([a-z_0-9]+)\b', text)) | called
        for dep in deps:
            if dep not in used:
                faults.append(f'crates.txt: {name} does not use {dep}')
        for other in sorted((used & set(crates)) - {name} - set(deps)):
            faults.append(f'crates.txt: {name} uses {other}')


def edits():
    """Every edit, of the folders must-fail and refused."""
    return [p for p in tracked() if re.fullmatch(r'crates/\w+/(must-fail|refused)/\w+\.edit', p)]


def check_edit(path):
    """An edit has its form, and each old text stands just once in its file, once those before it are replaced."""
    made = Edit(path)
    fault = made.text_fault() or made.apply(os.path.dirname(os.path.dirname(path)), write=False)
    if fault:
        faults.append(f'{path}: {fault}')


for p in tracked():
    try:
        content = text_of(p)
    except UnicodeDecodeError:
        continue
    check_sizes(p, content)
    check_machine_paths(p, content)
    check_proof_head(p, content)
    check_mode(p, content)
check_crates()
for p in edits():
    check_edit(p)
for fault in faults:
    print('tree.py:', fault)
print(f'tree.py: {len(faults)} faults')
sys.exit(1 if faults else 0)
