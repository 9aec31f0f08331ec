#!/usr/bin/env python3
"""archive.py [--self-test] ARCHIVE: a library that keeps nothing between calls and wants next to nothing.

No object of the archive may have a section that is written to (.data, .bss and the like), however small, nor a symbol
that is common, and none may want a symbol but memcpy and memset. So nothing that a call leaves is there for the next
one, nor for one beside it. Looked at with Debian's readelf, which reads the objects of every processor.

With --self-test, small objects that break each of these rules are made and must be refused, and one that breaks none
must not.
"""
import os
import re
import subprocess
import sys
import tempfile

WANTED = {'memcpy', 'memset'}

WRONG = {
    'a row with contents': 'int row[4] = {1}; int f(int k) { return row[k]++; }',
    'a static row': 'int f(int k) { static int row[4]; return row[k]++; }',
    'a common symbol': '__attribute__((common)) int row[4]; int f(int k) { return row[k]; }',
    'a row of each thread': 'static __thread int row[4]; int f(int k) { return row[k]++; }',
    'a symbol of another library': 'void *malloc(unsigned long); void *f(void) { return malloc(8); }',
}
RIGHT = 'void *memcpy(void *, const void *, unsigned long); static const int row[4] = {1};' \
        'int f(void *to, int k) { memcpy(to, row, sizeof row); return row[k]; }'


def readelf(option, archive):
    """What readelf says, or the end of this program if it cannot read the archive."""
    plain = {**os.environ, 'LC_ALL': 'C'}
    done = subprocess.run(['readelf', option, archive], capture_output=True, text=True, env=plain)
    if done.returncode != 0 or done.stderr:
        sys.exit(f'archive: readelf cannot read {archive}: {done.stderr}')
    return done.stdout.split('\n')


def faults_of(archive):
    """The sections that are written to and the symbols that are wanted or common."""
    section = re.compile(r'\s*\[\s*\d+\]\s+(\S+)\s+(\w+)\s+[0-9a-f]+\s+[0-9a-f]+\s+([0-9a-f]+)\s+[0-9a-f]+\s+(\w*)\s')
    symbol = re.compile(r'\s*\d+:\s+[0-9a-f]+\s+\S+\s+\w+\s+\w+\s+\w+\s+(UND|COM)\s+(\S+)')
    sections = [match for match in map(section.match, readelf('-SW', archive)) if match]
    if not any(match.group(1).startswith('.text') for match in sections):
        sys.exit(f'archive: no code in {archive}')
    found = [f'section {match.group(1)} is written to' for match in sections
             if int(match.group(3), 16) > 0 and ('W' in match.group(4) or match.group(2) == 'NOBITS')]
    symbols = [match for match in map(symbol.match, readelf('-sW', archive)) if match]
    found += [f'{match.group(2)} is wanted' for match in symbols
              if match.group(1) == 'UND' and match.group(2) not in WANTED]
    return found + [f'{match.group(2)} is common' for match in symbols if match.group(1) == 'COM']


def self_test():
    """Objects that must be refused, each by itself, and one that must not."""
    with tempfile.TemporaryDirectory() as work:
        for name, text in [*WRONG.items(), ('nothing', RIGHT)]:
            source, to = os.path.join(work, 'one.c'), os.path.join(work, 'one.o')
            with open(source, 'w', encoding='utf8') as f:
                f.write(text)
            command = [os.environ.get('CC', 'cc'), '-O1', '-fno-pic', '-fno-asynchronous-unwind-tables', '-c', source]
            subprocess.run([*command, '-o', to], check=True)
            if bool(faults_of(to)) != (name in WRONG):
                sys.exit(f'archive: an object with {name} is judged wrongly: {faults_of(to)}')


def main():
    words = sys.argv[1:]
    if words[:1] == ['--self-test']:
        self_test()
        words = words[1:]
    if len(words) != 1:
        sys.exit(__doc__.split('\n')[0])
    faults = faults_of(words[0])
    for fault in faults:
        print('archive:', fault)
    if not faults:
        print('archive: nothing is kept between calls, and memcpy and memset are all that is wanted')
    sys.exit(1 if faults else 0)


main()
