#!/usr/bin/env python3
"""promises.py: makes the tables of docs/PROMISES.md from tags that stand where the things stand.

    scripts/promises.py            writes the tables
    scripts/promises.py --check    tries itself on a small tree, then says what is wrong with this one

A statement, law, contract or refusal is tagged in the comment lines directly above it, `--` in .antt, `//` in .rt:

    -- promise: what it promises, in words; they may go on in the next comment line
    -- rule: 1.4 (1), 6.8 to 6.10        rules of docs/RULES.md; 6.4 (9) is refusal 9, 1.4 (3) demand 3
    -- code: usable, dsss::dsss_find     the functions that it is about (optional; with their crate where two have one)
    -- with: no_other, is_kind           more statements or definitions of the same row (optional)
    -- no test: why none can show it     (optional), and `no edit:` likewise

A field of a record is named RECORD.FIELD; two of one name are told apart as CRATE/NAME. In a .c file of programs/ the
tags stand in a comment above `main`, and the statement has the file's name. The others name statements:

    for: ReadBack, Read.octets     the last line of an edit (crates/*/must-fail or crates/*/refused)
    // for: ReadBack               directly above a family in tests/peer/src/families/mod.rs
    # for: month                   a comment line of any other file in tests/ and examples/, which is then the test

A fault is: a table that is not what the tags give; a row of the calls, refusals or demands without an edit or without a
test, and any other row without both; an edit or a family that is for no row; a rule of sections 2 to 9, a refusal or a
demand without a row; a field of a record of promises, or an exported call, without a row; a tag that names what does
not exist; and a path or a name in `code` in the text around the tables that the tree does not have.
"""
import os
import re
import subprocess
import sys
import tempfile

DOCUMENT = 'docs/PROMISES.md'
RULES = 'docs/RULES.md'
FAMILIES = 'tests/peer/src/families/mod.rs'
TABLES = ('calls', 'refusals', 'demands', 'laws')
HEAD = '| Promise | Rule | Statement | Code | Edits | Test |\n|---|---|---|---|---|---|\n'
COMMENT = re.compile(r'^\s*(?:--|//|#|/\*|\*)(?:\s(.*?))?\s*(?:\*/)?$')
TAG = re.compile(r'(promise|rule|code|with|no test|no edit):\s*(.*)')
FOR = re.compile(r'for:\s*(.+)')
WORDS = r'(?:(?:abbrev|unfoldable|opaque|pub|private|data|record|inductive)\s+)*'
DECLARED = re.compile(r'^(\s*)(%s)([^\s:({]+)\s*(?=[:({]|\s|$)' % WORDS)
FUNCTION = re.compile(r'^\s*(?:ghost\s+)?(?:pub\s+)?(?:extern\s+"C"\s+)?fn\s+(\w+)')


class Row:
    """A promise: its words, rules, statement and the rest of its tags, and what is for it."""

    def __init__(self, path, line, name, tags):
        self.path, self.line, self.name, self.tags = path, line, name, tags
        self.crate = path.split('/')[1] if path.startswith('crates/') else ''
        self.edits, self.tests = [], []

    def listed(self, tag):
        return [word.strip() for word in self.tags.get(tag, '').split(',') if word.strip()]


class Tree:
    """The files of a tree, and the faults found in it."""

    def __init__(self, root):
        self.root, self.faults = root, []
        out = subprocess.run(['git', 'ls-files', '-co', '--exclude-standard'], cwd=root, capture_output=True, text=True,
                             check=True).stdout
        self.paths = sorted({p for p in out.split('\n') if p and os.path.isfile(os.path.join(root, p))})

    def text(self, path):
        with open(os.path.join(self.root, path), encoding='utf8', errors='replace') as f:
            return f.read()

    def matching(self, pattern):
        return [p for p in self.paths if re.fullmatch(pattern, p)]

    def fault(self, where, what):
        self.faults.append(f'{where}: {what}')


def comment_of(line):
    """What a comment line says; None of another line."""
    match = COMMENT.match(line)
    return (match[1] or '') if match and not line.lstrip().startswith('#[') else None


# ---- statements

def record_over(lines, at):
    """The record or data type that the line stands in; '' if it stands in none."""
    depth = len(lines[at]) - len(lines[at].lstrip())
    for line in reversed(lines[:at]):
        indent = len(line) - len(line.lstrip())
        if line.strip() and comment_of(line) is None and indent < depth:
            match = re.match(r'\s*%s(\S+)' % WORDS, line)
            return match[1] if re.match(r'\s*(?:pub\s+)?(?:record|data)\s', line) else ''
    return ''


def declared_at(path, lines, at):
    """The name of what is declared in a line, or None."""
    if path.endswith('.c'):
        return os.path.basename(path)[:-2] if re.match(r'int main\b', lines[at]) else None
    if path.endswith('.rt'):
        match = FUNCTION.match(lines[at]) or re.match(r'^\s+([A-Z]\w*)\s*(?:\{.*\}|\(.*\)|= \d+)?,$', lines[at])
        return match[1] if match else None
    match = DECLARED.match(lines[at])
    if not match or match[3] in ('use', 'module', 'where', 'mod'):
        return None
    over = record_over(lines, at) if match[1] else ''
    return f'{over}.{match[3]}' if over else match[3]


def rows_of(tree, path):
    """The rows whose tags stand in a file."""
    lines, rows, at = tree.text(path).split('\n'), [], 0
    while at < len(lines):
        first = TAG.fullmatch(comment_of(lines[at]) or '')
        at += 1
        if not first:
            continue
        if first[1] != 'promise':
            tree.fault(f'{path}:{at}', f'{first[1]}: without a promise above it')
            continue
        start, tags, last = at, {'promise': first[2]}, 'promise'
        while at < len(lines) and comment_of(lines[at]) is not None:
            more = TAG.fullmatch(comment_of(lines[at]))
            if more:
                last = more[1]
                tags[last] = more[2]
            else:
                tags[last] += ' ' + comment_of(lines[at])
            at += 1
        while at < len(lines) and lines[at].lstrip().startswith('#['):
            at += 1
        name = declared_at(path, lines, at) if at < len(lines) else None
        if name is None:
            tree.fault(f'{path}:{start}', 'a promise above nothing that is declared')
        else:
            rows.append(Row(path, start, name, tags))
    return rows


def all_rows(tree):
    paths = tree.matching(r'crates/\w+/(?:src|specs|proofs)/.*\.(?:rt|antt)|programs/\w+\.c')
    return [row for path in paths for row in rows_of(tree, path)]


def names_of(tree, rows):
    """Name, or CRATE/NAME, to the rows that a `for:` line may mean by it."""
    found = {}
    for row in rows:
        for name in [row.name] + row.listed('with'):
            bare = name.split('/')[-1]
            for key in {bare, f'{row.crate}/{bare}'}:
                found.setdefault(key, [])
                if row not in found[key]:
                    found[key].append(row)
    return found


# ---- what is for them

def give(tree, where, text, names, kind, shown):
    """Adds an edit or a test to the rows that a `for:` line names."""
    for name in filter(None, (word.strip() for word in text.split(','))):
        rows = names.get(name, [])
        if not rows:
            tree.fault(where, f'for: {name}, which no promise is')
        rows = [row for row in rows if row.name == name.split('/')[-1]] or rows
        if len(rows) > 1:
            tree.fault(where, f'for: {name}, which {len(rows)} promises are: say CRATE/NAME')
        for row in rows:
            if shown not in getattr(row, kind):
                getattr(row, kind).append(shown)


def read_edits(tree, names):
    for path in tree.matching(r'crates/\w+/(?:must-fail|refused)/\w+\.edit'):
        crate, name = path.split('/')[1], os.path.basename(path)[:-len('.edit')]
        lines = tree.text(path).rstrip('\n').split('\n')
        match = FOR.fullmatch(lines[-1])
        if not match:
            tree.fault(path, 'its last line does not say what it is for')
            continue
        give(tree, path, match[1], names, 'edits', f'{crate}/{name}')


def read_families(tree, names):
    """The names of the families, each given to the rows that it is for."""
    lines, found = (tree.text(FAMILIES).split('\n') if FAMILIES in tree.paths else []), []
    for at, line in enumerate(lines):
        match = re.match(r'\s+\d+ \w+::(\w+):', line)
        if not match:
            continue
        found.append(match[1])
        above, said = at, ''
        while comment_of(lines[above - 1]) is not None:
            above -= 1
            tag = FOR.fullmatch(comment_of(lines[above]))
            said = f'{tag[1]}, {said}' if tag else said
        if not said:
            tree.fault(f'{FAMILIES}:{at + 1}', f'no line says what the family {match[1]} is for')
        give(tree, f'{FAMILIES}:{at + 1}', said, names, 'tests', match[1])
    return found


def read_tests(tree, names):
    for path in tree.matching(r'(?:tests|examples)/.*'):
        if path == FAMILIES:
            continue
        for number, line in enumerate(tree.text(path).split('\n'), 1):
            match = FOR.fullmatch(comment_of(line) or '')
            if match:
                give(tree, f'{path}:{number}', match[1], names, 'tests', path)


# ---- rules

def rules_of(tree):
    """Every rule of RULES.md that can be cited, in its order, and those that must have a row."""
    known, owed = [], []
    for line in tree.text(RULES).split('\n'):
        rule = re.match(r'(\d+\.\d+) ', line)
        section = re.match(r'## (\d+)\. ', line)
        number = re.match(r'\| (\d+) \| ', line)
        if section:
            known.append(section[1])
            if section[1] == '7':
                owed.append('7')
        elif rule:
            known.append(rule[1])
            if 2 <= int(rule[1].split('.')[0]) <= 9:
                owed.append(rule[1])
        elif number and known[-1] == '6.4':
            owed.append(f'6.4 ({number[1]})')
        if known[-1:] == ['1.4']:
            owed += [f'1.4 ({demand})' for demand in re.findall(r'(?<!\w )\((\d)\)', line)]
    return known, owed


def cited(tree, row, known):
    """The rules that a row cites."""
    found = set()
    for word in row.listed('rule'):
        ends = word.split(' to ')
        bare = [end.split(' (')[0] for end in ends]
        if len(ends) > 2 or any(end not in known for end in bare):
            tree.fault(f'{row.path}:{row.line}', f'rule: {word}, which {RULES} does not have')
        elif len(ends) == 2:
            found.update(known[known.index(bare[0]):known.index(bare[1]) + 1])
        else:
            found.update({word, bare[0]})
    if not found:
        tree.fault(f'{row.path}:{row.line}', f'{row.name}: no rule is named')
    return found


def check_rules(tree, rows):
    known, owed = rules_of(tree)
    have = set().union(*(cited(tree, row, known) for row in rows)) if rows else set()
    for rule in owed:
        if rule not in have:
            tree.fault(RULES, f'no promise has rule {rule}')


# ---- the tables

def refusal(row):
    """The number of the refusal that a row is about, or None."""
    match = re.match(r'6\.4 \((\d+)\)', row.tags.get('rule', ''))
    return int(match[1]) if match else None


def promised(tree):
    """The statements that are fields of a record NAMEPromised, with the file that has it."""
    found = {}
    for path in tree.matching(r'crates/\w+/specs/.*\.antt'):
        for body in re.findall(r'^pub record \w*Promised : .* where\n((?:  .*\n|\n)+)', tree.text(path), re.M):
            for name in re.findall(r'^  pub \S+ : (\w+)\s*$', body, re.M):
                found[name] = path
    return found


def table_of(row, fields):
    if refusal(row) is not None:
        return 'refusals'
    if row.path.endswith('/specs/Calls.antt'):
        return 'calls'
    return 'demands' if row.crate.startswith('promises') or row.name in fields or not row.crate else 'laws'


def functions(tree):
    """Function name to the crates that have one of that name."""
    found = {}
    for path in tree.matching(r'crates/\w+/src/.*\.rt'):
        for line in tree.text(path).split('\n'):
            match = FUNCTION.match(line)
            if match:
                found.setdefault(match[1], set()).add(path.split('/')[1])
    return found


def code_cell(tree, row, known):
    shown = [f'`{row.path}`'] if row.path.endswith('.c') else []
    if row.path.endswith('.rt') and row.crate in known.get(row.name, ()):
        shown.append(f'`{row.crate}::{row.name}`')
    for name in row.listed('code'):
        crate, _, function = name.rpartition('::')
        crates = {crate} & known.get(function, set()) if crate else known.get(function, set())
        if len(crates) != 1:
            tree.fault(f'{row.path}:{row.line}', f'code: {name}, which {len(crates) or "no"} crate has')
        shown += [f'`{one}::{function}`' for one in sorted(crates)]
    return ', '.join(shown)


def declarations(tree):
    """Name to the .antt files that declare it."""
    found = {}
    for path in tree.matching(r'crates/\w+/(?:specs|proofs)/.*\.antt'):
        signs = re.findall(r'^ *(?:(?:pub )?(?:record|data) (\S+)|%s(\S+) :(?=\s))' % WORDS, tree.text(path), re.M)
        for record, name in signs:
            found.setdefault(record or name, []).append(path)
    return found


def statement_cell(tree, row, declared):
    if row.path.endswith('.c'):
        return 'not proved'
    shown = [f'[`{row.name}`](../{row.path})']
    for name in row.listed('with'):
        crate, _, bare = name.rpartition('/')
        places = [p for p in declared.get(bare, []) if not crate or p.split('/')[1] == crate]
        own = [p for p in places if p == row.path] or [p for p in places if p.split('/')[1] == row.crate] or places
        if len(own) != 1:
            tree.fault(f'{row.path}:{row.line}', f'with: {name}, which {len(own) or "no"} file declares')
            continue
        shown.append(f'`{bare}`' if own[0] == row.path else f'[`{bare}`](../{own[0]})')
    return ', '.join(shown)


def listed_cell(things, why):
    return ', '.join(f'`{thing}`' for thing in things) or (f'none: {why}' if why else '')


def order_of(tree):
    """The crates, bottom first."""
    text = tree.text('crates.txt') if 'crates.txt' in tree.paths else ''
    return [line.split(':')[0].split()[0] for line in text.split('\n') if ':' in line and not line.startswith('#')]


def tables_of(tree, rows):
    """Each table's text."""
    fields, known, declared, crates = promised(tree), functions(tree), declarations(tree), order_of(tree)
    texts = {}
    place, stated = {row: at for at, row in enumerate(rows)}, list(fields)

    def key(row):
        """Refusals by number, demands as their record has them, others bottom first."""
        field = stated.index(row.name) if row.name in stated else len(stated)
        layer = crates.index(row.crate) if row.crate in crates else len(crates)
        return (refusal(row) or 0, field, layer, place[row])
    for table in TABLES:
        lines = []
        for row in sorted((r for r in rows if table_of(r, fields) == table), key=key):
            cells = [row.tags['promise'], row.tags.get('rule', ''), statement_cell(tree, row, declared),
                     code_cell(tree, row, known), listed_cell(row.edits, row.tags.get('no edit')),
                     listed_cell(row.tests, row.tags.get('no test'))]
            if refusal(row) is not None:
                cells[0] = f'{refusal(row)}: {cells[0]}'
            lines.append('| ' + ' | '.join(cell.replace('|', '\\|') for cell in cells) + ' |\n')
        texts[table] = HEAD + ''.join(lines)
    return texts


def check_rows(tree, rows):
    """Each row has an edit and a test, or says why not; a law at least one of them."""
    fields = promised(tree)
    for row in rows:
        where, law = f'{row.path}:{row.line}', table_of(row, fields) == 'laws'
        edit, test = row.edits or 'no edit' in row.tags, row.tests or 'no test' in row.tags
        if law and not (row.edits or row.tests):
            tree.fault(where, f'{row.name}: neither an edit nor a test is for it')
        if not law and not edit:
            tree.fault(where, f'{row.name}: no edit is for it')
        if not law and not test:
            tree.fault(where, f'{row.name}: no test is for it')
        for kind in ('edit', 'test'):
            if f'no {kind}' in row.tags and getattr(row, f'{kind}s'):
                tree.fault(where, f'{row.name}: it says that it has no {kind}, and has')
    named = {row.name for row in rows}
    for name, path in fields.items():
        if name not in named:
            tree.fault(path, f'{name} is promised and has no tag')
    code = {name.split('::')[-1] for row in rows for name in row.listed('code')}
    for path in tree.matching(r'crates/dsss/src/.*\.rt'):
        for call in re.findall(r'pub extern "C" fn (\w+)', tree.text(path)):
            if call not in code:
                tree.fault(path, f'no promise names the call {call} in its code')


# ---- the document

def marks(table):
    return f'<!-- made by scripts/promises.py: {table} -->\n', f'<!-- end of {table} -->\n'


def between(tree, text, table, new, tool='promises.py'):
    """The document with what stands between a table's marks replaced; a fault where the marks are missing."""
    first, last = (mark.replace('promises.py', tool) for mark in marks(table))
    if text.count(first) != 1 or text.count(last) != 1:
        tree.fault(DOCUMENT, f'the lines around the table {table} are missing')
        return text
    head, rest = text.split(first)
    return head + first + '\n' + new + '\n' + last + rest.split(last)[1]


def by_hand(text):
    """The document's lines outside the tables, numbered."""
    inside, found = False, []
    for number, line in enumerate(text.split('\n'), 1):
        inside = (inside or line.startswith('<!-- made by')) and not line.startswith('<!-- end of')
        if not inside:
            found.append((number, line))
    return found


def check_words(tree, text):
    """Every path and name in `code` outside the tables exists."""
    names = {p.split('/')[1] for p in tree.paths if p.startswith('crates/')}
    names.update(os.path.basename(p)[:-5] for p in tree.paths if p.endswith('.edit'))
    for path in tree.matching(r'(?:crates|include)/.*\.(?:rt|antt|h)'):
        names.update(re.findall(r"[\w\-'₀-₉]+", tree.text(path)))
    for number, line in by_hand(text):
        for quoted in re.findall(r'`([^`]+)`', line):
            if '/' in quoted and not os.path.exists(os.path.join(tree.root, quoted)):
                tree.fault(f'{DOCUMENT}:{number}', f'no file {quoted}')
            elif re.fullmatch(r"[\w\-']+", quoted) and quoted not in names:
                tree.fault(f'{DOCUMENT}:{number}', f'no name {quoted} in the tree')


def looked_at(root):
    """A tree, its rows with what is for them, and the document as it should be; all but the words checked."""
    tree = Tree(root)
    rows = all_rows(tree)
    names = names_of(tree, rows)
    read_edits(tree, names)
    read_families(tree, names)
    read_tests(tree, names)
    check_rules(tree, rows)
    check_rows(tree, rows)
    text = tree.text(DOCUMENT)
    for table, new in tables_of(tree, rows).items():
        text = between(tree, text, table, new)
    return tree, rows, text


def checked(root):
    tree, rows, text = looked_at(root)
    if text != tree.text(DOCUMENT):
        tree.fault(DOCUMENT, 'its tables are not what the tags give: run scripts/promises.py')
    check_words(tree, text)
    return tree, rows


# ---- the script tried on a small tree

SMALL = {
    'docs/RULES.md': '## 1. Papers\n\n1.4 Demands. (1) Ends.\n\n## 2. Chips\n\n2.1 A phase.\n\n## 6. Refused\n\n'
                     '6.4 Places.\n\n| No. | When |\n|---|---|\n| 1 | no kind |\n\n6.5 SYNC.\n',
    'docs/PROMISES.md': 'See `Good`.\n\n' + ''.join('\n\n'.join(marks(t)) for t in TABLES),
    'crates.txt': 'low:\npromises: low\n',
    'crates/low/src/lib.rt': '// promise: The kind is none\n// rule: 6.4 (1)\n// with: is_kind\n    NoKind,\n\n'
                             '// promise: The answer\n// rule: 2.1\n#[inline]\npub fn leaf() -> u8\n',
    'crates/low/specs/Kinds.antt': 'abbrev pub is_kind : ℕ → Bool\nis_kind = cond\n\n-- promise: Twice\n-- rule: 2.1\n'
                                   'abbrev pub Same : Type 0\n',
    'crates/dsss/proofs/Kinds.antt': '-- promise: Twice too\n-- rule: 2.1\npub Same : Type 0\n',
    'crates/dsss/src/lib.rt': 'pub extern "C" fn dsss_call(kind: u64)\n',
    'crates/promises/specs/Calls.antt': 'pub record Good (a : ℕ) : Type 0 where\n  -- promise: The whole\n'
                                        '  -- answer\n  -- rule: 1.4 (1), 2.1 to 6.5\n  -- code: dsss_call\n'
                                        '  pub answer : a ≡ 0\n',
    'crates/promises/specs/Promises.antt': '-- promise: It ends\n-- rule: 1.4 (1)\n-- no test: none can\n'
                                           'abbrev pub Ends : Type 0\n\npub record Promised : Type 0 where\n'
                                           '  pub ends : Ends\n',
    'crates/low/must-fail/wrong.edit': '# input\nfile: src/lib.rt\nold: a\nnew: b\n'
                                       'for: leaf, NoKind, low/Same, dsss/Same\n',
    'crates/promises/refused/wrong.edit': '# input\nby: proofs/Facts.antt\nold: a\nnew: b\nfor: Good.answer, Ends\n',
    'tests/peer/src/families/mod.rs': 'families! {\n    // for: Good.answer, NoKind\n    101 some::calls: "all",\n}\n',
}
WRONG = [
    ('docs/PROMISES.md', 'See `Good`', 'See `Gone`', 'no name Gone in the tree'),
    ('docs/PROMISES.md', '| 1: The kind', '| 1: Other', 'its tables are not what the tags give'),
    ('docs/RULES.md', '6.5 SYNC.', '6.5 SYNC.\n\n6.6 More.', 'no promise has rule 6.6'),
    ('docs/RULES.md', '| 1 | no kind |', '| 1 | no kind |\n| 2 | no rate |', 'no promise has rule 6.4 (2)'),
    ('docs/RULES.md', '(1) Ends.', '(1) Ends. (2) Reads.', 'no promise has rule 1.4 (2)'),
    ('crates/low/src/lib.rt', 'rule: 2.1', 'rule: 2.2', 'rule: 2.2, which docs/RULES.md does not have'),
    ('crates/low/src/lib.rt', 'with: is_kind', 'with: is_none', 'with: is_none, which no file declares'),
    ('crates/low/src/lib.rt', '#[inline]\npub fn', '\npub fn', 'a promise above nothing that is declared'),
    ('crates/promises/specs/Calls.antt', 'code: dsss_call', 'code: dsss_gone', 'dsss_gone, which no crate has'),
    ('crates/promises/specs/Promises.antt', ': Ends\n', ': Ends\n  pub more : More\n', 'More is promised and has no'),
    ('crates/promises/specs/Promises.antt', '-- no test: none can\n', '', 'Ends: no test is for it'),
    ('crates/low/must-fail/wrong.edit', 'for: leaf, ', 'for: ', 'leaf: neither an edit nor a test'),
    ('crates/low/must-fail/wrong.edit', 'leaf, NoKind', 'leaf', 'NoKind: no edit is for it'),
    ('crates/low/must-fail/wrong.edit', 'for: leaf', 'for: lead, leaf', 'for: lead, which no promise is'),
    ('crates/low/must-fail/wrong.edit', 'low/Same', 'Same', 'for: Same, which 2 promises are'),
    ('crates/promises/refused/wrong.edit', '\nfor: Good.answer, Ends', '', 'its last line does not say'),
    ('tests/peer/src/families/mod.rs', '    // for: Good.answer, NoKind\n', '', 'what the family calls is for'),
    ('tests/peer/src/families/mod.rs', 'Good.answer', 'Good.gone', 'for: Good.gone, which no promise is'),
]


def lay(root, files):
    for path, text in files.items():
        os.makedirs(os.path.join(root, os.path.dirname(path)), exist_ok=True)
        with open(os.path.join(root, path), 'w', encoding='utf8') as f:
            f.write(text)


def self_test(script, small, wrong, made, faults_of):
    """A small tree passes, with the document that is made of it, and each wrong version of it is found out."""
    with tempfile.TemporaryDirectory() as root:
        subprocess.run(['git', 'init', '-q'], cwd=root, check=True)
        lay(root, small)
        good = {**small, DOCUMENT: made(root)}
        lay(root, good)
        if faults_of(root):
            sys.exit(f'{script}: self-test: a good tree is refused: {faults_of(root)}')
        for path, old, new, fault in wrong:
            assert old in good[path], (path, old)
            lay(root, {path: good[path].replace(old, new, 1)})
            if not any(fault in said for said in faults_of(root)):
                sys.exit(f'{script}: self-test: not found: {fault}')
            lay(root, {path: good[path]})


def begun(root):
    """The crates of work that has begun and has not landed."""
    path = os.path.join(root, 'docs/begun.txt')
    if not os.path.isfile(path):
        return []
    with open(path, encoding='utf8') as f:
        return [line.strip() for line in f if line.strip() and not line.startswith('#')]


def end(script, faults, said=''):
    """Says each fault of what has landed and how many they are; the status is 1 if there is one."""
    root = os.path.dirname(os.path.dirname(os.path.abspath(__file__)))
    early = tuple(f'crates/{name}/' for name in begun(root))
    faults = [fault for fault in faults if not fault.startswith(early)]
    for fault in faults:
        print(f'{script}:', fault)
    print(f'{script}: {said}{len(faults)} faults')
    sys.exit(1 if faults else 0)


def main():
    root = os.path.dirname(os.path.dirname(os.path.abspath(__file__)))
    if sys.argv[1:] == ['--check']:
        self_test('promises.py', SMALL, WRONG, lambda r: looked_at(r)[2], lambda r: checked(r)[0].faults)
        tree, rows = checked(root)
    elif not sys.argv[1:]:
        tree, rows, text = looked_at(root)
        lay(root, {DOCUMENT: text})
        check_words(tree, text)
    else:
        sys.exit('promises.py: a word it does not know; it takes --check or nothing')
    end('promises.py', tree.faults, f'{len(rows)} promises, ')


if __name__ == '__main__':
    main()
