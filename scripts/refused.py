#!/usr/bin/env python3
"""refused.py: every edit is refused, and by the file that it names. scripts/edit.py says what an edit is.

    scripts/refused.py [NAME..]            edits of crates/NAME/refused and crates/NAME/must-fail
    scripts/refused.py --alone [NAME..]    the same, each alone and from nothing
    scripts/refused.py --self-test         edits that are no good, each of which must be found out

It runs after `rt ci`, which has proved every crate as it stands and may have kept nothing in the tree: `rt check` goes
over each crate with edits first, and begins with what other checks on this machine kept. Two things make it quick:

- A check starts from the modules that `rt check` kept of the crate; only what the edit reaches is checked again. A
  refusal found so is a refusal. That the edit brought it about is shown by a control, the crate as it stands over the
  same modules, which must be proved with nothing checked.
- Edits of different functions of a crate go into one check: a caller's proof cites its callee's contract and not its
  code, so each edited function must have an error of its own, one that does not come of another's not being proved.
  The control is the functions that no edit touches, in the same check. An edit that shows no error is tried alone.

Prints each fault, a line for each crate, and the totals; the status is 1 if there is a fault.
"""
import argparse
import concurrent.futures
import os
import re
import shutil
import sys
from checker import CORES, CRATES, KNOWN, LOGS, check, checked_over, copy_of, prove, stands
from edit import edits_of

PLACE = re.compile(r'^(?:\./)?(\S+?):\d+:\d+: error\b.*', re.M)
# what comes of another's error
FOLLOWS = re.compile('that depends? on .* not checked')
# what a proof says of a name that the edit took away
NAMES = re.compile('is not in scope|has no field|has no `')
# what is said of a text that cannot be read: no declaration is named, or one with such words
UNREAD = re.compile(': error: (?!`[^`]*`: )|is no name|operand is missing|expected the end|cannot continue|'
                    + NAMES.pattern)
NOTHING = 'SHOWS NOTHING: {} names what the edit took away, and has no other error'
PROOF = ('Proof', 'Answers', 'Invariants')


def errors_of(said):
    """The errors of a check, each the file of the crate and the line, but for those that only follow."""
    found = [(m.group(1), m.group(0)) for m in PLACE.finditer(said)]
    return [(file, line) for file, line in found if not FOLLOWS.search(line)]


def written_wrong(edit, errors):
    """The errors that say that an edit's own text cannot be read, and not that what it says is wrong."""
    edited = {file for file, _, _ in edit.pairs}
    return [line for file, line in errors
            if not file.startswith('proofs/') or file in edited and UNREAD.search(line)]


def functions_of(edit):
    return edit.functions(os.path.join(CRATES, edit.crate)) or set()


def proof_of(edit, function):
    """The files of a function's proof; its own file where it has none."""
    files = [f'proofs/{function}/{part}.antt' for part in PROOF]
    there = [file for file in files if os.path.exists(os.path.join(CRATES, edit.crate, file))]
    return there or [edit.pairs[0][0]]


def refused_itself(edit, function, said, files):
    """The files that refuse an edited function: of its proof those with an error of their own; or, where a goal has no
    answer, the one that it is left out of, which is the function's own file where it has no proof file."""
    path = '::'.join([edit.crate, *function.split('/')])
    line = re.search(rf'^fn {path}: (.*)$', said, re.M)
    said_of, proof = line.group(1) if line else '', proof_of(edit, function)
    if said_of.startswith('no proof') and not said_of.startswith('no proof: it calls'):
        return [file for file in proof if file.endswith(('.rt', '/Answers.antt'))] or proof
    return [file for file in proof if file in files] if said_of.startswith('not proved') else []


def fault_of(edit, status, said):
    """What is wrong with an edit's refusal; None if the file that it names refused it."""
    if status == 0:
        return 'NOT REFUSED: the crate is still proved'
    errors = errors_of(said)
    wrong = written_wrong(edit, errors)
    if status != 1 or wrong or not re.search('^logic=not-proved', said, re.M):
        return f'its text does not compile: {(wrong or [said])[0][:200]}'
    files = [file for file, line in errors if not NAMES.search(line)]
    gone = [file for file, line in errors if NAMES.search(line)]
    functions, refusing = functions_of(edit), []
    for function in sorted(functions):
        own, named = refused_itself(edit, function, said, files), set(proof_of(edit, function)) & set(gone)
        if not own:
            return NOTHING.format(*named) if named else f'NOT REFUSED: {function} has no error of its own'
        refusing += own
    refusing = refusing if functions else files
    if edit.by not in refusing and edit.by in gone:
        return NOTHING.format(edit.by)
    return None if edit.by in refusing else f'refused by {", ".join(dict.fromkeys(refusing))}, and not by {edit.by}'


def others_fault(name, functions, said):
    """The control of a check of functions: those that no edit touches are proved, or call one that is not."""
    for path, line in re.findall(rf'^fn {name}::(\S+): (.*)$', said, re.M):
        owed = 'proved|not proved; it calls|no proof: it calls'
        if path.replace('::', '/') not in functions and not re.match(owed, line):
            return f'{path}, which no edit touches, is not proved'
    return None


def try_alone(edit, over=True):
    """One edit, over the crate's modules or from nothing: answers (edit, fault), seconds."""
    where = copy_of(edit.crate, edit.label)
    fault = edit.text_fault() or edit.apply(where)
    if fault:
        return [(edit, fault)], 0.0
    status, said, seconds = (checked_over if over else check)(edit.crate, where)
    shutil.rmtree(where)
    return [(edit, fault_of(edit, status, said))], seconds


def try_together(edits):
    """Edits of different functions of one crate in one check; those that it does not show refused are tried alone."""
    where = copy_of(edits[0].crate, '+'.join(edit.label for edit in edits)[:120])
    faults = [edit.text_fault() or edit.apply(where) for edit in edits]
    if any(faults):
        return list(zip(edits, faults)), 0.0
    status, said, used = checked_over(edits[0].crate, where)
    shutil.rmtree(where)
    touched = set().union(*(functions_of(edit) for edit in edits))
    strange = others_fault(edits[0].crate, touched, said)
    if strange:
        return [(edit, strange) for edit in edits], used
    done = []
    for edit in edits:
        answers, seconds = [(edit, fault_of(edit, status, said))], 0.0
        if answers[0][1] and len(edits) > 1:
            answers, seconds = try_alone(edit)
        done, used = done + answers, used + seconds
    return done, used


def groups(edits):
    """Edits in groups for one check each: those of functions together, no function twice, the others one by one."""
    made = []
    for edit in edits:
        functions = functions_of(edit)
        free = [g for g in made if functions and g[0] and not functions & g[0]]
        if free:
            free[0][0].update(functions)
            free[0][1].append(edit)
        else:
            made.append((set(functions), [edit]))
    return made


def control(name):
    fault, seconds = stands(name)
    return [(None, fault)] if fault else [], seconds


def jobs_of(name):
    """The checks of a crate, each to be called."""
    made = groups(edits_of(CRATES, name))
    jobs = [lambda f=f, g=g: try_together(g) if f else try_alone(g[0]) for f, g in made]
    return jobs + ([lambda: control(name)] if any(not f for f, _ in made) else [])


def run(work):
    """Runs the jobs, as many at once as there are cores; a line for each crate, and the totals."""
    count, faults, used, left, sums = 0, 0, 0.0, {}, {}
    for name, _ in work:
        left[name] = left.get(name, 0) + 1
    with concurrent.futures.ThreadPoolExecutor(CORES) as pool:
        started = {pool.submit(job): name for name, job in work}
        for done in concurrent.futures.as_completed(started):
            name, (answers, seconds) = started[done], done.result()
            left[name] -= 1
            edits, spent = sums.get(name, (0, 0.0))
            sums[name] = edits + sum(edit is not None for edit, _ in answers), spent + seconds
            for edit, fault in (a for a in answers if a[1]):
                faults += 1
                print(f'refused.py: {name}{"/" + edit.label if edit else ""}: {fault}', flush=True)
            if not left[name]:
                count, used = count + sums[name][0], used + sums[name][1]
                print(f'refused.py: {name}: {sums[name][0]} edits, {sums[name][1]:.1f} s', flush=True)
    print(f'refused.py: {count} edits, {faults} faults, {used:.0f} s of processor time')
    return faults


def main():
    parser = argparse.ArgumentParser()
    parser.add_argument('--alone', action='store_true', help='every edit alone and from nothing')
    parser.add_argument('--self-test', action='store_true', help='find out edits that are no good')
    parser.add_argument('names', nargs='*')
    args = parser.parse_args()
    names = args.names or list(reversed(KNOWN))  # the expensive ones stand on top
    if set(names) - set(KNOWN):
        sys.exit(f'refused.py: no crate {", ".join(sorted(set(names) - set(KNOWN)))}')
    if args.self_test:
        import refused_test
        sys.exit(refused_test.run())
    names = [n for n in names if edits_of(CRATES, n)]
    shutil.rmtree(LOGS, ignore_errors=True)
    left = prove(names)
    work = [(n, lambda: ([(None, 'the crate is not proved: `rt ci` comes first')], 0.0)) for n in left]
    names = [n for n in names if n not in left]
    if args.alone:
        work += [(n, lambda e=e: try_alone(e, over=False)) for n in names for e in edits_of(CRATES, n)]
    else:
        work += [(n, job) for n in names for job in jobs_of(n)]
    sys.exit(1 if run(work) else 0)


if __name__ == '__main__':
    main()
