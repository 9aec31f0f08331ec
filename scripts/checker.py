"""checker.py: one check of a copy of a crate by the kit's checker, as `rt` makes it, for scripts/refused.py."""
import atexit
import concurrent.futures
import os
import re
import shutil
import subprocess
import sys
import tempfile

ROOT = os.path.dirname(os.path.dirname(os.path.realpath(__file__)))
CRATES, LOGS = os.path.join(ROOT, 'crates'), os.path.join(ROOT, 'target/refused')
# no source of a copy may stand in the tree, where `rt` reads each
ROOM = tempfile.mkdtemp(prefix='refused.')
atexit.register(shutil.rmtree, ROOM, ignore_errors=True)
RT = os.path.realpath(shutil.which('rt') or sys.exit('checker.py: no rt on the PATH'))
KIT = os.path.dirname(os.path.dirname(RT))
CORES = len(os.sched_getaffinity(0))


def stack():
    """The crates of crates.txt, bottom first, with those that each names."""
    with open(os.path.join(ROOT, 'crates.txt'), encoding='utf8') as f:
        lines = [line.split('#')[0].split(':') for line in f]
    return {line[0].split()[0]: line[1].split() for line in lines if len(line) == 2}


KNOWN = stack()


def below(name):
    """The crates of the repository that a crate stands on, each behind its own."""
    found = []
    for d in KNOWN.get(name, []):
        found += [it for it in [*below(d), d] if it in KNOWN and it not in found]
    return found


def kept(name, part):
    return os.path.join(CRATES, name, 'out', part)


def words(name, over):
    """The words of a check in a copy's folder, as rt gives them."""
    given = [os.path.join(KIT, 'bin', 'rattle'), 'check', '--crate-name', name, 'src/lib.rt']
    for d in ['std', *KNOWN.get(name, [])]:
        given += ['--extern', f'{d}={kept(d, "rlib") if d in KNOWN else f"{KIT}/rlibs"}/{d}.rlib']
    for folder in [f'{KIT}/rlibs', *(kept(d, 'rlib') for d in below(name))]:
        given += ['-L', f'dependency={folder}']
    given += ['--antt-project', f'{KIT}/rattle/logic/antt-project.json', '--logic-built', f'{KIT}/logic_built']
    return given + ['--jobs', '1'] + (['--incremental', over] if over else [])


def check(name, where, over=None):
    """Checks a copy, over a folder of checked modules or from nothing: the status, what was said, processor seconds."""
    with subprocess.Popen(words(name, over), cwd=where, stdin=subprocess.DEVNULL, stdout=subprocess.PIPE,
                          stderr=subprocess.STDOUT) as p:
        said = p.stdout.read().decode('utf8', 'replace')
        _, status, used = os.wait4(p.pid, 0)
        p.returncode = os.waitstatus_to_exitcode(status)
    log = os.path.join(LOGS, os.path.relpath(where, ROOM) + '.log')
    os.makedirs(os.path.dirname(log), exist_ok=True)
    with open(log, 'w', encoding='utf8') as f:
        f.write(said)
    return p.returncode, said, used.ru_utime + used.ru_stime


def copy_of(name, label):
    """A copy of a crate to be edited, at a place of its own."""
    where = os.path.join(ROOM, name, label)
    shutil.rmtree(where, ignore_errors=True)
    for part in ('src', 'specs', 'proofs'):
        here = os.path.join(CRATES, name, part)
        if os.path.isdir(here):
            shutil.copytree(here, os.path.join(where, part))
    return where


def is_proved(name):
    """Has `rt check` prove a crate and build those below it. Copies are checked over what it keeps in out/."""
    done = subprocess.run(['rt', 'check'], cwd=os.path.join(CRATES, name), stdin=subprocess.DEVNULL,
                          stdout=subprocess.DEVNULL, stderr=subprocess.DEVNULL)
    return done.returncode == 0 and os.path.isdir(kept(name, 'incremental'))


def all_proved():
    """Proves every crate in one run: checks that are started one by one wait for each other at the crates below."""
    return subprocess.run([os.path.join(ROOT, 'scripts/proved.sh')], stdin=subprocess.DEVNULL,
                          stdout=subprocess.DEVNULL, stderr=subprocess.DEVNULL).returncode == 0


def prove(names):
    """Proves crates, the lower first; answers those that are not proved."""
    names = sorted(names, key=list(KNOWN).index)
    if len(names) > CORES and all_proved():
        return [name for name in names if not os.path.isdir(kept(name, 'incremental'))]
    with concurrent.futures.ThreadPoolExecutor(CORES) as pool:
        return [name for name, proved in zip(names, pool.map(is_proved, names)) if not proved]


def link(one, other):
    """A second name for a checked module: a check makes such a file anew, and writes into none. Others are copied."""
    try:
        if one.endswith('.oantt'):
            return os.link(one, other)
    except OSError:
        pass
    return shutil.copy2(one, other)


def checked_over(name, where):
    """A check of a copy over the modules that `rt check` kept of the crate: only what differs from the crate as it
    stands is checked again."""
    over = where + '.over'
    shutil.rmtree(over, ignore_errors=True)
    shutil.copytree(kept(name, 'incremental'), over, copy_function=link)
    answer = check(name, where, over)
    shutil.rmtree(over)
    return answer


def stands(name):
    """The control: the crate as it stands, over the same modules, is proved with nothing checked."""
    status, said, seconds = checked_over(name, copy_of(name, 'control'))
    good = status == 0 and re.search(rf'^crate {name}: modules loaded=\d+ checked=0$', said, re.M)
    return (None if good else 'the crate as it stands is not proved with nothing checked'), seconds
