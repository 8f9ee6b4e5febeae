"""What the scripts of tests/ share: the built program and tests, checks that are made side by side, and the closing line."""
import multiprocessing
import os
import subprocess
from dataclasses import dataclass
from functools import partial

TOP = os.path.dirname(os.path.dirname(os.path.abspath(__file__)))
BOARDS = os.path.join(TOP, 'boards')
CRATES = os.path.join(TOP, 'crates')
PROGRAM = os.path.join(CRATES, 'pebbles', 'out', 'pebbles')
# the words that build the program, as README.md has them, and the output of the run that they end with
BUILD = '(cd crates/pebbles && rt run < stdin)'
BUILT = 'accepted least 2\n'
# the crates of tests whose growths of memory are refused in turn, lowest first, and all crates that serve tests alone
TEST_CRATES = ('board_tests', 'chain_tests', 'class_tests', 'solving_tests', 'round_tests', 'document_tests', 'play_tests', 'command_tests',
               'acceptance')
FOR_TESTS = ('fakes', 'solved_boards', *TEST_CRATES)


@dataclass
class Check:
    """`call` makes the check, in another process. It answers None, or a text that says what is wrong."""
    name: str
    call: partial


# ---- what is built

def standing_by(lines):
    """The crates of the lines of a crates.txt, each after those that it stands on, with these."""
    below = {}
    for line in lines:
        if ':' in line and not line.startswith('#'):
            name, _, others = line.partition(':')
            below[name.split()[0]] = [other for other in others.split() if other in below]
    return below


def standing(top):
    """The crates of a copy of the repository, each after those that it stands on, with these."""
    with open(os.path.join(top, 'crates.txt')) as file:
        return standing_by(file)


def newest(crate):
    """The time of the last change of a file that the crate is built from."""
    files, below, built_from = [os.path.join(TOP, 'crates.txt')], standing(TOP), {crate}
    for name in reversed(below):
        if name in built_from:
            built_from.update(below[name])
    for name in built_from:
        for part in ('src', 'specs', 'proofs'):
            for folder, _, found in os.walk(os.path.join(CRATES, name, part)):
                files += [os.path.join(folder, file) for file in found]
    return max(os.stat(file).st_mtime for file in files)


def is_built(path, crate):
    """Whether this was built from the crate, and nothing that it is built from has changed since."""
    return os.access(path, os.X_OK) and os.stat(path).st_mtime >= newest(crate)


def build(words):
    """Runs these words of a shell from the top of the repository."""
    return subprocess.run(words, shell=True, cwd=TOP, stdin=subprocess.DEVNULL, capture_output=True, text=True)


def lacks_program():
    """None, or why there is no program that is built from the files as they are. It is built where it isn't there or is older."""
    if is_built(PROGRAM, 'pebbles'):
        return None
    done = build(BUILD)
    if not is_built(PROGRAM, 'pebbles'):
        return f'no program at {os.path.relpath(PROGRAM, TOP)}: {done.stderr[-400:]}'
    return None if done.stdout == BUILT else f'{BUILD} wrote {done.stdout!r}, and not {BUILT!r}'


def tests_of(crate):
    """The program that runs the tests of a crate."""
    return os.path.join(CRATES, crate, 'out', f'{crate}_tests')


def lacks_tests():
    """None, or which crate has no tests that are built from the files as they are. They are built where they aren't there or are older."""
    for crate in TEST_CRATES:
        if not is_built(tests_of(crate), crate):
            build(f'(cd crates/{crate} && rt test)')
        if not is_built(tests_of(crate), crate):
            return f'no tests at {os.path.relpath(tests_of(crate), TOP)}'
    return None


# ---- checks and the closing line

def closing(name, passed, failed):
    """Prints the closing line of a script, and gives its exit status."""
    print(f'{name}: {passed} passed, {failed} failed')
    return 1 if failed else 0


def stopped(name, why):
    """Says why a script makes no check, and gives its exit status."""
    print(f'FAILED {why}')
    return closing(name, 0, 1)


def made(check):
    """The check's name, and None or what is wrong."""
    try:
        return check.name, check.call()
    except Exception as error:
        return check.name, repr(error)


def all_made(name, checks, processes=None):
    """Makes all checks, prints what is wrong, and gives the exit status."""
    passed = failed = 0
    with multiprocessing.Pool(processes) as pool:
        for called, wrong in pool.imap(made, checks):
            passed, failed = passed + (wrong is None), failed + (wrong is not None)
            if wrong is not None:
                print(f'FAILED {called}: {wrong}', flush=True)
    return closing(name, passed, failed)
