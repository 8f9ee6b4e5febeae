"""Limits from outside, on memory, on threads and on files.

Under a limit on memory or on threads a run leaves what it leaves without one, or ends with status 4, a line that says what was refused,
and nothing on standard output. The limit on threads counts all that a user runs, and like the permissions of files it doesn't bind
root: so root has a user without processes make these runs.
"""
import os
import resource
import subprocess
from dataclasses import dataclass
from functools import partial

import board_texts
from program import PROGRAM, Check, Ran, board, differs, fault, fed, letters, run, shown, strategy, text_of, written

KIBIBYTE = 1024
NO_MEMORY = fault(4, 'out of memory')
NO_WORKER = fault(4, 'worker not started')
ENDED, REFUSED = 'ended', 'refused'
WORKERS = (1, 4, 16)


@dataclass
class Limit:
    """A limit of the system, the sizes to which it is set, in `unit`, and what a refused run of one worker or of several may leave."""
    name: str
    counted: str
    kind: int
    unit: int
    sizes: tuple
    one_worker: tuple
    several_workers: tuple


MEMORY = Limit('memory', 'KiB of memory', resource.RLIMIT_AS, KIBIBYTE,
               (5120, 6144, 8192, 10240, 12288, 16384, 24576, 32768, 65536, 131072, 262144, 1048576), (NO_MEMORY,), (NO_MEMORY, NO_WORKER))
THREADS = Limit('threads', 'threads', resource.RLIMIT_NPROC, 1, (1, 2, 3, 4, 5, 6, 8, 10, 12, 14, 16, 20), (), (NO_WORKER,))


@dataclass
class Job:
    """A command on a board, both where another user may read them, and the file of what it writes without a limit."""
    name: str
    program: str
    command: str
    path: str
    wanted: str


# ---- runs under a limit

def set_to(kind, size):
    """The call that sets a limit before a run begins."""
    return partial(resource.setrlimit, kind, (size, size))


def other_user():
    """The options of a run by a user whom limits bind: where root asks, one that this process alone takes."""
    if os.geteuid() != 0:
        return {}
    number = 60001 + os.getpid() % 5000
    return {'user': number, 'group': number, 'extra_groups': []}


def has_other_user():
    """Whether something can be run by that user."""
    try:
        return subprocess.run(['true'], **other_user()).returncode == 0
    except OSError:
        return False


def end(limit, size, workers, job):
    """Whether a run under the limit ended or was refused, or what is wrong with it."""
    words = [job.command, '--workers', str(workers), job.path]
    user = other_user() if limit == THREADS else {}
    got = run(words, job.program, preexec_fn=set_to(limit.kind, size * limit.unit), **user)
    if got == Ran(output=text_of(job.wanted)):
        return ENDED
    if got in (limit.one_worker if workers == 1 else limit.several_workers):
        return REFUSED
    return f'{shown(got)}; and neither what is written without the limit nor a refusal'


def has_end(limit, size, workers, job):
    """None where a run under the limit ended or was refused."""
    found = end(limit, size, workers, job)
    return None if found in (ENDED, REFUSED) else found


def binds(limit, job):
    """None where the least size refuses sixteen workers, and the greatest lets one end."""
    found = end(limit, limit.sizes[0], 16, job), end(limit, limit.sizes[-1], 1, job)
    return None if found == (REFUSED, ENDED) else f'{found}; and not {(REFUSED, ENDED)}'


def may_not_read(program, locked, document):
    """None where a board that the user may not read is a read fault."""
    return differs(run(['check', locked, document], program, **other_user()), fault(5, 'read fault'))


# ---- checks

def readable(work, name, text):
    """The path of a file with these bytes that all users may read, and run."""
    path = written(work, name, text)
    os.chmod(path, 0o755)
    return path


def made_jobs(work, program):
    """Both commands on a small board, on a larger one, and last on one of which workers share a round."""
    boards = {'cycle': text_of(board('three-pebbles-on-the-cycle')), 'nested': run(['nested', '4', '4']).output,
              'layers': board_texts.layers(101)}
    for name, text in boards.items():
        path = readable(work, f'limited-{name}.board', text)
        for command in ('solve', 'report'):
            wanted = written(work, f'{command}-{name}.wanted', run([command, path]).output)
            yield Job(f'{command} of {name}', program, command, path, wanted)


def limited(limit, jobs):
    """One for each job, size and number of workers, and that the limit binds."""
    for job in jobs:
        for size in limit.sizes:
            for workers in WORKERS:
                yield Check(f'{job.name} by {workers} workers within {size} {limit.counted}', partial(has_end, limit, size, workers, job))
    yield Check(f'the limit on {limit.name}', partial(binds, limit, jobs[-1]))


def locked_board(work, program):
    """The check of a board that the user may not read."""
    locked = written(work, 'locked.board', text_of(board('one-pair')))
    os.chmod(locked, 0)
    document = readable(work, 'locked.proof', text_of(strategy('one-pair')))
    return Check('a file that may not be read', partial(may_not_read, program, locked, document))


def checks(work):
    """Those of memory, and those that root has another user make."""
    os.chmod(work, 0o711)
    program = readable(work, 'pebbles', text_of(PROGRAM))
    jobs = list(made_jobs(work, program))
    yield fed('an input that memory has no room for', NO_MEMORY, letters(134217728), [],
              preexec_fn=set_to(resource.RLIMIT_AS, 65536 * KIBIBYTE))
    yield from limited(MEMORY, jobs)
    if has_other_user():
        yield from limited(THREADS, jobs)
        yield locked_board(work, program)
    else:
        print('skipped: the limit on threads, and a file that may not be read, since root runs nothing as another user here')
