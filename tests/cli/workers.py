"""Runs by several workers, which write what a run without the option writes. They share a round of the board of two layers, and three of the chain of 24 labels."""
from functools import partial

import board_texts
from documents import CLAIMS
from program import Check, board, differs, run, shown, text_of, written

WORKERS = (1, 2, 3, 16)
DRAWN = 100


def differs_by_workers(command, path):
    """None where a run without the option goes well, and writes what each number of workers writes."""
    wanted = run([command, path])
    if (wanted.status, wanted.errors) != (0, b'') or not wanted.output:
        return f'{command}: {shown(wanted)}; and not a run that goes well'
    for workers in WORKERS:
        wrong = differs(run([command, '--workers', str(workers), path]), wanted)
        if wrong:
            return f'{command} by {workers}: {wrong}'
    return None


def equal(path):
    """None where solve and report of the board write the same for each number of workers."""
    wrong = differs_by_workers('solve', path) or differs_by_workers('report', path)
    return wrong and f'{wrong}; of the board {text_of(path)!r}'


def checks(work):
    """One for each stored board that isn't too large, and for a hundred that are drawn."""
    for name in CLAIMS:
        yield Check(f'{name} by several workers', partial(equal, board(name)))
    yield Check('the board of two layers by several workers', partial(equal, written(work, 'layers.board', board_texts.layers(101))))
    yield Check('the chain of 24 labels by several workers', partial(equal, written(work, 'chain-of-24.board', board_texts.chain(24, 4))))
    for number, text in enumerate(board_texts.drawn(DRAWN), 1):
        path = written(work, f'drawn-{number}.board', text)
        yield Check(f'the drawn board {number} by several workers', partial(equal, path))
