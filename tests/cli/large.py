"""Reports of boards that are limited by their gaps, and plays on them: what laws say of them, and what is said without --large."""
from functools import partial

import board_texts
from documents import BEYOND, TOO_LARGE, counts_add_up, solved
from program import Check, Ran, board, check, leaves, run, shown, stored, written

# labels and pebbles of a chain with more than 1048576 configurations
LONG_CHAIN = 17, 5
# boards of 32896 and 2829056 gaps, each of whose configurations has value 0
WIDE_REPORT = b'report 1\nlabels 256\npebbles 3\nconfigurations 16777216\nstart value 0\nvalue 0: 16777216\nforever: 0\nend\n'
WIDER_REPORT = b'report 1\nlabels 256\npebbles 4\nconfigurations 4294967296\nstart value 0\nvalue 0: 4294967296\nforever: 0\nend\n'
# a play of each side on the long chain: what is typed, and what is written
LARGE_PLAYS = {
    'adversary': (b'0\n1\nquit\n',
                  b'value 16\nat 0 0 0 0 0\npebble 0 takes 1\nat 1 0 0 0 0\npebble 1 takes 2\nat 1 2 0 0 0\nstopped after 2 requests\n'),
    'labeller': (b'1\n16\n', b'value 16\nat 0 0 0 0 0\nask 0\nat 1 0 0 0 0\nask 1\nat 1 16 0 0 0\nask 0\nno label for pebble 0 after 2 requests\n'),
}

# labels without a pair, six pebbles on which have more gaps than the limit, and a root whose powers are all of them but 0
ALONE, ROOT = 151, 6

# domains, with the processes that each carries for ever and no more, as laws say: residues in which each n - 1 labels are dominated by one
# carry n, and a product those of its factors together, less one
THREE = board_texts.residues(3)
SEVEN = board_texts.residues(7)
NINETEEN = board_texts.residues(19)
CARRIED = {
    'seven by seven': (board_texts.product(SEVEN, SEVEN), 3 + 3 - 1),
    'three by nineteen': (board_texts.product(THREE, NINETEEN), 2 + 4 - 1),
    'three by three by seven': (board_texts.product(board_texts.product(THREE, THREE), SEVEN), 2 + 2 - 1 + 3 - 1),
    'three by seven': (board_texts.product(THREE, SEVEN), 2 + 3 - 1),
    'nested of level four': (board_texts.nested(4), 4),
    'nested of level five': (board_texts.nested(5), 5),
    'nineteen': (NINETEEN, 4),
}
# some of these, with a number of pebbles for which there are more than 1048576 configurations
LASTING = [('seven by seven', 4), ('seven by seven', 5), ('three by nineteen', 4), ('three by nineteen', 5), ('three by three by seven', 4),
           ('three by three by seven', 5), ('three by seven', 5), ('nested of level four', 5), ('nested of level four', 6),
           ('nested of level five', 4), ('nested of level five', 5), ('nineteen', 5), ('seven by seven', 6)]
# chains, each of which lasts for one request less than it has labels; 64 labels are the most whose sets have one word
CHAINS = [(69, 4), (49, 5), (40, 6), (256, 3), (64, 4), (65, 4)]


# ---- runs

def is_counted_alike(path):
    """None if the report of the board is the same after the word --large."""
    return leaves(Ran(output=run(['report', path]).output), ['report', '--large', path])


def starts_with(value, path):
    """None if the start of a large board has this value, in words of a pattern, and the counts of its report add up."""
    got = run(['report', '--large', '--workers', '4', path])
    found = next((line[6:] for line in got.output.decode().splitlines() if line.startswith('start ')), '')
    if found == value or value == 'finite' and found.startswith('value '):
        return counts_add_up(got)
    return f'{shown(got)}; and not a start with {value}'


def chain_report(labels, pebbles):
    """The report of a chain. A label above all others is an answer, so the value is that of the greatest label held, counted from above."""
    counts = [(labels - value) ** pebbles - (labels - value - 1) ** pebbles for value in range(labels)]
    lines = ['report 1', f'labels {labels}', f'pebbles {pebbles}', f'configurations {labels ** pebbles}', f'start value {labels - 1}']
    lines += [f'value {value}: {count}' for value, count in enumerate(counts)]
    return '\n'.join([*lines, 'forever: 0', 'end', '']).encode()


def alone_up_to_symmetries(maps):
    """The document of labels without a pair up to these maps: the first request has no answer."""
    lines = ['proof 3', 'value 0', *maps, 'labeller 0', 'adversary 1', 'at 0 0 0 0 0 0 for 0 ask 0', 'end', '']
    return '\n'.join(lines).encode()


# ---- checks

def up_to_symmetries(work):
    """A board with too many gaps is solved by its orbits."""
    path = written(work, 'alone.board', board_texts.empty(ALONE, 6))
    images = [[(label + 1) % ALONE for label in range(ALONE)], [label * ROOT % ALONE for label in range(ALONE)]]
    lines = ['symmetries 2', *(' '.join(map(str, ('map', *each))) for each in images)]
    maps = written(work, 'alone.maps', '\n'.join([*lines, 'end', '']).encode())
    yield check('a board of too many gaps', TOO_LARGE, ['solve', '--large', path])
    yield check('a board of too many gaps up to symmetries', Ran(output=alone_up_to_symmetries(lines)),
                ['solve', '--large', '--symmetries', maps, path])


def by_laws(work):
    """Domains last for ever for as many processes as they carry, and for no more; a chain has its value."""
    for name, pebbles in LASTING:
        domain, carried = CARRIED[name]
        path = written(work, f'{name} {pebbles}.board', board_texts.domain_text(domain, pebbles))
        value = 'forever' if pebbles <= carried else 'finite'
        yield Check(f'the large board {name} with {pebbles} pebbles', partial(starts_with, value, path))
    # 32801517 classes, more than a table of classes has
    path = written(work, 'many-classes.board', board_texts.domain_text(CARRIED['nested of level five'][0], 5))
    yield from solved(work, 'a board of many classes', path, 'forever', '--large')
    for labels, pebbles in CHAINS:
        path = written(work, f'chain {labels} {pebbles}.board', board_texts.chain(labels, pebbles))
        yield check(f'the report of a chain of {labels} with {pebbles} pebbles', Ran(output=chain_report(labels, pebbles)),
                    ['report', '--large', path])


def checks(work):
    """Those by laws, those of both limits, and those of boards within both."""
    chain = written(work, 'long-chain.board', board_texts.chain(*LONG_CHAIN))
    yield check('the report of a long chain', TOO_LARGE, ['report', chain])
    for workers in '1', '16':
        yield check(f'the report of a long chain, as a large board, with {workers} workers', Ran(output=chain_report(*LONG_CHAIN)),
                    ['report', '--large', '--workers', workers, chain])
    none = written(work, 'none.maps', b'symmetries 0\nend\n')
    for workers in '1', '16':
        yield check(f'the report of a long chain up to no symmetries with {workers} workers', Ran(output=chain_report(*LONG_CHAIN)),
                    ['report', '--large', '--workers', workers, '--symmetries', none, chain])
    for side, (lines, transcript) in LARGE_PLAYS.items():
        yield check(f'a play on a long chain up to no symmetries as the {side}', Ran(output=transcript),
                    ['play', '--large', '--symmetries', none, '--side', side, chain], input=lines)
        yield check(f'a play on a long chain as the {side}', TOO_LARGE, ['play', '--side', side, chain], input=lines)
        yield check(f'a play on a long chain as the {side}, as a large board', Ran(output=transcript),
                    ['play', '--large', '--side', side, chain], input=lines)
    wide, wider = (written(work, f'wide-{pebbles}.board', board_texts.empty(256, pebbles)) for pebbles in (3, 4))
    yield check('the report of a wide board, as a large board', Ran(output=WIDE_REPORT), ['report', '--large', wide])
    yield check('the report of a wider board, as a large board', Ran(output=WIDER_REPORT), ['report', '--large', wider])
    widest = written(work, 'widest.board', board_texts.empty(144, 6))
    yield check('the report of a board of too many gaps, as a large board', TOO_LARGE, ['report', '--large', widest])
    yield from by_laws(work)
    yield from up_to_symmetries(work)
    for name in stored('.board'):
        if name not in BEYOND:
            yield Check(f'the report of {name}, as a large board', partial(is_counted_alike, board(name)))
