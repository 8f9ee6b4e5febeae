"""What solve, check, report and nested write of stored boards, and of boards that are too long to be stored."""
import hashlib
import os
import re
import subprocess
from functools import partial
from math import prod

import board_texts
from program import BOARDS, Check, Ran, board, check, fault, leaves, run, shown, stored, strategy, text_of, written

# the claims of stored boards
CLAIMS = {
    'three-cycle': 'forever',
    'three-pebbles-on-the-cycle': 'value 1',
    'one-pair': 'value 1',
    'chain-of-three': 'value 2',
    'chain-of-eight': 'value 7',
    'empty-of-four': 'value 0',
    'one-label': 'forever',
    'one-label-two-pebbles': 'value 0',
    'cycle-with-a-way-in': 'value 1',
    'one-pair-without-labels': 'value 2',
    'three-cycle-without-labels': 'forever',
    'residues-modulo-seven': 'forever',
    'three-pebbles-on-the-chain-of-eight': 'value 7',
    'four-cycle': 'forever',
    'three-pebbles-on-the-four-cycle': 'value 1',
    'numbers-modulo-five': 'value 2',
    'numbers-modulo-five-without-labels': 'value 3',
    'numbers-modulo-seven': 'value 3',
    'four-pebbles-on-residues-modulo-seven': 'value 2',
    'residues-modulo-nineteen': 'forever',
    'nested-of-level-three': 'forever',
    'four-pebbles-on-level-three': 'value 3',
    'product-of-cycle-and-pair': 'value 3',
    'product-of-pair-and-cycle': 'value 3',
    'product-of-four-cycle-and-cycle': 'forever',
    'product-of-cycle-and-residues-modulo-seven': 'forever',
    'double-cover-of-residues-modulo-seven': 'forever',
}
# stored boards that only `solve --large` takes, which last for ever, and those that are too large to be solved by configurations
LARGE = ('residues-modulo-forty-seven', 'product-of-residues-modulo-seven-twice', 'double-cover-of-residues-modulo-nineteen')
BEYOND = (*LARGE, 'product-of-residues-modulo-seven-and-nineteen', 'double-cover-of-residues-modulo-forty-seven')
# stored boards that are products, each with its outer and its inner factor
PRODUCTS = {
    'nested-of-level-three': ('three-cycle', 'three-cycle'),
    'four-pebbles-on-level-three': ('three-cycle', 'three-cycle'),
    'product-of-cycle-and-pair': ('three-cycle', 'one-pair'),
    'product-of-pair-and-cycle': ('one-pair', 'three-cycle'),
    'product-of-four-cycle-and-cycle': ('four-cycle', 'three-cycle'),
    'product-of-cycle-and-residues-modulo-seven': ('three-cycle', 'residues-modulo-seven'),
    'product-of-residues-modulo-seven-twice': ('residues-modulo-seven', 'residues-modulo-seven'),
    'product-of-residues-modulo-seven-and-nineteen': ('residues-modulo-seven', 'residues-modulo-nineteen'),
}
# the digest of the nested board of level 6 with six pebbles, whose text was made by other means
NESTED_SIX = '99e3d4fd93bc36598f8d3ffb62b223fb984699a8e9c5a4f0f51b5b23fbf76a55'
# the most symmetries that maps may make, and lengths of circles of labels that are turned
MOST_SYMMETRIES = 131072
TURNS = [(2, 3, 5, 7, 11, 13), (2, 3, 5, 7, 11, 13, 17), (64, 64, 32), (64, 64, 33)]
EMPTY_REPORT = b'report 1\nlabels 32\npebbles 4\nconfigurations 1048576\nstart value 0\nvalue 0: 1048576\nforever: 0\nend\n'
NESTED_REPORT = b'report 1\nlabels 9\npebbles 3\nconfigurations 729\nstart forever\nforever: 729\nend\n'
TOO_LARGE = fault(1, 'board too large')


# ---- what a check asks of a board

def is_accepted(path, document, claim, words):
    """None where what solve writes of the board, with these words, claims this, and is accepted."""
    with open(document, 'wb') as file:
        file.write(run(['solve', *words, path]).output)
    return leaves(Ran(output=f'accepted {claim}\n'.encode()), ['check', path, document])


def is_equal_by_sixteen(path, words):
    """None where sixteen workers write the same document."""
    return leaves(Ran(output=run(['solve', *words, path]).output), ['solve', *words, '--workers', '16', path])


def for_one_side(document, side):
    """What solve does for one side alone, by the document for both: it writes the rows of the side and the part of the claim that they show."""
    first, claim, *rows = document.splitlines(keepends=True)
    if (claim, side) == (b'forever\n', 'adversary'):
        return fault(1, 'start lasts forever')
    part = {'labeller': b'least', 'adversary': b'most'}[side]
    of_adversary = next((index for index, row in enumerate(rows) if row.startswith(b'adversary')), len(rows) - 1)
    kept = rows[:of_adversary] if side == 'labeller' else rows[of_adversary:-1]
    return Ran(output=b''.join([first, claim.replace(b'value', part), *kept, rows[-1]]))


def is_part(work, path, side, words):
    """None where solve for the side writes its part of the document for both, which a check accepts."""
    wanted = for_one_side(run(['solve', *words, path]).output, side)
    asked = ['solve', '--side', side, *words, path]
    wrong = leaves(wanted, asked)
    if wrong or wanted.status:
        return wrong
    claim = wanted.output.splitlines()[1]
    own = f'{os.path.basename(path)}-{side}{"".join(words)}.document'
    return leaves(Ran(output=b'accepted %s\n' % claim), ['check', path, written(work, own, wanted.output)])


def adds_up(path):
    """None where the counts of the board's report add up to the number of its configurations."""
    return counts_add_up(run(['report', path]))


def counts_add_up(got):
    """None where the counts of a report add up to its number of configurations."""
    total = re.search(rb'(?m)^configurations (\d+)$', got.output)
    counts = [int(count) for count in re.findall(rb'(?m)^(?:value \d+|forever): (\d+)$', got.output)]
    if (got.status, got.errors) == (0, b'') and total and int(total[1]) == sum(counts):
        return None
    return f'{shown(got)}; and not counts that add up, but {sum(counts)}'


def has_lines(level, lines):
    """None where the nested board of this level has so many lines."""
    got = run(['nested', level, level])
    found = got.output.count(b'\n')
    return None if (got.status, got.errors, found) == (0, b'', lines) else f'{shown(got)}, {found} lines; and not {lines} lines'


def has_digest(level, digest):
    """None where the nested board of this level has this digest."""
    found = hashlib.sha256(run(['nested', level, level]).output).hexdigest()
    return None if found == digest else f'the digest {found}; and not {digest}'


# ---- checks

def solved(work, name, path, claim, *words):
    """The document that solve with these words writes of the board claims this and is accepted, and is the same by sixteen workers."""
    document = os.path.join(work, f'{name}.document')
    yield Check(' '.join(['the document of', name, *words]), partial(is_accepted, path, document, claim, words))
    yield Check(' '.join(['solve', *words, name, 'with sixteen workers']), partial(is_equal_by_sixteen, path, words))


def counted(name, path):
    """The counts of the board add up."""
    return Check(f'the counts of {name}', partial(adds_up, path))


def stored_documents():
    """Each stored document is accepted with its claim, and is what solve writes."""
    for name in stored('.proof'):
        text = text_of(strategy(name))
        claim = text.split(b'\n')[1]
        yield check(f'the stored {name}', Ran(output=b'accepted %s\n' % claim), ['check', board(name), strategy(name)])
        yield check(f'solve {name}', Ran(output=text), ['solve', board(name)])


def for_sides(work, name, path, *words):
    """The documents that solve with these words writes of the board for each side alone."""
    for side in ('labeller', 'adversary'):
        yield Check(' '.join(['solve for the', side, *words, name]), partial(is_part, work, path, side, words))


def are_made(work):
    """None where boards/make writes the stored boards, and no others."""
    folder = os.path.join(work, 'made')
    os.mkdir(folder)
    subprocess.run([os.path.join(BOARDS, 'make'), folder], check=True)
    names = [*CLAIMS, *BEYOND]
    made = {name: text_of(os.path.join(folder, f'{name}.board')) for name in names}
    others = {name for name in names if made[name] != text_of(board(name))} | set(os.listdir(folder)) ^ {f'{name}.board' for name in stored('.board')}
    return None if not others else f'others are made: {sorted(others)}'


def domain_of(text):
    """The number of labels of a board's text, and its pairs."""
    lines = [line.split() for line in text.decode().splitlines()]
    pairs = {(int(line[1]), int(line[2])) for line in lines if line[0] == 'beats'}
    return next(int(line[1]) for line in lines if line[0] == 'labels'), pairs


def is_product(whole, outer, inner):
    """None if the whole board is the product of the two, said of each two of its labels by quotient and remainder."""
    (labels, pairs), (copies, over), (size, under) = (domain_of(text_of(board(name))) for name in (whole, outer, inner))
    if labels != copies * size:
        return f'{labels} labels, and {copies} times {size} are wanted'
    for x in range(labels):
        for y in range(labels):
            beats = (x // size, y // size) in over or x // size == y // size and (x % size, y % size) in under
            if ((x, y) in pairs) != beats:
                return f'{x} beats {y}: {(x, y) in pairs}, and {beats} is wanted'
    return None


def stored_boards(work):
    """The claims and counts of stored boards, which of them are products, and which are too large."""
    yield Check('the stored boards are made', partial(are_made, work))
    for name, (outer, inner) in PRODUCTS.items():
        yield Check(f'{name} is the product of {outer} and {inner}', partial(is_product, name, outer, inner))
    for name, claim in CLAIMS.items():
        yield from solved(work, name, board(name), claim)
        for words in ([], ['--large'], ['--workers', '2']):
            yield from for_sides(work, name, board(name), *words)
    for name in stored('.board'):
        if name not in BEYOND:
            yield counted(name, board(name))
    for name in BEYOND:
        yield check(f'solve of {name}', TOO_LARGE, ['solve', board(name)])
    for name in LARGE:
        yield from solved(work, name, board(name), 'forever', '--large')


def made_boards(work):
    """A chain of 256 labels, nested boards, and boards without pairs: the largest, and one that is too large."""
    chain = written(work, 'chain.board', board_texts.chain(256))
    yield from solved(work, 'the chain of 256 labels', chain, 'value 255')
    yield counted('the chain of 256 labels', chain)
    three, four, five = (written(work, f'nested-{level}.board', run(['nested', level, level]).output) for level in '345')
    yield from solved(work, 'the nested board of level 4', four, 'forever')
    yield counted('the nested board of level 4', four)
    empty = written(work, 'empty.board', board_texts.empty(32))
    yield from solved(work, 'the largest empty board', empty, 'value 0')
    yield check('the report of the largest empty board', Ran(output=EMPTY_REPORT), ['report', empty])
    yield check('the report of the nested board of level 3', Ran(output=NESTED_REPORT), ['report', three])
    large = written(work, 'large.board', board_texts.empty(33))
    for command in ('solve', 'report'):
        yield check(f'{command} of a board that is too large (large)', TOO_LARGE, [command, large])
        yield check(f'{command} of a board that is too large (five)', TOO_LARGE, [command, five])


def turned(lengths):
    """For each length a map that turns a circle of so many labels, one circle after the other. Together they make as many as the product."""
    circles = [range(sum(lengths[:count]), sum(lengths[:count + 1])) for count in range(len(lengths))]
    return [[*range(circle[0]), *circle[1:], circle[0], *range(circle[-1] + 1, sum(lengths))] for circle in circles]


def up_to_turns(work):
    """On labels of which none dominates another each map is a symmetry. The most that maps may make, and more."""
    for lengths in TURNS:
        empty = written(work, f'{sum(lengths)} labels.board', board_texts.empty(sum(lengths), 2))
        lines = [f'symmetries {len(lengths)}', *(' '.join(map(str, ('map', *images))) for images in turned(lengths))]
        text = '\n'.join(['proof 3', 'most 0', *lines, 'adversary 1', 'at 0 0 for 0 ask 0', 'end', '']).encode()
        document = written(work, f'{sum(lengths)} labels.proof', text)
        wanted = Ran(output=b'accepted most 0\n') if prod(lengths) <= MOST_SYMMETRIES else Ran(3, b'refused symmetries too many\n')
        yield check(f'{prod(lengths)} turns of circles', wanted, ['check', empty, document])


def checks(work):
    """Those of stored documents and boards, of boards that are made, of many symmetries, and of the texts of large nested boards."""
    yield from stored_documents()
    yield from stored_boards(work)
    yield from made_boards(work)
    yield from up_to_turns(work)
    yield Check('nested 5 5', partial(has_lines, '5', 3245))
    yield Check('nested 6 6', partial(has_lines, '6', 29408))
    yield Check('the digest of nested 6 6', partial(has_digest, '6', NESTED_SIX))
