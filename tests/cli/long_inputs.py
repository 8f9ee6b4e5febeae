"""Inputs that are as long as they may be, longer, or without an end; and paths that are too long."""
from bisect import bisect_right
from functools import partial
from itertools import accumulate, combinations_with_replacement

import board_texts
from program import Check, Ran, board, check, differs, fault, fed, letters, run, strategy, written

# the bytes of a board, and of a document or of both together; the bytes of a line of a play, and the number of its lines
LONGEST_BOARD = 1048576
LONGEST_INPUT = 134217728
LONGEST_LINE = 64
MOST_LINES = 1000000

NO_VERSION = fault(1, 'board fault line 1 Version')
TOO_LONG = fault(5, 'input too long')
PAIR, PAIR_STRATEGY = board('one-pair'), strategy('one-pair')
# each kind of play, its words, and what it writes before it reads a line
PLAYS = (
    ('play', ['play', '--side', 'adversary', board('chain-of-three')], b'value 2\nat 0 0\n'),
    ('climb', ['climb', '2'], b'levels 2\nat 0 0\n'),
)


def long_boards(work):
    """Boards, documents and both together, at the limit and beyond."""
    yield fed('the longest input', NO_VERSION, letters(LONGEST_INPUT), [])
    yield fed('an input that is too long', TOO_LONG, letters(LONGEST_INPUT + 1), [])
    longest = written(work, 'longest', b'a' * LONGEST_BOARD)
    too_long = written(work, 'too-long', b'a' * (LONGEST_BOARD + 1))
    yield check('the longest board', NO_VERSION, ['check', longest, PAIR_STRATEGY])
    yield check('a board that is too long', TOO_LONG, ['check', too_long, longest])
    yield fed('the longest document', fault(1, 'proof fault line 1 Version'), letters(LONGEST_INPUT), ['check', PAIR, '/dev/stdin'])
    yield fed('a document that is too long', TOO_LONG, letters(LONGEST_INPUT + 1), ['check', PAIR, '/dev/stdin'])
    for name, words in (('solve', ['solve']), ('report', ['report']), ('play', ['play', '--side', 'labeller'])):
        yield check(f'{name} of the longest board', NO_VERSION, words + [longest])
        yield check(f'{name} of a board that is too long', TOO_LONG, words + [too_long])
    yield fed('a board of two thousand million bytes', TOO_LONG, letters(2000000000), ['solve', '/dev/stdin'])


def classes_on_a_chain(size):
    """A document of `least 1` by classes with exactly so many bytes, for a chain of 100 labels and four pebbles: its greatest label answers
    each request of each class without it. Of all rows it has as many as fit, and longer ones in place of shorter ones where bytes are
    left."""
    rows = [b'at %d %d %d %d for 1 take 99 99 99 99\n' % places for places in combinations_with_replacement(range(99), 4)]
    head, end = b'proof 2\nleast 1\nlabeller %d\n', b'end\n'
    room = size - len(head % len(rows)) - len(end)
    sums = list(accumulate(map(len, rows)))
    count = bisect_right(sums, room)
    left, longest = room - sums[count - 1], len(rows[-1])
    shorter = [index for index in range(count) if len(rows[index]) == longest - 1][:left]
    dropped = set(shorter)
    rows = [row for index, row in enumerate(rows[:count + len(shorter)]) if index not in dropped]
    return b''.join([head % len(rows), *rows, end])


def longest_by_classes(work):
    """None where a document by classes of as many bytes as are read is accepted, and one of a byte more is too long."""
    chain = written(work, 'chain-of-100.board', board_texts.chain(100, 4))
    path = written(work, 'longest.proof', classes_on_a_chain(LONGEST_INPUT))
    wrong = differs(run(['check', chain, path]), Ran(output=b'accepted least 1\n'))
    with open(path, 'ab') as file:
        size = file.tell()
        file.write(b'\n')
    return wrong or (None if size == LONGEST_INPUT else f'{size} bytes') or differs(run(['check', chain, path]), TOO_LONG)


def too_large_by_classes(work):
    """The board of a document of 141,599,400 bytes, more than are read of one: none of it is written."""
    chain = written(work, 'chain-of-105.board', board_texts.chain(105, 4))
    yield check('a document by classes that would not be read', fault(1, 'document too large'), ['solve', '--large', chain])


def endless_inputs():
    """A pipe without an end, as each text that a command reads."""
    for name, words in (
        ('joined', []),
        ('solve', ['solve', '/dev/stdin']),
        ('report', ['report', '/dev/stdin']),
        ('play', ['play', '--side', 'labeller', '/dev/stdin']),
        ('the board of check', ['check', '/dev/stdin', PAIR_STRATEGY]),
        ('the document of check', ['check', PAIR, '/dev/stdin']),
    ):
        yield fed(f'an input that never ends ({name})', TOO_LONG, ['cat', '/dev/zero'], words)


def leaves_on_zeros(wanted, words):
    """None where a run that reads a file without an end leaves what is wanted."""
    with open('/dev/zero', 'rb') as file:
        return differs(run(words, stdin=file), wanted)


def long_plays():
    """Lines of as many bytes as are read of one, of one more, and without an end; and as many lines as are read."""
    for name, words, opening in PLAYS:
        refused = Ran(output=opening + b'not a request\nstopped after 0 requests\n')
        too_long = fault(5, 'input too long', opening)
        too_many = fault(5, 'input too long', opening + b'not a request\n' * MOST_LINES)
        yield check(f'a line of 64 bytes ({name})', refused, words, input=b'0' * LONGEST_LINE + b'\nquit')
        yield check(f'a line of 65 bytes ({name})', too_long, words, input=b'0' * (LONGEST_LINE + 1) + b'\nquit')
        yield Check(f'a line that never ends ({name})', partial(leaves_on_zeros, too_long, words))
        all_but_one = b'not a request\n' * (MOST_LINES - 1)
        in_time = Ran(output=opening + all_but_one + b'stopped after 0 requests\n')
        yield check(f'a {name} that ends with the millionth line', in_time, words, input=b'x\n' * (MOST_LINES - 1) + b'quit\n')
        yield check(f'a {name} of a million lines', too_many, words, input=b'x\n' * MOST_LINES)
        yield check(f'a {name} that would end a line later', too_many, words, input=b'x\n' * MOST_LINES + b'quit\n')


def long_paths():
    """Paths that no file can have."""
    path = '0' * 5000
    for words in (['solve', path], ['report', path], ['play', '--side', 'labeller', path], ['check', path, path]):
        yield check(f'a path of 5000 bytes ({words[0]})', fault(5, 'read fault'), words)


def checks(work):
    """Those of boards and documents, of plays, and of paths."""
    yield from long_boards(work)
    yield Check('the longest document by classes', partial(longest_by_classes, work))
    yield from too_large_by_classes(work)
    yield from endless_inputs()
    yield from long_plays()
    yield from long_paths()
