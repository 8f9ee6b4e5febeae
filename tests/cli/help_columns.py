"""The columns of the helps: no line of them has more than 80."""
from functools import partial

from program import Check, run

COLUMNS = 80
COMMANDS = ('solve', 'check', 'report', 'starts', 'chains', 'nested', 'play', 'climb')


def fits(words):
    """None, or the lines of this help that have more columns."""
    help_text = run(words).output
    long = [line for line in help_text.decode().split('\n') if len(line) > COLUMNS]
    return '; '.join(long) or (None if help_text else 'no help')


def checks(_work):
    """One for each help."""
    for words in (['help'], *(['help', command] for command in COMMANDS)):
        yield Check(f'the columns of {" ".join(words)}', partial(fits, words))
