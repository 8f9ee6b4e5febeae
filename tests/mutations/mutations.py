"""Wrong bodies and weakened definitions as data: the texts that have them, what each changes, and where it was last refused.

A mutation is a block of lines: `file: PATH`, from crates/ on, `mistake: WORDS`, and pairs of `old: TEXT` and `new: TEXT`. An old text
stands once in the file, as whole words, and each further pair applies to what the earlier ones made. `refused: CRATE, GOAL` is the crate
that is no longer proved, with the first goal that fails, and `tried: DAY on COMMIT` says when that was last seen: the commit is the last
one that changed what the proof of that crate reads. `tests: CRATE` names tests that fail where no crate of the product does, and
`without: TEXT` has an example on which a law is false without its premise.

The text NAME.txt has the further wrong bodies of the crate NAME, definitions.txt has weakened definitions. The wrong bodies that the gate
tries are the edits of crates/NAME/must-fail/, a file each; its name is the mistake, with `_` between the words.

promises.sums has a line for each crate with further wrong bodies or weakened definitions: its name, and the checksum of the promises on
which all of them were refused (promises.py). `tests/mutations/run --changed` alone writes it.
"""
import os
import re
from dataclasses import dataclass

from harness import CRATES

HERE = os.path.dirname(os.path.abspath(__file__))
DEFINITIONS = 'definitions'
ANSWER = ('refused', 'tried')
SUMS = os.path.join(HERE, 'promises.sums')
# names of definitions that changed (promises.py)
RENAMED = 'renamed.txt'


def parted(line):
    """The word that begins a line, and its text."""
    word, _, text = line.partition(':')
    return word, text.removeprefix(' ')


def stands_once(old, text):
    """Whether an old text stands once in a text, and neither begins nor ends within a word."""
    begin, end = (r'\b' if re.match(r'\w', letter) else '' for letter in (old[0], old[-1]))
    return text.count(old) == 1 and re.search(begin + re.escape(old) + end, text) is not None


@dataclass
class Mutation:
    """A block, as a list of its lines, each a word and a text."""
    lines: list

    def says(self, word):
        """The text of the first line that begins with this word, or None."""
        return next((text for key, text in self.lines if key == word), None)

    def all_of(self, word):
        return [text for key, text in self.lines if key == word]

    @property
    def file(self):
        return self.says('file')

    @property
    def crate(self):
        return self.file.split('/')[0]

    @property
    def mistake(self):
        return self.says('mistake')

    @property
    def name(self):
        """The name of the edit that makes it, which the kit wants of letters, digits, `_`, `-` and `.` alone."""
        return re.sub(r'[^\w.-]', '', self.mistake.replace(' ', '_'))

    def made_in(self, text):
        """This text with the mutation. None if an old text doesn't stand once."""
        for old, new in zip(self.all_of('old'), self.all_of('new')):
            if not stands_once(old, text):
                return None
            text = text.replace(old, new)
        return text

    def edit(self):
        """The text of the edit that makes it."""
        pairs = [line for line in self.lines if line[0] in ('old', 'new')]
        lines = [('file', self.file.partition('/')[2]), *pairs]
        return ''.join(f'{word}: {text}\n' for word, text in lines)

    def answer(self, refused, tried):
        """Takes a new answer in place of the last one."""
        self.lines = [line for line in self.lines if line[0] not in ANSWER] + list(zip(ANSWER, (refused, tried)))


# ---- texts

def path_of(name):
    return os.path.join(HERE, f'{name}.txt')


def texts():
    """The names of all texts: definitions first, then crates."""
    found = sorted(file.removesuffix('.txt') for file in os.listdir(HERE) if file.endswith('.txt') and file != RENAMED)
    return [DEFINITIONS, *(name for name in found if name != DEFINITIONS)]


def read(name):
    """The comment at the head of a text, and its mutations."""
    with open(path_of(name)) as file:
        head, *blocks = file.read().rstrip('\n').split('\n\n')
    return head, [Mutation([parted(line) for line in block.splitlines()]) for block in blocks]


def write(name, head, mutations):
    """Writes a text anew."""
    blocks = ['\n'.join(f'{word}: {text}' for word, text in mutation.lines) for mutation in mutations]
    with open(path_of(name), 'w') as file:
        file.write('\n\n'.join([head, *blocks]) + '\n')


def of_crate(crate):
    """The further wrong bodies of a crate and its weakened definitions, each with the name of its text."""
    found = [(crate, mutation) for mutation in read(crate)[1]] if crate in texts() else []
    return found + [(DEFINITIONS, mutation) for mutation in read(DEFINITIONS)[1] if mutation.crate == crate]


# ---- checksums

def read_sums():
    """The checksums of the promises on which all of a crate were tried, by crate."""
    if not os.path.isfile(SUMS):
        return {}
    with open(SUMS) as file:
        return dict(map(str.split, file))


def write_sum(crates, crate, checksum):
    """Writes the checksum of a crate, in the order of these crates, and drops those of others."""
    sums = read_sums() | {crate: checksum}
    with open(SUMS, 'w') as file:
        file.writelines(f'{name} {sums[name]}\n' for name in crates if name in sums)


# ---- the edits that the gate tries

def edits_of(crate):
    """The edits of a crate, as mutations, by name."""
    folder, found = os.path.join(CRATES, crate, 'must-fail'), []
    for file in sorted(os.listdir(folder)) if os.path.isdir(folder) else ():
        with open(os.path.join(folder, file)) as edit:
            lines = [parted(line) for line in edit.read().splitlines() if line]
        lines = [(word, f'{crate}/{text}' if word == 'file' else text) for word, text in lines]
        found.append(Mutation([*lines, ('mistake', file.removesuffix('.edit').replace('_', ' '))]))
    return found
