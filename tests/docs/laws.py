"""The laws in words: the docstring of a public function with an empty body is the text of its law.

In a document `<!-- laws of A B -->` is followed by the laws of the crates A and B, a line for each, up to `<!-- end -->`. A part is a
crate, or a file of its src/ such as `player/nested_laws`. Each law is in one such passage, or the documents name the file that it is in;
but for `limits`, whose numbers have a row of their own.
"""
import os
import re
from collections import Counter

from harness import CRATES, FOR_TESTS, TOP, standing

DOCUMENTS = [os.path.join(TOP, 'docs', name) for name in ('game.md', 'theorems.md')]
LAW = re.compile(r'((?:^/// .*\n)+)(?:^#\[.*\n)*^pub fn (\w+)(?:<[^(]*>)?\([^)]*\)\n(?:^    .*\n)+^\{\n?\}', re.M)
PASSAGE = re.compile(r'<!-- laws of ([\w/ ]+?) -->\n(.*?)<!-- end -->', re.S)
LIMITS = 'limits'


def laws_in(path):
    """The laws of a file, each a name and its words, in the order of the file."""
    with open(path) as file:
        return [(name, ' '.join(line.removeprefix('/// ') for line in words.splitlines())) for words, name in LAW.findall(file.read())]


def laws_of(part):
    """The laws of a crate, or of one file of its src/."""
    crate, _, name = part.partition('/')
    folder = os.path.join(CRATES, crate, 'src')
    files = [f'{name}.rt'] if name else sorted(os.listdir(folder))
    return [law for file in files if file.endswith('.rt') for law in laws_in(os.path.join(folder, file)) if law[0] != LIMITS]


def all_laws():
    """The crate and the name of each law of the product."""
    return [(crate, name) for crate in standing(TOP) if crate not in FOR_TESTS for name, _ in laws_of(crate)]


def named(text):
    """The crate and the name of each law in a file that a text names by its path."""
    return {(path.split('/')[1], name) for path in re.findall(r'`(crates/\w+/src/\w+\.rt)`', text) if os.path.isfile(os.path.join(TOP, path))
            for name, _ in laws_in(os.path.join(TOP, path))}


def written(text):
    """The text of a document with all its passages as the docstrings have them. A name that two laws have is told with its crate."""
    names = Counter(name for _, name in all_laws())

    def put(mark):
        laws = [(part.split('/')[0], *law) for part in mark[1].split() for law in laws_of(part)]
        lines = ''.join(f'- `{name if names[name] == 1 else f"{crate}::{name}"}`: {words}\n' for crate, name, words in laws)
        return f'<!-- laws of {mark[1]} -->\n{lines}<!-- end -->'

    return PASSAGE.sub(put, text)


def differs():
    """None if the documents have each law once, in the words of its docstring, or name its file."""
    texts = {}
    for path in DOCUMENTS:
        with open(path) as file:
            texts[path] = file.read()
    parts = [part for text in texts.values() for parts, _ in PASSAGE.findall(text) for part in parts.split()]
    told = Counter((part.split('/')[0], name) for part in parts for name, _ in laws_of(part))
    linked = set().union(*map(named, texts.values()))
    wrong = [f'the law {name} of {crate} is in {told[crate, name]} passages' for crate, name in all_laws()
             if told[crate, name] > 1 or not told[crate, name] and (crate, name) not in linked]
    wrong += [f'{os.path.basename(path)} has a law in other words: tests/docs/run --write mends it' for path, text in texts.items() if written(text) != text]
    return '; '.join(wrong) or None


def write():
    """Writes the passages of all documents."""
    for path in DOCUMENTS:
        with open(path) as file:
            text = file.read()
        with open(path, 'w') as file:
            file.write(written(text))
