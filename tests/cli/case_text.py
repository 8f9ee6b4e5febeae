r"""The cases: each file of cases/ is a run of the program. Its name begins with the command (`joined` where there is none), `help` or
`usage`, which is wrong use, and says what it shows. It has these sections in any order, each of which may be left out.

    -- words           the words of the command line, one a line
    -- file NAME       a file that the run finds under this name
    -- input           what the run reads from standard input
    -- output          what it should write to standard output
    -- errors          and to standard error
    -- status NUMBER   its exit status, which is 0 without this line

A section's text is all lines up to the next one. Paths of stored files behind `file NAME`, `input`, `output` or `errors`, parted by
blanks, stand for the bytes of these files, which come before the text. In a text `\\` is a backslash, `\xNN` is the byte with these
hexadecimal digits, and a backslash at the end of a line takes the line feed away. So each byte can be written, and a line of text that
would be taken for the mark of a section begins with `\x2d`. The run is in a folder that has the files of its sections, and boards/.
"""
import os
import re
import tempfile
from dataclasses import dataclass, field
from functools import partial

from program import BOARDS, TOP, Check, Ran, differs, run, text_of, written

CASES = os.path.join(TOP, 'tests', 'cli', 'cases')
ESCAPE = re.compile(rb'\\(?:x([0-9a-f]{2})|(.|\n))')
STANDS_FOR = {b'\\': b'\\', b'\n': b''}


@dataclass
class Case:
    """What a run is given, and what it should leave."""
    words: list = field(default_factory=list)
    files: dict = field(default_factory=dict)
    input: bytes = b''
    wanted: Ran = field(default_factory=Ran)


def unwritten(text):
    """The bytes that a text with escapes stands for."""
    return ESCAPE.sub(lambda found: bytes.fromhex(found[1].decode()) if found[1] else STANDS_FOR[found[2]], text)


def bytes_of(paths, text):
    """The bytes of stored files, and of the text behind them."""
    return b''.join(text_of(os.path.join(TOP, path)) for path in paths) + unwritten(text)


def add_section(case, kind, names, text):
    """Adds what a section says to the case."""
    if kind == 'words':
        case.words = [unwritten(line) for line in text.split(b'\n')[:-1]]
    elif kind == 'file':
        case.files[names[0]] = bytes_of(names[1:], text)
    elif kind == 'input':
        case.input = bytes_of(names, text)
    elif kind == 'output':
        case.wanted.output = bytes_of(names, text)
    elif kind == 'errors':
        case.wanted.errors = bytes_of(names, text)
    elif kind == 'status' and not text:
        case.wanted.status = int(names[0])
    else:
        raise ValueError(f'a section {kind} with the text {text}')


def read_case(name):
    """The case in the file of this name."""
    case = Case()
    first, *sections = re.split(rb'(?m)^-- (.*)\n', text_of(os.path.join(CASES, name)))
    if first or sections[-1] and not sections[-1].endswith(b'\n'):
        raise ValueError('text before the first section, or a last line without its line feed')
    for head, text in zip(sections[::2], sections[1::2]):
        kind, *names = head.decode().split()
        add_section(case, kind, names, text)
    return case


def passes(name):
    """None where a run of the case leaves what it should."""
    case = read_case(name)
    with tempfile.TemporaryDirectory() as folder:
        os.symlink(BOARDS, os.path.join(folder, 'boards'))
        for file, text in case.files.items():
            written(folder, file, text)
        return differs(run(case.words, input=case.input, cwd=folder), case.wanted)


def repeated():
    """None, or the cases that have the same words, files and input."""
    alike = {}
    for name in sorted(os.listdir(CASES)):
        case = read_case(name)
        key = tuple(case.words), tuple(sorted(case.files.items())), case.input
        alike.setdefault(key, []).append(name)
    return '; '.join(' and '.join(names) for names in alike.values() if len(names) > 1) or None


def checks(_work):
    """One for each case, and that none repeats another."""
    for name in sorted(os.listdir(CASES)):
        yield Check(name, partial(passes, name))
    yield Check('no case repeats another', partial(repeated))
