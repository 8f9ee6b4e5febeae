"""Lines of crates/ of which there are no more of a kind than are allowed: long ones, over 100 columns in src/ and specs/ and over 120 in
proofs/, and those of src/ that call for a clause alone and throw the result away.

Long lines of src/ are texts that are written as they stand, those of proofs/ import names that the prover makes. What a thrown result tells
belongs into the invariant of its type.
"""
import os
from dataclasses import dataclass
from functools import partial

from harness import CRATES, TOP, Check


@dataclass
class Kind:
    """A kind of lines, in a part of each crate."""
    name: str
    part: str
    is_one: object
    allowed: int


def is_longer(columns, line):
    return len(line) > columns


def throws_away(line):
    return line.lstrip().startswith('let _ = ')


KINDS = [
    Kind('long lines of src/', 'src', partial(is_longer, 100), 14), Kind('long lines of specs/', 'specs', partial(is_longer, 100), 0),
    Kind('long lines of proofs/', 'proofs', partial(is_longer, 120), 5), Kind('results thrown away', 'src', throws_away, 9),
]


def lines_of(kind):
    """The lines of a kind in all crates, each by its file and number."""
    found = []
    for crate in sorted(os.listdir(CRATES)):
        for folder, _, names in os.walk(os.path.join(CRATES, crate, kind.part)):
            for name in names:
                path = os.path.join(folder, name)
                if name.endswith(('.rt', '.antt')):
                    with open(path, encoding='utf-8') as file:
                        found += [f'{os.path.relpath(path, TOP)}:{number}' for number, line in enumerate(file, 1)
                                  if kind.is_one(line.rstrip('\n'))]
    return sorted(found)


def are_no_more(kind):
    """None, or the lines of a kind, if there are more than there may be."""
    found = lines_of(kind)
    return f'{len(found)}, and {kind.allowed} are allowed: {", ".join(found)}' if len(found) > kind.allowed else None


def checks():
    """One for each kind."""
    return [Check(f'the {kind.name}', partial(are_no_more, kind)) for kind in KINDS]
