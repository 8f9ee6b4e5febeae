"""That nothing stands in crates/ that nobody uses: no lemma and no definition of proofs/ and specs/, no import of a name for clauses and
proofs, and no lemma that a file `Cited` passes on.

A definition is used if its name stands in src/, in an answer to a goal, or in a definition that is used. An import of it is no use, but one
under another name, nor is its line in a file `Cited`, which passes lemmas on. Definitions of one name are used if one of them is. An operator
is always taken as used.
"""
import glob
import os
import re
from functools import partial

from harness import CRATES, TOP, Check

WORD = re.compile(r'[^\s(){}\[\].,;:|⟦⟧]+')
RENAMED = re.compile(r'([^\s{,]+) as ')
COMMENT = {'.rt': re.compile(r'//.*'), '.antt': re.compile(r'(?<!\S)--(?: .*)?$', re.M)}
IMPORT = re.compile(r'^[ \t]*(ghost |pub )?use ([^{;\n]*)(?:\{([^}]*)\})?.*\n', re.M)
HEAD = re.compile(r'^( *)(?:pub |abbrev |unfoldable )*(?:(?:record|data) ([^\s(){}:]+)|([^\s(){}:]+) (?:[^=]*)?: ?)')
# lines that begin as definitions do and are none
OTHER = re.compile(r'^ *(?:pub )?(?:module|use|mod|where|unfolding)\b')
PASSED_ON = ('Cited.antt', 'Lib.antt')
ANSWERS = ('Answers.antt', 'Invariants.antt')


class Definition:
    """A definition: the file and the line in which it begins, its name, and the words that stand in it."""

    def __init__(self, path, number, name, text):
        self.place, self.name, self.words = f'{os.path.relpath(path, TOP)}:{number + 1}', name, set(WORD.findall(text))


def without_imports(text):
    return IMPORT.sub(lambda found: '\n' * found[0].count('\n'), text)


def end_of(lines, first, indent, name):
    """The line that no longer belongs to the definition that begins with this one."""
    goes_on = re.compile(rf'^ {{{indent}}}(?: |[\]}})]|unfolding |{re.escape(name)}(?=[\s=]|$))')
    end = first + 1
    while end < len(lines):
        here = end
        while here < len(lines) and not lines[here].strip():
            here += 1
        if here == len(lines) or not goes_on.match(lines[here]):
            break
        end = here + 1
    return end


def parted(path, text):
    """The definitions of a file's text, and the words beside them."""
    lines = without_imports(text).split('\n')
    definitions, beside, here = [], set(), 0
    while here < len(lines):
        head = None if OTHER.match(lines[here]) else HEAD.match(lines[here])
        if head is None:
            beside.update(WORD.findall(lines[here]))
            here += 1
            continue
        name = head[2] or head[3]
        end = end_of(lines, here, len(head[1]), name)
        definitions.append(Definition(path, here, name, '\n'.join(lines[here:end])))
        here = end
    return definitions, beside


def sources():
    """The files of crates/ and their texts without comments."""
    found = {}
    for kind, comment in COMMENT.items():
        for path in sorted(glob.glob(os.path.join(CRATES, '*', '*', '**', f'*{kind}'), recursive=True)):
            if path[len(CRATES):].split(os.sep)[2] in ('src', 'specs', 'proofs'):
                with open(path, encoding='utf-8') as file:
                    found[path] = comment.sub('', file.read())
    return found


def unused_definitions():
    """None, or the definitions that nobody uses."""
    used, left = set(), []
    for path, text in sources().items():
        name = os.path.basename(path)
        used.update(RENAMED.findall(text))
        if path.endswith('.rt') or name in ANSWERS:
            used.update(WORD.findall(without_imports(text)))
        elif name not in PASSED_ON:
            definitions, beside = parted(path, text)
            left += definitions
            used |= beside
    met = True
    while met:
        met = [one for one in left if one.name in used or '◌' in one.name]
        left = [one for one in left if one.name not in used and '◌' not in one.name]
        used = used.union(*(one.words for one in met))
    return f'used by nobody: {", ".join(f"{one.name} ({one.place})" for one in left)}' if left else None


def stands(name, text, words):
    """Whether an imported name stands in the text, whose words these are; an operator, if all of its parts do."""
    name = name.split(' as ')[-1]
    if '◌' in name or name == '[]':
        return all(part in text for part in name.split('◌'))
    return words.issuperset(WORD.findall(name))


def unused_imports():
    """None, or the names for clauses and proofs that a file imports and doesn't use."""
    found = []
    for path, text in sources().items():
        rest = without_imports(text)
        words = set(WORD.findall(rest))
        for begins, module, names in IMPORT.findall(text):
            if begins == ('ghost ' if path.endswith('.rt') else ''):
                names = re.split(r', *', names or module.rsplit('.')[-1])
                found += [f'{name} ({os.path.relpath(path, TOP)})' for name in names if not stands(name, rest, words)]
    return f'imported and not used: {", ".join(found)}' if found else None


def untaken():
    """None, or the lemmas that a crate passes on and no crate takes from its file `Cited`."""
    given, taken = set(), set()
    for path, text in sources().items():
        crate = path[len(CRATES):].split(os.sep)[1]
        for _, module, names in IMPORT.findall(text):
            names = [name.split(' as ') for name in re.split(r', *', names)]
            if module.endswith('.proofs.Cited.'):
                taken |= {(module.split('.')[1], name[0]) for name in names}
            if os.path.basename(path) == 'Cited.antt':
                given |= {(crate, name[-1]) for name in names}
    return f'passed on and taken by nobody: {", ".join(f"{name} ({crate})" for crate, name in sorted(given - taken))}' if given - taken else None


def checks():
    """One each for definitions, imports and lemmas that are passed on."""
    return [Check('definitions that are used', partial(unused_definitions)), Check('imports that are used', partial(unused_imports)),
            Check('lemmas that are taken', partial(untaken))]
