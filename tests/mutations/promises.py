"""What a crate promises, and one checksum of it.

The promises of a crate are its definitions (specs/), and of its code the clauses and signatures of its functions, its types with their
fields, models and invariants, and its constants: all but comments, attributes, the bodies of functions, and imports that the rest doesn't
use. A definition or a clause may name definitions, types and constants of crates below, so those are in the checksum too, with all that
they name in turn, and no others: each name is one of the crate that its import says, or of the crate itself. Of a type below that has a model only the kind of its values is: the form in which a crate keeps them is
its own. Nor are the clauses of a function below: no definition and no clause can name them, so that what is promised here is the same
whatever they say.

A wrong body that was refused stays refused while its file promises the same, and so do the functions of its crate that the file calls,
since a promise grows weaker by no other change. A weakened definition does while all that rests on its file, in its crate, promises the
same.
"""
import hashlib
import io
import os
import re
import subprocess
import tarfile
from dataclasses import dataclass
from functools import lru_cache

from harness import TOP, standing, standing_by

# a comment; a text or a letter, whose brackets are none; or what tells where a body is: a bracket, a semicolon, `fn`, an attribute
TOKEN = re.compile(r"""(?P<comment>//[^\n]*)|b?"(?:[^"\\]|\\.)*"|b?'(?:\\[^']+|[^'\\])'|(?P<mark>[{}()\[\];]|\bfn\b|\#!?\[)""", re.S)
CLAUSE = re.compile(r'\b(?:requires|ensures)\b')
FUNCTION = re.compile(r'fn\s+\w')
BEFORE_FUNCTION = re.compile(r'(?:\b(?:pub(?:\([^)]*\))?|const)\s+)*$')
EMPTY = re.compile(r'\b(?:impl|trait)\b[^{};]*\{\s*\}')
USE = re.compile(r'^ *(?:(ghost )?(?:pub )?use ([^;\n]+);|use (Rattle[^\n]+))\n', re.M)
USE_OF_FILE = re.compile(r'^(?:pub )?(?:ghost )?use [^;]+;\n', re.M)
WORD = re.compile(r'[^\s.,;(){}\[\]]+')
NAME = re.compile(r'[^\W\d][\w-]*')
UNIT = re.compile(r'^(?:(?:abbrev|unfoldable|pub|record|module)\s+)+[^\s({]+', re.M)
DECLARED = re.compile(r'\b(?:abbrev|unfoldable|record|module)\s+(?:pub\s+)?([^\s({]+)')
TYPE = re.compile(r'\b(?:struct|enum|trait|const|type)\s+(\w+)[^{;(]*')
NOT_PUBLIC = re.compile(r'^[ ]*(?:pub\([^)]*\) )?(?:struct|enum|trait|const|type)\s+(?P<name>\w+)', re.M)
TYPE_NAME = re.compile(r'\b(?:struct|enum|trait|const|type)\s+(\w+)')
IMPL = re.compile(r'\bimpl\b(?P<head>[^{]*)\{')
MODEL = re.compile(r'\bghost Value = .*?;', re.S)
COMMENT = re.compile(r'--[^\n]*')
RENAMED = 'tests/mutations/renamed.txt'
OPENING, CLOSING = '{([', '})]'


# ---- source texts

def marks(text):
    """The tokens of a source text without comments that tell where bodies are, each with its begin and end."""
    return [(found['mark'], found.start(), found.end()) for found in TOKEN.finditer(text) if found['mark']]


def closing(tokens, at):
    """The index of the token that closes the bracket of this one."""
    depth = 0
    while True:
        mark = tokens[at][0]
        depth += (mark[-1] in OPENING) - (mark in CLOSING)
        if depth == 0:
            return at
        at += 1


def body_of(tokens, text, at):
    """The indexes of the first and the last token of the body of the function whose `fn` is this token; of its semicolon, if it has none."""
    begin, at = tokens[at][2], at + 1
    while tokens[at][0] != ';':
        end = closing(tokens, at)
        if tokens[at][0] == '{':
            if not CLAUSE.search(text[begin:tokens[at][1]]):
                return at, end
            begin = tokens[end][2]
        at = end + 1
    return at, at


def promised(text, with_functions):
    """A source text without comments, attributes and the bodies of functions; or without functions."""
    text = TOKEN.sub(lambda found: '' if found['comment'] else found[0], text)
    tokens, kept, begin, at = marks(text), [], 0, 0
    while at < len(tokens):
        mark, start, _ = tokens[at]
        if mark == 'fn' and FUNCTION.match(text, start):
            first, at = body_of(tokens, text, at)
            head = text[begin:tokens[first][2]] if with_functions else BEFORE_FUNCTION.sub('', text[begin:start])
            kept.append(head)
            begin = tokens[at][1] if with_functions and first != at else tokens[at][2]
        elif mark.startswith('#'):
            kept.append(text[begin:start])
            at = closing(tokens, at)
            begin = tokens[at][2]
        at += 1
    return ''.join([*kept, text[begin:]])


# ---- what of a file is in the checksum

def imported(found):
    """What an import names: each the name that stands for it here, and what it is."""
    told = (found[2] if found[2] else found[3]).replace('::', '.')
    module, _, items = told.rstrip('}').partition('.{')
    for item in items.split(',') if items else [module]:
        name, _, other = item.strip().partition(' as ')
        yield other or name.split('.')[-1], f'{module}.{item.strip()}' if items else item


def named(whole):
    """The names that stand for something in an import's path: its last, and of a type of the code that of the type too. Each comes after
    the crate that the path begins with, or None for the crate itself."""
    parts = NAME.findall(whole)
    crate = parts[1] if parts[0] == 'Rattle' and len(parts) > 2 else parts[0]
    crate = None if crate in ('crate', 'self', 'super') or len(parts) == 1 else crate
    return [(crate, part) for part in (parts if 'declared' in parts else parts[-1:])]


@dataclass(frozen=True)
class Told:
    """A text with one space between words, after the imports of definitions that it uses, in order; and the names in it that stand for
    something outside it, each after its crate, or None for its own."""
    text: str
    names: frozenset


def told(text, beside=()):
    """The text as it is told, and of its names those that it imports and those that are declared beside it."""
    rest = USE.sub('', text)
    words = set(WORD.findall(rest)) | set(NAME.findall(rest))
    used = [(found, whole) for found in USE.finditer(text) for name, whole in imported(found) if name in words]
    ghost = sorted({whole for found, whole in used if found[1] or found[3]})
    names = {part for _, whole in used for part in named(whole)}.union((None, name) for name in words.intersection(beside))
    return Told(' '.join([*ghost, *rest.split()]), frozenset(names))


# ---- what crates above may name

def imports(text):
    return ''.join(found[0] for found in USE.finditer(text))


def definitions(text):
    """The names that each definition of a file declares, and what it says."""
    text = COMMENT.sub('', text)
    begins, beside = [found.start() for found in UNIT.finditer(text)], DECLARED.findall(text)
    for begin, end in zip(begins, [*begins[1:], len(text)]):
        yield DECLARED.findall(text[begin:end]), told(imports(text) + text[begin:end], beside)


def items(text):
    """The items of a source text that has no functions, imports aside."""
    tokens, begin, at = marks(text), 0, 0
    while at < len(tokens):
        if tokens[at][0] in OPENING:
            at = closing(tokens, at)
        if tokens[at][0] in '};':
            yield text[begin:tokens[at][2]]
            begin = tokens[at][2]
        at += 1


def implementing(item):
    """The trait, if there is one, and the type of an `impl`, or None."""
    found = IMPL.search(item)
    if not found:
        return None
    trait, is_of, kind = found['head'].rpartition(' for ')
    return trait.split()[-1] if is_of else None, NAME.findall(re.sub(r'^\s*<.*?>\s', '', kind))[0]


def own_names(text):
    """The types, traits and constants of a source text that are its crate's own, and no other's to name."""
    return {found['name'] for found in NOT_PUBLIC.finditer(TOKEN.sub(lambda found: '' if found['comment'] else found[0], text))}


def types(text, own, declared):
    """The name of each type, trait or constant of a source text, and what crates above see of it: nothing of what is the crate's own, nor
    of how a type has a trait that is. How a type has a trait is found by the type's name, or by the trait's if another crate declares the
    type."""
    text = EMPTY.sub('', promised(text, False))
    found = list(items(USE_OF_FILE.sub('', text)))
    modelled = {made[1] for made in map(implementing, found) if made and made[0] == 'Model'}
    beside = TYPE_NAME.findall(text)
    for item in found:
        made, named_here = implementing(item), TYPE.search(item)
        if (made[0] if made else named_here and named_here[1]) in own:
            continue
        if made:
            seen = imports(item) + ' '.join(MODEL.findall(item)) if made[0] == 'Model' else item
            yield [made[1] if made[1] in declared or made[0] is None else made[0]], told(imports(text) + seen, beside)
        elif named_here:
            yield [named_here[1]], told(imports(text) + (named_here[0] if named_here[1] in modelled else item), beside)


def functions(text):
    """The name of each function of a source text, and its signature and clauses."""
    head, text = imports(promised(text, False)), TOKEN.sub(lambda found: '' if found['comment'] else found[0], text)
    tokens = marks(text)
    for at, (mark, start, _) in enumerate(tokens):
        if mark == 'fn' and FUNCTION.match(text, start):
            first, _ = body_of(tokens, text, at)
            yield NAME.search(text, start + 2)[0], told(head + text[start:tokens[first][1]])


# ---- checksums

def checksum(*told):
    return hashlib.sha256(repr(told).encode()).hexdigest()[:16]


class Promises:
    """What the crates of a tree promise: `files` gives the texts of a crate's src/ and specs/, by path. `crates` has what each stands on."""

    def __init__(self, crates, files):
        self.crates, self.files = crates, lru_cache(maxsize=None)(files)
        self.sum_of = lru_cache(maxsize=None)(self.sum_of)
        self.named_of = lru_cache(maxsize=None)(self.named_of)
        self.calls_of = lru_cache(maxsize=None)(self.calls_of)
        self.passed_on = lru_cache(maxsize=None)(self.passed_on)
        self.below = lru_cache(maxsize=None)(self.below)

    def own(self, crate, path):
        """What of a file of a crate is in its checksum."""
        text = self.files(crate)[path]
        return told(promised(text, True) if path.endswith('.rt') else COMMENT.sub('', text))

    def named_of(self, crate, inside):
        """What a crate itself may name of it, or crates above, by name. Of what is the crate's own these reach what its definitions name."""
        found, files = {}, sorted(self.files(crate).items())
        defined = set().union(*(NAME.findall(COMMENT.sub('', text)) for path, text in files if not path.endswith('.rt')))
        own = frozenset() if inside else frozenset().union(*(own_names(text) for path, text in files if path.endswith('.rt'))) - defined
        declared = set().union(*(TYPE_NAME.findall(promised(text, False)) for path, text in files if path.endswith('.rt')))
        for path, text in files:
            for names, seen in types(text, own, declared) if path.endswith('.rt') else definitions(text):
                for name in names:
                    found.setdefault(name, []).append(seen)
        return found

    def passed_on(self, crate):
        """The names of other crates that a crate passes on."""
        return {part for text in self.files(crate).values() for found in USE.finditer(text) if 'pub use' in found[0]
                for _, whole in imported(found) for other, part in named(whole) if other in self.crates and other != crate}

    def calls_of(self, crate):
        """The functions of a crate: each its file, its name, and its signature and clauses."""
        return [(path, name, seen) for path, text in sorted(self.files(crate).items()) if path.endswith('.rt')
                for name, seen in functions(text)]

    def below(self, crate):
        """The crates that a crate stands on, and those below them."""
        return set(self.crates[crate]).union(*map(self.below, self.crates[crate]))

    def reached(self, texts, crates, itself=None):
        """The definitions, types and constants of these crates that texts name, with all that those name in turn. The texts are those of
        the crate itself, if it is one of these."""
        found, left = {}, {(crate if crate in self.crates else itself, name) for told in texts for crate, name in told.names}
        while left:
            crate, name = left.pop()
            # What a crate passes on stands in one below it.
            homes = sorted(crates) if crate in crates and name in self.passed_on(crate) else {crate}.intersection(crates)
            found[crate, name] = [(home, it) for home in homes for it in self.named_of(home, home == itself).get(name, ())]
            left.update({(other if other in self.crates else home, its)
                         for home, it in found[crate, name] for other, its in it.names}.difference(found))
        return sorted({(home, name, it.text) for (_, name), those in found.items() for home, it in those})

    def sum_of(self, crate):
        """The checksum of what the crate promises. None if the tree has no such crate."""
        if crate not in self.crates:
            return None
        texts = {path: self.own(crate, path) for path in sorted(self.files(crate))}
        return checksum([(path, told.text) for path, told in texts.items()], self.reached(texts.values(), self.below(crate)))

    def sum_of_file(self, crate, file):
        """The checksum of the promises that a mutation of a file of the crate breaks. None if the tree hasn't the file."""
        path = f'crates/{file}'
        if path not in self.files(crate):
            return None
        texts = [self.own(crate, path), *(self.called_in if path.endswith('.rt') else self.resting_on)(crate, path)]
        return checksum([told.text for told in texts], self.reached(texts, {crate, *self.below(crate)}, crate))

    def called_in(self, crate, path):
        """The functions of a crate that one of its files names, and that stand in another."""
        words = set(NAME.findall(self.files(crate)[path]))
        return [seen for other, name, seen in self.calls_of(crate) if other != path and name in words]

    def resting_on(self, crate, path):
        """The source files of a crate whose promises name, perhaps through others, what a file of definitions declares."""
        declared = set(DECLARED.findall(COMMENT.sub('', self.files(crate)[path])))
        sources = [self.own(crate, other) for other in sorted(self.files(crate)) if other.endswith('.rt')]
        return [source for source in sources if declared.intersection(name for _, name, _ in self.reached([source], {crate}, crate))]


# ---- trees

def of_folder(top):
    """What the crates of a copy of the repository promise."""

    def files(crate):
        found = {}
        for part in ('src', 'specs'):
            for folder, _, names in os.walk(os.path.join(top, 'crates', crate, part)):
                for name in names:
                    path = os.path.join(folder, name)
                    with open(path) as file:
                        found[os.path.relpath(path, top)] = file.read()
        return found

    return Promises(standing(top), files)


def renames(text):
    """The old and the new name of each line of a renamed.txt, and the words of which a file that has one keeps the old name."""
    return [tuple(line.split()) for line in text.splitlines() if not line.startswith('#')]


def with_names(text, renamed):
    """A text in which names are replaced, one after the other."""
    for old, new, *keeping in renamed:
        if not any(word in text for word in keeping):
            text = re.sub(rf'(?<![\w-]){re.escape(old)}(?![\w-])', new, text)
    return text


@lru_cache(maxsize=None)
def of_commit(commit):
    """What the crates promised at a commit, in the names that definitions have now. None if the repository doesn't have it."""
    done = subprocess.run(['git', 'archive', commit, 'crates', 'crates.txt', 'tests'], cwd=TOP, capture_output=True)
    if done.returncode:
        return None
    found, then = {}, ''
    with tarfile.open(fileobj=io.BytesIO(done.stdout)) as tree:
        crates = standing_by(tree.extractfile('crates.txt').read().decode().splitlines())
        for member in tree:
            parts = member.name.split('/')
            if member.name == RENAMED:
                then = tree.extractfile(member).read().decode()
            elif member.isfile() and parts[0] == 'crates' and len(parts) > 2 and parts[2] in ('src', 'specs'):
                found.setdefault(parts[1], {})[member.name] = tree.extractfile(member).read().decode()
    with open(os.path.join(TOP, RENAMED)) as file:
        since = [pair for pair in renames(file.read()) if pair not in renames(then)]
    return Promises(crates, lambda crate: {path: with_names(text, since) for path, text in found.get(crate, {}).items()})
