"""The definitions that a reader of a statement has to read, and the passages of docs/theorems.md and docs/headline.md that show them.

A passage begins with a mark and ends with `<!-- end -->`. `<!-- table of A B, beyond C -->` is followed by a table of all definitions that
A and B reach, themselves included, and C doesn't; `<!-- whole of A B, beyond C -->` by themselves with their comments, each after those that
it uses; `<!-- count of A B, beyond C -->` by their number and that of their lines, without comments, imports and empty lines;
`<!-- code of A B -->` by the types and the constants of the code that they reach; and `<!-- contract of F G -->` by the clauses of public
functions. No two definitions have one name, whichever crates they are in.
"""
import os
import re
import textwrap

from harness import CRATES, TOP

DOCUMENTS = [os.path.join(TOP, 'docs', name) for name in ('theorems.md', 'headline.md')]
# one that stands in a module block begins two columns further right
HEAD = re.compile(r'^(?:(?:  )?(?:(?:abbrev|unfoldable) pub|pub record|pub data)|record|abbrev|unfoldable) ([\w-]+)')
USE = re.compile(r'^(?:pub )?use Rattle\.(\w+)\.specs\.([\w.-]+?)(?:\.\{([^}]*)\}| as ([\w-]+))$')
WORD = re.compile(r"[\w'-]+(?:\.[\w'-]+)*")
PASSAGE = re.compile(r'<!-- (table|whole|contract|count|code) of ([\w. ]+?)(?:, beyond ([\w. ]+?))? -->(.*?)<!-- end -->', re.S)


class Definition:
    """A definition of specs/: where it stands, the comment before it, its lines, and the words that stand in them."""

    def __init__(self, file, place, comment):
        self.file, self.place, self.comment, self.lines = file, place, comment, []

    def words(self):
        return [word for line in self.lines for word in WORD.findall(line)]

    def whole(self):
        """Its comment and its lines, without the columns before it in a module block."""
        return textwrap.dedent('\n'.join(self.comment + self.lines))


class Specs:
    """All definitions of specs/, each by the module that it stands in and its name."""

    def __init__(self):
        self.defined, self.named = {}, {}
        with open(os.path.join(TOP, 'crates.txt')) as file:
            self.crates = [line.split(':')[0].split()[0] for line in file if ':' in line and not line.startswith('#')]
        for crate in self.crates:
            for folder, _, names in os.walk(os.path.join(CRATES, crate, 'specs')):
                for name in sorted(names):
                    self.read(crate, os.path.join(folder, name))

    def read(self, crate, path):
        """Reads the definitions of a file, and what its imports name."""
        module = crate, os.path.relpath(path, os.path.join(CRATES, crate, 'specs')).removesuffix('.antt').replace(os.sep, '.')
        named, current, comment = {}, None, []
        with open(path) as file:
            lines = [line.rstrip('\n') for line in file]
        for place, line in enumerate(lines):
            head, use = HEAD.match(line), USE.match(line)
            if use:
                given, items, alias = (use[1], use[2]), use[3], use[4]
                for item in items.split(',') if items else ():
                    name, _, other = item.strip().partition(' as ')
                    named[other or name] = (*given, name)
                if alias:
                    named[alias] = (*given, None)
            elif head:
                current = self.defined[(*module, head[1])] = Definition(os.path.relpath(path, TOP), place, comment)
                named[head[1]] = (*module, head[1])
            comment = comment + [line] if line.lstrip().startswith('--') else []
            if current and line.strip() and not line.startswith(('--', 'use ', 'pub use ')):
                current.lines.append(line)
        self.named[module] = named

    def meant(self, module, word):
        """The definition, type or constant that a word of a module names, by its crate, module and name; None for other words."""
        first, _, rest = word.partition('.')
        found = self.named[module].get(first)
        if found and found[2] is None:
            return (found[0], found[1], rest.split('.')[0])
        # a module may pass on what it imports
        passed = found and self.named.get(found[:2], {}).get(found[2])
        return found if passed is None or found in self.defined else passed

    def one_of(self, name):
        """The definition that a mark names."""
        keys = [key for key in self.defined if key[2] == name]
        if len(keys) != 1:
            raise ValueError(f'{len(keys)} definitions are named {name}')
        return keys[0]

    def named_twice(self):
        """A line for each name that two definitions have, with their files."""
        files = {}
        for key, definition in self.defined.items():
            files.setdefault(key[2], []).append(definition.file)
        return [f'{name}: {", ".join(found)}' for name, found in sorted(files.items()) if len(found) > 1]

    def meanings(self, key):
        """What the words of a definition mean."""
        return {self.meant(key[:2], word) for word in self.defined[key].words()} - {None}

    def reached(self, names):
        """All that these definitions reach, themselves included: definitions, and what is declared in the code."""
        left = [self.one_of(name) for name in names]
        found, code = set(left), set()
        while left:
            for key in self.meanings(left.pop()):
                if key in self.defined and key not in found:
                    found.add(key)
                    left.append(key)
                elif key[1].startswith('declared.'):
                    code.add(key)
        return found, code

    def size(self, keys):
        """The number of definitions, and of their lines."""
        return len(keys), sum(len(self.defined[key].lines) for key in keys)

    def table(self, keys):
        """A row for each file: its definitions in their order there, and the number of their lines."""
        files = {}
        for key in keys:
            files.setdefault((-self.crates.index(key[0]), self.defined[key].file), []).append(key)
        rows = ['| File | Names to read in it | Lines |', '|---|---|---|']
        for (_, file), found in sorted(files.items()):
            found.sort(key=lambda key: self.defined[key].place)
            names = ', '.join(f'`{key[2]}`' for key in found)
            rows.append(f'| `{file}` | {names} | {self.size(found)[1]} |')
        return '\n'.join(rows)


    def whole(self, keys):
        """The definitions of each file, in their order there, after those of the files that they use."""
        left = {}
        for key in sorted(keys, key=lambda key: (self.crates.index(key[0]), self.defined[key].file, self.defined[key].place)):
            left.setdefault(key[:2], []).append(key)
        shown = []
        while left:
            used = {module: {key[:2] for key in found for key in self.meanings(key)} - {module} for module, found in left.items()}
            found = left.pop(next(module for module in left if not used[module] & left.keys()))
            shown.append(block(self.defined[found[0]].file, 'rattle', '\n\n'.join(self.defined[key].whole() for key in found)))
        return '\n\n'.join(shown)


def block(file, kind, text):
    """A block of a document, with the file that it is from."""
    return f'`{file}`:\n\n```{kind}\n{text}\n```'


def contract(name):
    """The signature and the clauses of a public function."""
    found = []
    for folder, _, files in os.walk(CRATES):
        for file in files if os.path.basename(folder) == 'src' else ():
            with open(os.path.join(folder, file)) as source:
                text = source.read()
            if f'\npub fn {name}(' in text:
                whole = text[text.index(f'\npub fn {name}(') + 1:]
                found.append(block(os.path.relpath(os.path.join(folder, file), TOP), 'rust', whole[:whole.index('\n{')]))
    if len(found) != 1:
        raise ValueError(f'{len(found)} functions are named {name}')
    return found[0]


def listed(names):
    """Names with commas, and an `and` before the last."""
    return names[0] if len(names) == 1 else f'{", ".join(names[:-1])} and {names[-1]}'


def code_of(code):
    """The types and the constants of the code, each with its file."""
    types = sorted({(key[0], key[1].split('.')[1], key[1].split('.')[2]) for key in code if 'TheConstants' not in key[1]})
    limits = sorted({(key[0], key[1].split('.')[1], key[2]) for key in code if 'TheConstants' in key[1]})
    shown = [[f'`{name}` (`crates/{crate}/src/{file}.rt`)' for crate, file, name in found] for found in (types, limits)]
    return f'the types {listed(shown[0])}; and the constants {listed(shown[1])}'


def passage(specs, kind, names, beyond):
    """The text of a passage."""
    if kind == 'contract':
        return '\n' + '\n\n'.join(contract(name) for name in names.split()) + '\n'
    found, code = specs.reached(names.split())
    if beyond:
        found -= specs.reached(beyond.split())[0]
    if kind in ('table', 'whole'):
        return f'\n{getattr(specs, kind)(found)}\n'
    definitions, lines = specs.size(found)
    return code_of(code) if kind == 'code' else f'{definitions} definitions in {lines} lines'


def written(text):
    """The text with all its passages as the definitions have them."""
    specs = Specs()

    def put(mark):
        head = mark[0][:mark[0].index('-->') + 3]
        return f'{head}{passage(specs, mark[1], mark[2], mark[3])}<!-- end -->'

    return PASSAGE.sub(put, text)


def differs():
    """None where the documents have all passages as the definitions have them."""
    for path in DOCUMENTS:
        with open(path) as file:
            text = file.read()
        if not PASSAGE.search(text):
            return f'{os.path.basename(path)} has no passage that shows definitions'
        if written(text) != text:
            return f'{os.path.basename(path)} shows other definitions: tests/docs/run --write mends it'
    return None


def named_twice():
    """None where no two definitions have one name; else those that have."""
    return '\n'.join(Specs().named_twice()) or None


def write():
    """Writes the passages of the documents."""
    for path in DOCUMENTS:
        with open(path) as file:
            text = file.read()
        with open(path, 'w') as file:
            file.write(written(text))
