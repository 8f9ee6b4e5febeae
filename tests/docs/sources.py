"""That documents name what the sources have, each where a list could grow old: the public calls that may wait for workers and the ported
crates that are trusted (docs/theorems.md), the public calls that no command reaches (docs/architecture.md), and the numbers of the limits
(docs/formats.md).

Calls are found by their names, in the bodies of functions, from `main` on. A method that is called by a name which several types have
is taken for the method of each of them, so a call of the list that shares its name with one that is reached is let pass.
"""
import os
import re
from collections import defaultdict
from functools import partial

from harness import CRATES, FOR_TESTS, TOP, Check, standing

FUNCTION = re.compile(r'^( *)((?:pub(?:\([^)]*\))? )?)(?:const )?fn (\w+)', re.M)
IMPL = re.compile(r'^(impl|pub trait|pub\(crate\) trait|trait)\b([^{\n]*)', re.M)
WORD = re.compile(r'[A-Za-z_]\w*')
CALL = re.compile(r'(?:(\w+)(?:::<[^>]*>)?::|(\.))?\b([a-z_]\w*)\b(?:::<[^>]*>)?(\()?')
USE = re.compile(r'^use (\w+)::(.*?);', re.M | re.S)
TICKED = re.compile(r'`([^`]+)`')
LIMIT = re.compile(r'(\w+) ≡ (\d+)')
COMMENT = re.compile(r'//.*')
# stands for all calls of a crate
ALL = '*'
TABLE = 'What no command runs'


class Function:
    """A function of the sources: its crate, its type or trait if it has one, its name, and the texts of its signature and body."""

    def __init__(self, crate, imported, owner, of_trait, is_public, name, signature, body):
        self.crate, self.owner, self.of_trait, self.is_public, self.name = crate, owner, of_trait, is_public, name
        self.imported, self.signature, self.body = imported, signature, body
        self.shown = f'{owner}::{name}' if owner else name


def text_of(*path):
    with open(os.path.join(TOP, *path)) as file:
        return file.read()


def owner_of(kind, head):
    """The type that an `impl` is for, or the trait that is declared, and the trait that is implemented."""
    words = WORD.findall(re.sub(r'<[^<>]*(?:<[^<>]*>[^<>]*)*>', '', head))
    if kind != 'impl':
        return words[0], words[0]
    return (words[words.index('for') + 1], words[0]) if 'for' in words else (words[0], None)


def parts_of(rest, indent):
    """The signature of a function and its body, from the text after its name on. There is no body if it is only declared."""
    signature = re.search(r'^\s*(?:requires|ensures|where)\b|\{|;$', rest, re.M)
    has_clauses = signature[0].strip() in ('requires', 'ensures', 'where')
    opens = re.compile(rf'^{indent}\{{|^{indent}    [^\n]*;$', re.M).search(rest) if has_clauses else signature
    body = rest[opens.start():] if opens else ''
    if not body.lstrip().startswith('{'):
        return rest[:signature.start()], ''
    end = re.match(r'\s*\{.*\}$', body, re.M) or re.search(rf'^{indent}\}}$', body, re.M)
    return rest[:signature.start()], body[:end.end()]


def functions_in(crate, path):
    """The functions of a file, but for tests."""
    text = COMMENT.sub('', text_of(path))
    imported = {word: crate if top == 'crate' else top for top, names in USE.findall(text) for word in WORD.findall(names)}
    for head in FUNCTION.finditer(text):
        indent, public, name = head[1], head[2].strip(), head[3]
        impls = list(IMPL.finditer(text, 0, head.start())) if indent else []
        owner, trait = owner_of(impls[-1][1].split()[-1], impls[-1][2]) if impls else (None, None)
        if '#[test]' not in text[:head.start()].rstrip().rsplit('\n', 1)[-1]:
            yield Function(crate, imported, owner, trait, public == 'pub', name, *parts_of(text[head.end():], indent))


def product():
    """The crates of the product, lowest first, each with those that it stands on and itself."""
    return {crate: {crate, *below} for crate, below in standing(TOP).items() if crate not in FOR_TESTS}


def read():
    """All functions of the product, and the names that each crate hands out."""
    found, exported = [], set()
    for crate in product():
        top = os.path.join(CRATES, crate, 'src')
        for folder, _, names in os.walk(top):
            for name in names:
                if name.endswith('.rt') and name != 'examples.rt':
                    found += functions_in(crate, os.path.relpath(os.path.join(folder, name), TOP))
        root = 'lib.rt' if os.path.exists(os.path.join(top, 'lib.rt')) else 'main.rt'
        for use in re.findall(r'^pub use (.*?);', text_of('crates', crate, 'src', root), re.M | re.S):
            exported |= {(crate, word) for word in WORD.findall(use)}
    return found, exported


def is_law(function):
    return re.sub(r'\s', '', function.body) == '{}'


def handed_out(functions, exported):
    """The public functions, and the public methods of public types."""
    return [function for function in functions if (function.is_public and (function.crate, function.owner or function.name) in exported)]


# ---- what main reaches

def reached(functions, sure):
    """The functions that `main` reaches. If `sure`, a method is reached only by a name that no other type has, or with its type."""
    below = product()
    named, owned = defaultdict(list), defaultdict(list)
    for function in functions:
        named[function.name].append(function)
        if function.owner:
            owned[function.owner, function.name].append(function)
    ours = {function.owner for function in functions if function.owner}
    traits = {function.of_trait for function in functions if function.of_trait == function.owner}

    def called(function):
        for kind, dot, name, paren in CALL.findall(function.body):
            owner = function.owner if kind == 'Self' else kind
            # a trait's method may be that of a type in a crate above
            every = [other for other in named.get(name, ()) if (other.crate in below[function.crate] or other.of_trait in traits)
                     and bool(other.owner) == bool(dot or kind[:1].isupper())]
            if owner in ours:
                yield from owned[owner, name]
            elif dot or len(kind) == 1:
                # a method of some type, or of a type that is a parameter
                yield from every if paren and not (sure and len({other.owner for other in every}) > 1) else ()
            elif kind[:1].islower() and not sure:
                # a function by its module
                yield from every
            elif not kind and (paren or not sure):
                home = function.imported.get(name, function.crate)
                yield from [other for other in every if other.crate == home] or (every if home in below and not sure else ())

    start = [function for function in functions if function.name == 'main' and not function.owner]
    # what std or a ported crate calls, by a trait of its own
    start += [function for function in functions if not sure and function.of_trait and function.of_trait not in traits]
    seen, left = set(map(id, start)), list(start)
    while left:
        for function in called(left.pop()):
            if id(function) not in seen:
                seen.add(id(function))
                left.append(function)
    return seen


def listed():
    """The calls and the types that the first column of the table of docs/architecture.md names, each with its crate, if the row names one."""
    section = text_of('docs', 'architecture.md').split(f'## {TABLE}')[1].split('\n## ')[0]
    crates, found = set(standing(TOP)), set()
    for row in re.findall(r'^\| (.*?) \|', section, re.M):
        for part in row.split('; '):
            words = TICKED.findall(part)
            crate = next((word for word in words if word in crates), None)
            owner = None
            if words == [crate]:
                found.add((crate, ALL))
            for word in words:
                if word not in crates:
                    owner = word.split('::')[0] if '::' in word else owner
                    found.add((crate, word if '::' in word or owner is None or word[0].isupper() else f'{owner}::{word}'))
    return found


def unreached_differ():
    """None, or the public calls that no command reaches and the table doesn't name, and those of the table that one reaches."""
    functions, exported = read()
    public, names = handed_out(functions, exported), listed()
    maybe, surely = reached(functions, False), reached(functions, True)

    def are_listed(function, words):
        return (function.crate, ALL) in names or any((crate, word) in names for crate in (None, function.crate) for word in words)

    known = {ALL} | {word for function in public for word in (function.shown, function.owner)} | {word for _, word in exported}
    found = [f'the table names {name}, which is no public call' for _, name in sorted(names, key=str) if name not in known]
    for function in public:
        if id(function) not in maybe and not is_law(function) and not are_listed(function, (function.shown, function.owner)):
            found.append(f'no command reaches {function.shown} of {function.crate}')
        if id(function) in surely and are_listed(function, (function.shown,)):
            found.append(f'a command reaches {function.shown} of {function.crate}')
    return f'{TABLE} of docs/architecture.md: {"; ".join(found)}' if found else None


# ---- calls that may wait, trusted crates, limits

def passage(document, begin, end):
    """The text of a document between two words."""
    return text_of('docs', document).split(begin, 1)[1].split(end, 1)[0]


def differ(there, wanted, words):
    """None, or what of two sets of names differs."""
    told = [f'{words} lacks {name}' for name in sorted(wanted - there)] + [f'{words} has {name}' for name in sorted(there - wanted)]
    return '; '.join(told) or None


def waiting_differ():
    """None, or the calls that may wait and aren't named, and those that are named and can't."""
    functions, exported = read()
    may = {function.shown for function in handed_out(functions, exported) if re.search(r'\bWait\b', function.signature)}
    there = set(TICKED.findall(passage('theorems.md', 'may wait for workers: ', '.')))
    return differ(there, may | {'main'}, 'docs/theorems.md, of calls that may wait,')


def trusted_differ():
    """None, or how the ported crates of docs/theorems.md differ from those of crates.txt."""
    crates = standing(TOP)
    lines = [line.partition(':') for line in text_of('crates.txt').splitlines() if ':' in line and not line.startswith('#')]
    ported = {other for _, _, others in lines for other in others.split() if other not in crates}
    return differ(set(TICKED.findall(passage('theorems.md', 'and of the ported crates ', '.'))), ported, 'docs/theorems.md, of trusted crates,')


def limits_differ():
    """None, or the numbers that the laws `limits` and the table of docs/formats.md don't share."""
    said = set()
    for crate in product():
        for name in os.listdir(os.path.join(CRATES, crate, 'src')):
            if name.startswith('law'):
                for law in re.findall(r'^pub fn limits\(\)\n(.*?)^\{', text_of('crates', crate, 'src', name), re.M | re.S):
                    said |= {int(number) for _, number in LIMIT.findall(law)}
    rows = re.findall(r'^\| .* \| (.*) \|$', passage('formats.md', '\n## Limits\n', '\n## '), re.M)
    there = {int(number.replace(',', '')) for row in rows[1:] for number in re.findall(r'\d[\d,]*\d|\d', row.split(':')[0])} - {0, 1}
    return differ(set(map(str, there)), set(map(str, said)), 'the table of limits in docs/formats.md')


def checks():
    """One for each list."""
    yield Check('the calls that no command runs', partial(unreached_differ))
    yield Check('the calls that may wait', partial(waiting_differ))
    yield Check('the crates that are trusted', partial(trusted_differ))
    yield Check('the numbers of the limits', partial(limits_differ))
