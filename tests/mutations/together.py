"""Wrong bodies tried together: one check of a crate has a wrong body in each of many functions.

A wrong body changes no promise, so each function is proved, or isn't, as if the others had their own bodies. A function that calls one that
isn't proved gets no answer of its own, and waits for the next check.
"""
import os
import re
import subprocess

from answers import ERROR, function_of
from promises import FUNCTION, IMPL, NAME, TOKEN, body_of, closing, marks

VERDICT = re.compile(r'^fn (\w+)::(\S+): (not proved|no proof|proved)(.*)$', re.M)
WAITS = re.compile(r'it (?:calls|passes) ')
OPEN_GOAL = re.compile(r'did not prove (`[^`]+`)')


def read_file(path):
    with open(path) as file:
        return file.read()


def write_files(texts):
    for path, text in texts.items():
        with open(path, 'w') as file:
            file.write(text)


# ---- which function a wrong body is in

def blanked(text):
    """A source text of the same length without comments."""
    return TOKEN.sub(lambda found: ' ' * len(found[0]) if found['comment'] else found[0], text)


HEAD = re.compile(r'^\s*(?:<(?P<own>(?:[^<>]|<[^<>]*>)*)>)?\s*(?:(?P<trait>.*) for )?(?P<kind>\w+)(?:<(?P<given>[^<>]*)>)?', re.S)
DEFAULTS = r'\bstruct {}<([^;{{]*?=[^;{{]*?)>\s*\{{'


def type_of(head, text):
    """The type of an impl with this head, and what the kit puts behind the type's name: the trait with its arguments, but for those that are
    the impl's own; or the arguments that a type of this text has, if it takes more and the others are left to their defaults."""
    found = HEAD.match(head)
    own = NAME.findall(re.sub(r':[^,]*', '', found['own'] or ''))
    behind = ''.join(name for name in re.findall(r"(?<!')\b\w+", found['trait'] or '') if name not in own)
    taken, given = re.search(DEFAULTS.format(found['kind']), text), re.findall(r"(?<!')\b\w+", found['given'] or '')
    all_of_it = [one for one in taken[1].split(',') if not one.strip().startswith("'")] if taken else []
    is_short = not found['trait'] and len(given) < len(all_of_it)
    return found['kind'], ''.join(f'+{name}' for name in given) if is_short else behind


def owners(text):
    """The spans of the impls and traits of a text without comments, each with the type and the words behind its name."""
    tokens = marks(text)
    for found in [*IMPL.finditer(text), *re.finditer(r'\btrait(?P<head>\s+\w+[^{;]*)\{', text)]:
        at = next(index for index, (_, start, _) in enumerate(tokens) if start == found.end() - 1)
        yield found.start(), tokens[closing(tokens, at)][2], type_of(found['head'], text)


def bodies(text):
    """The spans of the bodies of the functions of a text, each with the function's name, and the type that it is of and the words behind
    that, if it is a method."""
    text = blanked(text)
    tokens, spans = marks(text), list(owners(text))
    for at, (mark, start, _) in enumerate(tokens):
        if mark == 'fn' and FUNCTION.match(text, start):
            first, last = body_of(tokens, text, at)
            owner = [name for begin, end, name in spans if begin < start < end]
            yield tokens[first][1], tokens[last][2], (*(owner[-1] if owner else ('', '')), NAME.search(text, start + 2)[0])


def home_of(top, mutation, kind, behind):
    """The words that the kit puts before a function: those of the file of its type, if it is a method of no trait, or of its own."""
    file = mutation.file.partition('/src/')[2]
    if kind and not behind:
        source = os.path.join(top, 'crates', mutation.crate, 'src')
        declared = re.compile(rf'\b(?:struct|enum|trait)\s+{kind}\b')
        files = [os.path.join(folder, name) for folder, _, names in sorted(os.walk(source)) for name in sorted(names)]
        file = next((os.path.relpath(path, source) for path in files if declared.search(blanked(read_file(path)))), file)
    parts = file.removesuffix('.rt').split('/')
    return parts if parts[-1] not in ('lib', 'main') else parts[:-1]


def function_with(top, mutation, text):
    """The function whose body a mutation of this text changes, as the kit names it. None if it changes something else, or more than one."""
    places = [text.index(old) for old in mutation.all_of('old') if text.count(old) == 1]
    found = {name for begin, end, name in bodies(text) if any(begin <= at < end for at in places)}
    if len(found) != 1:
        return None
    kind, behind, name = found.pop()
    return '::'.join([*home_of(top, mutation, kind, behind), *([kind + behind] if kind else []), name])


# ---- a check

class Check:
    """What one check of a crate says of some functions of it."""

    def __init__(self, top, crate, functions):
        words = [word for name in sorted(functions) for word in ('--only', name)]
        done = subprocess.run(['rt', 'check', *words], cwd=os.path.join(top, 'crates', crate), stdout=subprocess.PIPE, stderr=subprocess.STDOUT,
                              text=True)
        self.printed, self.verdicts = done.stdout, {}
        for of, name, verdict, more in VERDICT.findall(done.stdout):
            if of == crate:
                self.verdicts[name] = verdict, more

    def goal(self, name, more):
        """The first goal of a function that fails."""
        its = [goal for path, goal in ERROR.findall(self.printed) if function_of(path) == name]
        left = OPEN_GOAL.search(more)
        return f'`{its[0]}` of `{name}`' if its else f'{left[1]} of `{name}`' if left else f'`{name}`'

    def says(self, name):
        """The goal at which a function is refused, '' if it is proved, or None if there is no answer."""
        verdict, more = self.verdicts.get(name, ('', ''))
        if verdict == 'proved':
            return ''
        return self.goal(name, more) if verdict and not WAITS.search(more) else None


# ---- some wrong bodies

def chosen(top, waiting, most):
    """The functions of as many wrong bodies as one check may have, by their names, and the files' own texts and those that have them."""
    functions, own, made = {}, {}, {}
    for mutation in waiting:
        path = os.path.join(top, 'crates', mutation.file)
        if path not in own:
            own[path] = made[path] = read_file(path)
        function, text = function_with(top, mutation, own[path]), mutation.made_in(made[path])
        if function and text and function not in functions.values() and len(functions) < most:
            functions[mutation.name], made[path] = function, text
    return functions, own, made


def answered(top, crate, waiting, most):
    """What one check with some of these wrong bodies answers, each by its name, and the names of all that it had."""
    functions, own, made = chosen(top, waiting, most)
    if not functions:
        return {}, functions
    try:
        write_files(made)
        check = Check(top, crate, functions.values())
    finally:
        write_files(own)
    said = {name: check.says(function) for name, function in functions.items()}
    found = {name: goal for name, goal in said.items() if goal is not None}
    print(f'{crate}: a check of {len(functions)} wrong bodies answers {len(found)}', flush=True)
    return found, functions


def tried_together(top, crate, mutations):
    """Of each wrong body of a crate that some check answers, by its name, the goal that refuses it, or '' if it is proved."""
    found, waiting, most = {}, list(mutations), len(mutations)
    while waiting:
        more, had = answered(top, crate, waiting, most)
        found |= more
        if more or len(had) <= 1:
            done, most = more or had or {it.name for it in waiting}, len(mutations)
        else:
            # One that doesn't compile leaves the others without an answer, until it is alone.
            done, most = {}, len(had) // 2
        waiting = [mutation for mutation in waiting if mutation.name not in done]
    return found


# ---- a weakened definition

def imported_modules(path, crate):
    """The modules of proofs of a crate that a proof file imports."""
    return set(re.findall(rf'^(?:pub )?use Rattle\.{crate}\.proofs\.(\w+)', read_file(path), re.M))


def resting_on(top, crate, module):
    """The functions of a crate whose proofs rest on a module of lemmas, each as the kit names it, those that rest on few modules first."""
    proofs = os.path.join(top, 'crates', crate, 'proofs')
    modules = {name.removesuffix('.antt') for name in os.listdir(proofs) if name.endswith('.antt')}
    direct = {name: imported_modules(os.path.join(proofs, f'{name}.antt'), crate) & modules for name in modules}

    def all_of(names):
        found, left = set(), set(names) & modules
        while left:
            found |= left
            left = set().union(*(direct[name] for name in left)) - found
        return found

    found = {}
    for folder, _, names in os.walk(proofs):
        if folder != proofs:
            its = all_of(set().union(*(imported_modules(os.path.join(folder, name), crate) for name in names if name.endswith('.antt')), set()))
            if module in its:
                found[os.path.relpath(folder, proofs).replace('/', '::')] = len(its)
    return sorted(found, key=found.get)


def function_of_refusal(top, mutation):
    """The crate that last refused a mutation, and a function of it whose check says so again; None without one."""
    refused = re.match(r'(\w+), (?:.* of )?`([^`]+)`$', mutation.says('refused') or '')
    if not refused:
        return None
    crate, place = refused.groups()
    functions = resting_on(top, crate, place)[:1] if '::' not in place and os.path.isfile(
        os.path.join(top, 'crates', crate, 'proofs', f'{place}.antt')) else [place]
    return (crate, functions[0]) if functions else None
