"""Wrong bodies and weakened definitions fit the repository as it is: no name stands twice, each old text stands once in its file, each
mutation that the gate doesn't try says where it was refused, and those of each crate were tried on the promises that it has now."""
import os
import re
from collections import Counter
from functools import partial

from harness import CRATES, TOP, Check, standing
from mutations import DEFINITIONS, edits_of, of_crate, read, read_sums, texts
from promises import of_folder

# a row of docs/proving/edits.md: a crate, its wrong bodies that are owed, and those that the gate has beside them
IN_GATE = re.compile(r'^\| `(\w+)` \| ((?:`\w+`(?:, `\w+`)*)?) \| ((?:`\w+`(?:, `\w+`)*)?) \|$', re.M)
MOST_BESIDE = 3
REFUSED = re.compile(r'(\w+), \S.*$')
TRIED = re.compile(r'\d{4}-\d\d-\d\d on [0-9a-f]{8,}$')


def names():
    """The names of all wrong bodies."""
    bodies = [mutation for crate in standing(TOP) for mutation in edits_of(crate)]
    return {mutation.name for mutation in bodies + [mutation for name in texts() if name != DEFINITIONS for mutation in read(name)[1]]}


def misfits(mutation):
    """What is wrong with a mutation beside its file."""
    path = os.path.join(CRATES, mutation.file)
    if not os.path.isfile(path):
        return f'there is no {mutation.file}'
    olds, news = mutation.all_of('old'), mutation.all_of('new')
    if not olds or len(olds) != len(news):
        return f'{len(olds)} old texts and {len(news)} new ones'
    with open(path) as file:
        text = file.read()
    made = mutation.made_in(text)
    if made is None:
        return f'an old text does not stand once, as whole words, in {mutation.file}'
    return 'it changes nothing' if made == text else None


def odd_answer(mutation, crates):
    """What is wrong with the words on where and when a mutation was refused."""
    refused, tried = REFUSED.match(mutation.says('refused') or ''), mutation.says('tried')
    if not refused or refused[1] not in crates:
        return 'it does not say which crate refuses it, and where'
    return None if tried is None or TRIED.match(tried) else f'it was tried {tried}, and not on a day and a commit'


def told(mutations, wrong):
    """None, or the mistakes that something is wrong with."""
    found = [f'{mutation.mistake}: {why}' for mutation in mutations for why in [wrong(mutation)] if why]
    return '; '.join(found) or None


def twice(names):
    return [f'{name} stands twice' for name, count in Counter(names).items() if count > 1]


def wrong_in_crate(crate):
    """None, or what is wrong with the wrong bodies of a crate: those of the gate, and those of its text."""
    gate, further = edits_of(crate), read(crate)[1] if crate in texts() else []
    strangers = [f'{mutation.mistake}: it is no body of {crate}' for mutation in further if not mutation.file.startswith(f'{crate}/src/')]
    found = [*twice(mutation.name for mutation in gate + further), *strangers, told(gate + further, misfits),
             told(further, partial(odd_answer, crates=[crate]))]
    return '; '.join(filter(None, found)) or None


def wrong_in_definitions():
    """None, or what is wrong with the weakened definitions."""
    mutations = read(DEFINITIONS)[1]
    found = [*twice(f'{mutation.file}: {mutation.mistake}' for mutation in mutations), told(mutations, misfits),
             told(mutations, partial(odd_answer, crates=standing(TOP)))]
    return '; '.join(filter(None, found)) or None


def of_no_crate():
    """None, or the texts that are named for no crate."""
    found = [name for name in texts() if name != DEFINITIONS and name not in standing(TOP)]
    return f'no crates: {", ".join(found)}' if found else None


def others_in_gate():
    """None, or what differs between the wrong bodies of the gate and the table of docs/proving/edits.md."""
    with open(os.path.join(TOP, 'docs', 'proving', 'edits.md')) as file:
        rows = {crate: [set(re.findall(r'\w+', names)) for names in both] for crate, *both in IN_GATE.findall(file.read())}
    told = [f'{crate}: more than {MOST_BESIDE} beside the owed ones' for crate, (_, beside) in rows.items() if len(beside) > MOST_BESIDE]
    for crate in standing(TOP):
        there, wanted = {mutation.name for mutation in edits_of(crate)}, set().union(*rows.get(crate, ()))
        told += [f'{crate}: {name} is not in the gate' for name in sorted(wanted - there)]
        told += [f'{crate}: {name} is in the gate, and not in the table' for name in sorted(there - wanted)]
    return '; '.join(told) or (None if rows else 'docs/proving/edits.md has no table of the wrong bodies of the gate')


def untried():
    """None, or the crates whose promises are others than those on which their further wrong bodies and weakened definitions were tried."""
    now, then = of_folder(TOP), read_sums()
    with_some = [crate for crate in standing(TOP) if of_crate(crate)]
    found = [crate for crate in with_some if then.get(crate) != now.sum_of(crate)]
    strangers = [crate for crate in then if crate not in with_some]
    if strangers:
        return f'tests/mutations/promises.sums names {", ".join(strangers)}, of which there is nothing to try'
    return f'a definition or a clause changed in or below {", ".join(found)}: `tests/mutations/run --changed FOLDER`, in a clone of the ' \
           'repository, tries what the gate does not' if found else None


def checks():
    """One for each crate with wrong bodies, two for the texts, one for those of the gate, and one for what was tried."""
    for crate in standing(TOP):
        if edits_of(crate) or crate in texts():
            yield Check(f'the wrong bodies of {crate}', partial(wrong_in_crate, crate))
    yield Check('the weakened definitions', partial(wrong_in_definitions))
    yield Check('the texts of wrong bodies', partial(of_no_crate))
    yield Check('the wrong bodies of the gate', partial(others_in_gate))
    yield Check('the promises on which wrong bodies were tried', partial(untried))
