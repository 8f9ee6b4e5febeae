"""The first goal that fails, as the kit's answers have it."""
import re
from dataclasses import dataclass

SAID = re.compile(r'must-fail (\w+)/([\w.-]+)\.edit: (.*)$')
REFUSED = re.compile(r'refused, as it must be(?: \((only [^)]*)\))?(?:: (.*))?$')
MESSAGE = re.compile(r'^(?:note: )?(?:\./)?([\w./+-]+?):\d+:\d+: (?:error(?:\[[\w-]+\])?: )?(.*)$')
ERROR = re.compile(r'^(?:so far: )?(?:\./)?([\w./+-]+?):\d+:\d+: error[^`\n]*`([^`]+)`', re.M)
UNPROVED = re.compile(r'^fn \w+::(\S+): (?:not proved|no proof)', re.M)


@dataclass
class Answer:
    """What was said of a wrong body. `goal` is None if it isn't refused, or in a way that says little of a contract."""
    goal: str
    words: str


def function_of(path):
    """The function that a proof file or a source file is about, as far as the path tells it."""
    parts = path.removesuffix('.antt').removesuffix('.rt').split('/')
    return '::'.join(part for part in parts if part not in ('src', 'proofs', 'specs', 'Answers', 'Invariants', 'Proof'))


def goal_of(message):
    """The goal that a message of the prover is about, in backticks, with its function."""
    told = MESSAGE.match(message)
    if not told:
        return message
    first = re.match(r'`([\w+-]+)`: ', told[2])
    goals = [first[1]] if first else [name for name in re.findall(r'`([^`]+)`', told[2]) if '-' in name or name == 'returns']
    words = f'`{goals[0]}`' if goals else told[2].split(' (')[0] + ','
    return f'{words} of `{function_of(told[1])}`'


def answers(text):
    """What `rt ci` or `rt must-fail` says of each edit, by crate and name."""
    found = {}
    for said in map(SAID.search, text.splitlines()):
        if said:
            refused = REFUSED.match(said[3])
            goal = goal_of(refused[2]) if refused and refused[2] and not refused[1] else None
            found[said[1], said[2]] = Answer(goal, said[3])
    return found


def first_goal(text):
    """The lemma, goal or function that `rt check` says first isn't proved, and its file. None if it says of none."""
    told = ERROR.search(text)
    if told:
        return f'`{told[2]}` of `{function_of(told[1])}`'
    told = UNPROVED.search(text)
    return f'`{told[1]}`' if told else None
