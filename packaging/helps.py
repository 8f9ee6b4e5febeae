"""The helps that the program prints, as data."""
import re
import subprocess
from dataclasses import dataclass, field

ITEM = re.compile(r' +(\S.*?)(?: {2,}(.*))?$')
# the heading of options that come with or without a command
EVERYWHERE = 'With or without a command:'
VALUES = re.compile(r' ?\[possible values: (.*)\]')


@dataclass
class Item:
    """A line of two columns: words, and their meaning, which may be missing."""
    words: str
    meaning: str

    @property
    def names(self):
        """The options among the words."""
        return re.findall(r'--?[\w-]+', self.words)

    @property
    def takes(self):
        """What the option takes, or None."""
        found = re.search(r'<(.*)>', self.words)
        return found and found[1]

    @property
    def values(self):
        """The words that the option takes, if there are few."""
        found = VALUES.search(self.meaning)
        return found[1].split(', ') if found else []

    @property
    def purpose(self):
        """The meaning without the words that it takes."""
        return VALUES.sub('', self.meaning)


@dataclass
class Block:
    """Lines that begin at the margin, as one text, and below them items, or lines as they stand."""
    text: str
    items: list
    lines: list


@dataclass
class Help:
    purpose: str
    usage: str = ''
    about: list = field(default_factory=list)
    commands: list = field(default_factory=list)
    arguments: list = field(default_factory=list)
    options: list = field(default_factory=list)
    after: list = field(default_factory=list)


def item(line):
    words, meaning = ITEM.match(line).groups()
    return Item(words, meaning or '')


def block(lines):
    at_margin = [line for line in lines if not line.startswith(' ')]
    items = [item(line) for line in lines if line.startswith(' ')]
    are_items = all(it.meaning for it in items)
    return Block(' '.join(at_margin), items if are_items else [], [] if are_items else [line.strip() for line in lines if line.startswith(' ')])


def read(text):
    """The help that has this text."""
    first, *blocks = [part.splitlines() for part in text.rstrip('\n').split('\n\n')]
    found = Help(' '.join(first))
    lists = {'Commands:': found.commands, 'Arguments:': found.arguments, 'Options:': found.options, EVERYWHERE: found.options}
    for lines in blocks:
        if lines[0].startswith('Usage: '):
            found.usage = lines[0].removeprefix('Usage: ')
        elif lines[0] in lists:
            lists[lines[0]] += map(item, lines[1:])
        else:
            (found.after if found.usage else found.about).append(block(lines))
    return found


def printed(program, words):
    return subprocess.run([program, *words], stdin=subprocess.DEVNULL, capture_output=True, text=True, check=True).stdout


def of_program(program):
    """The help of the program, and by name those of its commands."""
    whole = read(printed(program, ['--help']))
    return whole, {it.words: read(printed(program, [it.words, '--help'])) for it in whole.commands if it.words != 'help'}
