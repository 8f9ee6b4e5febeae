"""The blocks of documents that show commands and their output, run as they stand.

A document is one session of a shell: its blocks of commands, which are marked `sh`, run one after the other, in a folder that has
links to all that the top of the repository has, with the built program on the path. A block marked `text` is the output of the block of
commands before it, and a block of commands without one writes nothing. What the commands write to standard error isn't compared.
A comment before a block says what else it is:

    <!-- not run: REASON -->     commands that the session passes over, with the output that follows them
    <!-- typed: LINES -->        commands that run in a terminal, in which these lines, parted by commas, are typed
    <!-- output of: COMMANDS --> the output of commands that the document doesn't show
"""
import ast
import os
import pty
import re
import select
import subprocess
import tempfile
import termios
from dataclasses import dataclass
from functools import partial

from harness import BOARDS, BUILD, PROGRAM, TOP, Check

DOCUMENTS = ('README.md', 'docs/designers.md', 'boards/README.md')
BLOCK = re.compile(r'(?:^<!-- (not run|typed|output of):? (.*?) -->\n+)?^```(\w*)\n(.*?)^```$', re.M | re.S)
INDENTED = re.compile(r'^    \S', re.M)
# the oldest Python that the scripts of documents run with, as docs/designers.md says
OLDEST_PYTHON = 3, 8


@dataclass
class Block:
    """A block of a document: its kind, its text, and the mark before it with what it says."""
    kind: str
    text: str
    mark: str
    says: str


def blocks_of(document):
    """The blocks of a document, which has no others than marked ones."""
    with open(os.path.join(TOP, document)) as file:
        text = file.read()
    if INDENTED.search(BLOCK.sub('', text)):
        raise ValueError('a block without its marks')
    found = []
    for mark, says, kind, body in BLOCK.findall(text):
        if mark == 'output of':
            found.append(Block('sh', f'{says}\n', '', ''))
            mark = says = ''
        found.append(Block(kind, body, mark, says))
    strange = [block for block in found if block.kind not in ('sh', 'text')]
    if strange:
        raise ValueError(f'a block that is neither commands nor output: {strange[0].text[:60]!r}')
    return found


# ---- a terminal

def shown_in_terminal(words, folder, lines, wanted):
    """The text of a terminal in which the commands run. A line is typed when it is the next one that is wanted there."""
    child, terminal = pty.fork()
    if child == 0:
        os.chdir(folder)
        os.execvp('bash', ['bash', '-c', words])
    settings = termios.tcgetattr(terminal)
    settings[1] &= ~termios.OPOST
    termios.tcsetattr(terminal, termios.TCSANOW, settings)
    left, shown = list(lines), b''

    def read():
        """Whether more came."""
        nonlocal shown
        try:
            more = os.read(terminal, 4096) if select.select([terminal], [], [], 20)[0] else b''
        except OSError:
            more = b''
        shown += more
        return more != b''

    for count, line in enumerate(wanted.splitlines(), 1):
        if left and line == left[0]:
            os.write(terminal, f'{left.pop(0)}\n'.encode())
        while shown.count(b'\n') < count and read():
            pass
    while read():
        pass
    os.close(terminal)
    os.waitpid(child, 0)
    return shown.decode()


# ---- a session

def folder_of_session(work):
    """A folder with links to all that the top of the repository has."""
    folder = tempfile.mkdtemp(dir=work)
    for name in os.listdir(TOP):
        if not name.startswith('.git'):
            os.symlink(os.path.join(TOP, name), os.path.join(folder, name))
    return folder


def session(document, work):
    """None where each block of the document prints what the document says, else the first that doesn't."""
    folder = folder_of_session(work)
    output = os.path.join(folder, '.output')
    shell = subprocess.Popen(['bash'], cwd=folder, stdin=subprocess.PIPE, stdout=subprocess.PIPE, stderr=subprocess.DEVNULL, text=True,
                             env={**os.environ, 'PYTHONDONTWRITEBYTECODE': '1', 'PATH': f'{os.environ["PATH"]}:{os.path.dirname(PROGRAM)}'})
    blocks = blocks_of(document)
    for place, block in enumerate(blocks):
        after = blocks[place + 1] if place + 1 < len(blocks) else None
        wanted = after.text if after and after.kind == 'text' and not after.mark else ''
        if block.kind != 'sh' or block.mark == 'not run':
            continue
        if block.mark == 'typed':
            got = shown_in_terminal(f'PATH=$PATH:{os.path.dirname(PROGRAM)}; {block.text}', folder, block.says.split(', '), wanted)
        else:
            shell.stdin.write(f'{{ {block.text} }} > {output} < /dev/null\necho done\n')
            shell.stdin.flush()
            if shell.stdout.readline() != 'done\n':
                return f'the session ended in {block.text!r}'
            with open(output) as file:
                got = file.read()
        if got != wanted:
            return f'{block.text!r} printed {got[:400]!r}, and not {wanted[:400]!r}'
    shell.stdin.close()
    return None if shell.wait() == 0 else 'the last command failed'


def passed_over():
    """The reasons for which blocks aren't run, each with its document."""
    return [f'{document}: {block.says}' for document in DOCUMENTS for block in blocks_of(document) if block.mark == 'not run']


def keeps_to_python():
    """None where the oldest Python has the grammar of each script of boards/; of what a script calls it says nothing."""
    for name in sorted(os.listdir(BOARDS)):
        if name.endswith('.py'):
            with open(os.path.join(BOARDS, name)) as file:
                ast.parse(file.read(), name, feature_version=OLDEST_PYTHON)


def shows_build():
    """None where README.md has the words that build the program."""
    texts = [block.text for block in blocks_of('README.md')]
    return None if f'{BUILD}\n' in texts else f'README.md has no block {BUILD}'


def checks(work):
    """One for each document, and that README.md has the words by which the tests build the program."""
    for document in DOCUMENTS:
        yield Check(f'the blocks of {document}', partial(session, document, work))
    yield Check('the scripts of boards/', partial(keeps_to_python))
    yield Check('the words that build the program', partial(shows_build))
