"""A run of the built program, and checks of it: what a run left beside what it should leave."""
import os
import subprocess
from dataclasses import dataclass
from functools import partial

from harness import BOARDS, PROGRAM, TOP, Check

# the seconds after which a run is taken for one without an end
LONGEST = 300


@dataclass
class Ran:
    """What a run left, or should leave."""
    status: int = 0
    output: bytes = b''
    errors: bytes = b''


# ---- runs

def run(words, program=PROGRAM, **streams):
    """Runs the program on these words. Where `streams` doesn't say otherwise its input is empty, and what it writes is read."""
    if 'input' not in streams:
        streams.setdefault('stdin', subprocess.DEVNULL)
    streams.setdefault('stdout', subprocess.PIPE)
    done = subprocess.run([program, *words], stderr=subprocess.PIPE, timeout=LONGEST, **streams)
    return Ran(done.returncode, done.stdout or b'', done.stderr)


def fault(status, line, output=b''):
    """What a run leaves that ends with this line on standard error."""
    return Ran(status, output, f'{line}\n'.encode())


def cut(text):
    """Bytes as they are shown, the first of them where they are many."""
    return repr(text) if len(text) <= 200 else f'{text[:200]!r} and so on, {len(text)} bytes'


def shown(ran):
    """A run in a line."""
    return f'status {ran.status}, output {cut(ran.output)}, errors {cut(ran.errors)}'


def differs(got, wanted):
    """None, or what came and what was wanted."""
    return None if got == wanted else f'{shown(got)}; and not {shown(wanted)}'


# ---- checks of one run

def leaves(wanted, words, **streams):
    """None where a run on these words leaves what is wanted."""
    return differs(run(words, **streams), wanted)


def check(name, wanted, words, **streams):
    """The check that a run on these words leaves what is wanted."""
    return Check(name, partial(leaves, wanted, words, **streams))


def leaves_when_fed(wanted, source, words, **streams):
    """None where a run that reads by a pipe what another command writes leaves what is wanted."""
    with subprocess.Popen(source, stdout=subprocess.PIPE) as writer:
        got = run(words, stdin=writer.stdout, **streams)
    return differs(got, wanted)


def fed(name, wanted, source, words, **streams):
    """The check of a run that reads by a pipe what another command writes."""
    return Check(name, partial(leaves_when_fed, wanted, source, words, **streams))


def letters(count):
    """A command that writes the letter a so many times."""
    return ['sh', '-c', f"head -c {count} /dev/zero | tr '\\0' a"]


# ---- files

def board(name):
    """The path of a stored board."""
    return os.path.join(BOARDS, f'{name}.board')


def strategy(name):
    """The path of a stored document."""
    return os.path.join(BOARDS, f'{name}.proof')


def stored(ending):
    """The names of the files under boards/ that end so, without the ending."""
    return [file[:-len(ending)] for file in sorted(os.listdir(BOARDS)) if file.endswith(ending)]


def text_of(path):
    """The bytes of a file."""
    with open(path, 'rb') as file:
        return file.read()


def written(folder, name, text):
    """The path of a file that has these bytes now."""
    path = os.path.join(folder, name)
    with open(path, 'wb') as file:
        file.write(text)
    return path
