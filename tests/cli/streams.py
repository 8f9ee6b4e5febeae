"""Standard streams and files that can't be read or written."""
import os
import subprocess
from functools import partial

from program import BOARDS, LONGEST, PROGRAM, Check, Ran, board, check, differs, fault, run, strategy, text_of, written

READ_FAULT = fault(5, 'read fault')
WRITE_FAULT = fault(5, 'write fault')
INPUT, OUTPUT, ERRORS = 0, 1, 2
PAIR, PAIR_STRATEGY, CHAIN = board('one-pair'), strategy('one-pair'), board('chain-of-three')
# a file that is opened and can't be read, by whoever asks
UNREADABLE = '/proc/self/mem'


# ---- runs with such a stream

def fails_on_full_device(words, given):
    """None where a run whose output takes nothing tells of a failed write."""
    with open('/dev/full', 'wb') as device:
        return differs(run(words, input=given, stdout=device), WRITE_FAULT)


def full(name, words, given=b''):
    """The check of a run on a full device."""
    return Check(name, partial(fails_on_full_device, words, given))


def closed(name, wanted, words, stream, given=b''):
    """The check of a run of which a standard stream is closed."""
    return check(name, wanted, words, input=given, preexec_fn=partial(os.close, stream))


def close(streams):
    """Closes these streams."""
    for stream in streams:
        os.close(stream)


def files_of(process):
    """The files that a process has open, by their numbers."""
    folder = f'/proc/{process}/fd'
    return {int(number): os.readlink(f'{folder}/{number}') for number in os.listdir(folder)}


def opens_elsewhere(path, streams):
    """None where a board in a pipe of this name isn't opened in place of one of these standard streams, which are closed."""
    os.mkfifo(path)
    with subprocess.Popen([PROGRAM, 'solve', path], stdin=subprocess.DEVNULL, stdout=subprocess.PIPE, stderr=subprocess.PIPE,
                          preexec_fn=partial(close, streams)) as reader:
        with open(path, 'wb') as pipe:
            opened = {}
            while path not in opened.values() and reader.poll() is None:
                opened = files_of(reader.pid)
            pipe.write(text_of(CHAIN))
        reader.wait(LONGEST)
    boards = [number for number, name in opened.items() if name == path]
    return None if boards and min(boards) > ERRORS else f'{opened}'


def leaves_on_folder(wanted, words):
    """None where a run whose standard input is a folder leaves what is wanted."""
    opened = os.open(BOARDS, os.O_RDONLY)
    try:
        return differs(run(words, stdin=opened), wanted)
    finally:
        os.close(opened)


def folder(name, wanted, words):
    """The check of a run whose standard input is a folder."""
    return Check(name, partial(leaves_on_folder, wanted, words))


def fails_on_closed_pipe(words):
    """None where a run whose reader leaves after a byte tells of a failed write."""
    with subprocess.Popen([PROGRAM, *words], stdin=subprocess.DEVNULL, stdout=subprocess.PIPE, stderr=subprocess.PIPE) as writer:
        writer.stdout.read(1)
        writer.stdout.close()
        errors = writer.stderr.read()
        return differs(Ran(writer.wait(LONGEST), errors=errors), WRITE_FAULT)


# ---- checks

def joined_and_check():
    """Those of the checker, on joined and on separate texts."""
    joined = text_of(os.path.join(BOARDS, 'chain-of-three-least-two.joined'))
    yield full('a full device', [], joined)
    yield folder('a directory as input', READ_FAULT, [])
    yield full('check on a full device', ['check', PAIR, PAIR_STRATEGY])
    yield check('a board that can not be read', READ_FAULT, ['check', UNREADABLE, PAIR_STRATEGY])
    yield check('a document that can not be read', READ_FAULT, ['check', PAIR, UNREADABLE])


def solve_and_report(nested):
    """Those of the two commands that solve; the document of the nested board is longer than a pipe holds."""
    for command in ('solve', 'report'):
        yield check(f'{command} of a board that can not be read', READ_FAULT, [command, UNREADABLE])
        yield full(f'{command} on a full device', [command, nested])
    yield Check('solve on a closed pipe', partial(fails_on_closed_pipe, ['solve', nested]))


def plays():
    """Those of plays, which have written their first lines when they read."""
    yield full('a play on a full device', ['play', '--side', 'adversary', CHAIN], b'0\n')
    yield full('a climb on a full device', ['climb', '2'], b'0\n')
    opening = fault(5, 'read fault', b'value 2\nat 0 0\nask 0\n')
    yield folder('a play with a folder for lines', opening, ['play', '--side', 'labeller', CHAIN])
    yield folder('a climb with a folder for lines', fault(5, 'read fault', b'levels 2\nat 0 0\n'), ['climb', '2'])


def closed_streams(work):
    """Those of standard streams that are closed, for jobs that read standard input and for those that don't."""
    board_and_proof = text_of(os.path.join(BOARDS, 'chain-of-three-least-two.joined'))
    typed = {'a joined check': ([], board_and_proof), 'a play as the labeller': (['play', '--side', 'labeller', CHAIN], b'1\nquit\n'),
             'a play as the adversary': (['play', '--side', 'adversary', CHAIN], b'1\nquit\n'), 'a climb': (['climb', '2'], b'0\nquit\n')}
    others = {'check': (['check', PAIR, PAIR_STRATEGY], b''), 'solve': (['solve', CHAIN], b''), 'report': (['report', CHAIN], b''),
              'a nested board': (['nested', '2', '2'], b''), 'help': (['--help'], b'')}
    for name, (words, given) in typed.items():
        yield closed(f'{name} on a closed standard input', READ_FAULT, words, INPUT)
    for name, (words, given) in others.items():
        yield closed(f'{name} beside a closed standard input', run(words), words, INPUT)
    for name, (words, given) in [*typed.items(), *others.items()]:
        yield closed(f'{name} on a closed standard output', WRITE_FAULT, words, OUTPUT, given)
        done = run(words, input=given)
        yield closed(f'{name} beside a closed standard error', Ran(done.status, done.output), words, ERRORS, given)
    yield closed('a fault told to a closed standard error', Ran(1), ['solve', PAIR_STRATEGY], ERRORS)
    yield closed('a closed standard input as a board', READ_FAULT, ['solve', '/dev/stdin'], INPUT)
    yield check('all standard streams are closed', Ran(5), ['solve', CHAIN], preexec_fn=partial(close, (INPUT, OUTPUT, ERRORS)))
    for streams in ([INPUT], [OUTPUT], [ERRORS], [INPUT, OUTPUT, ERRORS]):
        path = os.path.join(work, f'pipe-{"-".join(map(str, streams))}')
        yield Check(f'no board in place of the streams {streams}', partial(opens_elsewhere, path, streams))


def checks(work):
    """Those of each command."""
    yield from joined_and_check()
    yield full('a nested board on a full device', ['nested', '6', '6'])
    yield full('help on a full device', ['--help'])
    yield from solve_and_report(written(work, 'streams.board', run(['nested', '4', '4']).output))
    yield from plays()
    yield from closed_streams(work)
