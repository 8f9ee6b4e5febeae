"""Common mistakes: what a run without a terminal leaves, to the byte, and the explanation of it at a terminal."""
import os
import pty
import subprocess
from contextlib import contextmanager, suppress
from dataclasses import dataclass, field, replace
from functools import partial
from math import comb

from board_texts import chain, empty, text as board_text
from harness import BOARDS, PROGRAM, TOP, Check
from program import LONGEST, Ran, board, differs, fault, run, shown, text_of, written

CHAIN = os.path.join(BOARDS, 'chain-of-three.board')
CHAIN_PROOF = os.path.join(BOARDS, 'chain-of-three.proof')
README = os.path.join(TOP, 'README.md')
# a document for the chain without its row for 2 0
MOST_WITHOUT_A_ROW = 'proof 1\nmost 2\nadversary 3\nat 0 0 for 2 ask 0\nat 1 0 for 1 ask 1\nat 1 2 for 0 ask 0\nend\n'


@dataclass
class Mistake:
    """Words, what a run on them leaves without a terminal, and the name and some words of the explanation at a terminal."""
    name: str
    words: list
    wanted: Ran
    about: str
    says: str
    given: bytes = b''
    # how the program is started
    before: list = field(default_factory=list)


# ---- runs

def read_all(end):
    """All bytes that a terminal shows, with its line ends as they were written."""
    shown_bytes = b''
    while True:
        try:
            part = os.read(end, 4096)
        except OSError:
            return shown_bytes.replace(b'\r\n', b'\n')
        if not part:
            return shown_bytes.replace(b'\r\n', b'\n')
        shown_bytes += part


def run_in_pipes(mistake):
    """What a run leaves whose streams are no terminals."""
    done = subprocess.run([*mistake.before, PROGRAM, *mistake.words], input=mistake.given, capture_output=True, timeout=LONGEST)
    return Ran(done.returncode, done.stdout, done.stderr)


def run_at_terminal(mistake):
    """What a run leaves whose standard error is a terminal."""
    ours, theirs = pty.openpty()
    with subprocess.Popen([*mistake.before, PROGRAM, *mistake.words], stdin=subprocess.PIPE, stdout=subprocess.PIPE, stderr=theirs) as started:
        os.close(theirs)
        with suppress(BrokenPipeError):
            started.stdin.write(mistake.given)
            started.stdin.close()
        output = started.stdout.read()
        errors = read_all(ours)
        status = started.wait(LONGEST)
    os.close(ours)
    return Ran(status, output, errors)


def is_as_wanted(got, wanted):
    """Whether a stream has these bytes, or begins with those before two dots."""
    return got.startswith(wanted[:-2]) if wanted.endswith(b'..') else got == wanted


def unasked(mistake, told):
    """None where a run in pipes that is asked to explain leaves what one leaves at a terminal: before a command, and after its words."""
    if mistake.about == 'pebbles' and mistake.says == 'UTF-8':
        return None
    placed = [['--explain', *mistake.words]]
    if mistake.words and mistake.wanted.status != 2:
        placed.append([*mistake.words, '--explain'])
    return next(filter(None, (differs(run_in_pipes(replace(mistake, words=words)), told) for words in placed)), None)


def explained(mistake):
    """None where the mistake is told to the byte without a terminal, and explained after the same bytes at one, or if that is asked for."""
    piped = run_in_pipes(mistake)
    wanted = mistake.wanted
    if piped.status != wanted.status or not is_as_wanted(piped.output, wanted.output) or not is_as_wanted(piped.errors, wanted.errors):
        return f'{shown(piped)}; and not {shown(wanted)}'
    told = run_at_terminal(mistake)
    note = told.errors[len(piped.errors):].decode()
    is_same = (told.status, told.output) == (piped.status, piped.output) and told.errors.startswith(piped.errors)
    is_note = note.startswith(f'{mistake.about}: ') and mistake.says in note and note.endswith('\n') and note.count('\n') == 1
    return unasked(mistake, told) if is_same and is_note else f'at a terminal {shown(told)}'


# ---- typed lines

# the greetings of plays
ASKING = 'type the number of a pebble, of which the first is 0; `quit` or Ctrl-D ends the play'
ANSWERING = 'type a label for the pebble that is asked for; `quit` or Ctrl-D ends the play'


@contextmanager
def at_terminals(words):
    """A run whose standard input and standard error are terminals, with the end that types and the end that is shown the errors.

    They are two, so that no typed line is echoed among the errors.
    """
    typing, keyboard = pty.openpty()
    screen, errors = pty.openpty()
    with subprocess.Popen([PROGRAM, *words], stdin=keyboard, stdout=subprocess.PIPE, stderr=errors) as started:
        os.close(keyboard)
        os.close(errors)
        yield started, typing, screen
    os.close(typing)
    os.close(screen)


def run_at_terminals(words, given):
    """What a run leaves for which these bytes are typed. One that asks for none may be over before."""
    with at_terminals(words) as (started, typing, screen):
        with suppress(OSError):
            os.write(typing, given)
        output = started.stdout.read()
        return Ran(started.wait(LONGEST), output, read_all(screen))


def quiet(words, given):
    """What a run on these bytes leaves without a terminal."""
    return run_in_pipes(Mistake('', words, Ran(), '', '', given=given))


def prompted(words, given, told):
    """None where a person who types this is told these lines, and all else is as without a terminal, where nothing is told."""
    piped = quiet(words, given)
    lines = ''.join(f'{line}\n' for line in told).encode()
    at_one = run_at_terminal(Mistake('', words, Ran(), '', '', given=given))
    return differs(run_at_terminals(words, given), Ran(piped.status, piped.output, lines)) or differs(at_one, Ran(piped.status, piped.output))


def noticed(words, told, given=b''):
    """None if a person whose standard error is a terminal is told these lines beside the work, and nothing is told elsewhere."""
    piped = quiet(words, given)
    at_one = run_at_terminal(Mistake('', words, Ran(), '', '', given=given))
    return differs(piped, Ran(output=piped.output)) or differs(at_one, Ran(output=piped.output, errors=told.encode()))


def greeted_and_counted(given, rows):
    """None if a person who types an accepted document after its board is greeted, and told this line after the verdict."""
    at_both = run_at_terminals([], given + b'\x04')
    lines = at_both.errors.decode().splitlines()
    same = differs(Ran(at_both.status, at_both.output), Ran(output=quiet([], given).output))
    return same or (None if len(lines) == 2 and 'Ctrl-D' in lines[0] and lines[1] == rows else f'{lines!r}')


def prompted_in_turn(words, told):
    """None where a wrong line is answered, and then the choices are told again, before another line is typed."""
    with at_terminals(words) as (started, typing, screen):
        os.write(typing, b'x\n')
        lines = b''
        while lines.count(told.encode()) < 2:
            lines += os.read(screen, 4096)
        answer = os.read(started.stdout.fileno(), 4096)
        os.write(typing, b'quit\n')
        started.stdout.read()
    return None if b'\nnot a' in answer else f'{lines!r} before {answer!r}'


def ungreeted(words):
    """None where a run at a terminal begins with the fault line that it has without one."""
    piped, told = quiet(words, b''), run_at_terminals(words, b'')
    return None if piped.errors and told.errors.startswith(piped.errors) else f'{shown(told)}; and without a terminal {shown(piped)}'


def greeted(words, says, given):
    """None where a run at a terminal begins with a line that says what can be typed, and without one says nothing of it."""
    with at_terminals(words) as (started, typing, screen):
        told = b''
        while b'\n' not in told:
            told += os.read(screen, 4096)
        os.write(typing, given)
        started.stdout.read()
    first = told.replace(b'\r\n', b'\n').split(b'\n')[0].decode()
    piped = quiet(words, given)
    return None if says in first and says.encode() not in piped.errors else f'{first!r}, and without a terminal {shown(piped)}'


# ---- mistakes

def in_board(good, old, new):
    """The text of a board with one part of it exchanged."""
    return good.replace(old, new).encode()


def of_boards(work):
    """Texts of boards with a fault, each with the fault's line and some words of its explanation."""
    with open(CHAIN) as file:
        good = file.read()
    version, pairs = 'line 1 Version', 'beats 1 0\nbeats 2 0\nbeats 2 1'
    texts = [
        ('an empty board', b'', version, 'it is empty'),
        ('Windows line ends', in_board(good, '\n', '\r\n'), version, 'Windows'),
        ('old Mac line ends', in_board(good, '\n', '\r'), version, 'a carriage return alone'),
        ('a byte order mark', b'\xef\xbb\xbf' + good.encode(), version, 'byte order mark'),
        ('UTF-16', good.encode('utf-16'), version, 'UTF-16'),
        ('a comment before a board', b'# mine\n' + good.encode(), version, 'line 1 must be'),
        ('another word for board', in_board(good, 'board', 'Board'), version, 'line 1 must be'),
        ('a space at the end of line 1', in_board(good, 'board 1', 'board 1 '), version, 'a space is at the end of the line; line 1 must be'),
        ('two spaces in line 1', in_board(good, 'board 1', 'board  1'), version, 'two spaces are side by side in the line'),
        ('a tab in line 1', in_board(good, 'board 1', 'board\t1'), version, 'a tab is in the line'),
        ('lines 2 and 3 exchanged', in_board(good, 'labels 3\npebbles 2', 'pebbles 2\nlabels 3'), 'line 2 Labels', 'labels V'),
        ('257 labels', in_board(good, 'labels 3', 'labels 257'), 'line 2 Labels', '257 is more than 256; line 2'),
        ('a leading zero', in_board(good, 'labels 3', 'labels 03'), 'line 2 Labels', 'no leading zero'),
        ('a board of one line', b'board 1\n', 'line 2 Labels', 'the text ends before this line; line 2'),
        ('a carriage return in line 2', in_board(good, 'labels 3', 'labels 3\r'), 'line 2 Labels', 'a carriage return is in the line'),
        ('seven pebbles', in_board(good, 'pebbles 2', 'pebbles 7'), 'line 3 Pebbles', '7 is more than 6; line 3'),
        ('no label in board 1', in_board(good, 'start 0 0', 'start 0 -'), 'line 4 Start', 'a `-` is in the line of a `board 1`'),
        ('labels alone in board 2', in_board(good, 'board 1', 'board 2'), 'line 4 Start', 'no `-` is in the line of a `board 2`'),
        ('too few places', in_board(good, 'start 0 0', 'start 0'), 'line 4 Start', 'places in the line: 1, pebbles: 2; line 4'),
        ('too many places', in_board(good, 'start 0 0', 'start 0 0 0'), 'line 4 Start', 'places in the line: 3, pebbles: 2; line 4'),
        ('a start out of range', in_board(good, 'start 0 0', 'start 0 3'), 'line 4 Start', 'labels of this board are below 3; line 4'),
        ('a leading zero in the start', in_board(good, 'start 0 0', 'start 0 00'), 'line 4 Start', 'no label has a leading zero; line 4'),
        ('a sign in the start', in_board(good, 'start 0 0', 'start -1 0'), 'line 4 Start', 'a `-` with digits after it is no label; line 4'),
        ('a space at the end', in_board(good, 'start 0 0', 'start 0 0 '), 'line 4 Start', 'a space is at the end of the line'),
        ('a space at the start', in_board(good, 'start 0 0', ' start 0 0'), 'line 4 Start', 'a space is at the start of the line'),
        ('two spaces', in_board(good, 'start 0 0', 'start  0 0'), 'line 4 Start', 'two spaces are side by side'),
        ('a tab', in_board(good, 'beats 1 0', 'beats\t1 0'), 'line 5 Beats', 'a tab is in the line'),
        ('an empty line', in_board(good, 'beats 1 0', '\nbeats 1 0'), 'line 5 Beats', 'the line is empty'),
        ('a label out of range', in_board(good, 'beats 1 0', 'beats 3 0'), 'line 5 Beats', '3 is no label of this board: they are below 3; the line'),
        ('a leading zero in a pair', in_board(good, 'beats 1 0', 'beats 1 00'), 'line 5 Beats', 'no label has a leading zero; the line must be'),
        ('a carriage return in a pair', in_board(good, 'beats 1 0', 'beats 1 0\r'), 'line 5 Beats', 'a carriage return is in the line'),
        ('another word for beats', in_board(good, 'beats 1 0', 'beat 1 0'), 'line 5 Beats', '`beats X Y`'),
        ('both directions', in_board(good, pairs, 'beats 0 1\nbeats 1 0'), 'line 6 TwoWay', 'line 5 has the same two labels the other way round'),
        ('a label that dominates itself', in_board(good, 'beats 1 0', 'beats 1 1'), 'line 5 SelfBeat', 'must differ'),
        ('pairs that do not ascend', in_board(good, pairs, 'beats 2 1\nbeats 1 0'), 'line 6 Order', 'before that of line 5; lines `beats X Y`'),
        ('a pair twice', in_board(good, pairs, 'beats 1 0\nbeats 1 0'), 'line 6 Order', 'the same pair is in line 5; lines `beats X Y`'),
        ('no end', in_board(good, 'end\n', ''), 'line 8 End', 'the text ends before this line; the last line must be `end`'),
        ('an end without its line feed', in_board(good, 'end\n', 'end'), 'line 8 End', 'no line feed at its end'),
        ('an end with a carriage return', in_board(good, 'end\n', 'end\r\n'), 'line 8 End', 'a carriage return is in the line'),
        ('an empty line after the end', good.encode() + b'\n', 'line 9 Trailing', 'nothing may follow'),
        ('a joined input as a board', good.encode() + open(CHAIN_PROOF, 'rb').read(), 'line 9 Trailing', 'a strategy document comes after'),
    ]
    for number, (name, text, line, says) in enumerate(texts):
        path = written(work, f'mistake-{number}.board', text)
        yield Mistake(name, ['solve', path], fault(1, f'board fault {line}'), path, says)
    large = written(work, 'mistake-large.board', empty(33))
    yield Mistake('a board that is too large', ['solve', large], fault(1, 'board too large'), large,
                  '1185921 configurations, and the most is 1048576; but its 6545 gaps are few enough for `--large`')
    few = written(work, 'mistake-few-labels.board', board_text(1, 20, [0] * 5, []))
    yield Mistake('a board that is too large and has few labels', ['solve', few], fault(1, 'board too large'), few,
                  'its 8855 gaps are few enough for `--large`; no start of this board lasts for ever')
    long_chain = written(work, 'mistake-long-chain.board', chain(17, 5))
    for words in ['report'], ['play', '--side', 'adversary']:
        yield Mistake(f'a board that is too large for {words[0]}', [*words, long_chain], fault(1, 'board too large'), long_chain,
                      '1419857 configurations, and the most is 1048576; but its 4845 gaps are few enough for `--large`')
    wider = written(work, 'mistake-wider.board', board_text(1, 144, [0] * 6, []))
    for words in ['report'], ['report', '--large'], ['play', '--side', 'labeller'], ['play', '--large', '--side', 'adversary']:
        yield Mistake(f'a board with too many gaps ({" ".join(words)})', [*words, wider], fault(1, 'board too large'), wider,
                      '552689424 gaps, each the labels of all pebbles but one, whichever pebble holds which, and the most is 536870912, with `--large`')
    blank = written(work, 'mistake-large-blank.board', board_text(2, 32, ['-'] + [0] * 3, []))
    yield Mistake('a board 2 that is too large', ['solve', blank], fault(1, 'board too large'), blank, 'its 6545 gaps are few enough for `--large`')
    long = written(work, 'mistake-long.board', b'board 1\n' + b' ' * 1_048_576)
    yield Mistake('a board that is too long', ['solve', long], fault(5, 'input too long'), long, '1048576 bytes')


def of_files(work):
    """Paths that can't be read, and files at the wrong place."""
    nowhere = os.path.join(work, 'nosuch.board')
    unread = fault(5, 'read fault')
    version = 'board fault line 1 Version'
    circle = os.path.join(work, 'circle.board')
    os.symlink(circle, circle)
    joined = os.path.join(BOARDS, 'chain-of-three-least-two.joined')
    yield Mistake('no such board', ['solve', nowhere], unread, nowhere, 'no such file')
    yield Mistake('no such board of a check', ['check', nowhere, CHAIN_PROOF], unread, nowhere, 'no such file')
    yield Mistake('no such document', ['check', CHAIN, nowhere], unread, nowhere, 'no such file')
    yield Mistake('an empty path', ['solve', ''], unread, 'the empty path', 'no such file')
    yield Mistake('a path with control characters', ['solve', '\x1b[1m\u009b31m\u0085\n\x7fé'], unread, '?[1m?31m???é', 'no such file')
    yield Mistake('links in a circle', ['solve', circle], unread, circle, 'lead back to themselves')
    yield Mistake('a file as a folder', ['solve', f'{CHAIN}/x.board'], unread, f'{CHAIN}/x.board', 'a file and no folder')
    yield Mistake('a name that is too long', ['solve', 'x' * 300], unread, 'x' * 300, 'longer than the system allows')
    yield Mistake('a folder as a board', ['solve', work], unread, work, 'folder')
    yield Mistake('a folder as a document', ['check', CHAIN, work], unread, work, 'folder')
    yield Mistake('a hyphen for standard input', ['solve', '-'], unread, '-', '/dev/stdin')
    yield Mistake('a hyphen for a document', ['check', CHAIN, '-'], unread, '-', '/dev/stdin')
    yield Mistake('README as a board', ['solve', README], fault(1, version), README, 'line 1 must be')
    for words in (['solve'], ['report'], ['play', '--side', 'labeller']):
        yield Mistake(f'a document as a board of {words[0]}', [*words, CHAIN_PROOF], fault(1, version), CHAIN_PROOF,
                      'it is a strategy document and no board\n')
    yield Mistake('board and document exchanged', ['check', CHAIN_PROOF, CHAIN], fault(1, version), CHAIN_PROOF, 'exchanged')
    yield Mistake('the document named twice', ['check', CHAIN_PROOF, CHAIN_PROOF], fault(1, version), CHAIN_PROOF, 'no board\n')
    yield Mistake('the board named twice', ['check', CHAIN, CHAIN], fault(1, 'proof fault line 1 Version'), CHAIN, 'given twice')
    other = os.path.join(BOARDS, 'three-cycle.board')
    yield Mistake('another board as a document', ['check', CHAIN, other], fault(1, 'proof fault line 1 Version'), other,
                  'it is a board and no strategy document\n')
    yield Mistake('a joined input as a document', ['check', CHAIN, joined], fault(1, 'proof fault line 1 Version'), joined,
                  '`pebbles < FILE`')


def of_documents(work):
    """Documents with a fault, and of other boards."""
    with open(CHAIN_PROOF) as file:
        good = file.read()
    with open(os.path.join(BOARDS, 'chain-of-three-least-two.joined')) as file:
        least = file.read()[len(open(CHAIN).read()):]
    row, section = 'at 0 0 for 2 take 1 1', 'labeller 3'
    fewer, more = f'{section.split()[0]} 4', f'{section.split()[0]} 2'
    texts = [
        ('an empty document', b'', 'line 1 Version', 'it is empty'),
        ('a space at the end of line 1', in_board(good, 'proof 1', 'proof 1 '), 'line 1 Version', 'a space is at the end of the line; line 1 must be'),
        ('a claim of no form', in_board(good, 'value 2', 'for ever'), 'line 2 Claim', '`forever`'),
        ('a claim that is too large', in_board(good, 'value 2', 'value 1000000001'), 'line 2 Claim', '1000000001 is more than 1000000000; line 2'),
        ('a section of another name', in_board(good, 'labeller 3', 'labellers 3'), 'line 3 Section', '`labeller n`'),
        ('a section that is not due', in_board(least, 'least 2', 'most 2'), 'line 3 Section', 'the claim asks for no such section here'),
        ('a section that is too large', in_board(least, section, 'labeller 1048577'), 'line 3 Section', '1048577 is more than 1048576'),
        ('a section that is missing', in_board(least, 'least 2', 'value 2'), 'line 7 Section', 'a section is missing'),
        ('more rows before a section', in_board(good, section, more), 'line 6 Section', 'more rows than its first line says'),
        ('rows without a section', in_board(least, f'{section}\n', ''), 'line 3 Section', 'a row comes before the first line of its section'),
        ('fewer rows before a section', in_board(good, section, fewer), 'line 7 Row', 'fewer rows than its first line says'),
        ('fewer rows before the end', in_board(least, section, fewer), 'line 7 Row', 'fewer rows than its first line says'),
        ('more rows before the end', in_board(least, section, more), 'line 6 End', 'the last section has more rows than its first line says'),
        ('a section that the claim has none of', in_board(good, 'value 2', 'least 2'), 'line 7 End', 'the claim asks for no such section here'),
        ('a row of three pebbles', in_board(least, row, 'at 0 0 0 for 2 take 1 1 1'), 'line 4 Row', 'places in the line: 3, pebbles: 2'),
        ('a row with a carriage return', in_board(least, row, f'{row}\r'), 'line 4 Row', 'a carriage return is in the line'),
        ('a document that ends in its rows', least[:least.index('at 0 1')].encode(), 'line 5 Row', 'the text ends before this line'),
        ('a label out of range in a row', in_board(least, row, 'at 0 3 for 2 take 1 1'), 'line 4 Label', 'labels of this board are below 3'),
        ('a pebble out of range', in_board(good, 'at 0 0 for 2 ask 0', 'at 0 0 for 2 ask 2'), 'line 8 Pebble', 'pebbles of this board are below 2'),
        ('a star in a document of a number', in_board(least, 'at 0 0 for 2', 'at 0 0 for *'), 'line 4 Number', '`forever` document'),
        ('rows that do not ascend', in_board(least, 'at 0 1 for 1 take 2 1\n', f'{row}\n'), 'line 5 Order', 'must ascend'),
        ('a document without its end', in_board(least, 'end\n', ''), 'line 7 End', 'the text ends before this line'),
        ('an empty line after a document', least.encode() + b'\n', 'line 8 Trailing', 'nothing may follow'),
    ]
    for number, (name, text, line, says) in enumerate(texts):
        path = written(work, f'mistake-{number}.proof', text)
        yield Mistake(name, ['check', CHAIN, path], fault(1, f'proof fault {line}'), path, says)
    value = good
    refused = [
        ('the start is missing', 'proof 1\nleast 1\nlabeller 0\nend\n', "the start has no row in the labeller's section"),
        ('the start is missing for the adversary', 'proof 1\nmost 1\nadversary 0\nend\n', "the start has no row in the adversary's section"),
        ('the claim is too high', least.replace('least 2', 'least 3'), 'a number below that of the claim'),
        ('the claim is too low', value.replace('value 2', 'value 1'), 'a number above that of the claim'),
        ('an answer is not legal', least.replace('take 1 1', 'take 0 1'), 'does not dominate the labels of all other pebbles'),
        ('a result has no row', least.replace(section, more).replace('at 1 0 for 1 take 1 2\n', ''), 'leads to a configuration that has no row'),
        ('a number is too small', least.replace('least 2', 'least 3').replace('for 2', 'for 3'), 'a row whose number is too small'),
        ('a label is legal at 0', value.replace('at 2 0 for 0 ask 1', 'at 2 0 for 0 ask 0'), 'as if no label were legal'),
        ('a result of a label has no row', MOST_WITHOUT_A_ROW, 'leads to a configuration that has no row'),
        ('a number is too large', value.replace('at 1 2 for 0 ask 0', 'at 1 2 for 1 ask 0'), 'is not below that of this row'),
    ]
    for number, (name, text, says) in enumerate(refused):
        path = written(work, f'refused-{number}.proof', text.encode())
        yield Mistake(name, ['check', CHAIN, path], Ran(3, b'refused ..', b''), path, says)
    other = os.path.join(BOARDS, 'one-pair.proof')
    yield Mistake('a document of another board', ['check', CHAIN, other], Ran(3, b'refused ..', b''), other, 'another board')


def of_symmetries(work):
    """Documents up to symmetries with a fault, and some that are refused."""
    cycle = board('three-cycle')
    good = 'proof 3\nforever\nsymmetries 1\nmap 1 2 0\nlabeller 2\nat 0 0 for * take 1 1\nat 0 1 for * take 2 1\nend\n'
    second = 'at 0 1 for * take 2 1\n'
    faults = [
        ('a document without symmetries', in_board(good, 'symmetries 1\nmap 1 2 0\n', ''), 'line 3 Section', 'line 3 must be `symmetries n`'),
        ('too many maps', in_board(good, 'symmetries 1', 'symmetries 65'), 'line 3 Section', '65 is more than 64'),
        ('more maps than are said', in_board(good, 'symmetries 1', 'symmetries 0'), 'line 4 Section', 'more maps than `symmetries` says'),
        ('fewer maps than are said', in_board(good, 'symmetries 1', 'symmetries 2'), 'line 5 Row', 'fewer maps than `symmetries` says; '),
        ('rows in place of a map', in_board(good, 'map 1 2 0\nlabeller 2\n', ''), 'line 4 Row', 'fewer maps than `symmetries` says; '),
        ('a map that is too short', in_board(good, 'map 1 2 0', 'map 1 2'), 'line 4 Row', 'labels in the line: 2, labels of the board: 3; '),
        ('a map with a hyphen', in_board(good, 'map 1 2 0', 'map 1 2 -'), 'line 4 Row', ': the line must be `map` and, for each label'),
        ('a map among rows', in_board(good, second, 'map 1 2 0\n'), 'line 7 Row', ': the line must be a row'),
        ('fewer rows after maps', in_board(good, 'labeller 2', 'labeller 3'), 'line 8 Row', 'fewer rows than its first line says'),
        ('rows without their section', in_board(good, 'labeller 2\n', ''), 'line 5 Section', 'a row comes before the first line of its section'),
        ('an image that is no label', in_board(good, 'map 1 2 0', 'map 1 2 3'), 'line 4 Label', 'labels of this board are below 3'),
    ]
    for number, (name, text, line, says) in enumerate(faults):
        path = written(work, f'symmetric-mistake-{number}.proof', text)
        yield Mistake(name, ['check', cycle, path], fault(1, f'proof fault {line}'), path, says)
    refused = [
        ('a map to a label twice', in_board(good, 'map 1 2 0', 'map 1 1 0'), 'no label goes to this one'),
        ('a map that is no symmetry', in_board(good, 'map 1 2 0', 'map 0 2 1'), "doesn't keep domination"),
        ('a row that is not the least alike', in_board(good, second, 'at 0 2 for * take 0 1\n'), 'must be at the least of all'),
        ('a row left out up to symmetries', in_board(good, f'labeller 2\nat 0 0 for * take 1 1\n{second}', 'labeller 1\nat 0 0 for * take 1 1\n'),
         'the least alike have no row'),
    ]
    for number, (name, text, says) in enumerate(refused):
        path = written(work, f'symmetric-refused-{number}.proof', text)
        yield Mistake(name, ['check', cycle, path], Ran(3, b'refused ..', b''), path, says)
    nine = written(work, 'nine.board', empty(9, 2))
    many = written(work, 'many.proof', b'proof 3\nmost 0\nsymmetries 2\nmap 1 2 3 4 5 6 7 8 0\nmap 1 0 2 3 4 5 6 7 8\nadversary 0\nend\n')
    yield Mistake('too many symmetries', ['check', nine, many], Ran(3, b'refused ..', b''), many, 'more than 131072 symmetries')


def of_given_symmetries(work):
    """Symmetries by themselves with a fault, and some that are none of the board's."""
    cycle = board('three-cycle')
    good = 'symmetries 1\nmap 1 2 0\nend\n'
    faults = [
        ('symmetries that are a board', 'board 1\nlabels 3\n', 'symmetries fault line 1 Section', 'are the two files exchanged?'),
        ('symmetries that are a document', 'proof 3\nforever\n', 'symmetries fault line 1 Section', 'take the line `symmetries` and the maps'),
        ('symmetries that are empty', '', 'symmetries fault line 1 Section', 'it is empty'),
        ('symmetries without a number', 'symmetries\nend\n', 'symmetries fault line 1 Section', 'line 1 must be `symmetries n`'),
        ('too many maps by themselves', good.replace('1', '65', 1), 'symmetries fault line 1 Section', '65 is more than 64'),
        ('symmetries of another size', good.replace(' 0', ''), 'symmetries fault line 2 Row', 'labels in the line: 2, labels of the board: 3; '),
        ('fewer maps by themselves', good.replace('1', '2', 1), 'symmetries fault line 3 Row', 'fewer maps than `symmetries` says; '),
        ('an image by itself that is no label', good.replace(' 0', ' 3'), 'symmetries fault line 2 Label', 'labels of this board are below 3'),
        ('more maps by themselves', good.replace('1', '0', 1), 'symmetries fault line 2 End', 'more maps than `symmetries` says; '),
        ('symmetries without an end', good.replace('end\n', ''), 'symmetries fault line 3 End', 'the last line must be `end`'),
        ('bytes after symmetries', good + '\n', 'symmetries fault line 4 Trailing', 'nothing may follow the line `end`'),
        ('a map by itself to a label twice', good.replace('2 0', '1 0'), 'wrong symmetry 1 label 2', 'no label goes to this one'),
        ('a map by itself that is no symmetry', good.replace('1 2 0', '0 2 1'), 'wrong symmetry 1 labels 0 1', "doesn't keep domination"),
    ]
    for number, (name, text, line, says) in enumerate(faults):
        path = written(work, f'symmetries-{number}.maps', text.encode())
        yield Mistake(name, ['solve', '--symmetries', path, cycle], fault(1, line), path, says)
    nine = written(work, 'nine-alone.board', empty(9, 2))
    many = written(work, 'many.maps', b'symmetries 2\nmap 1 2 3 4 5 6 7 8 0\nmap 1 0 2 3 4 5 6 7 8\nend\n')
    yield Mistake('too many symmetries by themselves', ['solve', '--symmetries', many, nine], fault(1, 'too many symmetries'), many, 'more than 131072 symmetries')
    wide = written(work, 'mistake-wide.board', empty(17, 5))
    turn = written(work, 'mistake-turn.maps', f'symmetries 1\nmap {" ".join(map(str, [*range(1, 17), 0]))}\nend\n'.encode())
    yield Mistake('a board that is too large up to symmetries', ['solve', '--symmetries', turn, wide], fault(1, 'board too large'), wide,
                  '1419857 configurations, and the most is 1048576; with `--large` and symmetries any number is taken')
    widest = written(work, 'mistake-widest.board', empty(256, 6))
    none = written(work, 'mistake-none.maps', b'symmetries 0\nend\n')
    yield Mistake('a board with too many orbits', ['solve', '--large', '--symmetries', none, widest], fault(1, 'too many orbits'), widest,
                  'more orbits than 16777216')
    long = written(work, 'long.maps', b'symmetries 1\n' + b'0' * 65536)
    yield Mistake('symmetries that are too long', ['solve', '--symmetries', long, cycle], fault(5, 'input too long'), long, 'at most 65536 bytes')
    missing = os.path.join(work, 'missing.maps')
    yield Mistake('symmetries that are not there', ['solve', '--symmetries', missing, cycle], fault(5, 'read fault'), missing, 'there is no such file')


def of_streams(work):
    """Inputs and outputs that fail."""
    with open(CHAIN, 'rb') as file, open(CHAIN_PROOF, 'rb') as other:
        board, document = file.read(), other.read()
    wrong_board, wrong_document = fault(1, 'board fault line 1 Version'), fault(1, 'proof fault line 1 Version')
    before, after = 'standard input', 'standard input after the board'
    yield Mistake('a board without a document', [], wrong_document, after, 'nothing comes after the board', given=board)
    yield Mistake('a board twice', [], wrong_document, after, 'a second board comes after the board', given=board + board)
    yield Mistake('a blank line before a document', [], wrong_document, after, 'line 1 must be', given=board + b'\n' + document)
    yield Mistake('no input', [], wrong_board, before, 'it is empty')
    yield Mistake('a document before its board', [], wrong_board, before, 'the board must come before that', given=document + board)
    yield Mistake('Windows line ends on standard input', [], wrong_board, before, 'Windows', given=board.replace(b'\n', b'\r\n'))
    yield Mistake('a carriage return on standard input', [], fault(1, 'proof fault line 2 Claim'), after, 'a carriage return is in the line',
                  given=board + document.replace(b'value 2', b'value 2\r'))
    yield Mistake('a board on standard input that is too large', [], fault(1, 'board too large'), before, '1185921 configurations',
                  given=empty(33))
    closed = ['sh', '-c', 'exec "$0" "$@" <&-']
    folder = ['sh', '-c', f'exec "$0" "$@" < {work}']
    unread = fault(5, 'read fault')
    for name, words in (('a joined check', []), ('a play', ['play', '--side', 'adversary', CHAIN]), ('a climb', ['climb', '2'])):
        yield Mistake(f'a closed standard input for {name}', words, unread, before, 'it is closed', before=closed)
    yield Mistake('a closed standard input by its path', ['solve', '/dev/stdin'], unread, '/dev/stdin', 'it is closed', before=closed)
    yield Mistake('a folder for a joined check', [], unread, before, 'it is a folder', before=folder)
    opening = fault(5, 'read fault', b'value 2\nat 0 0\n')
    yield Mistake('a folder for a play', ['play', '--side', 'adversary', CHAIN], opening, before, 'it is a folder', before=folder)
    large = written(work, 'mistake-memory.board', chain(32, 4))
    little = ['sh', '-c', 'ulimit -v 4096; exec "$0" "$@"']
    yield Mistake('too little memory', ['solve', large], fault(4, 'out of memory'), 'memory', 'smaller board', before=little)
    full = ['sh', '-c', 'exec "$0" "$@" > /dev/full']
    yield Mistake('a full disk', ['solve', CHAIN], fault(5, 'write fault'), 'standard output', 'full', before=full)
    yield Mistake('a long line in a play', ['play', '--side', 'adversary', CHAIN],
                  Ran(5, b'value 2\nat 0 0\n', b'input too long\n'), 'standard input', '64 bytes', given=b'1' * 200)


def of_permissions(work):
    """A file that may not be read: by no one but root, who runs the program as another user."""
    locked = written(work, 'mistake-locked.board', empty(2))
    os.chmod(locked, 0)
    os.chmod(work, 0o711)
    before = ['setpriv', '--reuid', '65534', '--clear-groups'] if os.geteuid() == 0 else []
    if before and subprocess.run([*before, PROGRAM, '--version'], capture_output=True, check=False).returncode:
        print('skipped: a mistake about permissions, since root runs nothing as another user here')
        return
    yield Mistake('no permission', ['solve', locked], fault(5, 'read fault'), locked, 'may not read', before=before)


def of_words(work):
    """Words of no command: the message is clap's."""
    wrong = Ran(2, b'', b'error: ..')
    general, path, workers = '`pebbles --help` lists', 'the name of a command comes before a path', '`--workers` comes with a number'
    options, version, large = '`--explain`, `--help` and `--version`; a path that begins', '`--version` stands alone', 'only `solve`, `report`, `starts` and `play` have `--large`'
    told = [(['--workers', '0'], workers), (['slove', 'board'], general), ([CHAIN], path), (['c.board'], path), (['check', CHAIN], general),
            (['solve', '-w', '4', CHAIN], options), (['solve', '--json', CHAIN], options), (['solve', '-q', CHAIN], options),
            (['solve', '-j', '4', CHAIN], options), (['solve', '--version'], version), (['solve', '--workers', 'x', CHAIN], workers),
            (['solve', '--workers', CHAIN], workers), (['solve', CHAIN, 'extra'], general), (['solve', '--workers', '4', CHAIN, 'extra'], general),
            (['solve', '--workers=four', CHAIN], workers), (['report', '--workers=99', CHAIN], workers), (['solve', '--workers=', CHAIN], workers),
            (['solve', '--workers', '17', CHAIN], workers), (['solve', '--workers'], workers), (['report', '--workers', '4', '-q', CHAIN], options), (['play', 'labeller', CHAIN], general),
            (['solve', '--workers', '1.5', CHAIN], workers), (['solve', '--workers', '-1', CHAIN], workers),
            (['solve', '--workers', '2', '--workers', '3', CHAIN], '`--workers` is given once, with a number from 1 to 16'),
            (['check', '--workers', '2', CHAIN, CHAIN], 'only `solve`, `report`, `starts` and `chains` have `--workers`'),
            (['solve', '--most', '3', CHAIN], 'only `chains` has `--most`'), (['starts', '--most', '3', CHAIN], 'only `chains` has `--most`'), (['report', '--most=3', CHAIN], 'only `chains` has `--most`'),
            (['report', '--side', 'labeller', CHAIN], 'only `solve` and `play` have `--side`'), (['climb', '--side=adversary', '3'], 'only `solve` and `play` have `--side`'),
            (['chains', '--symmetries', 'a.maps', CHAIN], 'only `solve`, `report`, `starts` and `play` have `--symmetries`'),
            (['check', '--symmetries=a.maps', CHAIN], 'only `solve`, `report`, `starts` and `play` have `--symmetries`'),
            (['climb', '--large', '3'], large), (['check', CHAIN, CHAIN, '--large'], large), (['solve', '--large', '--large', CHAIN], general),
            (['play', '--large', CHAIN], general), (['play', '--side', 'both', CHAIN], general), (['nested', '7', '3'], general), (['climb', '25'], general), (['help', 'solv'], general)]
    for words, says in told:
        yield Mistake(f'the words {" ".join(os.path.basename(word) for word in words)}', words, wrong, 'pebbles', says)
    text = fault(2, 'error: a word on the command line is not text')
    yield Mistake('a path that is no text', ['solve', b'\xff.board'], text, 'pebbles', 'UTF-8')


def of_typed_lines(work):
    """Checks of what a person is told who types the lines of a play."""
    cycle, lone, faulty = board('three-cycle'), board('one-label-two-pebbles'), CHAIN_PROOF
    asks, answers = ['play', '--side', 'adversary'], ['play', '--side', 'labeller']
    pebbles, only = 'type a pebble, 0 to 1, or quit', 'type 0, the only pebble, or quit'
    first, second = (f'labels that pebble {pebble} can take: {labels}; type one, or quit' for pebble, labels in ((0, '1 2'), (1, '2')))
    nil, one, two = (f'at least {left} more will be answered, however you ask; ' for left in range(3))
    most_one, most_two = (f'at most {left} more can be answered; ' for left in (1, 2))
    ever = 'requests will be answered for ever, however you ask; '
    more, for_ever = (f'{of}: the play could have gone on' for of in ('2 can be answered from the start', 'requests can be answered from the start for ever'))
    blank = 'a space or a tab is in the line: type the number alone'
    plays = [('good requests', [*asks, CHAIN], b'1\nquit\n', [ASKING, two + pebbles, one + pebbles, more]),
             ('wrong requests', [*asks, CHAIN], b'2\n1\n\nquit\n', [ASKING, two + pebbles, two + pebbles, one + pebbles, one + pebbles, more]),
             ('wrong answers', [*answers, CHAIN], b'0\nx\n1\n1\nquit\n', [ANSWERING, *[most_two + first] * 3, *[most_one + second] * 2, more]),
             ('the greatest label at first', [*answers, CHAIN], b'2\n', [ANSWERING, most_two + first, more]),
             ('the best answers', [*answers, CHAIN], b'1\n2\n', [ANSWERING, most_two + first, most_one + second]),
             ('an answer with a blank', [*answers, CHAIN], b' 1\n1\n2\n', [ANSWERING, most_two + first, blank, most_two + first, most_one + second]),
             ('wrong requests of a climb', ['climb', '3'], b'3\nquit\n', [ASKING, *[f'{ever}type a pebble, 0 to 2, or quit'] * 2, for_ever]),
             ('a wrong request of a climb of one level', ['climb', '1'], b'x\nquit\n', [ASKING, *[ever + only] * 2, for_ever]),
             ('no strategy', [*answers, cycle], b'1\nquit\n', []),
             ('a play that is stuck at once', [*answers, lone], b'0\n', []),
             ('a play that is stuck at the first request', [*asks, lone], b'0\n', [ASKING, nil + pebbles])]
    for name, words, given, told in plays:
        yield Check(f'typed: {name}', partial(prompted, words, given, told))
    for words, told in (([*asks, CHAIN], pebbles), ([*answers, CHAIN], first), (['climb', '3'], 'type a pebble')):
        yield Check(f'typed: the choices in turn, in {" ".join(words[:3])}', partial(prompted_in_turn, words, told))
    large = written(work, 'noticed.board', chain(17, 5))
    # a gap whose greatest label is the n-th from above closes in round n, counted from 0
    opened = [comb(20 - number, 4) for number in range(1, 18)]
    rounds = ''.join(f'round {number}: {count} {"gap is" if count == 1 else "gaps are"} open\n' for number, count in enumerate(opened, 1))
    size = 'a large board: its 4845 gaps, about 0.1 MB, are solved, which can take seconds\n'
    for words, told in ((['report', '--large', CHAIN], ''), (['report', '--large', large], size + rounds),
                        (['report', '--large', '--workers', '4', large], size + rounds), (['starts', '--large', CHAIN], ''),
                        (['starts', '--large', large], size + rounds), (['solve', '--large', large], size + rounds),
                        (['play', '--large', '--side', 'adversary', large], size + rounds), (['chains', CHAIN], '')):
        yield Check(f'the notice of {" ".join(words[:-1])} {os.path.basename(words[-1])}', partial(noticed, words, told))
    for words in ([*asks, faulty], [*answers, os.path.join(work, 'missing.board')]):
        yield Check(f'typed: no greeting for {os.path.basename(words[-1])}', partial(ungreeted, words))


def of_rows(work):
    """Accepted documents of both versions, whose rows are told after the verdict, and only to a person at a terminal."""
    documents = [('seven rows', CHAIN, text_of(CHAIN_PROOF), '7 rows were checked\n'),
                 ('no row', CHAIN, b'proof 1\nleast 0\nlabeller 0\nend\n', '0 rows were checked\n'),
                 ('one row', board('one-label-two-pebbles'), b'proof 1\nvalue 0\nlabeller 0\nadversary 1\nat 0 0 for 0 ask 0\nend\n',
                  '1 row was checked\n')]
    by_classes = run(['solve', '--large', CHAIN]).output
    documents.append(('rows by classes', CHAIN, by_classes, f'{by_classes.count(b"at ")} rows were checked\n'))
    for name, path, document, told in documents:
        proof = written(work, f'counted {name}.proof', document)
        yield Check(f'the number of rows: {name}', partial(noticed, ['check', path, proof], told))
        yield Check(f'the number of rows of a joined input: {name}', partial(noticed, [], told, given=text_of(path) + document))
    yield Check('the number of rows of a typed input', partial(greeted_and_counted, text_of(CHAIN) + documents[0][2], '7 rows were checked'))


def checks(work):
    """All checks, which write what they need into `work`."""
    yield from of_rows(work)
    for subject in (of_boards, of_files, of_documents, of_symmetries, of_given_symmetries, of_streams, of_permissions, of_words):
        for mistake in subject(work):
            yield Check(f'a mistake: {mistake.name}', partial(explained, mistake))
    yield Check('a terminal without words', partial(greeted, [], 'Ctrl-D', b'\x04'))
    yield from of_typed_lines(work)
