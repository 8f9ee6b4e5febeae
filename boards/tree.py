"""tree.py BOARD PROOF [MOST | graph]: writes the adversary's rows as a tree, of at most MOST answers in a row, or as a text for Graphviz."""
import signal, sys

signal.signal(signal.SIGPIPE, signal.SIG_DFL)  # ends quietly when nobody reads on
board = [line.split() for line in open(sys.argv[1])]
labels, start = range(int(board[1][1])), tuple(board[3][1:])
over = {tuple(line[1:]) for line in board if line[0] == 'beats'}
head, *rows = [line.split() for line in open(sys.argv[2])]
asked = {tuple(row[1:-4]): row[-1] for row in rows if row[-2:-1] == ['ask']}

def arranged(at):
    """The places in the order of a document by classes, no label first."""
    return tuple(sorted(at, key=lambda place: -1 if place == '-' else int(place)))

by_classes = head == ['proof', '2']
start = arranged(start) if by_classes else start
if start not in asked:
    sys.exit('the adversary has no row for the start')

def after(at):
    """What each answer to the request at this row leads to."""
    pebble = at.index(asked[at]) if by_classes else int(asked[at])
    before, behind = at[:pebble], at[pebble + 1:]
    answers = [str(x) for x in labels if all((str(x), y) in over for y in before + behind if y != '-')]
    found = [before + (x,) + behind for x in answers]
    return [arranged(at) for at in found] if by_classes else found

def step(at):
    return f'{" ".join(at)} ask {asked[at]}' + ('' if after(at) else ' (no answer)')

word = ''.join(sys.argv[3:])
most = int(word) if word.isdigit() else len(asked)
written = set()

def tree(at, depth=0):
    mark = ' (above)' if at in written else ' (more)' if depth == most else ''
    mark = mark if after(at) else ''
    print('  ' * depth + step(at) + mark)
    written.update([] if mark else [at])
    for then in [] if mark else after(at):
        tree(then, depth + 1)

def graph():
    print('digraph {', f'    "{step(start)}"', sep='\n')
    for at in asked:
        for then in after(at):
            print(f'    "{step(at)}" -> "{step(then)}"')
    print('}')

graph() if word == 'graph' else tree(start)
