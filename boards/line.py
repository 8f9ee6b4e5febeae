"""line.py BOARD PROOF: writes one line of play in which both sides do their best, by a document of either version."""
import sys

board = [line.split() for line in open(sys.argv[1])]
head, *rows = [line.split() for line in open(sys.argv[2])]
by_classes = head == ['proof', '2']


def listed(at):
    """The places as the document lists them."""
    return tuple(sorted(at, key=lambda place: -1 if place == '-' else int(place))) if by_classes else tuple(at)


at = listed(board[3][1:])
asked = {tuple(row[1:-4]): row[-1] for row in rows if row[-2:-1] == ['ask']}
taken = {tuple(row[1:1 + len(at)]): row[-len(at):] for row in rows if 'take' in row}
if at not in asked:
    sys.exit('the adversary has no row for the start')
while at in asked:
    place = at.index(asked[at]) if by_classes else int(asked[at])
    answers = taken.get(at)
    print(*at, 'ask', asked[at], *(['take', answers[place]] if answers else []))
    if answers is None:
        break
    at = listed(at[:place] + (answers[place],) + at[place + 1:])
