"""The pebble game by its definitions (docs/game.md), as plainly as can be: no ranks, no gaps, no rounds.

A configuration is a tuple of places, one for each pebble. A place is a label, or NONE.
"""
from itertools import product

NONE = '-'
FOREVER = float('inf')


class Board:
    def __init__(self, labels, pebbles, start, pairs):
        self.labels, self.pebbles, self.start, self.pairs = labels, pebbles, tuple(start), frozenset(pairs)
        self.version = 2 if NONE in self.start else 1
        self.places = list(range(labels)) + ([NONE] if self.version == 2 else [])

    def size(self):
        return len(self.places) ** self.pebbles

    def configurations(self):
        """All of them, in the order of their ranks."""
        return product(self.places, repeat=self.pebbles)

    def rank(self, at):
        return [self.labels if place == NONE else place for place in at]

    def legal(self, at, pebble):
        others = [place for other, place in enumerate(at) if other != pebble and place != NONE]
        return [label for label in range(self.labels) if all((label, other) in self.pairs for other in others)]


def moved(at, pebble, label):
    return at[:pebble] + (label,) + at[pebble + 1:]


def values(board):
    """The value of each configuration: the greatest depth of a labeller's tree, FOREVER where there is one of every depth."""
    results = {at: [[moved(at, pebble, label) for label in board.legal(at, pebble)] for pebble in range(board.pebbles)]
               for at in board.configurations()}
    lasting, value, depth = set(results), {}, 0
    while True:
        longer = {at for at in lasting if all(any(result in lasting for result in each) for each in results[at])}
        for at in lasting - longer:
            value[at] = depth
        if longer == lasting:
            value.update((at, FOREVER) for at in lasting)
            return value
        lasting, depth = longer, depth + 1


def answers_requests(board, answers, start, count):
    """Whether the table (a list of answers for each listed configuration) answers so many requests from the start, however they come."""
    able, depth = None, 0
    while depth < count:
        next_able = {at for at, labels in answers.items()
                     if all(label in board.legal(at, pebble) and (able is None or moved(at, pebble, label) in able)
                            for pebble, label in enumerate(labels))}
        if next_able == able:
            break
        able, depth = next_able, depth + 1
    return able is None or start in able


def is_closed(board, answers):
    return all(label in board.legal(at, pebble) and moved(at, pebble, label) in answers
               for at, labels in answers.items() for pebble, label in enumerate(labels))


def stops_after(board, requests, start, count):
    """Whether all that plays from the start reach is listed, and no play has more answers. The table has a pebble for each listed configuration."""
    layer = {start}
    for _ in range(min(count, len(requests)) + 1):
        if not layer <= requests.keys():
            return False
        layer = {moved(at, requests[at], label) for at in layer for label in board.legal(at, requests[at])}
        if not layer:
            return True
    return False


def shows(board, proof):
    """Whether the tables of a document show its claim, by what they do and not by their numbers."""
    kind, count = proof.claim
    answers = {row.at: row.answers for row in reversed(proof.labeller)}
    requests = {row.at: row.ask for row in reversed(proof.adversary)}
    if kind == 'forever':
        return board.start in answers and is_closed(board, answers)
    return ((kind == 'most' or answers_requests(board, answers, board.start, count))
            and (kind == 'least' or stops_after(board, requests, board.start, count)))


def holds(board, claim, value):
    """Whether a claim holds of a configuration with this value."""
    kind, count = claim
    return {'forever': value == FOREVER, 'value': value == count, 'least': value >= (count or 0), 'most': value <= (count or 0)}[kind]


def best_answer(board, value, at, pebble):
    legal = board.legal(at, pebble)
    return max(legal, key=lambda label: (value[moved(at, pebble, label)], -label)) if legal else None


def best_request(board, value, at):
    for pebble in range(board.pebbles):
        if all(value[moved(at, pebble, label)] < value[at] for label in board.legal(at, pebble)):
            return pebble
    return None


def reached(start, results):
    found, left = {start}, [start]
    while left:
        for at in results(left.pop()):
            if at not in found:
                found.add(at)
                left.append(at)
    return found
