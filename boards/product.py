"""Writes the document of a rule for 7 x 7 labels, by tables of the residues modulo seven."""
from itertools import combinations
from rule import document

def newer(x, y):
    return (x - y) % 7 in (1, 2, 4)

labels = range(7)
a = b = 3
# for each set of at most two labels one that is newer than both
outer = inner = {frozenset(some): next(x for x in labels if all(newer(x, y) for y in some))
                 for count in range(3) for some in combinations(labels, count)}

def reply(others):
    copies = {x // 7 for x in others}
    if len(copies) < a:
        return 7 * outer[frozenset(copies)]
    top = next(x for x in copies if all(newer(x, y) for y in copies - {x}))
    return 7 * top + inner[frozenset(x % 7 for x in others if x // 7 == top)]

document(reply, a + b - 1)
