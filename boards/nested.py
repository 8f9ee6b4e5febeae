"""Writes the document of the nested reply on the 81 labels of level 5."""
from rule import document

def reply(others, labels=81):
    if not others:
        return 0
    size = labels // 3
    copies = {x // size for x in others}
    top = next(copy for copy in copies if (copy + 1) % 3 not in copies)
    if len(copies) == 1:
        return (top + 1) % 3 * size
    return top * size + reply([x % size for x in others if x // size == top], size)

document(reply, 5)
