"""greatest.py [REQUESTS]: writes a document of the rule that answers with the label after the greatest, modulo five."""
import sys
from rule import document

def reply(others):
    return (max(others) + 1) % 5

document(reply, 3, *map(int, sys.argv[1:]))
