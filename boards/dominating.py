"""dominating.py [MAPS] < BOARD: writes the document of the rule that answers with the first label that dominates the others' labels, up to the symmetries in the file MAPS, if there is one."""
import sys
from rule import document, first_dominating

maps = [[int(label) for label in line.split()[1:]] for path in sys.argv[1:] for line in open(path) if line.startswith('map')]
lines = [line.split() for line in sys.stdin]
labels, processes = int(lines[1][1]), int(lines[2][1])
pairs = {(int(line[1]), int(line[2])) for line in lines if line[0] == 'beats'}
document(first_dominating(labels, lambda x, y: (x, y) in pairs), processes, maps=maps)
