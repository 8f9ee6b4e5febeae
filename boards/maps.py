"""maps.py BOARD OTHER: says whether a map of the labels of BOARD to those of OTHER keeps domination.

The map is read from standard input: a line for each label of BOARD, with the label and its image.
"""
import sys

def domain(path):
    lines = [line.split() for line in open(path)]
    return [str(label) for label in range(int(lines[1][1]))], [line[1:] for line in lines if line[0] == 'beats']

(labels, pairs), (images, others) = map(domain, sys.argv[1:3])
image = dict(line.split() for line in sys.stdin)
for label in labels:
    if image.get(label) not in images:
        sys.exit(f'label {label} has no image')
for x, y in pairs:
    if [image[x], image[y]] not in others:
        sys.exit(f'{x} dominates {y}, but {image[x]} does not dominate {image[y]}')
print('domination is kept')
