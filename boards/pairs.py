"""pairs.py PEBBLES: writes a board whose labels are pairs of digits; without a word it names the labels of a document on standard input."""
import re, sys

names = [f'{x}{y}' for x in range(3) for y in range(3)]

def newer(a, b):
    x, y = next(((x, y) for x, y in zip(a, b) if x != y), ('0', '0'))
    return (int(x) - int(y)) % 3 == 1

def named(places):
    return ' '.join(place if place == '-' else names[int(place)] for place in places.split())

def board(pebbles):
    numbers = range(len(names))
    pairs = [f'beats {x} {y}' for x in numbers for y in numbers if newer(names[x], names[y])]
    print('board 1', f'labels {len(names)}', f'pebbles {pebbles}', 'start' + ' 0' * pebbles, *pairs, 'end', sep='\n')

if sys.argv[1:]:
    board(int(sys.argv[1]))
else:
    numbers = '(?<=at )[0-9 -]+(?= for)|(?<=take )[0-9 ]+'
    for line in sys.stdin:
        # in a document by classes a label is asked for
        numbers += '|(?<=ask )[0-9-]+' if line == 'proof 2\n' else ''
        print(re.sub(numbers, lambda places: named(places[0]), line.rstrip('\n')))
