"""Writes the board of a domain: numbers modulo five, of which x is newer than y if x - y is 1 or 2. Another domain is another `newer`."""
labels, pebbles = 5, 3

def newer(x, y):
    return (x - y) % labels in (1, 2)

print('board 1')
print('labels', labels)
print('pebbles', pebbles)
print('start', *[0] * pebbles)
for x in range(labels):
    for y in range(labels):
        if newer(x, y):
            print('beats', x, y)
print('end')
