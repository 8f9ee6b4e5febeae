"""document.py TABLE START..: writes a document of the answers of a table, which it follows from the start."""
import sys

def number(place):
    """No label comes after all labels."""
    return 256 if place == '-' else int(place)

table = dict(line.rstrip('\n').split(' -> ') for line in open(sys.argv[1]) if ' -> ' in line)
rows, left = {}, [tuple(sys.argv[2:])]
while left:
    at = left.pop()
    if at not in rows:
        others = [' '.join(at[:pebble] + at[pebble + 1:]) for pebble in range(len(at))]
        if any(other not in table for other in others):
            sys.exit(f'no line for the others at {" ".join(at)}')
        rows[at] = [table[other] for other in others]
        left += [at[:pebble] + (label,) + at[pebble + 1:] for pebble, label in enumerate(rows[at])]

print('proof 1', 'forever', f'labeller {len(rows)}', sep='\n')
for at in sorted(rows, key=lambda at: [number(place) for place in at]):
    print('at', *at, 'for * take', *rows[at])
print('end')
