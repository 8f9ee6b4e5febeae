"""symmetries.py PRIME.. | cover PRIME: writes symmetries of the residues modulo a prime, of a product of such, or of a double cover, as `solve --symmetries` reads them."""
import sys
from functools import reduce

def squares(p):
    return {x * x % p for x in range(1, p)}

def residues(p):
    """x + 1, and x times a square whose powers are all squares."""
    by = next(x for x in range(1, p) if {x ** k % p for k in range(p)} == squares(p))
    return [[(x + 1) % p for x in range(p)], [by * x % p for x in range(p)]]

def product(outer, inner):
    """The maps of each factor, which leave the label of the other."""
    size = len(inner[0])
    pairs = [divmod(x, size) for x in range(len(outer[0]) * size)]
    return [[images[x] * size + y for x, y in pairs] for images in outer] + [[x * size + images[y] for x, y in pairs] for images in inner]

def cover(p):
    """A label is a pair of residues, up to a square: (x, 1) and (-x, -1) are the point x, (1, 0) and (-1, 0) the point that dominates all.
    (a, b) dominates (c, d) if ad - bc is a square, and neither (a + b, b) nor (-b, a) for (a, b) changes that number."""
    pairs = [pair for x, y in [*((x, 1) for x in range(p)), (1, 0)] for pair in ((x, y), (-x, -y))]

    def label(a, b):
        point = a * pow(b, p - 2, p) % p if b % p else p
        return 2 * point + ((b % p or a % p) not in squares(p))
    return [[label(a + b, b) for a, b in pairs], [label(-b, a) for a, b in pairs]]

if sys.argv[1] == 'cover':
    maps = cover(int(sys.argv[2]))
else:
    maps = reduce(product, [residues(int(prime)) for prime in sys.argv[1:]])
print('symmetries', len(maps))
for images in maps:
    print('map', *images)
print('end')
