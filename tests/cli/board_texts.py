"""The texts of boards that are made here."""


def text(version, labels, start, pairs):
    """A board with as many pebbles as its start has places."""
    lines = [f'board {version}', f'labels {labels}', f'pebbles {len(start)}', ' '.join(['start', *map(str, start)])]
    lines += [f'beats {x} {y}' for x, y in sorted(pairs)]
    return '\n'.join([*lines, 'end', '']).encode()


def chain(labels, pebbles=2):
    """Labels in a transitive order, with all pebbles on the lowest."""
    return text(1, labels, [0] * pebbles, [(x, y) for x in range(labels) for y in range(x)])


def empty(labels, pebbles=4):
    """Labels of which none dominates another."""
    return text(1, labels, [0] * pebbles, [])


def residues(prime):
    """A domain: the number of its labels, and the pairs of which the first dominates the second. Here the difference is a square modulo
    the prime; modulo 3 that is the three-cycle."""
    squares = {x * x % prime for x in range(1, prime)}
    return prime, {(x, y) for x in range(prime) for y in range(prime) if (x - y) % prime in squares}


def product(outer, inner):
    """The domain of the labels x * size + y: the outer domain decides, and the inner one, of this size, between equal x."""
    (copies, over), (size, under) = outer, inner
    pairs = {(x * size + y, u * size + v) for x, u in over for y in range(size) for v in range(size)}
    return copies * size, pairs | {(x * size + y, x * size + v) for x in range(copies) for y, v in under}


def nested(level):
    """The three-cycle, each of its labels replaced by the domain of one level less."""
    return product(residues(3), nested(level - 1)) if level > 1 else (1, set())


def domain_text(domain, pebbles):
    """The board of a domain, with all pebbles on the label 0."""
    labels, pairs = domain
    return text(1, labels, [0] * pebbles, pairs)


def layers(labels):
    """Labels of which each of the first half dominates each of the second, with three pebbles: seven eighths of the classes have value 0."""
    half = labels // 2
    return text(1, labels, [0, 0, 0], [(x, y) for x in range(half) for y in range(half, labels)])


class Numbers:
    """Numbers that are the same everywhere."""
    state = 20

    def below(self, bound):
        """The next one."""
        self.state = self.state * 16807 % 2147483647
        return self.state // 65536 % bound


def drawn_board(draw):
    """A small board of either version."""
    version, labels, pebbles = 1 + draw.below(2), 1 + draw.below(5), 1 + draw.below(4)
    blank, start, pairs = draw.below(pebbles), [], []
    for pebble in range(pebbles):
        label = draw.below(labels + version - 1)
        start.append('-' if label == labels or version == 2 and pebble == blank else label)
    for x, y in ((x, y) for x in range(labels) for y in range(x)):
        pairs += [[], [(x, y)], [(y, x)]][draw.below(3)]
    return text(version, labels, start, pairs)


def drawn(count):
    """So many small boards."""
    draw = Numbers()
    return [drawn_board(draw) for _ in range(count)]
