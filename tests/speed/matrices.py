#!/usr/bin/env python3
"""Writes the matrices that docs/BENCHMARKS.md names: matrices.py FOLDER [--seed N] [NAME..]. A name not given: all but those of the growth.
`others` is the name of all kinds of `kinds.py`, and `later` that of all kinds of `later.py`; they are drawn from the seed N, or from 1.

A file has the number of rows, that of entries and the pointers in 64 bits, and the rows in 32, little endian."""
import array
import os
import sys

import kinds
import later


class Draws:
    """Drawn numbers: a linear congruence modulo 2^64, of which the upper 31 bits are taken."""

    def __init__(self, seed):
        self.x = seed

    def below(self, m):
        self.x = (6364136223846793005 * self.x + 1442695040888963407) % 2**64
        return (self.x >> 33) % m


def grid(*sides):
    """Points joined to the next one in each direction."""
    steps, n = [], 1
    for side in reversed(sides):
        steps.append((n, side))
        n *= side
    for v in range(n):
        yield [v + step for step, side in steps if v // step % side + 1 < side]


def grid9(k):
    """A square grid with both diagonals."""
    for a in range(k):
        for b in range(k):
            below = [v for v in (b - 1, b, b + 1) if 0 <= v < k] if a + 1 < k else []
            yield [a * k + b + 1] * (b + 1 < k) + [(a + 1) * k + v for v in below]


def drawn(n, count, seed):
    """Columns of drawn rows, not symmetric."""
    draws = Draws(seed)
    for _ in range(n):
        yield sorted({draws.below(n) for _ in range(count)})


def power(n, count, seed):
    """Each vertex is joined to drawn ends of edges before it."""
    draws, ends, columns = Draws(seed), [0], [set() for _ in range(n)]
    for v in range(1, n):
        for t in {ends[draws.below(len(ends))] for _ in range(count)}:
            columns[t].add(v)
            ends += [t, v]
    return map(sorted, columns)


def tree(n, seed):
    """Each vertex is joined to a drawn one before it, under a drawn numbering."""
    draws, number, columns = Draws(seed), list(range(n)), [[] for _ in range(n)]
    for i in range(n - 1, 0, -1):
        j = draws.below(i + 1)
        number[i], number[j] = number[j], number[i]
    for v in range(1, n):
        a, b = number[v], number[draws.below(v)]
        columns[min(a, b)].append(max(a, b))
    return map(sorted, columns)


def band(n, width):
    """Each row is joined to the next ones; with a width of n it is a complete graph."""
    return (list(range(j + 1, min(n, j + width + 1))) for j in range(n))


def arrow(n, full):
    """A path whose last rows are joined to all rows."""
    return (sorted({j + 1, *range(max(j + 1, n - full), n)} - {n}) for j in range(n))


def stars(count, leaves):
    """Stars of one size, the centre first."""
    for s in range(count):
        yield list(range(s * (leaves + 1) + 1, (s + 1) * (leaves + 1)))
        yield from ([] for _ in range(leaves))


def colliding(n, fronts, size, half, seed):
    """Pivots that are joined to rows with lists of one length and one sum, which are alike in their first half and differ behind it.

    The lists name hubs: the first ones all, and of the others pairs with one sum."""
    draws, columns = Draws(seed), [[] for _ in range(n)]
    hubs = fronts * size + fronts
    for row in range(fronts * size):
        columns[row].append(fronts * size + row // size)
        pairs, picked = list(range(half)), []
        for k in range(half // 2):
            other = k + draws.below(half - k)
            pairs[k], pairs[other] = pairs[other], pairs[k]
            picked.append(pairs[k])
        first = hubs + half
        columns[row] += range(hubs, first)
        columns[row] += sorted([first + k for k in picked] + [first + 2 * half - 1 - k for k in picked])
    return columns


def jumbled(columns, seed):
    """The rows of each column in a drawn order."""
    draws = Draws(seed)
    for column in columns:
        column = list(column)
        for i in range(len(column) - 1, 0, -1):
            j = draws.below(i + 1)
            column[i], column[j] = column[j], column[i]
        yield column


def both(columns):
    """Both triangles of a matrix that has one, and its diagonal."""
    columns = [list(column) for column in columns]
    upper = [[] for _ in columns]
    for j, column in enumerate(columns):
        for i in column:
            upper[i].append(j)
    for j, column in enumerate(columns):
        yield upper[j] + [j] + column


def lower(n, edges):
    """The lower triangle of a graph, from its edges in any order, each once or more."""
    columns = [set() for _ in range(n)]
    for a, b in edges:
        if a != b:
            columns[min(a, b)].add(max(a, b))
    return map(sorted, columns)


def drawn_order(n, seed):
    """A drawn numbering of n vertices."""
    draws, number = Draws(seed), list(range(n))
    for i in range(n - 1, 0, -1):
        j = draws.below(i + 1)
        number[i], number[j] = number[j], number[i]
    return number


def renumbered(columns, seed):
    """The same graph under a drawn numbering."""
    columns = list(columns)
    number = drawn_order(len(columns), seed)
    return lower(len(columns), ((number[j], number[i]) for j, column in enumerate(columns) for i in column))


def elements(sides, unknowns):
    """Finite elements on a mesh of bricks or squares: each unknown of a node is joined to all those of its elements."""
    nodes = 1
    for side in sides:
        nodes *= side
    def near(v):
        places = [()]
        for side in reversed(sides):
            v, x = divmod(v, side)
            places = [(y, *place) for place in places for y in range(max(x - 1, 0), min(x + 2, side))]
        for place in places:
            w = 0
            for side, x in zip(sides, place):
                w = w * side + x
            yield w
    for v in range(nodes):
        others = sorted(w for w in near(v) if w > v)
        for k in range(unknowns):
            first = v * unknowns + k
            yield list(range(first + 1, (v + 1) * unknowns)) + [w * unknowns + m for w in others for m in range(unknowns)]


def optimality(rows, constraints, count, seed):
    """A KKT system of a quadratic program: the matrix of a grid, and constraints on drawn unknowns near each other."""
    draws = Draws(seed)
    side = int(rows ** 0.5)
    n = side * side
    edges = [(j, i) for j, column in enumerate(grid(side, side)) for i in column]
    for c in range(constraints):
        first = draws.below(n)
        edges += [((first + draws.below(4 * side)) % n, n + c) for _ in range(count)]
    return lower(n + constraints, edges)


def road(k, seed):
    """A network like that of roads: crossings on a grid, one street in four missing, each street with drawn bends."""
    draws, n, edges = Draws(seed), k * k, []
    for j, column in enumerate(grid(k, k)):
        for i in column:
            if draws.below(4):
                last = j
                for _ in range(draws.below(4)):
                    edges.append((last, n))
                    last, n = n, n + 1
                edges.append((last, i))
    number = drawn_order(n, seed + 1)
    return lower(n, ((number[a], number[b]) for a, b in edges))


def delaunay(n, seed):
    """The triangulation of drawn points in a square; needs scipy."""
    from scipy.spatial import Delaunay
    draws = Draws(seed)
    points = [(draws.below(2**31) / 2**31, draws.below(2**31) / 2**31) for _ in range(n)]
    return lower(n, ((int(t[a]), int(t[b])) for t in Delaunay(points).simplices for a, b in ((0, 1), (0, 2), (1, 2))))


def circuit(n, hubs, seed):
    """A circuit: each node is joined to some near it, and one in nine to a hub (a supply, a clock). Not symmetric."""
    draws = Draws(seed)
    for v in range(n):
        column = {v} | {min(max(v + draws.below(61) - 30, 0), n - 1) for _ in range(1 + draws.below(4))}
        if draws.below(9) == 0:
            column.add(n - 1 - draws.below(hubs))
        yield sorted(column)


def normal(rows, n, count, seed):
    """Normal equations: the pattern of the product of a drawn matrix with its transpose; two entries of a row join their columns."""
    draws, edges = Draws(seed), []
    for _ in range(rows):
        first = draws.below(n)
        row = [first] + [(first + draws.below(200)) % n for _ in range(count - 1)]
        edges += [(a, b) for k, a in enumerate(row) for b in row[:k]]
    return lower(n, edges)


def blocks(count, size):
    """Block tridiagonal: full blocks, each joined to the next one."""
    n = count * size
    for v in range(n):
        yield list(range(v + 1, min((v // size + 2) * size, n)))


PLAIN = {
    "grid_1000x1000": lambda: grid(1000, 1000),
    "grid_300x300": lambda: grid(300, 300),
    "grid_60x60x60": lambda: grid(60, 60, 60),
    "grid_20x20x20": lambda: grid(20, 20, 20),
    "random_20000": lambda: drawn(20000, 5, 7),
    "power_50000": lambda: power(50000, 3, 11),
    "tree_200000": lambda: tree(200000, 5),
    "path_100000": lambda: band(100000, 1),
    "band_100000": lambda: band(100000, 20),
    "arrow_100000": lambda: arrow(100000, 20),
    "grid9_500x500": lambda: grid9(500),
    "clique_1500": lambda: band(1500, 1500),
}
KINDS = {
    "bricks_24_3": lambda: elements((24, 24, 24), 3),
    "bricks_24_3_drawn": lambda: renumbered(elements((24, 24, 24), 3), 21),
    "bricks_16_6_drawn": lambda: renumbered(elements((16, 16, 16), 6), 22),
    "shell_150x150_6": lambda: elements((150, 150), 6),
    "shell_150x150_6_drawn": lambda: renumbered(elements((150, 150), 6), 23),
    "optimality_60000": lambda: optimality(40000, 20000, 4, 24),
    "road_200": lambda: road(200, 25),
    "delaunay_100000": lambda: delaunay(100000, 26),
    "circuit_100000": lambda: circuit(100000, 20, 27),
    "normal_40000": lambda: normal(60000, 40000, 4, 28),
    "blocks_1000x50": lambda: blocks(1000, 50),
}
JUMBLED = {f"{name}_jumbled": lambda name=name: jumbled(PLAIN[name](), 3) for name in ("grid_300x300", "random_20000", "power_50000")}
BOTH = {f"{name}_both": lambda name=name: both(PLAIN[name]()) for name in (
    "grid_1000x1000", "grid_60x60x60", "band_100000", "arrow_100000", "grid9_500x500", "clique_1500")}
HOSTILE = {
    "star_100000": lambda: stars(1, 99999),
    "stars_33x3000": lambda: stars(33, 3000),
    "full_row_100000": lambda: arrow(100000, 1),
    "colliding_40000": lambda: colliding(40000, 3, 400, 300, 9),
}
GROWTH = {"x".join(map(str, ("growth_" + str(s[0]), *s[1:]))): lambda s=s: grid(*s) for s in (
    (71, 71), (224, 224), (708, 708), (2237, 2237), (15,) * 3, (33,) * 3, (70,) * 3, (150,) * 3)}
# Its workspace in order has more than 2^31 words, and the file 3.6 GB.
GROWTH["blocks_600x1000"] = lambda: blocks(600, 1000)
ALL = {**PLAIN, **KINDS, **JUMBLED, **BOTH, **HOSTILE, **GROWTH}


def write(path, columns):
    pointers, rows = array.array("q", [0]), array.array("i")
    for column in columns:
        rows.extend(column)
        pointers.append(len(rows))
    with open(path, "wb") as file:
        for part in (array.array("q", [len(pointers) - 1, len(rows)]), pointers, rows):
            part.tofile(file)
    print(os.path.basename(path), len(pointers) - 1, len(rows), flush=True)


def main(folder, *words):
    os.makedirs(folder, exist_ok=True)
    words, seed = list(words), 1
    if "--seed" in words:
        at = words.index("--seed")
        seed = int(words[at + 1])
        del words[at:at + 2]
    groups = {"others": {**kinds.KINDS, **kinds.TINY}, "later": later.KINDS}
    seeded = {name: lambda kind=kind: kind(seed) for group in groups.values() for name, kind in group.items()}
    every = {**ALL, **seeded}
    names = [name for word in words for name in groups.get(word, [word])]
    for name in names or [it for it in every if it not in GROWTH]:
        try:
            write(os.path.join(folder, name), every[name]())
        except ImportError as missing:
            print(f"{name}: skipped, {missing}")


main(*sys.argv[1:])
