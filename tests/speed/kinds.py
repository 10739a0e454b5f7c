"""Kinds of matrices after those of published collections, each drawn anew from a seed. No constant was fitted to them.

A kind is a function of a seed that yields the rows of each column, as `matrices.py` writes them: one triangle where nothing else is said."""
from math import cos, pi, sin


class Draws:
    """Drawn numbers: a linear congruence modulo 2^64, of which the upper 31 bits are taken."""

    def __init__(self, seed):
        self.x = 2 * seed + 1

    def below(self, m):
        self.x = (6364136223846793005 * self.x + 1442695040888963407) % 2**64
        return (self.x >> 33) % m

    def part(self):
        return self.below(2**31) / 2**31


def lower(n, edges):
    """The lower triangle of a graph, from its edges in any order, each once or more."""
    columns = [set() for _ in range(n)]
    for a, b in edges:
        if a != b:
            columns[min(a, b)].add(max(a, b))
    return [sorted(column) for column in columns]


def renumbered(columns, seed):
    """The same graph under a drawn numbering."""
    draws, n = Draws(seed), len(columns)
    number = list(range(n))
    for i in range(n - 1, 0, -1):
        j = draws.below(i + 1)
        number[i], number[j] = number[j], number[i]
    return lower(n, ((number[j], number[i]) for j, column in enumerate(columns) for i in column))


def both(columns):
    """Both triangles and the diagonal of a lower triangle."""
    upper = [[] for _ in columns]
    for j, column in enumerate(columns):
        for i in column:
            upper[i].append(j)
    return [upper[j] + [j] + column for j, column in enumerate(columns)]


def jumbled(columns, seed):
    """The rows of each column in a drawn order."""
    draws = Draws(seed)
    for column in columns:
        column = list(column)
        for i in range(len(column) - 1, 0, -1):
            j = draws.below(i + 1)
            column[i], column[j] = column[j], column[i]
        yield column


def near_points(points, radius):
    """Edges between points of a unit square or cube that are no farther apart than the radius."""
    cells, size = {}, len(points[0])
    for v, point in enumerate(points):
        cells.setdefault(tuple(int(x / radius) for x in point), []).append(v)
    shifts = [()]
    for _ in range(size):
        shifts = [(*shift, step) for shift in shifts for step in (-1, 0, 1)]
    for cell, inside in cells.items():
        for shift in shifts:
            for w in cells.get(tuple(a + b for a, b in zip(cell, shift)), ()):
                for v in inside:
                    if v < w and sum((a - b) ** 2 for a, b in zip(points[v], points[w])) <= radius**2:
                        yield v, w


def power_network(seed, n=60000):
    """A power network: a tree of lines between places near each other, and one loop for every four of them."""
    draws, edges = Draws(seed), []
    for v in range(1, n):
        edges.append((v, max(0, v - 1 - draws.below(40))))
        if draws.below(4) == 0:
            edges.append((v, max(0, v - 1 - draws.below(400))))
    return renumbered(lower(n, edges), seed + 1)


def small_world(seed, n=20000):
    """A small world: a ring in which each vertex is joined to the next two, and one edge in ten goes anywhere."""
    draws = Draws(seed)
    return lower(n, ((v, draws.below(n) if draws.below(10) == 0 else (v + step) % n) for v in range(n) for step in (1, 2)))


def butterfly(seed, k=12):
    """The network of a fast Fourier transform with 2^k points."""
    width = 1 << k
    edges = ((level * width + v, (level + 1) * width + w) for level in range(k) for v in range(width) for w in (v, v ^ (1 << level)))
    return renumbered(lower((k + 1) * width, edges), seed)


def taylor_hood(seed, k=70):
    """Flow by Taylor-Hood elements on triangles of a square: two velocities at corners and middles, a pressure at corners."""
    side = 2 * k + 1
    corners = (k + 1) ** 2
    node = lambda a, b: a * side + b
    unknowns = lambda a, b: [2 * node(a, b), 2 * node(a, b) + 1] + ([2 * side * side + a // 2 * (k + 1) + b // 2] if a % 2 == b % 2 == 0 else [])
    edges = []
    for a in range(0, 2 * k, 2):
        for b in range(0, 2 * k, 2):
            for flip in (0, 1):
                places = [(a, b), (a + 2, b + 2), (a + 1, b + 1)]
                places += [(a + 2, b), (a + 1, b), (a + 2, b + 1)] if flip else [(a, b + 2), (a, b + 1), (a + 1, b + 2)]
                inside = [u for place in places for u in unknowns(*place)]
                edges += [(u, w) for i, u in enumerate(inside) for w in inside[:i]]
    return lower(2 * side * side + corners, edges)


def bordered_blocks(seed, count=400, size=30, border=300):
    """Full blocks on the diagonal, and a border that is joined to drawn rows of them."""
    draws, edges, n = Draws(seed), [], count * size
    for block in range(count):
        edges += [(block * size + a, block * size + b) for a in range(size) for b in range(a)]
    for row in range(border):
        edges += [(n + row, draws.below(n)) for _ in range(60)]
        edges += [(n + row, n + draws.below(border)) for _ in range(4)]
    return lower(n + border, edges)


def grid13(seed, k=200):
    """The biharmonic equation on a square grid: thirteen points."""
    steps = [(0, 1), (0, 2), (1, -1), (1, 0), (1, 1), (2, 0)]
    return lower(k * k, ((a * k + b, (a + s) * k + b + t) for a in range(k) for b in range(k) for s, t in steps
                         if a + s < k and 0 <= b + t < k))


def ladder_circuit(seed, stages=6000):
    """A circuit: stages of eight nodes in a row, with rails that one node in four is joined to. Not symmetric."""
    draws, n = Draws(seed), 8 * stages + 6
    for v in range(n):
        column = {v, min(v + 1, n - 1), min(v + 8, n - 1)} | ({n - 1 - draws.below(6)} if draws.below(4) == 0 else set())
        if draws.below(3) == 0:
            column.add(max(0, v - 8 - draws.below(24)))
        yield sorted(column)


def least_squares(seed, rows=40000, columns=12000):
    """A least squares problem as an augmented system: an identity, and the matrix beside it."""
    draws, edges = Draws(seed), []
    for row in range(rows):
        first = draws.below(columns)
        edges += [(row, rows + (first + draws.below(300) * draws.below(2)) % columns) for _ in range(3)]
    return lower(rows + columns, edges)


def molecules(seed, count=500):
    """Molecules in a box, each with twelve orbitals, joined where they are near."""
    draws = Draws(seed)
    points = [(draws.part(), draws.part(), draws.part()) for _ in range(count)]
    pairs = [*near_points(points, 0.16), *((v, v) for v in range(count))]
    return lower(12 * count, ((12 * v + a, 12 * w + b) for v, w in pairs for a in range(12) for b in range(12)))


def molecules_jumbled(seed):
    """The same, both triangles, with the rows of each column in any order."""
    return jumbled(both(molecules(seed, 400)), seed + 1)


def web(seed, scale=14, count=60000):
    """Links between pages: an R-MAT graph. Not symmetric."""
    draws, n = Draws(seed), 1 << scale
    columns = [set() for _ in range(n)]
    for _ in range(count):
        a = b = 0
        for _ in range(scale):
            draw = draws.below(100)
            a, b = 2 * a + (draw >= 76), 2 * b + (57 <= draw < 76 or draw >= 95)
        columns[b].add(a)
    return map(sorted, columns)


def process_plant(seed, units=700, size=20):
    """Units of a chemical plant: sparse blocks in a row, each fed by the one before and now and then by a later one. Not symmetric, jumbled."""
    draws, n = Draws(seed), units * size
    for v in range(n):
        unit = v // size
        column = [v] + [unit * size + draws.below(size) for _ in range(4)]
        column += [min(unit + 1, units - 1) * size + draws.below(size) for _ in range(2)]
        if draws.below(12) == 0:
            column.append(draws.below(n))
        yield column


def staircase(seed, periods=120, rows=60, columns=100):
    """Normal equations of a linear program in periods: each joins its unknowns and some of the next."""
    draws, edges, n = Draws(seed), [], periods * columns
    for period in range(periods):
        for _ in range(rows):
            inside = [period * columns + draws.below(columns) for _ in range(4)]
            if period + 1 < periods:
                inside += [(period + 1) * columns + draws.below(columns) for _ in range(2)]
            edges += [(a, b) for i, a in enumerate(inside) for b in inside[:i]]
    return lower(n, edges)


def support_vectors(seed, rows=20000, features=40):
    """An interior point step of a support vector machine: samples, each joined to its features."""
    draws = Draws(seed)
    edges = [(row, rows + draws.below(features)) for row in range(rows) for _ in range(8)]
    return lower(rows + features, edges + [(rows + a, rows + b) for a in range(features) for b in range(a)])


def lattice(seed, sides=(12, 12, 12, 12)):
    """A lattice of four dimensions whose ends meet."""
    steps, n = [], 1
    for side in reversed(sides):
        steps.append((n, side))
        n *= side
    return lower(n, ((v, v - step * (side - 1) if v // step % side + 1 == side else v + step) for v in range(n) for step, side in steps))


def protein(seed, n=16000):
    """A chain that is folded in a box, with the contacts of near links."""
    draws, points, at = Draws(seed), [], (0.5, 0.5, 0.5)
    for _ in range(n):
        turn, lean = 2 * pi * draws.part(), 2 * draws.part() - 1
        step = (0.012 * cos(turn), 0.012 * sin(turn), 0.012 * lean)
        at = tuple(min(max(a + b, 0.0), 1.0) for a, b in zip(at, step))
        points.append(at)
    return lower(n, [*near_points(points, 0.02), *((v, v + 1) for v in range(n - 1))])


def cliques(seed, count=600, size=40, shared=8):
    """A chain of cliques, each of which shares some rows with the next."""
    step = size - shared
    n = count * step + shared
    return lower(n, ((c * step + a, c * step + b) for c in range(count) for a in range(size) for b in range(a)))


def hypercube(seed, k=13):
    """The corners of a cube of k dimensions."""
    return lower(1 << k, ((v, v ^ (1 << bit)) for v in range(1 << k) for bit in range(k)))


def regular(seed, n=9000):
    """Each vertex is joined to three drawn ones: no part is near another."""
    draws, ends = Draws(seed), [v for v in range(n) for _ in range(3)]
    for i in range(len(ends) - 1, 0, -1):
        j = draws.below(i + 1)
        ends[i], ends[j] = ends[j], ends[i]
    return lower(n, zip(ends[::2], ends[1::2]))


def multigrid(seed, k=128):
    """Grids of half the side each, one over the other, joined to the next finer one."""
    edges, base, side = [], 0, k
    while side >= 2:
        edges += [(base + a * side + b, base + c * side + d) for a in range(side) for b in range(side)
                  for c, d in ((a + 1, b), (a, b + 1)) if c < side and d < side]
        above = base + side * side
        if side >= 4:
            edges += [(base + a * side + b, above + a // 2 * (side // 2) + b // 2) for a in range(side) for b in range(side)]
        base, side = above, side // 2
    return lower(base, edges)


def portfolio(seed, count=128, depth=7):
    """A portfolio over time: trees of one depth, whose roots are joined in a ring and to a few others."""
    draws, size, edges = Draws(seed), (1 << depth) - 1, []
    for t in range(count):
        edges += [(t * size + v, t * size + (v - 1) // 2) for v in range(1, size)]
        edges += [(t * size + v, t * size + v + 1) for v in range(size // 2, size - 1)]
        edges += [(t * size + v, (t + 1) % count * size + v) for v in range(size // 4)]
        edges.append((t * size, draws.below(count) * size))
    return lower(count * size, edges)


def semiconductor(seed, k=110):
    """A device on a rectangular mesh: three unknowns a point, both triangles, some couplings one way only."""
    draws = Draws(seed)
    for v in range(k * k):
        a, b = divmod(v, k)
        near = [w for w, inside in ((v - k, a), (v - 1, b), (v, True), (v + 1, b + 1 < k), (v + k, a + 1 < k)) if inside]
        for m in range(3):
            yield sorted({3 * w + u for w in near for u in range(3) if u == m or w == v or draws.below(2)})


def wind_tunnel(seed, n=9000):
    """Drawn points in a slab with the corners of near ones joined, six unknowns each, both triangles."""
    draws = Draws(seed)
    points = [(draws.part(), draws.part(), draws.part() * 0.15) for _ in range(n // 6)]
    pairs = [*near_points(points, 0.075), *((v, v) for v in range(n // 6))]
    return both(lower(n, ((6 * v + a, 6 * w + b) for v, w in pairs for a in range(6) for b in range(6))))


def economy(seed, sectors=40, regions=45):
    """An economy: the sectors of each region joined to each other, and each sector to itself in all regions."""
    edges = [(r * sectors + a, r * sectors + b) for r in range(regions) for a in range(sectors) for b in range(a)]
    edges += [(r * sectors + a, q * sectors + a) for a in range(sectors) for r in range(regions) for q in range(r)]
    return lower(sectors * regions, edges)


def tetrahedra(seed, n=12000):
    """A mesh of tetrahedra over drawn points; needs scipy."""
    from scipy.spatial import Delaunay
    draws = Draws(seed)
    corners = Delaunay([(draws.part(), draws.part(), draws.part()) for _ in range(n)]).simplices
    return lower(n, ((int(t[a]), int(t[b])) for t in corners for a in range(4) for b in range(a)))


def tiny(side):
    return lambda seed: lower(side * side, [(v, v + 1) for v in range(side * side - 1) if (v + 1) % side]
                              + [(v, v + side) for v in range(side * side - side)])


KINDS = {it.__name__: it for it in (
    power_network, small_world, butterfly, taylor_hood, bordered_blocks, grid13, ladder_circuit, least_squares, molecules, molecules_jumbled,
    web, process_plant, staircase, support_vectors, lattice, protein, cliques, hypercube, regular, multigrid, portfolio, semiconductor,
    wind_tunnel, economy, tetrahedra)}
TINY = {f"tiny_{side * side}": tiny(side) for side in (2, 3, 5, 8, 11)}
