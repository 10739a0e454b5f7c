"""Kinds of matrices that were written down when the code was done: nothing in it was decided by them. Those of `kinds.py` were seen before.

A kind is a function of a seed, as there: one triangle where nothing else is said."""
from kinds import Draws, both, jumbled, lower, near_points, renumbered


def pose_graph(seed, n=5000, unknowns=3):
    """A robot's way over a floor: poses of three unknowns, each joined to the last one and to earlier ones at the same place."""
    draws, at, seen, pairs = Draws(seed), (30, 30), {}, []
    for v in range(n):
        step = ((0, 1), (1, 0), (0, -1), (-1, 0))[draws.below(4)]
        at = tuple(min(max(a + b, 0), 60) for a, b in zip(at, step))
        pairs += [(v, v)] + ([(v - 1, v)] if v else []) + [(w, v) for w in seen.get(at, [])[-2:]]
        seen.setdefault(at, []).append(v)
    return lower(unknowns * n, ((unknowns * v + a, unknowns * w + b) for v, w in pairs for a in range(unknowns) for b in range(unknowns)))


def bundle(seed, cameras=150, points=6000):
    """Bundle adjustment: points of three unknowns, each seen by five cameras of six that follow each other with gaps."""
    draws, first, edges = Draws(seed), 3 * points, []
    for point in range(points):
        inside = [3 * point + a for a in range(3)]
        edges += [(inside[a], inside[b]) for a in range(3) for b in range(a)]
        start = draws.below(cameras - 15)
        for camera in {start + draws.below(15) for _ in range(5)}:
            edges += [(u, first + 6 * camera + a) for u in inside for a in range(6)]
    edges += [(first + 6 * c + a, first + 6 * c + b) for c in range(cameras) for a in range(6) for b in range(a)]
    return lower(first + 6 * cameras, edges)


def horizon(seed, stages=900, states=8, inputs=3):
    """Optimal control: stages of states, inputs and multipliers in a row; the matrices of a stage are half empty. Both triangles."""
    draws, size, edges = Draws(seed), 2 * states + inputs, []
    for t in range(stages):
        base = t * size
        for m in range(states):
            row = base + states + inputs + m
            edges += [(row, base + u) for u in range(states + inputs) if draws.below(2)]
            if t + 1 < stages:
                edges.append((row, base + size + m))
        edges += [(base + u, base + w) for u in range(states) for w in range(u) if draws.below(4) == 0]
    return both(lower(stages * size, edges))


def pedigree(seed, founders=400, generations=24, born=600):
    """Animals and their parents, two of the generation before; both parents are joined too."""
    draws, edges, before, n = Draws(seed), [], range(founders), founders
    for _ in range(generations):
        for child in range(n, n + born):
            sire, dam = before[draws.below(max(1, len(before) // 20))], before[draws.below(len(before))]
            edges += [(child, sire), (child, dam), (sire, dam)]
        before, n = range(n, n + born), n + born
    return renumbered(lower(n, edges), seed + 1)


def sensors(seed, n=16000):
    """Drawn points of a square, joined where they are near."""
    draws = Draws(seed)
    return lower(n, near_points([(draws.part(), draws.part()) for _ in range(n)], 0.012))


def serendipity(seed, k=62):
    """Squares with a node at each corner and at the middle of each side, two unknowns a node. Both triangles."""
    side, edges = 2 * k + 1, []
    for a in range(0, 2 * k, 2):
        for b in range(0, 2 * k, 2):
            nodes = [(a + x) * side + b + y for x in range(3) for y in range(3) if (x, y) != (1, 1)]
            inside = [2 * v + u for v in nodes for u in range(2)]
            edges += [(u, w) for i, u in enumerate(inside) for w in inside[:i]]
    return both(lower(2 * side * side, edges))


def pipe(seed, around=24, along=160, unknowns=4):
    """The wall of a pipe: a grid whose long sides are joined, with both diagonals and four unknowns a node; the numbers are drawn."""
    pairs = []
    for a in range(along):
        for b in range(around):
            v = a * around + b
            pairs += [(v, v), (v, a * around + (b + 1) % around)]
            pairs += [(v, (a + 1) * around + (b + t) % around) for t in (-1, 0, 1) if a + 1 < along]
    edges = [(unknowns * v + m, unknowns * w + k) for v, w in pairs for m in range(unknowns) for k in range(unknowns)]
    return renumbered(lower(around * along * unknowns, edges), seed)


def terms(seed, words=7000, texts=5000):
    """Words that occur in one text are joined; a few words are in many texts."""
    draws, edges = Draws(seed), []
    for _ in range(texts):
        inside = [int(words ** draws.part()) - 1 if draws.below(3) == 0 else draws.below(words) for _ in range(5)]
        edges += [(a, b) for i, a in enumerate(inside) for b in inside[:i]]
    return lower(words, edges)


def friends(seed, n=9000):
    """Each joins one that is there, and two of the friends of that one."""
    draws, known, edges = Draws(seed), [[1], [0]], [(0, 1)]
    for v in range(2, n):
        first = draws.below(v)
        others = {first, *(known[first][draws.below(len(known[first]))] for _ in range(2))}
        known.append(sorted(others))
        for w in others:
            known[w].append(v)
            edges.append((v, w))
    return lower(n, edges)


def transport(seed, sources=180, sinks=160):
    """Goods from sources to sinks: each flow is joined to where it begins and where it ends; a third of the flows is there."""
    draws, flows = Draws(seed), []
    for a in range(sources):
        flows += [(a, sources + b) for b in range(sinks) if draws.below(3) == 0]
    first = len(flows)
    return lower(first + sources + sinks, ((f, first + end) for f, ends in enumerate(flows) for end in ends))


def scenarios(seed, branches=3, depth=7, size=7):
    """A tree of decisions: blocks of unknowns, each joined to those of its parent. Both triangles, jumbled."""
    draws, edges, n = Draws(seed), [], sum(branches**d for d in range(depth + 1))
    for v in range(n):
        edges += [(v * size + a, v * size + b) for a in range(size) for b in range(a)]
        if v:
            edges += [(v * size + a, (v - 1) // branches * size + draws.below(size)) for a in range(size) for _ in range(2)]
    return jumbled(both(lower(n * size, edges)), seed + 1)


def slab(seed, sides=(70, 70, 5)):
    """A flat sheet of bricks: 27 points."""
    x, y, z = sides
    number = lambda a, b, c: (a * y + b) * z + c
    steps = [(a, b, c) for a in (0, 1) for b in (-1, 0, 1) for c in (-1, 0, 1) if (a, b, c) > (0, 0, 0)]
    return lower(x * y * z, ((number(a, b, c), number(a + i, b + j, c + k)) for a in range(x) for b in range(y) for c in range(z)
                             for i, j, k in steps if a + i < x and 0 <= b + j < y and 0 <= c + k < z))


def skyline(seed, n=14000):
    """A frame: each row is joined to all from a drawn one on, at most thirty before it, one row in two hundred to far ones."""
    draws, edges = Draws(seed), []
    for v in range(1, n):
        edges += [(v, w) for w in range(max(0, v - 1 - draws.below(30)), v) if draws.below(3)]
        if draws.below(200) == 0:
            edges += [(v, draws.below(v)) for _ in range(10)]
    return lower(n, edges)


def neurons(seed, cells=120, size=150):
    """Branching cells, each a tree of compartments, with contacts between drawn ends of two. Not symmetric."""
    draws, n = Draws(seed), cells * size
    columns = [{v} for v in range(n)]
    for v in range(n):
        cell, at = divmod(v, size)
        if at:
            parent = cell * size + at - 1 - draws.below(min(at, 1 + 8 * (draws.below(6) == 0)))
            columns[v].add(parent)
            columns[parent].add(v)
        if draws.below(3) == 0:
            columns[v].add(draws.below(n))
    return map(sorted, columns)


def honeycomb(seed, k=130):
    """A sheet of carbon: each atom is joined to three, and to the next ones of these; one atom in fifty is missing."""
    draws, n = Draws(seed), 2 * k * k
    near = [[] for _ in range(n)]
    lacking = {v for v in range(n) if draws.below(50) == 0}
    for a in range(k):
        for b in range(k):
            v = 2 * (a * k + b)
            for c, d in ((a, b), (a - 1, b), (a, b - 1)):
                w = 2 * (c * k + d) + 1
                if c >= 0 and d >= 0 and v not in lacking and w not in lacking:
                    near[v].append(w)
                    near[w].append(v)
    return lower(n, ((v, w) for v in range(n) for u in near[v] for w in (u, *near[u])))


KINDS = {it.__name__: it for it in (pose_graph, bundle, horizon, pedigree, sensors, serendipity, pipe, terms, friends, transport, scenarios, slab,
                                    skyline, neurons, honeycomb)}
