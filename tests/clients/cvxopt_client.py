"""What cvxopt finds with AMD below it; what it prints must not change with libamd."""

import hashlib
import random

from cvxopt import amd, cholmod, matrix, solvers, spmatrix, umfpack


def digest(numbers):
    return hashlib.md5(str(list(numbers)).encode()).hexdigest()[:12]


def grid(side):
    rows, columns, values = [], [], []
    for i in range(side):
        for j in range(side):
            at = i * side + j
            for other, value in ((at, 4.0), (at + side, -1.0), (at + 1, -1.0)):
                if other < side * side and (other != at + 1 or j + 1 < side):
                    rows.append(other)
                    columns.append(at)
                    values.append(value)
    return spmatrix(values, rows, columns, (side * side, side * side))


def main():
    for side in (5, 30, 100):
        lower = grid(side)
        ones = matrix(1.0, (lower.size[0], 1))
        print("grid", side, "amd.order", digest(amd.order(lower)))
        solution = +ones
        cholmod.linsolve(lower, solution)
        print("cholmod.linsolve", digest(round(x, 9) for x in solution))
        factor = cholmod.symbolic(lower, uplo="L")
        cholmod.numeric(lower, factor)
        print("cholmod.diag", digest(round(x, 9) for x in cholmod.diag(factor)))
        solution = +ones
        umfpack.linsolve(lower + lower.T, solution)
        print("umfpack.linsolve", digest(round(x, 9) for x in solution))
        try:
            from cvxopt import klu
        except ImportError:
            continue
        solution = +ones
        klu.linsolve(lower + lower.T, solution)
        print("klu.linsolve", digest(round(x, 9) for x in solution))
    random.seed(1)
    m, n = 60, 30
    values = [random.gauss(0, 1) for _ in range(240)]
    rows, columns = [random.randrange(m) for _ in range(240)], [random.randrange(n) for _ in range(240)]
    bounds = spmatrix(
        values + [1.0] * n + [-1.0] * n,
        rows + list(range(m, m + n)) + list(range(m + n, m + 2 * n)),
        columns + list(range(n)) * 2,
        (m + 2 * n, n),
    )
    solvers.options["show_progress"] = False
    cost = matrix([random.gauss(0, 1) for _ in range(n)])
    found = solvers.lp(cost, bounds, matrix(5.0, (m + 2 * n, 1)), kktsolver="chol")
    print("lp", found["status"], round(found["primal objective"], 8), found["iterations"])


main()
