"""A distributed solve by PETSc: each process orders and factors its subdomain, so AMD runs in each of them.

    mpirun -n 4 python3 petsc_client.py

solves Poisson's equation on grids by GMRES with an additive Schwarz preconditioner, whose subdomains are factored by LU
in the order of AMD, and by Cholesky. What it prints must not change with another libamd: iterations, residuals, and the
entries of the factors.
"""

import sys

import petsc4py

petsc4py.init(sys.argv)
from petsc4py import PETSc  # noqa: E402


def grid(n, wind):
    """The five-point stencil on a grid of n by n rows, with a term that makes it unsymmetric."""
    a = PETSc.Mat().createAIJ([n * n, n * n], nnz=(5, 2))
    first, last = a.getOwnershipRange()
    for row in range(first, last):
        i, j = divmod(row, n)
        a[row, row] = 4.0
        for near, inside, value in (
            (row - n, i > 0, -1.0 - wind),
            (row + n, i < n - 1, -1.0 + wind),
            (row - 1, j > 0, -1.0 - wind),
            (row + 1, j < n - 1, -1.0 + wind),
        ):
            if inside:
                a[row, near] = value
    a.assemble()
    return a


def solve(n, wind, inner):
    a = grid(n, wind)
    options = PETSc.Options()
    options["pc_type"] = "asm"
    options["sub_pc_type"] = inner
    options["sub_pc_factor_mat_ordering_type"] = "amd"
    solver = PETSc.KSP().create()
    solver.setOperators(a)
    solver.setType("gmres")
    solver.setTolerances(rtol=1e-10)
    solver.setFromOptions()
    x, b = a.createVecs()
    b.setArray([1.0 + k % 7 for k in range(*b.getOwnershipRange())])
    solver.solve(b, x)
    residual = b.duplicate()
    a.mult(x, residual)
    residual.axpy(-1.0, b)
    inside = solver.getPC().getASMSubKSP()[0].getPC().getFactorMatrix().getInfo(PETSc.Mat.InfoType.LOCAL)
    entries = PETSc.Vec().createMPI((1, PETSc.DECIDE))
    entries.setArray([inside["nz_used"]])
    PETSc.Sys.Print(
        f"{n} by {n}, {inner}, {PETSc.COMM_WORLD.size} processes: {solver.getIterationNumber()} iterations, "
        f"|b - A x| / |b| = {residual.norm() / b.norm():.10e}, |x| = {x.norm():.12e}, entries of the factors {entries.sum():.0f}, "
        f"of the largest {entries.max()[1]:.0f}"
    )


for size in (40, 120):
    solve(size, 0.3, "lu")
    solve(size, 0.0, "cholesky")
