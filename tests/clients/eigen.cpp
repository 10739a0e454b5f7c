// Eigen's sparse solvers with Rimopaku::Ordering beside Eigen::AMDOrdering: both must solve, and the entries of both factors are written.
#include <cstdint>
#include <cstdio>
#include <vector>

#include <Eigen/SparseCholesky>
#include <Eigen/SparseLU>

#include "rimopaku_eigen.hpp"

namespace {

template <typename Index> Eigen::SparseMatrix<double, Eigen::ColMajor, Index> grid(Index side)
{
    std::vector<Eigen::Triplet<double, Index>> entries;
    for (Index at = 0; at < side * side; at++) {
        entries.emplace_back(at, at, 4.5);
        if (at % side + 1 < side) {
            entries.emplace_back(at, at + 1, -1.0);
            entries.emplace_back(at + 1, at, -1.0);
        }
        if (at + side < side * side) {
            entries.emplace_back(at, at + side, -1.0);
            entries.emplace_back(at + side, at, -1.0);
        }
    }
    Eigen::SparseMatrix<double, Eigen::ColMajor, Index> matrix(side * side, side * side);
    matrix.setFromTriplets(entries.begin(), entries.end());
    return matrix;
}

// The entries of the factor with its diagonal, or -1 where the solution is wrong.
template <typename Solver, typename Matrix> long fill(const Matrix &matrix)
{
    const Eigen::VectorXd ones = Eigen::VectorXd::Ones(matrix.rows());
    const Solver solver(matrix);
    if (solver.info() != Eigen::Success)
        return -1;
    const Eigen::VectorXd solution = solver.solve(ones);
    if ((matrix * solution - ones).norm() > 1e-8)
        return -1;
    return static_cast<long>(solver.matrixL().nestedExpression().nonZeros());
}

template <typename Index, int triangle> void try_grid(const char *name, Index side)
{
    typedef Eigen::SparseMatrix<double, Eigen::ColMajor, Index> Matrix;
    const Matrix matrix = grid<Index>(side);
    std::printf("%s, grid of %ld rows: LDLT %ld (Eigen's AMD %ld), LLT %ld (%ld)\n", name, static_cast<long>(matrix.rows()),
                fill<Eigen::SimplicialLDLT<Matrix, triangle, Rimopaku::Ordering<Index>>>(matrix),
                fill<Eigen::SimplicialLDLT<Matrix, triangle, Eigen::AMDOrdering<Index>>>(matrix),
                fill<Eigen::SimplicialLLT<Matrix, triangle, Rimopaku::Ordering<Index>>>(matrix),
                fill<Eigen::SimplicialLLT<Matrix, triangle, Eigen::AMDOrdering<Index>>>(matrix));
}

// An unsymmetric matrix, ordered by the pattern of A + A'.
void try_lu()
{
    typedef Eigen::SparseMatrix<double> Matrix;
    Matrix matrix = grid<int>(30);
    matrix.coeffRef(0, 700) = 0.5;
    matrix.makeCompressed();
    Eigen::SparseLU<Matrix, Rimopaku::Ordering<int>> solver;
    solver.compute(matrix);
    const Eigen::VectorXd ones = Eigen::VectorXd::Ones(matrix.rows());
    const Eigen::VectorXd solution = solver.solve(ones);
    std::printf("SparseLU: %s\n", (matrix * solution - ones).norm() < 1e-8 ? "solved" : "NOT SOLVED");
}

} // namespace

int main()
{
    for (int side : {1, 5, 30, 100}) {
        try_grid<int, Eigen::Lower>("32 bits, lower triangle", side);
        try_grid<int, Eigen::Upper>("32 bits, upper triangle", side);
        try_grid<std::int64_t, Eigen::Lower>("64 bits, lower triangle", side);
    }
    try_lu();
    return 0;
}
