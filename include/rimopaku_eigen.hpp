/* rimopaku_eigen.hpp: an ordering for the solvers of Eigen, as Eigen::AMDOrdering:
 *
 *     Eigen::SimplicialLDLT<Eigen::SparseMatrix<double>, Eigen::Lower, Rimopaku::Ordering<int>> solver;
 *
 * Refused memory is thrown as std::bad_alloc. */

#ifndef RIMOPAKU_EIGEN_HPP
#define RIMOPAKU_EIGEN_HPP

#include "rimopaku.hpp"

#include <Eigen/OrderingMethods>
#include <Eigen/SparseCore>

namespace Rimopaku {

template <typename StorageIndex> class Ordering {
public:
    typedef Eigen::PermutationMatrix<Eigen::Dynamic, Eigen::Dynamic, StorageIndex> PermutationType;

    Ordering() : parameters_() {}
    explicit Ordering(const rimopaku_parameters &parameters) : parameters_(parameters) {}

    /* Orders a square matrix by the pattern of A + A'. */
    template <typename MatrixType> void operator()(const MatrixType &matrix, PermutationType &permutation) const
    {
        Eigen::SparseMatrix<typename MatrixType::Scalar, Eigen::ColMajor, StorageIndex> pattern(matrix);
        order_pattern(pattern, permutation);
    }

    /* Orders a symmetric matrix, of which one triangle is read. */
    template <typename Source, unsigned int triangle>
    void operator()(const Eigen::SparseSelfAdjointView<Source, triangle> &matrix, PermutationType &permutation) const
    {
        Eigen::SparseMatrix<typename Source::Scalar, Eigen::ColMajor, StorageIndex> pattern;
        pattern = matrix;
        order_pattern(pattern, permutation);
    }

private:
    template <typename Pattern> void order_pattern(Pattern &pattern, PermutationType &permutation) const
    {
        StorageIndex n = static_cast<StorageIndex>(pattern.cols());

        pattern.makeCompressed();
        Permutation<StorageIndex> found =
            order<StorageIndex>(n, View<StorageIndex>(pattern.outerIndexPtr(), static_cast<std::size_t>(n) + 1),
                                View<StorageIndex>(pattern.innerIndexPtr(), static_cast<std::size_t>(pattern.nonZeros())), parameters_);
        permutation.resize(n);
        for (StorageIndex k = 0; k < n; k++)
            permutation.indices()[k] = found.p[static_cast<std::size_t>(k)];
    }

    struct Chosen : rimopaku_parameters {
        Chosen() : rimopaku_parameters(Parameters()) {}
        Chosen(const rimopaku_parameters &parameters) : rimopaku_parameters(parameters) {}
    } parameters_;
};

} // namespace Rimopaku

#endif
