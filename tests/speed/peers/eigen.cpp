/* Eigen's ordering by A + A' (`AMDOrdering`, which forms that pattern too). It takes rows without a diagonal entry for
   dense ones, so each column gets one here. */
#include "peer.h"
#include <Eigen/OrderingMethods>
#include <Eigen/SparseCore>
#include <vector>

template <typename I> static Eigen::SparseMatrix<double, Eigen::ColMajor, I> with_diagonal(const matrix *m) {
    std::vector<Eigen::Triplet<double, I>> entries;
    for (int64_t j = 0; j < m->n; j++) {
        entries.emplace_back(j, j, 1);
        for (int64_t k = m->pointers[j]; k < m->pointers[j + 1]; k++) entries.emplace_back(m->rows[k], j, 1);
    }
    Eigen::SparseMatrix<double, Eigen::ColMajor, I> a(m->n, m->n);
    a.setFromTriplets(entries.begin(), entries.end());
    return a;
}

template <typename I> static uint64_t order_in(const matrix *m, int64_t *p) {
    static const Eigen::SparseMatrix<double, Eigen::ColMajor, I> a = with_diagonal<I>(m);
    Eigen::PermutationMatrix<Eigen::Dynamic, Eigen::Dynamic, I> found;
    uint64_t start = now();
    Eigen::AMDOrdering<I>()(a, found);
    uint64_t time = now() - start;
    for (int64_t k = 0; k < m->n; k++) p[k] = found.indices()[k];
    return time;
}

static uint64_t order(const matrix *m, const char *kind, int64_t *p) {
    return strcmp(kind, "i32") ? order_in<int64_t>(m, p) : order_in<int>(m, p);
}

int main(int count, char **words) { return time_orderings("eigen", "ownhash", count, words, order); }
