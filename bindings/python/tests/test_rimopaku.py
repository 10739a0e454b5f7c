"""Tests of the package: worked matrices, drawn ones beside elimination on a dense matrix, and faults."""

import ctypes
import doctest
import math
import threading
import unittest

import numpy as np
import scipy.sparse as sp
from scipy.sparse.linalg import splu

import rimopaku
from rimopaku import _library, amd, analyze, counts, supernodes

try:
    import matplotlib

    matplotlib.use("Agg")
except ImportError:
    matplotlib = None

# The matrix of five rows of the crate `amd`, and its ordering there.
FIVE = sp.csc_matrix(([1] * 14, [0, 1, 0, 1, 2, 4, 1, 2, 3, 4, 2, 3, 1, 4], [0, 2, 6, 10, 12, 14]))
FIVE_ORDERED = [0, 3, 2, 4, 1]


def load_tests(_loader, tests, _pattern):
    tests.addTests(doctest.DocTestSuite(rimopaku))
    return tests


def grid(side):
    """The five-point Laplacian of a square."""
    line = sp.diags([-1, 2, -1], [-1, 0, 1], shape=(side, side))
    return sp.csc_matrix(sp.kron(sp.identity(side), line) + sp.kron(line, sp.identity(side)))


def drawn(n, density, seed):
    return sp.random(n, n, density, format="csc", random_state=seed)


def eliminated(A, p):
    """The pattern of the factor of A + A' in the order p with its diagonal, by elimination on a dense matrix."""
    full = (sp.csc_matrix(A) != 0).toarray()
    full = (full | full.T)[p][:, p]
    n = len(p)
    for k in range(n):
        below = np.flatnonzero(full[k + 1 :, k]) + k + 1
        full[np.ix_(below, below)] = True
    return np.tril(full, -1) | np.eye(n, dtype=bool)


class Orders(unittest.TestCase):
    def test_five_rows(self):
        p, info = amd(FIVE, return_info=True)
        self.assertEqual(p.tolist(), FIVE_ORDERED)
        # Counted by hand: five entries on the diagonal, five edges, of which four are in both triangles.
        self.assertEqual(info[:6], (5, 14, False, 5, 10, 0))
        self.assertEqual((info.lnz, info.d_max, info.jumbled), (5, 3, False))

    def test_formats(self):
        for form in ("csc", "csr", "coo", "lil", "dok", "dia", "bsr"):
            with self.subTest(form):
                matrix = (FIVE + FIVE.T).asformat(form)
                self.assertEqual(amd(matrix).tolist(), amd(FIVE + FIVE.T).tolist())
        self.assertEqual(amd(FIVE.toarray()).tolist(), FIVE_ORDERED)
        self.assertEqual(amd(FIVE.toarray().tolist()).tolist(), FIVE_ORDERED)

    def test_sparse_arrays(self):
        array = sp.csc_array((FIVE.data, FIVE.indices, FIVE.indptr))
        self.assertEqual(amd(array).tolist(), FIVE_ORDERED)

    def test_csr_is_read_as_the_transpose(self):
        A = drawn(60, 0.05, 1)
        self.assertEqual(amd(A.tocsr()).tolist(), amd(A.T.tocsc()).tolist())

    def test_widths(self):
        for indices, indptr in ((np.int64, np.int64), (np.int32, np.int64), (np.int64, np.int32), (np.int32, np.int32)):
            matrix = FIVE.copy()
            matrix.indices, matrix.indptr = matrix.indices.astype(indices), matrix.indptr.astype(indptr)
            p = amd(matrix)
            self.assertEqual(p.tolist(), FIVE_ORDERED)
            self.assertEqual(p.dtype, np.int64 if np.int64 in (indices, indptr) else np.int32)
            self.assertEqual(analyze(matrix).indices.dtype, p.dtype)

    def test_views_that_are_not_contiguous(self):
        matrix = FIVE.copy()
        matrix.indices = np.repeat(matrix.indices, 2)[::2]
        self.assertEqual(amd(matrix).tolist(), FIVE_ORDERED)

    def test_unsorted_with_duplicates(self):
        matrix = sp.csc_matrix((2, 2))
        matrix.indptr, matrix.indices, matrix.data = np.array([0, 3, 3]), np.array([1, 0, 1]), np.ones(3)
        p, info = amd(matrix, return_info=True)
        self.assertEqual(sorted(p), [0, 1])
        self.assertEqual((info.nz, info.jumbled), (2, True))

    def test_no_rows(self):
        p, info = amd(sp.csc_matrix((0, 0)), return_info=True)
        self.assertEqual((len(p), info.n, info.lnz), (0, 0, 0))
        self.assertEqual(analyze(sp.csc_matrix((0, 0))).indptr.tolist(), [0])
        self.assertEqual(counts(sp.csc_matrix((0, 0))).need, (0, 0, 0, 0))

    def test_the_input_stays(self):
        A = drawn(80, 0.05, 2)
        before = A.copy()
        amd(A), analyze(A), counts(A)
        self.assertTrue(np.array_equal(A.indices, before.indices) and np.array_equal(A.indptr, before.indptr))

    def test_less_fill_than_in_the_given_order(self):
        A = grid(40)
        here, there = analyze(A), analyze(A, p=np.arange(1600))
        self.assertLess(here.nnz * 2, there.nnz)
        # The factor of scipy's solver in the order p has the entries that `analyze` tells, and the diagonal.
        B = sp.csc_matrix(A[here.p][:, here.p])
        factor = splu(B, permc_spec="NATURAL", diag_pivot_thresh=0.0, options={"SymmetricMode": True})
        self.assertEqual(factor.L.nnz, here.nnz + 1600)


class Choices(unittest.TestCase):
    def test_held_rows(self):
        mask = [True, False, False, True, False]
        for hold in ([0, 3], np.array([3, 0], np.uint8), np.array(mask), mask):
            p, info = amd(FIVE, hold=hold, return_info=True)
            self.assertEqual((p[3:].tolist(), info.n_dense), ([0, 3], 2))
        self.assertEqual(amd(FIVE, hold=[]).tolist(), FIVE_ORDERED)
        self.assertEqual(analyze(FIVE, hold=[0, 3]).p[3:].tolist(), [0, 3])

    def test_the_threshold_is_that_of_the_float(self):
        # The float product is just below 29, the degree of row 0.
        matrix = sp.csc_matrix((np.ones(29), np.arange(1, 30), [0] + [29] * 625), shape=(625, 625))
        choices = (1.16, 1.161, 1.159, -1, 10, math.inf)
        told = [amd(matrix, dense=dense, return_info=True)[1].n_dense for dense in choices]
        self.assertEqual(told, [1, 0, 1, 0, 0, 0])

    def test_thousandths(self):
        for n in [*range(1, 3000, 7), 10**6 - 1, 10**6]:
            for dense in (0.0, 0.37, 1.16, 8.2, 9.9999, 10.0, 1e9, math.inf):
                t = rimopaku._thousandths(dense, n)
                self.assertEqual(min(rimopaku._threshold(t, n), n), int(min(dense * math.sqrt(n), n)), (dense, n))

    def test_not_aggressive(self):
        self.assertEqual(sorted(amd(grid(10), aggressive=False)), list(range(100)))


class Factors(unittest.TestCase):
    def test_beside_elimination(self):
        for seed in range(40):
            n = 1 + seed * 2
            A = drawn(n, 2.5 / n if n > 3 else 0.5, seed)
            for p in (None, np.arange(n), np.random.default_rng(seed).permutation(n)):
                with self.subTest(seed=seed, p=p):
                    analysis = analyze(A, p)
                    pattern = eliminated(A, analysis.p)
                    self.assertTrue(np.array_equal(analysis.pattern().toarray(), pattern))
                    below = pattern & ~np.eye(n, dtype=bool)
                    parents = [int(np.argmax(below[:, k])) if below[:, k].any() else -1 for k in range(n)]
                    self.assertEqual(analysis.parent.tolist(), parents)
                    told = counts(A, p)
                    self.assertEqual(told.sizes.tolist(), below.sum(axis=0).tolist())
                    self.assertEqual((told.parent.tolist(), told.nnz), (parents, analysis.nnz))
                    if p is None:
                        self.assertLessEqual(analysis.nnz, analysis.info.lnz)

    def test_supernodes(self):
        """The columns of each supernode, beside those of `analyze`; and no longer runs could be."""
        empty, apart = sp.csc_matrix((0, 0)), sp.identity(3, format="csc")
        for A in (FIVE, grid(9), drawn(60, 0.05, 1), drawn(60, 0.2, 2), empty, apart):
            told, factor = supernodes(A), analyze(A)
            self.assertEqual(told.p.tolist(), factor.p.tolist())
            column = [factor.indices[i:j].tolist() for i, j in zip(factor.indptr, factor.indptr[1:])]
            joined = [bool(c) and c[0] == k + 1 and len(c) == len(column[k + 1]) + 1 for k, c in enumerate(column)]
            begins = [k for k in range(len(column)) if k == 0 or not joined[k - 1]]
            self.assertEqual(told.first.tolist(), [*begins, len(column)])
            for s, (low, high) in enumerate(zip(told.first, told.first[1:])):
                below = told.indices[told.indptr[s] : told.indptr[s + 1]].tolist()
                for k in range(low, high):
                    self.assertEqual(column[k], [*range(k + 1, high), *below])
                over = told.parent[s]
                self.assertEqual(over >= 0, bool(below))
                if below:
                    self.assertTrue(told.first[over] <= below[0] < told.first[over + 1])
        self.assertRaises(ValueError, supernodes, FIVE, p=[0, 0, 1, 2, 3])

    def test_more_rows_than_are_likely(self):
        """A path of 40 rows, each joined to one of 40 more, which stand in all columns behind it."""
        edges = [(k, k + 1) for k in range(39)] + [(k, k + 40) for k in range(40)]
        columns, rows = zip(*edges)
        for kind in (np.int32, np.int64):
            path = sp.csc_matrix((np.ones(79), (rows, columns)), shape=(80, 80))
            path.indptr, path.indices = path.indptr.astype(kind), path.indices.astype(kind)
            told = supernodes(path, p=range(80))
            self.assertEqual((len(told.parent), len(told.indices)), (40, 819))
            self.assertEqual(told.indices[told.indptr[2] : told.indptr[3]].tolist(), [3, 40, 41, 42])

    def test_a_full_factor(self):
        star = sp.csc_matrix((np.ones(99), np.arange(1, 100), [0] + [99] * 100), shape=(100, 100))
        self.assertEqual(analyze(star, p=range(100)).nnz, 99 * 50)
        self.assertEqual(counts(star, p=range(100)).nnz, 99 * 50)


class Faults(unittest.TestCase):
    def test_shapes(self):
        with self.assertRaisesRegex(ValueError, "not square"):
            amd(sp.csc_matrix((3, 4)))

    def test_arrays(self):
        for field, place, number in (("indices", 0, 99), ("indices", 3, -1), ("indptr", 0, 1), ("indptr", 2, 1)):
            matrix = FIVE.copy()
            getattr(matrix, field)[place] = number
            for call in (amd, analyze, counts):
                with self.assertRaisesRegex(ValueError, "no compressed form"):
                    call(matrix)
        short = FIVE.copy()
        short.indices = short.indices[:-1]
        with self.assertRaises(ValueError):
            amd(short)

    def test_choices(self):
        for hold in ([5], [-1], [True], np.ones(6, bool), [0.5], [[0, 1]], "all"):
            with self.subTest(hold=hold), self.assertRaisesRegex(ValueError, "hold"):
                amd(FIVE, hold=hold)
        with self.assertRaisesRegex(ValueError, "dense"):
            amd(FIVE, dense=math.nan)

    def test_orders(self):
        faulty_ends = [[0, 1, 2, 3, end] for end in (3, 5, -1, 2**32)]
        for p in ([0, 1, 2, 3], *faulty_ends, [0.0] * 5, [[0]]):
            with self.subTest(p=p), self.assertRaises(ValueError):
                analyze(FIVE, p)

    def test_memory(self):
        with self.assertRaisesRegex(MemoryError, "memory was refused"):
            _library.fail(_library.OUT_OF_MEMORY)


class Threads(unittest.TestCase):
    def test_threads_order_at_the_same_time(self):
        # Not PyDLL, which keeps the lock of the interpreter.
        self.assertIs(type(_library._LIBRARY), ctypes.CDLL)
        matrices = [drawn(300, 0.01, seed) for seed in range(8)]
        wanted = [amd(it).tolist() for it in matrices]
        told = [None] * len(matrices)

        def run(k):
            for _ in range(20):
                told[k] = amd(matrices[k]).tolist()

        threads = [threading.Thread(target=run, args=(k,)) for k in range(len(matrices))]
        for it in threads:
            it.start()
        for it in threads:
            it.join()
        self.assertEqual(told, wanted)


@unittest.skipIf(matplotlib is None, "no matplotlib here")
class Pictures(unittest.TestCase):
    def test_spy(self):
        left, right = rimopaku.spy(grid(6))
        self.assertEqual(left.get_title(), "A + A': 156 entries")
        self.assertIn("below the diagonal", right.get_title())


if __name__ == "__main__":
    unittest.main()
