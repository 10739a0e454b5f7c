"""Approximate minimum degree ordering (AMD) of sparse matrices, by a library whose contracts are proved.

``amd`` orders the rows and columns of a square sparse matrix of scipy such that its Cholesky or LDL' factor gets few
entries. It takes the pattern of A + A', so A need not be symmetric, and one triangle of a symmetric matrix is enough.

>>> import scipy.sparse as sp
>>> A = sp.csc_matrix([[2, 1, 0, 0, 0], [1, 2, 1, 0, 1], [0, 1, 2, 1, 0], [0, 0, 1, 2, 0], [0, 1, 1, 0, 2]])
>>> p = amd(A)
>>> p
array([0, 3, 2, 4, 1], dtype=int32)
>>> B = A[p][:, p]

``analyze`` returns the exact pattern of the factor, ``counts`` how many entries its columns have, and ``spy`` draws it:

>>> analysis = analyze(A)
>>> analysis.nnz, analysis.info.lnz
(5, 5)
>>> counts(A).sizes
array([1, 1, 2, 1, 0], dtype=int32)
"""

from __future__ import annotations

import math
from typing import TYPE_CHECKING, Any, Literal, NamedTuple, Optional, Tuple, Union, overload

import numpy as np
import scipy.sparse as sparse

from . import _library
from ._version import __version__

if TYPE_CHECKING:
    import numpy.typing as npt

    from ._library import Numbers

__all__ = ["amd", "analyze", "counts", "spy", "supernodes"]
__all__ += ["Analysis", "Counts", "Info", "Need", "Supernodes", "__version__"]


class Info(NamedTuple):
    """What an ordering tells. L is the factor of the matrix in the new order.

    lnz, n_div, n_mult_subs_ldl, n_mult_subs_lu and d_max are proved to be upper bounds for L, where they are below
    2**64 - 1.
    """

    #: Rows.
    n: int
    #: Entries of the pattern, without duplicates.
    nz: int
    #: Whether the pattern equals its transpose.
    symmetry: bool
    #: Entries on the diagonal.
    nz_diag: int
    #: Entries of A + A' off the diagonal.
    nz_a_plus_at: int
    #: Rows placed last: dense ones, and held ones.
    n_dense: int
    #: How often the workspace was compacted.
    n_cmp_a: int
    #: Entries of L below the diagonal, at most.
    lnz: int
    #: Divisions, at most: equal to lnz.
    n_div: int
    #: Multiply-subtract steps of a factorization LDL', at most.
    n_mult_subs_ldl: int
    #: Multiply-subtract steps of a factorization LU without pivoting, at most.
    n_mult_subs_lu: int
    #: Entries of a column of L with its diagonal, at most.
    d_max: int
    #: Whether a column is unsorted or has a duplicate. This is no error.
    jumbled: bool


class Analysis(NamedTuple):
    """The pattern of a factor L below its diagonal, column by column.

    A place is that of a row in the order, from 0 on.
    """

    #: The order: row p[k] is at place k.
    p: Numbers
    #: The parent of each column in the elimination tree, the first entry of the column, or -1 where it is empty.
    parent: Numbers
    #: Where each column begins, and the end of the last one.
    indptr: Numbers
    #: The entries of the columns: places, ascending in each column.
    indices: Numbers
    #: What the ordering told, or None where p was given.
    info: Optional[Info]

    @property
    def nnz(self) -> int:
        """How many entries L has below its diagonal."""
        return len(self.indices)

    def pattern(self) -> sparse.csc_matrix:
        """L with its diagonal, as a matrix of bool."""
        n = len(self.p)
        below = sparse.csc_matrix((np.ones(self.nnz, bool), self.indices, self.indptr), shape=(n, n))
        return sparse.csc_matrix(below + sparse.identity(n, bool, "csc"))


class Need(NamedTuple):
    """What a factor needs: exact sums over its columns, and the largest of them."""

    #: The entries below the diagonal, and so the divisions.
    lnz: int
    #: The multiply-subtract steps of a factorization LDL'.
    n_mult_subs_ldl: int
    #: The multiply-subtract steps of a factorization LU without pivoting.
    n_mult_subs_lu: int
    #: The entries of the largest column, with that on the diagonal; 0 where there are no columns.
    d_max: int


class Counts(NamedTuple):
    """How many entries the columns of a factor L have below the diagonal."""

    #: The order: row p[k] is at place k.
    p: Numbers
    #: The parent of each column in the elimination tree, or -1.
    parent: Numbers
    #: The entries of each column below the diagonal.
    sizes: Numbers
    #: What the ordering told, or None where p was given.
    info: Optional[Info]

    @property
    def nnz(self) -> int:
        """How many entries L has below its diagonal."""
        return int(self.sizes.sum(dtype=np.int64))

    @property
    def need(self) -> Need:
        """What the factor needs."""
        sizes = self.sizes.tolist()
        squares = sum(it * it for it in sizes)
        return Need(sum(sizes), (squares + sum(sizes)) // 2, squares, max(sizes) + 1 if sizes else 0)


class Supernodes(NamedTuple):
    """The pattern of a factor L below its diagonal, by supernodes.

    A supernode is a longest run of places of which each but the last has the next one as its parent, and one entry more
    than that has. Column k of supernode s has the places behind k before first[s + 1], and then the rows of s.
    """

    #: The order: row p[k] is at place k.
    p: Numbers
    #: The parent of each supernode, in which the first of its rows lies, or -1 where it has no rows.
    parent: Numbers
    #: Where each supernode begins, and behind them the number of columns.
    first: Numbers
    #: Where the rows of each supernode begin, and the end of the last ones.
    indptr: Numbers
    #: The rows below the blocks: places, ascending in each supernode.
    indices: Numbers
    #: What the ordering told, or None where p was given.
    info: Optional[Info]


def _columns(A: Any) -> _library.Columns:
    """The pattern of a square matrix as column pointers and rows; those of A' serve too, so CSR is not converted."""
    if not sparse.issparse(A):
        A = sparse.csc_matrix(A)
    if len(A.shape) != 2 or A.shape[0] != A.shape[1]:
        raise ValueError(f"the matrix is not square: its shape is {A.shape}")
    if A.format not in ("csc", "csr"):
        A = A.tocsc()
    is_wide = A.indptr.dtype.itemsize > 4 or A.indices.dtype.itemsize > 4 or A.shape[0] > np.iinfo(np.int32).max
    kind = np.int64 if is_wide else np.int32
    return _library.Columns(A.shape[0], np.ascontiguousarray(A.indptr, kind), np.ascontiguousarray(A.indices, kind))


def _threshold(t: int, n: int) -> int:
    """The most entries that a row may have if it is not dense, for t thousandths, before the limits of 16 and n."""
    return math.isqrt(t * t * n // 1_000_000)


def _thousandths(dense: float, n: int) -> int:
    """The thousandths that give the threshold floor(dense * sqrt(n)), or the nearest threshold."""
    if math.isnan(dense):
        raise ValueError("dense is not a number")
    if dense < 0:
        return -1
    if n == 0:
        return 10_000
    wanted = int(min(dense * math.sqrt(n), n))
    square = -(-wanted * wanted * 1_000_000 // n)
    above = math.isqrt(square - 1) + 1 if square > 0 else 0
    below = max(above - 1, 0)
    is_above_nearer = _threshold(above, n) - wanted <= wanted - _threshold(below, n)
    return min(above if is_above_nearer else below, 2**31 - 1)


def _marks(hold: Any, n: int) -> Optional[npt.NDArray[np.bool_]]:
    """One bool for each row."""
    if hold is None:
        return None
    given = np.asarray(hold)
    if given.dtype == bool:
        if given.shape != (n,):
            raise ValueError(f"the mask hold has the shape {given.shape}, and the matrix has {n} rows")
        return np.ascontiguousarray(given)
    marks = np.zeros(n, bool)
    if given.size:
        marks[_rows(given, n, "hold")] = True
    return marks


def _rows(given: npt.NDArray[Any], n: int, name: str) -> npt.NDArray[Any]:
    """An array of row numbers."""
    if given.ndim != 1 or given.dtype.kind not in "iu":
        raise ValueError(f"{name} is no array of row numbers")
    if given.size and not (0 <= given.min() and given.max() < n):
        raise ValueError(f"{name} has a number that is no row: the rows are 0 to {n - 1}")
    return given


def _ordering(matrix: _library.Columns, dense: float, aggressive: bool, hold: Any) -> Tuple[Numbers, Info]:
    parameters = _library.Parameters(_thousandths(dense, matrix.n), bool(aggressive))
    p, _, told, status = _library.order(matrix, parameters, _marks(hold, matrix.n))
    figures = {name: getattr(told, name) for name in Info._fields if name != "jumbled"}
    return p, Info(**figures, jumbled=status == 1)


@overload
def amd(
    A: Any, *, dense: float = ..., aggressive: bool = ..., hold: Any = ..., return_info: Literal[False] = ...
) -> Numbers: ...


@overload
def amd(
    A: Any, *, dense: float = ..., aggressive: bool = ..., hold: Any = ..., return_info: Literal[True]
) -> Tuple[Numbers, Info]: ...


def amd(
    A: Any,
    *,
    dense: float = 10.0,
    aggressive: bool = True,
    hold: Any = None,
    return_info: bool = False,
) -> Union[Numbers, Tuple[Numbers, Info]]:
    """Returns the order in which the rows and columns of A are to be eliminated: factor ``A[p][:, p]``.

    Row p[k] comes at place k, as in ``scipy.sparse.csgraph.reverse_cuthill_mckee``.

    Parameters
    ----------
    A : a square sparse matrix or array of scipy, or what ``csc_matrix`` takes. Only its pattern is read; an entry that
        is stored as 0 is an entry. The arrays of CSC and CSR are read in place, in 32 or 64 bits; no other thread may
        write them during the call. CSR is read as the columns of A', which have the same A + A'; where A is not
        symmetric, ties may be broken otherwise than for CSC.
    dense : a row with more than ``max(16, dense * sqrt(n))`` entries of A + A' is placed last. If it is negative, only
        full rows are.
    aggressive : whether a new element also absorbs elements that lie inside it but do not contain the pivot.
    hold : rows to be placed last, as a mask of n bool or as row numbers.
    return_info : whether to return what the ordering tells as well.

    Returns
    -------
    p : array of n row numbers, in the type of A's indices
    info : Info, where return_info

    Raises
    ------
    ValueError : A is not square, its arrays are at fault, or dense or hold is
    MemoryError : memory is refused

    >>> import numpy as np, scipy.sparse as sp
    >>> arrow = np.eye(5)
    >>> arrow[0, :] = 1
    >>> p, info = amd(sp.csc_matrix(arrow), return_info=True)
    >>> p
    array([4, 3, 2, 1, 0], dtype=int32)
    >>> info.lnz
    4
    >>> amd(sp.eye(4, format="csc"), hold=[1])
    array([0, 2, 3, 1], dtype=int32)
    """
    p, info = _ordering(_columns(A), dense, aggressive, hold)
    return (p, info) if return_info else p


def _chosen(
    matrix: _library.Columns, p: Any, dense: float, aggressive: bool, hold: Any
) -> Tuple[Numbers, Optional[Info]]:
    """A caller's order in the numbers of the matrix; without one that of `amd`, and its Info."""
    if p is None:
        return _ordering(matrix, dense, aggressive, hold)
    return np.ascontiguousarray(_rows(np.asarray(p), matrix.n, "p"), matrix.a_p.dtype), None


def _factor(matrix: _library.Columns, p: Numbers, room: int) -> Tuple[Numbers, Numbers, Numbers]:
    """The factor in the order p, with room for so many entries, and then for more."""
    while True:
        if room > np.iinfo(np.int64).max:
            raise MemoryError("the factor may have more entries than there is memory for")
        if room > np.iinfo(np.int32).max and matrix.a_p.dtype == np.int32:
            matrix, p = matrix.widened(), p.astype(np.int64)
        try:
            return _library.columns(matrix, p, room)
        except _library.RoomTooSmall:
            room *= 2


def analyze(
    A: Any, p: Any = None, *, dense: float = 10.0, aggressive: bool = True, hold: Any = None
) -> Analysis:
    """Returns the exact pattern of the Cholesky or LDL' factor of A + A' in the order p, and the elimination tree.

    Without p the order is that of ``amd`` with the same keywords, and the result has its Info. The other arguments and
    the errors are those of ``amd``; p is any permutation of the rows, or a ValueError is raised.

    >>> import numpy as np, scipy.sparse as sp
    >>> cycle = sp.csc_matrix([[1, 1, 0, 1], [1, 1, 1, 0], [0, 1, 1, 1], [1, 0, 1, 1]])
    >>> analysis = analyze(cycle, p=[0, 1, 2, 3])
    >>> analysis.indptr, analysis.indices, analysis.parent
    (array([0, 2, 4, 5, 5], dtype=int32), array([1, 3, 2, 3, 3], dtype=int32), array([ 1,  2,  3, -1], dtype=int32))
    >>> analysis.pattern().astype(int).toarray()
    array([[1, 0, 0, 0],
           [1, 1, 0, 0],
           [0, 1, 1, 0],
           [1, 1, 1, 1]])
    """
    matrix = _columns(A)
    order, info = _chosen(matrix, p, dense, aggressive, hold)
    room = info.lnz if info is not None else max(len(matrix.a_i), 16)
    ptr, rows, parent = _factor(matrix, order, room)
    return Analysis(order, parent, ptr, rows, info)


def counts(
    A: Any, p: Any = None, *, dense: float = 10.0, aggressive: bool = True, hold: Any = None
) -> Counts:
    """Returns how many entries each column of the factor has below its diagonal, and the elimination tree.

    The arguments and errors are those of ``analyze``. The memory that it takes does not grow with the factor.

    >>> import scipy.sparse as sp
    >>> cycle = sp.csc_matrix([[1, 1, 0, 1], [1, 1, 1, 0], [0, 1, 1, 1], [1, 0, 1, 1]])
    >>> told = counts(cycle, p=[0, 1, 2, 3])
    >>> told.sizes
    array([2, 2, 1, 0], dtype=int32)
    >>> told.need
    Need(lnz=5, n_mult_subs_ldl=7, n_mult_subs_lu=9, d_max=3)
    """
    matrix = _columns(A)
    order, info = _chosen(matrix, p, dense, aggressive, hold)
    sizes, parent = _library.counts(matrix, order)
    return Counts(order, parent, sizes, info)


def supernodes(
    A: Any, p: Any = None, *, dense: float = 10.0, aggressive: bool = True, hold: Any = None
) -> Supernodes:
    """Returns the pattern of the factor by supernodes: the rows below each block once.

    The arguments and errors are those of ``analyze``.

    >>> import scipy.sparse as sp
    >>> cycle = sp.csc_matrix([[1, 1, 0, 1], [1, 1, 1, 0], [0, 1, 1, 1], [1, 0, 1, 1]])
    >>> told = supernodes(cycle, p=[0, 1, 2, 3])
    >>> told.first, told.indptr
    (array([0, 1, 4], dtype=int32), array([0, 2, 2], dtype=int32))
    >>> told.indices, told.parent
    (array([1, 3], dtype=int32), array([ 1, -1], dtype=int32))
    """
    matrix = _columns(A)
    order, info = _chosen(matrix, p, dense, aggressive, hold)
    first, ptr, rows, parent = _library.supernodes(matrix, order)
    return Supernodes(order, parent, first, ptr, rows, info)


def spy(A: Any, p: Any = None, *, axes: Any = None, markersize: Optional[float] = None, **choice: Any) -> Any:
    """Draws the pattern of A + A', and beside it that of L + L' in the order p, with the fill in another colour.

    Takes the keywords of ``analyze``, two axes of matplotlib, if there are any to draw in, and the size of an entry in
    points. Returns the axes. It needs matplotlib.
    """
    import matplotlib.pyplot as plt

    analysis = analyze(A, p, **choice)
    n = len(analysis.p)
    given = sparse.csr_matrix(A, dtype=bool, copy=True)
    given.data[:] = True
    pattern = sparse.csr_matrix(given + given.T)
    factor = analysis.pattern()
    left, right = plt.subplots(1, 2, figsize=(10, 5))[1] if axes is None else axes
    size = markersize if markersize is not None else max(0.2, 200 / max(n, 1))
    left.spy(pattern, markersize=size, color="black")
    left.set_title(f"A + A': {pattern.nnz} entries")
    right.spy(factor + factor.T, markersize=size, color="tab:red")
    right.spy(pattern[analysis.p][:, analysis.p], markersize=size, color="black")
    right.set_title(f"L + L': {analysis.nnz} entries below the diagonal")
    return left, right
