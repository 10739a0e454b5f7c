"""The calls of include/rimopaku.h by ctypes, over arrays of numpy. Called by the package.

The shared library is the one that the environment variable RIMOPAKU_LIBRARY names, or that of the wheel, or, where the
package stands in a clone of the repository, that of prebuilt, or the installed one. ctypes gives up the interpreter's
lock during a call, so threads can order at the same time.
"""

from __future__ import annotations

import ctypes
import os
import platform
from ctypes import POINTER, c_bool, c_int32, c_int64, c_size_t, c_void_p
from pathlib import Path
from typing import TYPE_CHECKING, Any, List, NamedTuple, NoReturn, Tuple

import numpy as np

if TYPE_CHECKING:
    import numpy.typing as npt

    # Row numbers, places or counts, in 32 or 64 bits.
    Numbers = npt.NDArray[np.signedinteger[Any]]

#: The numbers of the statuses that are errors.
OUT_OF_MEMORY, INVALID, NOT_PERMUTATION, ROOM_TOO_SMALL = -1, -2, -3, -4


class Parameters(ctypes.Structure):
    """struct rimopaku_parameters."""

    _fields_ = [("dense", c_int32), ("aggressive", c_bool)]


class Statistics(ctypes.Structure):
    """struct rimopaku_statistics."""

    _fields_ = [
        ("n", c_size_t),
        ("nz", c_size_t),
        ("symmetry", c_bool),
        ("nz_diag", c_size_t),
        ("nz_a_plus_at", c_size_t),
        ("n_dense", c_size_t),
        ("n_cmp_a", c_size_t),
        ("lnz", c_size_t),
        ("n_div", c_size_t),
        ("n_mult_subs_ldl", c_size_t),
        ("n_mult_subs_lu", c_size_t),
        ("d_max", c_size_t),
    ]


class Needs(ctypes.Structure):
    """struct rimopaku_needs."""

    _fields_ = [("lnz", c_size_t), ("n_mult_subs_ldl", c_size_t), ("n_mult_subs_lu", c_size_t), ("d_max", c_size_t)]


class SupernodeSizes(ctypes.Structure):
    """struct rimopaku_supernode_sizes."""

    _fields_ = [("supernodes", c_size_t), ("rows", c_size_t)]


class RoomTooSmall(Exception):
    """The factor has more entries than there is room for."""


def _load() -> ctypes.CDLL:
    here = Path(__file__).resolve()
    found = [here.with_name("librimopaku.so")]
    if len(here.parents) > 3:
        found.append(here.parents[3] / "prebuilt" / f"{platform.machine()}-linux" / "librimopaku.so.1")
    own = next((str(it) for it in found if it.exists()), "librimopaku.so.1")
    library = ctypes.CDLL(os.environ.get("RIMOPAKU_LIBRARY") or own)
    array: List[Any] = [c_void_p, c_size_t]
    for suffix, number in (("i32", c_int32), ("i64", c_int64)):
        arguments = {
            "order": [*array, *array, POINTER(Parameters), *array, *array, POINTER(Statistics)],
            "order_holding": [*array, *array, POINTER(Parameters), *array, *array, *array, POINTER(Statistics)],
            "columns": [*array, *array, *array, *array, *array, *array],
            "counts": [*array, *array, *array, *array, *array, POINTER(Needs)],
            "supernodes_and_sizes": [*array * 7, POINTER(SupernodeSizes)],
        }
        for name, types in arguments.items():
            function = getattr(library, f"rimopaku_{name}_{suffix}")
            function.argtypes = [number, *types]
            function.restype = c_int32
    return library


_LIBRARY = _load()

#: What an array of no numbers points to: the library wants no null pointer.
_NOTHING = ctypes.create_string_buffer(8)


class Columns(NamedTuple):
    """A matrix with n rows and columns in compressed sparse columns; both arrays have one type, of 32 or 64 bits."""

    n: int
    a_p: Numbers
    a_i: Numbers

    def widened(self) -> Columns:
        """The matrix in 64-bit numbers."""
        return Columns(self.n, self.a_p.astype(np.int64), self.a_i.astype(np.int64))


def _array(array: npt.NDArray[Any]) -> Tuple[Any, int]:
    return (array.ctypes.data if array.size else ctypes.addressof(_NOTHING)), array.size


def fail(status: int) -> NoReturn:
    """Raises what stands for a status below 0."""
    if status == OUT_OF_MEMORY:
        raise MemoryError("memory was refused, or the matrix is too large for this machine")
    if status == NOT_PERMUTATION:
        raise ValueError("p does not list each row exactly once")
    if status == ROOM_TOO_SMALL:
        raise RoomTooSmall
    raise ValueError(
        "the arrays of the matrix are no compressed form: pointers that begin at 0 and do not descend, "
        "and an index from 0 to n - 1 for each entry"
    )


def _call(name: str, matrix: Columns, *arguments: Any) -> int:
    suffix = "i64" if matrix.a_p.dtype == np.int64 else "i32"
    words: List[Any] = []
    for it in (matrix.a_p, matrix.a_i, *arguments):
        words += _array(it) if isinstance(it, np.ndarray) else [ctypes.byref(it)]
    status: int = getattr(_LIBRARY, f"rimopaku_{name}_{suffix}")(matrix.n, *words)
    if status < 0:
        fail(status)
    return status


def order(matrix: Columns, parameters: Parameters, hold: Any) -> Tuple[Numbers, Numbers, Statistics, int]:
    """The permutation, its inverse, the statistics and the status; `hold` is an array of bool, or None."""
    p, p_inv = np.empty(matrix.n, matrix.a_p.dtype), np.empty(matrix.n, matrix.a_p.dtype)
    statistics = Statistics()
    if hold is None:
        status = _call("order", matrix, parameters, p, p_inv, statistics)
    else:
        status = _call("order_holding", matrix, parameters, hold, p, p_inv, statistics)
    return p, p_inv, statistics, status


def columns(matrix: Columns, p: Numbers, room: int) -> Tuple[Numbers, Numbers, Numbers]:
    """The pointers, rows and parents of the factor in the order p, if it has at most `room` entries.

    Raises RoomTooSmall if it has more.
    """
    kind = matrix.a_p.dtype
    ptr, rows, parent = np.empty(matrix.n + 1, kind), np.empty(room, kind), np.empty(matrix.n, kind)
    _call("columns", matrix, p, ptr, rows, parent)
    return ptr, rows[: ptr[-1]].copy(), parent


def counts(matrix: Columns, p: Numbers) -> Tuple[Numbers, Numbers]:
    """The numbers of entries of the columns of that factor, and their parents, without the entries."""
    kind = matrix.a_p.dtype
    sizes, parent = np.empty(matrix.n, kind), np.empty(matrix.n, kind)
    _call("counts", matrix, p, sizes, parent, Needs())
    return sizes, parent


def _supernodes_within(
    matrix: Columns, p: Numbers, sizes: SupernodeSizes
) -> Tuple[Numbers, Numbers, Numbers, Numbers]:
    """The supernodes of that factor, in arrays of these sizes, which then are those that it has.

    Raises RoomTooSmall if it has more.
    """
    kind = matrix.a_p.dtype
    first, ptr = np.empty(sizes.supernodes + 1, kind), np.empty(sizes.supernodes + 1, kind)
    rows, parent = np.empty(sizes.rows, kind), np.empty(sizes.supernodes, kind)
    _call("supernodes_and_sizes", matrix, p, first, ptr, rows, parent, sizes)
    count = sizes.supernodes
    return first[: count + 1].copy(), ptr[: count + 1].copy(), rows[: sizes.rows].copy(), parent[:count].copy()


def supernodes(matrix: Columns, p: Numbers) -> Tuple[Numbers, Numbers, Numbers, Numbers]:
    """Where the supernodes of that factor begin, where the rows of each begin, these rows, and the parents."""
    entries, most = len(matrix.a_i), np.iinfo(matrix.a_p.dtype).max
    # As many rows as the factors of grids and of networks have below their blocks.
    sizes = SupernodeSizes(matrix.n, min(8 * entries, 2 * entries + 16 * matrix.n, most))
    try:
        return _supernodes_within(matrix, p, sizes)
    except RoomTooSmall:
        # The sizes are told.
        if sizes.rows > most:
            return supernodes(matrix.widened(), p.astype(np.int64))
        return _supernodes_within(matrix, p, sizes)
