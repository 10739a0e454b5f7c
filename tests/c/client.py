"""From Python: a matrix with five rows, by ctypes. The argument is the shared library."""
import ctypes
import sys
from ctypes import POINTER, byref, c_bool, c_int32, c_int64, c_size_t


class Parameters(ctypes.Structure):
    _fields_ = [("dense", c_int32), ("aggressive", c_bool)]


class Statistics(ctypes.Structure):
    _fields_ = [
        ("n", c_size_t),
        ("nz", c_size_t),
        ("symmetry", c_bool),
        ("nz_diag", c_size_t),
        ("nz_a_plus_at", c_size_t),
        ("n_dense", c_size_t),
        ("n_cmp_a", c_size_t),
        ("lnz", c_size_t),
        ("n_div", c_size_t),
        ("n_mult_subs_ldl", c_size_t),
        ("n_mult_subs_lu", c_size_t),
        ("d_max", c_size_t),
    ]


library = ctypes.CDLL(sys.argv[1])
numbers = POINTER(c_int64)
library.rimopaku_defaults.argtypes = [POINTER(Parameters)]
library.rimopaku_defaults.restype = None
library.rimopaku_order_i64.argtypes = [
    c_int64,
    *(numbers, c_size_t),
    *(numbers, c_size_t),
    POINTER(Parameters),
    *(numbers, c_size_t),
    *(numbers, c_size_t),
    POINTER(Statistics),
]
library.rimopaku_order_i64.restype = c_int32


def order(n, a_p, a_i):
    """The status, the permutation, its inverse and the statistics of a matrix with n rows."""
    # An array of ctypes is never NULL, also where it is empty.
    pointers, rows = (c_int64 * len(a_p))(*a_p), (c_int64 * len(a_i))(*a_i)
    p, p_inv = (c_int64 * n)(), (c_int64 * n)()
    parameters, told = Parameters(), Statistics()
    library.rimopaku_defaults(byref(parameters))
    status = library.rimopaku_order_i64(
        n, pointers, len(a_p), rows, len(a_i), byref(parameters), p, n, p_inv, n, byref(told)
    )
    return status, list(p), list(p_inv), told


status, p, p_inv, told = order(5, [0, 1, 2, 3, 3, 6], [4, 3, 3, 1, 2, 3])
print("status", status, "lnz", told.lnz, "ldl", told.n_mult_subs_ldl, "lu", told.n_mult_subs_lu, "d_max", told.d_max)
print("P", *p)
print("PInv", *p_inv)
status, p, p_inv, told = order(1, [0, 1], [1])
print("a row out of range:", status)
