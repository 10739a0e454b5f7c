//! What a caller chooses, and what the calls tell.

use crate::raw::{self, Statistics};
use core::fmt;

/// What a caller chooses.
#[repr(C)]
#[derive(Debug, Clone, Copy, PartialEq, Eq)]
pub struct Parameters {
    /// In thousandths: 10000 stands for the 10.0 of SuiteSparse's AMD, and is the default. A row with more than
    /// `max(16, dense / 1000 * sqrt(n))` entries off the diagonal of `A + A'` is dense, and is placed last. If it is
    /// negative, only rows with `n - 1` such entries are dense, and only for `n >= 18`.
    pub dense: i32,
    /// Aggressive absorption: whether a new element also absorbs elements that lie inside it but do not contain the
    /// pivot. It is the default.
    pub aggressive: bool,
}

impl Default for Parameters {
    fn default() -> Self {
        Parameters { dense: 10_000, aggressive: true }
    }
}

/// What an ordering tells. `L` is the factor of the matrix in the new order.
///
/// `lnz`, `n_div`, `n_mult_subs_ldl`, `n_mult_subs_lu` and `d_max` are proved to be upper bounds for `L`. The first
/// four saturate: one that would exceed `usize::MAX` is `usize::MAX`, and may then be too small.
#[derive(Debug, Clone, Copy, PartialEq, Eq)]
pub struct Info {
    /// Whether a column is unsorted or has a duplicate. This is no error.
    pub is_jumbled: bool,
    /// Rows.
    pub n: usize,
    /// Entries of the pattern, without duplicates.
    pub nz: usize,
    /// Whether the pattern equals its transpose.
    pub is_symmetric: bool,
    /// Entries on the diagonal.
    pub nz_diag: usize,
    /// Entries of `A + A'` off the diagonal.
    pub nz_a_plus_at: usize,
    /// Rows placed last: dense ones, and those in `hold`.
    pub n_dense: usize,
    /// How often the lists were compacted.
    pub n_cmp_a: usize,
    /// Entries of `L` below the diagonal, at most.
    pub lnz: usize,
    /// Divisions, at most: equal to `lnz`.
    pub n_div: usize,
    /// Multiply-subtract steps of a factorization `LDL'`, at most.
    pub n_mult_subs_ldl: usize,
    /// Multiply-subtract steps of a factorization `LU` without pivoting, at most.
    pub n_mult_subs_lu: usize,
    /// Entries of a column of `L` with its diagonal, at most.
    pub d_max: usize,
}

impl Info {
    pub(crate) fn of(told: &Statistics, is_jumbled: bool) -> Info {
        Info {
            is_jumbled,
            n: told.n,
            nz: told.nz,
            is_symmetric: told.symmetry,
            nz_diag: told.nz_diag,
            nz_a_plus_at: told.nz_a_plus_at,
            n_dense: told.n_dense,
            n_cmp_a: told.n_cmp_a,
            lnz: told.lnz,
            n_div: told.n_div,
            n_mult_subs_ldl: told.n_mult_subs_ldl,
            n_mult_subs_lu: told.n_mult_subs_lu,
            d_max: told.d_max,
        }
    }
}

/// What a factor `L` needs: sums over its columns. They saturate: one that would exceed `usize::MAX` is `usize::MAX`.
#[repr(C)]
#[derive(Debug, Clone, Copy, Default, PartialEq, Eq)]
pub struct Needs {
    /// Entries of `L` below the diagonal, and so the divisions.
    pub lnz: usize,
    /// Multiply-subtract steps of a factorization `LDL'`.
    pub n_mult_subs_ldl: usize,
    /// Multiply-subtract steps of a factorization `LU` without pivoting.
    pub n_mult_subs_lu: usize,
    /// Entries of the longest column of `L`, with its diagonal; 0 for `n = 0`.
    pub d_max: usize,
}

/// Why there is no answer.
#[derive(Debug, Clone, Copy, PartialEq, Eq)]
#[non_exhaustive]
pub enum Fault {
    /// The workspace has too few bytes.
    OutOfMemory,
    /// The input is no column form, or a slice has the wrong length.
    Invalid,
    /// The order does not list each row exactly once.
    NotPermutation,
    /// The factor has more entries than `rows` has places, or than the type of numbers can count.
    RoomTooSmall,
}

impl Fault {
    /// The fault of a status below 0.
    pub(crate) fn of(status: i32) -> Fault {
        match status {
            raw::OUT_OF_MEMORY => Fault::OutOfMemory,
            raw::NOT_PERMUTATION => Fault::NotPermutation,
            raw::ROOM_TOO_SMALL => Fault::RoomTooSmall,
            _ => Fault::Invalid,
        }
    }
}

impl fmt::Display for Fault {
    fn fmt(&self, out: &mut fmt::Formatter<'_>) -> fmt::Result {
        out.write_str(match self {
            Fault::OutOfMemory => "the workspace has too few bytes",
            Fault::Invalid => "the input is no matrix in compressed sparse columns, or a slice has the wrong length",
            Fault::NotPermutation => "the order does not list each row exactly once",
            Fault::RoomTooSmall => "the factor has more entries than there is room for",
        })
    }
}

#[cfg(feature = "std")]
impl std::error::Error for Fault {}
