//! Orderings: the types and the call of the crate `amd` 0.2.2, and the calls that it lacks. Called by users and by
//! `factor`.

use crate::dense::thousandths;
use crate::numbers::{filled, returned, Matrix};
use crate::raw::{self, Parameters, Statistics, Word};
use alloc::alloc::{handle_alloc_error, Layout};
use alloc::vec::Vec;
use core::fmt;
use num_traits::{NumAssignOps, PrimInt};

/// What a caller chooses.
#[derive(Debug, Clone)]
pub struct Control {
    /// A row with more than `max(16, dense * sqrt(n))` entries off the diagonal of `A + A'` is dense, and is placed
    /// last; 10 by default. If it is negative, only rows with `n - 1` such entries are dense, and only for `n >= 18`.
    pub dense: f64,
    /// Aggressive absorption: whether a new element also absorbs elements that lie inside it but do not contain the
    /// pivot. It is the default.
    pub aggressive: bool,
}

impl Default for Control {
    fn default() -> Self {
        Control { dense: 10.0, aggressive: true }
    }
}

/// What an ordering tells. `L` is the factor of the matrix in the new order.
///
/// `lnz`, `n_div`, `n_mult_subs_ldl`, `n_mult_subs_lu` and `d_max` are proved to be upper bounds for `L`. The first
/// four saturate: one that would exceed `usize::MAX` is `usize::MAX`, and may then be too small.
#[derive(Debug, Clone)]
pub struct Info {
    /// [`Status::OK`] or [`Status::OkButJumbled`].
    pub status: Status,
    /// Rows.
    pub n: usize,
    /// Entries of the pattern, without duplicates.
    pub nz: usize,
    /// As in the crate `amd`: true where at least one entry off the diagonal has its mirror, or there is none off the
    /// diagonal. [`Info::is_symmetric`] tells whether the pattern equals its transpose.
    pub symmetry: bool,
    /// Entries on the diagonal.
    pub nz_diag: usize,
    /// Entries of `A + A'` off the diagonal.
    pub nz_a_plus_at: usize,
    /// Rows placed last: dense ones, and those in `hold`.
    pub n_dense: usize,
    /// How often the workspace was compacted.
    pub n_cmp_a: usize,
    /// Entries of `L` below the diagonal, at most.
    pub lnz: usize,
    /// Divisions, at most: equal to `lnz`.
    pub n_div: usize,
    /// Multiply-subtract steps of a factorization `LDL'`, at most.
    pub n_mult_subs_ldl: usize,
    /// Multiply-subtract steps of a factorization `LU` without pivoting, at most.
    pub n_mult_subs_lu: usize,
    /// Entries of a column of `L` with its diagonal, at most.
    pub d_max: usize,
}

impl Info {
    /// The record of a matrix with `n` rows before it is ordered: all other numbers are 0.
    pub fn new(n: usize) -> Info {
        Info {
            status: Status::OK,
            n,
            nz: 0,
            symmetry: false,
            nz_diag: 0,
            nz_a_plus_at: 0,
            n_dense: 0,
            n_cmp_a: 0,
            lnz: 0,
            n_div: 0,
            n_mult_subs_ldl: 0,
            n_mult_subs_lu: 0,
            d_max: 0,
        }
    }

    /// Whether the pattern of an ordered matrix equals its transpose.
    pub fn is_symmetric(&self) -> bool {
        self.nz.checked_sub(self.nz_diag) == Some(self.nz_a_plus_at)
    }

    fn of(told: &Statistics, status: Status) -> Info {
        // An entry off the diagonal is counted twice in A + A', and two that mirror each other are counted twice
        // together.
        let off_diagonal = told.nz - told.nz_diag;
        Info {
            status,
            n: told.n,
            nz: told.nz,
            symmetry: off_diagonal == 0 || told.nz_a_plus_at - off_diagonal < off_diagonal,
            nz_diag: told.nz_diag,
            nz_a_plus_at: told.nz_a_plus_at,
            n_dense: told.n_dense,
            n_cmp_a: told.n_cmp_a,
            lnz: told.lnz,
            n_div: told.n_div,
            n_mult_subs_ldl: told.n_mult_subs_ldl,
            n_mult_subs_lu: told.n_mult_subs_lu,
            d_max: told.d_max,
        }
    }
}

/// What a matrix is.
#[derive(Debug, PartialEq, Clone)]
pub enum Status {
    /// A column form; each column is sorted and has no duplicates.
    OK,
    /// No column form.
    Invalid,
    /// A column form of which a column is unsorted or has a duplicate. This is no error.
    OkButJumbled,
}

/// Why there is no answer.
#[derive(Debug, Clone, Copy, PartialEq, Eq)]
#[non_exhaustive]
pub enum Fault {
    /// Memory was refused, or the matrix is too large for this machine.
    OutOfMemory,
    /// The input is no column form, or there is not one mark for each row.
    Invalid,
    /// The order does not list each row exactly once.
    NotPermutation,
    /// The factor has more entries than the room that the caller allows.
    RoomTooSmall,
}

impl Fault {
    /// The fault of a status below 0.
    pub(crate) fn of(status: i32) -> Fault {
        match status {
            raw::OUT_OF_MEMORY => Fault::OutOfMemory,
            raw::NOT_PERMUTATION => Fault::NotPermutation,
            raw::ROOM_TOO_SMALL => Fault::RoomTooSmall,
            _ => Fault::Invalid,
        }
    }
}

impl fmt::Display for Fault {
    fn fmt(&self, out: &mut fmt::Formatter<'_>) -> fmt::Result {
        out.write_str(match self {
            Fault::OutOfMemory => "memory was refused",
            Fault::Invalid => "the input is no matrix in compressed sparse columns",
            Fault::NotPermutation => "the order does not list each row exactly once",
            Fault::RoomTooSmall => "the factor has more entries than there is room for",
        })
    }
}

#[cfg(feature = "std")]
impl std::error::Error for Fault {}

/// An ordering: the permutation `p`, its inverse `p_inv`, and what the ordering tells.
pub type Ordering<I> = (Vec<I>, Vec<I>, Info);

/// Orders a matrix in numbers of the library.
fn order_in<I: PrimInt, T: Word>(
    matrix: Matrix<I>,
    choice: &Parameters,
    hold: Option<&[bool]>,
) -> Result<Ordering<I>, Fault> {
    let copied = matrix.copied::<T>()?;
    let mut p = filled(T::zero(), matrix.size)?;
    let mut p_inv = filled(T::zero(), matrix.size)?;
    let mut statistics = Statistics::default();
    let output = raw::Order { p: &mut p, p_inv: &mut p_inv, statistics: &mut statistics };
    let status = match T::order(copied.columns(), choice, hold, output) {
        0 => Status::OK,
        1 => Status::OkButJumbled,
        fault => return Err(Fault::of(fault)),
    };
    drop(copied);
    let info = Info::of(&statistics, status);
    // The caller's type has `n`, so it has each row.
    Ok((returned(p)?, returned(p_inv)?, info))
}

/// Orders a matrix, with rows held last where there are marks.
pub(crate) fn order_matrix<I: PrimInt>(
    matrix: Matrix<I>,
    control: &Control,
    hold: Option<&[bool]>,
) -> Result<Ordering<I>, Fault> {
    if matrix.size == 0 {
        return Ok((Vec::new(), Vec::new(), Info::new(0)));
    }
    let choice = Parameters { dense: thousandths(control.dense, matrix.size), aggressive: control.aggressive };
    if matrix.is_narrow(0) {
        order_in::<I, i32>(matrix, &choice, hold)
    } else {
        order_in::<I, i64>(matrix, &choice, hold)
    }
}

/// Orders the rows of a matrix by the pattern of `A + A'`: the call of the crate `amd` 0.2.2.
///
/// Returns the permutation, its inverse and what the ordering tells: row `p[k]` comes at place `k`, and `p_inv[p[k]]`
/// is `k`. The [module](crate) says what a matrix is. For `n = 0` no array is read.
///
/// The answer is that of the crate, except for:
///
/// - an input that is no column form is [`Status::Invalid`] where the crate panics: a negative `n` or pointer, a
///   number past `isize`, an array that is too short;
/// - a count past `usize::MAX` is `usize::MAX`;
/// - `n_cmp_a` counts the compactions of this library's workspace, in rare cases one more than the crate's;
/// - with more than 10^6 rows the threshold of dense rows may differ by `sqrt(n) / 2000` rows, since the library
///   counts the parameter in thousandths. None is known where `dense` itself has at most three decimals;
/// - a debug build of the crate panics for some matrices that have an ordering.
///
/// # Errors
///
/// [`Status::Invalid`] exactly if `n` is not 0 and the input is no column form. Where memory is refused the program
/// ends, as it does where a `Vec` cannot grow; see [`try_order`].
pub fn order<I: PrimInt + NumAssignOps + fmt::Display>(
    n: I,
    a_p: &[I],
    a_i: &[I],
    control: &Control,
) -> Result<(Vec<I>, Vec<I>, Info), Status> {
    match try_order(n, a_p, a_i, control) {
        Ok(ordering) => Ok(ordering),
        Err(Fault::OutOfMemory) => handle_alloc_error(Layout::new::<I>()),
        Err(_) => Err(Status::Invalid),
    }
}

/// Orders as [`order`] does.
///
/// # Errors
///
/// [`Fault::Invalid`] exactly if `n` is not 0 and the input is no column form, and [`Fault::OutOfMemory`] where
/// memory is refused.
pub fn try_order<I: PrimInt>(n: I, a_p: &[I], a_i: &[I], control: &Control) -> Result<Ordering<I>, Fault> {
    order_matrix(Matrix::new(n, a_p, a_i)?, control, None)
}

/// Orders as [`order`] does, and places the rows whose mark in `hold` is true last, together with the dense ones, in
/// ascending order.
///
/// # Errors
///
/// [`Fault::Invalid`] exactly if `n` is not 0 and the input is no column form or `hold` has not `n` marks, and
/// [`Fault::OutOfMemory`] where memory is refused.
///
/// ```
/// use rimopaku_amd::{order_holding, Control};
/// // A path of four rows. The first one is wanted last.
/// let hold = [true, false, false, false];
/// let (p, _, _) = order_holding(4, &[0, 1, 2, 3, 3], &[1, 2, 3], &Control::default(), &hold)?;
/// assert_eq!(p[3], 0);
/// # Ok::<(), rimopaku_amd::Fault>(())
/// ```
pub fn order_holding<I: PrimInt>(
    n: I,
    a_p: &[I],
    a_i: &[I],
    control: &Control,
    hold: &[bool],
) -> Result<Ordering<I>, Fault> {
    order_matrix(Matrix::new(n, a_p, a_i)?, control, Some(hold))
}

#[cfg(test)]
mod tests {
    use super::{order_in, Matrix, Parameters};
    use std::format;

    /// No matrix of a test has so many rows that it is ordered in 64 bits, so both widths are called here.
    #[test]
    fn both_widths_give_the_same() {
        let (a_p, a_i) = ([0, 2, 6, 10, 12, 14], [0, 1, 0, 1, 2, 4, 1, 2, 3, 4, 2, 3, 1, 4]);
        let matrix = Matrix::new(5_i16, &a_p, &a_i).expect("long enough");
        let choice = Parameters { dense: 10_000, aggressive: true };
        for hold in [None, Some(&[true, false, false, false, false][..])] {
            let narrow = order_in::<i16, i32>(matrix, &choice, hold).expect("an ordering");
            let wide = order_in::<i16, i64>(matrix, &choice, hold).expect("an ordering");
            assert_eq!(format!("{narrow:?}"), format!("{wide:?}"));
        }
    }
}
