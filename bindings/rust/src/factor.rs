//! The exact pattern of a factor, and orderings with the factor under them. Called by users.

use crate::numbers::{converted, filled, returned, room, Matrix};
use crate::order::{order_matrix, Control, Fault, Info};
use crate::raw::{Entries, Needs, Tallies, Word};
use alloc::vec;
use alloc::vec::Vec;
use num_traits::{cast, NumCast, PrimInt};

/// The entries of a factor `L` below its diagonal, column by column. A place is that of a row in the order, from 0
/// on.
#[derive(Debug, Clone, PartialEq, Eq)]
pub struct Factor<I> {
    /// Where each column begins, and the end of the last one: `n + 1` numbers.
    pub ptr: Vec<usize>,
    /// The entries: those of column `k` are `rows[ptr[k]..ptr[k + 1]]`, places above `k`, ascending.
    pub rows: Vec<I>,
    /// The parent of each column in the elimination tree: its first entry, or `None` where it is empty.
    pub parent: Vec<Option<I>>,
}

impl<I> Factor<I> {
    /// The entries of column `k`.
    ///
    /// # Panics
    ///
    /// If there is no column `k`.
    pub fn column(&self, k: usize) -> &[I] {
        &self.rows[self.ptr[k]..self.ptr[k + 1]]
    }

    /// How many entries `L` has below its diagonal.
    pub fn nnz(&self) -> usize {
        self.rows.len()
    }
}

/// An ordering and the factor under it.
#[derive(Debug, Clone)]
pub struct Analysis<I> {
    /// The permutation: row `p[k]` comes at place `k`.
    pub p: Vec<I>,
    /// Its inverse: `p_inv[p[k]]` is `k`.
    pub p_inv: Vec<I>,
    /// What the ordering tells. The factor has at most `info.lnz` entries.
    pub info: Info,
    /// The factor.
    pub factor: Factor<I>,
}

/// How many entries the columns of a factor have below its diagonal, and what the factor needs.
#[derive(Debug, Clone, PartialEq, Eq)]
pub struct Counts<I> {
    /// The entries of each column.
    pub sizes: Vec<usize>,
    /// The parent of each column in the elimination tree, or `None` where the column is empty.
    pub parent: Vec<Option<I>>,
    /// What the factor needs.
    pub need: Need,
}

/// What a factor needs: exact sums over its columns, and the largest of them.
#[derive(Debug, Clone, Copy, PartialEq, Eq, Default)]
pub struct Need {
    /// The entries below the diagonal, and so the divisions.
    pub lnz: u128,
    /// The multiply-subtract steps of a factorization `LDL'`.
    pub n_mult_subs_ldl: u128,
    /// The multiply-subtract steps of a factorization `LU` without pivoting.
    pub n_mult_subs_lu: u128,
    /// The entries of the largest column, with that on the diagonal; 0 where there are no columns.
    pub d_max: u128,
}

impl Need {
    /// What a factor with one column more needs.
    fn with_column(self, size: usize) -> Need {
        let size = size as u128;
        Need {
            lnz: self.lnz + size,
            n_mult_subs_ldl: self.n_mult_subs_ldl + size * (size + 1) / 2,
            n_mult_subs_lu: self.n_mult_subs_lu + size * size,
            d_max: self.d_max.max(size + 1),
        }
    }
}

/// The parents in the caller's numbers. -1 is the parent of an empty column.
pub(crate) fn parents_of<I: NumCast, T: Word>(parent: &[T]) -> Result<Vec<Option<I>>, Fault> {
    let mut parents = room(parent.len())?;
    parents.extend(parent.iter().map(|&place| if place < T::zero() { None } else { cast(place) }));
    Ok(parents)
}

/// The factor in the caller's numbers.
fn told<I: PrimInt, T: Word>(ptr: &[T], mut rows: Vec<T>, parent: &[T]) -> Result<Factor<I>, Fault> {
    let ptr = converted(ptr, 0)?;
    rows.truncate(ptr.last().map_or(0, |&end| end));
    rows.shrink_to_fit();
    let rows = returned(rows)?;
    Ok(Factor { ptr, rows, parent: parents_of(parent)? })
}

/// The factor, in numbers of the library.
fn columns_in<I: PrimInt, T: Word>(matrix: Matrix<I>, p: &[I], most: usize) -> Result<Factor<I>, Fault> {
    let copied = matrix.copied::<T>()?;
    let order = converted(p, T::NONE)?;
    let mut ptr = filled(T::zero(), matrix.size + 1)?;
    let mut rows = filled(T::zero(), most)?;
    let mut parent = filled(T::zero(), matrix.size)?;
    let output = Entries { ptr: &mut ptr, rows: &mut rows, parent: &mut parent };
    match T::columns(copied.columns(), &order, output) {
        0 => {
            drop(copied);
            told(&ptr, rows, &parent)
        }
        fault => Err(Fault::of(fault)),
    }
}

/// The factor of a matrix in the order `p`, if it has at most `most` entries.
fn columns_of<I: PrimInt>(matrix: Matrix<I>, p: &[I], most: usize) -> Result<Factor<I>, Fault> {
    if matrix.size == 0 {
        return if p.is_empty() {
            Ok(Factor { ptr: vec![0], rows: Vec::new(), parent: Vec::new() })
        } else {
            Err(Fault::NotPermutation)
        };
    }
    if matrix.is_narrow(most) {
        columns_in::<I, i32>(matrix, p, most)
    } else {
        columns_in::<I, i64>(matrix, p, most)
    }
}

/// Returns the pattern of the factor of a matrix in the order `p`, if it has at most `most` entries below its
/// diagonal. `p` is any permutation of the rows: row `p[k]` is at place `k`. With `p` from [`order`](crate::order),
/// `info.lnz` is enough, unless it is `usize::MAX`. The call takes memory for `most` entries, whatever the factor
/// needs.
///
/// # Errors
///
/// [`Fault::Invalid`] if `n` is not 0 and the input is no column form, [`Fault::NotPermutation`] if `p` does not list
/// each row exactly once, [`Fault::RoomTooSmall`] if the factor has more than `most` entries, and
/// [`Fault::OutOfMemory`] where memory is refused.
pub fn columns_within<I: PrimInt>(n: I, a_p: &[I], a_i: &[I], p: &[I], most: usize) -> Result<Factor<I>, Fault> {
    columns_of(Matrix::new(n, a_p, a_i)?, p, most)
}

/// Returns the pattern of the factor of a matrix in the order `p`, any permutation of the rows, as [`columns_within`]
/// does with as much room as it takes.
///
/// # Errors
///
/// As [`columns_within`]; never [`Fault::RoomTooSmall`].
///
/// ```
/// // A path of three rows in its own order: no fill.
/// let factor = rimopaku_amd::columns(3, &[0, 1, 2, 2], &[1, 2], &[0, 1, 2])?;
/// assert_eq!(factor.rows, [1, 2]);
/// assert_eq!(factor.parent, [Some(1), Some(2), None]);
/// # Ok::<(), rimopaku_amd::Fault>(())
/// ```
pub fn columns<I: PrimInt>(n: I, a_p: &[I], a_i: &[I], p: &[I]) -> Result<Factor<I>, Fault> {
    let matrix = Matrix::new(n, a_p, a_i)?;
    let mut most = matrix.entries().max(16);
    loop {
        match columns_of(matrix, p, most) {
            Err(Fault::RoomTooSmall) => most = most.checked_mul(2).ok_or(Fault::OutOfMemory)?,
            answer => return answer,
        }
    }
}

/// What a factor needs: the figures that a call wrote, or exact sums where one of those saturates.
fn need_of(needs: &Needs, sizes: &[usize]) -> Need {
    if [needs.lnz, needs.n_mult_subs_ldl, needs.n_mult_subs_lu].contains(&usize::MAX) {
        return sizes.iter().fold(Need::default(), |need, &size| need.with_column(size));
    }
    Need {
        lnz: needs.lnz as u128,
        n_mult_subs_ldl: needs.n_mult_subs_ldl as u128,
        n_mult_subs_lu: needs.n_mult_subs_lu as u128,
        d_max: needs.d_max as u128,
    }
}

/// The counts, in numbers of the library.
fn counts_in<I: PrimInt, T: Word>(matrix: Matrix<I>, p: &[I]) -> Result<Counts<I>, Fault> {
    let copied = matrix.copied::<T>()?;
    let order = converted(p, T::NONE)?;
    let mut sizes = filled(T::zero(), matrix.size)?;
    let mut parent = filled(T::zero(), matrix.size)?;
    let mut needs = Needs::default();
    let output = Tallies { sizes: &mut sizes, parent: &mut parent, needs: &mut needs };
    match T::counts(copied.columns(), &order, output) {
        0 => {
            drop(copied);
            let sizes = converted(&sizes, 0)?;
            let need = need_of(&needs, &sizes);
            Ok(Counts { sizes, parent: parents_of(&parent)?, need })
        }
        fault => Err(Fault::of(fault)),
    }
}

/// Returns how many entries each column of the factor in the order `p` has, and what the factor needs. The
/// call takes memory for the matrix and its rows, whatever the factor needs.
///
/// # Errors
///
/// As [`columns`].
///
/// ```
/// // A path of three rows in its own order.
/// let counts = rimopaku_amd::counts(3, &[0, 1, 2, 2], &[1, 2], &[0, 1, 2])?;
/// assert_eq!(counts.sizes, [1, 1, 0]);
/// assert_eq!((counts.need.lnz, counts.need.d_max), (2, 2));
/// # Ok::<(), rimopaku_amd::Fault>(())
/// ```
pub fn counts<I: PrimInt>(n: I, a_p: &[I], a_i: &[I], p: &[I]) -> Result<Counts<I>, Fault> {
    let matrix = Matrix::new(n, a_p, a_i)?;
    if matrix.is_narrow(0) {
        counts_in::<I, i32>(matrix, p)
    } else {
        counts_in::<I, i64>(matrix, p)
    }
}

/// Orders a matrix, with rows held last where there are marks, and returns the factor too.
fn analyze_matrix<I: PrimInt>(
    matrix: Matrix<I>,
    control: &Control,
    hold: Option<&[bool]>,
) -> Result<Analysis<I>, Fault> {
    let (p, p_inv, info) = order_matrix(matrix, control, hold)?;
    let factor = columns_of(matrix, &p, info.lnz)?;
    Ok(Analysis { p, p_inv, info, factor })
}

/// Orders as [`order`](crate::order) does, and returns the ordering with the pattern of the factor under it.
///
/// # Errors
///
/// [`Fault::Invalid`] exactly if `n` is not 0 and the input is no column form, and [`Fault::OutOfMemory`] where
/// memory is refused.
///
/// ```
/// use rimopaku_amd::{analyze, Control};
/// let a_p = [0, 2, 6, 10, 12, 14];
/// let a_i = [0, 1, 0, 1, 2, 4, 1, 2, 3, 4, 2, 3, 1, 4];
/// let analysis = analyze(5, &a_p, &a_i, &Control::default())?;
/// assert_eq!(analysis.p, [0, 3, 2, 4, 1]);
/// assert_eq!(analysis.factor.nnz(), 5);
/// # Ok::<(), rimopaku_amd::Fault>(())
/// ```
pub fn analyze<I: PrimInt>(n: I, a_p: &[I], a_i: &[I], control: &Control) -> Result<Analysis<I>, Fault> {
    analyze_matrix(Matrix::new(n, a_p, a_i)?, control, None)
}

/// Orders as [`order_holding`](crate::order_holding) does, and returns the ordering with the pattern of the factor
/// under it.
///
/// # Errors
///
/// [`Fault::Invalid`] exactly if `n` is not 0 and the input is no column form or `hold` has not `n` marks, and
/// [`Fault::OutOfMemory`] where memory is refused.
pub fn analyze_holding<I: PrimInt>(
    n: I,
    a_p: &[I],
    a_i: &[I],
    control: &Control,
    hold: &[bool],
) -> Result<Analysis<I>, Fault> {
    analyze_matrix(Matrix::new(n, a_p, a_i)?, control, Some(hold))
}

#[cfg(test)]
mod tests {
    use super::{columns_in, counts_in, need_of, Matrix, Need};
    use crate::raw::Needs;

    #[test]
    fn both_widths_give_the_same() {
        let matrix = Matrix::new(4_u8, &[0, 2, 3, 4, 4], &[1, 3, 2, 3]).expect("long enough");
        for p in [[0, 1, 2, 3], [2, 0, 3, 1], [0, 0, 1, 2]] {
            assert_eq!(counts_in::<u8, i32>(matrix, &p), counts_in::<u8, i64>(matrix, &p));
            for most in [4, 5] {
                assert_eq!(columns_in::<u8, i32>(matrix, &p, most), columns_in::<u8, i64>(matrix, &p, most));
            }
        }
    }

    /// Columns of 2, 2, 1 and 0 entries, beside figures that saturate.
    #[test]
    fn needs_beyond_a_word_are_summed() {
        let needs = Needs { lnz: 5, n_mult_subs_ldl: 7, n_mult_subs_lu: usize::MAX, d_max: 3 };
        let exact = Need { lnz: 5, n_mult_subs_ldl: 7, n_mult_subs_lu: 9, d_max: 3 };
        assert_eq!(need_of(&needs, &[2, 2, 1, 0]), exact);
    }
}
