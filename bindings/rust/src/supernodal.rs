//! The exact pattern of a factor by supernodes. Called by users.

use crate::factor::parents_of;
use crate::numbers::{converted, filled, returned, Matrix};
use crate::order::Fault;
use crate::raw::{Blocks, Columns, Sizes, Word, ROOM_TOO_SMALL};
use alloc::vec;
use alloc::vec::Vec;
use num_traits::{cast, PrimInt};

/// The entries of a factor `L` below its diagonal, by supernodes: the longest runs of places of which each but the last
/// has the next one as its parent, and one entry more than that has.
///
/// Column `k` of supernode `s` has the places behind `k` before `first[s + 1]`, and then the rows of `s`.
#[derive(Debug, Clone, PartialEq, Eq)]
pub struct Supernodes<I> {
    /// Where each supernode begins, and behind them the number of columns.
    pub first: Vec<usize>,
    /// Where the rows of each supernode begin, and the end of the last ones.
    pub ptr: Vec<usize>,
    /// The rows below the blocks: those of supernode `s` are `rows[ptr[s]..ptr[s + 1]]`, ascending.
    pub rows: Vec<I>,
    /// The parent of each supernode: the one in which the first of its rows lies, or `None` where it has no rows.
    pub parent: Vec<Option<usize>>,
}

impl<I> Supernodes<I> {
    /// The rows below the block of supernode `s`.
    ///
    /// # Panics
    ///
    /// If there is no supernode `s`.
    pub fn below(&self, s: usize) -> &[I] {
        &self.rows[self.ptr[s]..self.ptr[s + 1]]
    }

    /// How many supernodes there are.
    pub fn len(&self) -> usize {
        self.parent.len()
    }

    /// Whether there are none: exactly where there are no columns.
    pub fn is_empty(&self) -> bool {
        self.parent.is_empty()
    }
}

/// The lists of supernodes, in numbers of the library.
struct Lists<T> {
    first: Vec<T>,
    ptr: Vec<T>,
    rows: Vec<T>,
    parent: Vec<T>,
}

impl<T: Word> Lists<T> {
    /// Lists with places for so many.
    fn with_places(sizes: &Sizes) -> Result<Lists<T>, Fault> {
        let first = filled(T::zero(), sizes.supernodes + 1)?;
        let ptr = filled(T::zero(), sizes.supernodes + 1)?;
        let rows = filled(T::zero(), sizes.rows)?;
        Ok(Lists { first, ptr, rows, parent: filled(T::zero(), sizes.supernodes)? })
    }

    /// The lists without the places behind so many.
    fn cut(&mut self, sizes: &Sizes) {
        self.first.truncate(sizes.supernodes + 1);
        self.ptr.truncate(sizes.supernodes + 1);
        self.rows.truncate(sizes.rows);
        self.rows.shrink_to_fit();
        self.parent.truncate(sizes.supernodes);
    }
}

/// Places for each column, and for as many rows as the factors of grids and of networks have below their blocks.
fn likely_sizes(columns: usize, entries: usize) -> Sizes {
    let most = entries.saturating_mul(2).saturating_add(columns.saturating_mul(16));
    Sizes { supernodes: columns, rows: entries.saturating_mul(8).min(most) }
}

/// Writes the supernodes into lists of the library, with places for `sizes` of them, which then are those that there
/// are, and returns the status.
fn write<T: Word>(input: Columns<T>, p: &[T], sizes: &mut Sizes) -> Result<(Lists<T>, i32), Fault> {
    let mut lists = Lists::with_places(sizes)?;
    let Lists { first, ptr, rows, parent } = &mut lists;
    let status = T::supernodes_and_sizes(input, p, Blocks { first, ptr, rows, parent, sizes });
    Ok((lists, status))
}

/// The supernodes, in numbers of the library: one call, and a second one where there were more rows than is likely.
fn supernodes_in<I: PrimInt, T: Word>(matrix: Matrix<I>, p: &[I]) -> Result<Supernodes<I>, Fault> {
    let copied = matrix.copied::<T>()?;
    let order = converted(p, T::NONE)?;
    let mut sizes = likely_sizes(matrix.size, matrix.entries());
    let (mut lists, mut status) = write(copied.columns(), &order, &mut sizes)?;
    if status == ROOM_TOO_SMALL {
        // Memory is asked for only where the type counts the rows.
        cast::<usize, T>(sizes.rows).ok_or(Fault::OutOfMemory)?;
        drop(lists);
        (lists, status) = write(copied.columns(), &order, &mut sizes)?;
    }
    if status < 0 {
        return Err(Fault::of(status));
    }
    drop(copied);
    lists.cut(&sizes);
    let Lists { first, ptr, rows, parent } = lists;
    let first = converted(&first, 0)?;
    let ptr = converted(&ptr, 0)?;
    Ok(Supernodes { first, ptr, rows: returned(rows)?, parent: parents_of(&parent)? })
}

/// Returns the pattern of the factor of a matrix in the order `p`, any permutation of the rows, by supernodes: the
/// entries are those that [`columns`](crate::columns) returns, and the rows below a block stand once.
///
/// # Errors
///
/// As [`columns`](crate::columns).
///
/// ```
/// // A cycle of four rows in its own order: the columns {1, 3}, {2, 3}, {3} and {}.
/// let supernodes = rimopaku_amd::supernodes(4, &[0, 2, 3, 4, 4], &[1, 3, 2, 3], &[0, 1, 2, 3])?;
/// assert_eq!(supernodes.first, [0, 1, 4]);
/// assert_eq!(supernodes.below(0), [1, 3]);
/// assert_eq!(supernodes.parent, [Some(1), None]);
/// # Ok::<(), rimopaku_amd::Fault>(())
/// ```
pub fn supernodes<I: PrimInt>(n: I, a_p: &[I], a_i: &[I], p: &[I]) -> Result<Supernodes<I>, Fault> {
    let matrix = Matrix::new(n, a_p, a_i)?;
    if matrix.size == 0 && p.is_empty() {
        return Ok(Supernodes { first: vec![0], ptr: vec![0], rows: Vec::new(), parent: Vec::new() });
    }
    if matrix.is_narrow(0) {
        // The rows below the blocks may be too many for 32 bits.
        match supernodes_in::<I, i32>(matrix, p) {
            Err(Fault::OutOfMemory) => {}
            answer => return answer,
        }
    }
    supernodes_in::<I, i64>(matrix, p)
}

#[cfg(test)]
mod tests {
    use super::{likely_sizes, supernodes_in, Matrix};
    use alloc::vec::Vec;

    /// A path of 40 rows, each joined to one of 40 more, which stand in all columns behind it.
    #[test]
    fn more_rows_than_are_likely() {
        let a_p: Vec<u8> = (0..40).map(|k| 2 * k).chain([79; 41]).collect();
        let a_i: Vec<u8> = (0..39).flat_map(|k| [k + 1, k + 40]).chain([79]).collect();
        let p: Vec<u8> = (0..80).collect();
        let matrix = Matrix::new(80, &a_p, &a_i).expect("long enough");
        let told = supernodes_in::<u8, i32>(matrix, &p).expect("supernodes");
        assert!(told.rows.len() > likely_sizes(80, 79).rows);
        assert_eq!((told.len(), told.rows.len(), told.below(2)), (40, 819, &[3, 40, 41, 42][..]));
        assert_eq!(Ok(told), supernodes_in::<u8, i64>(matrix, &p));
    }

    #[test]
    fn both_widths_give_the_same() {
        let matrix = Matrix::new(4_u8, &[0, 2, 3, 4, 4], &[1, 3, 2, 3]).expect("long enough");
        for p in [[0, 1, 2, 3], [2, 0, 3, 1], [0, 0, 1, 2]] {
            assert_eq!(supernodes_in::<u8, i32>(matrix, &p), supernodes_in::<u8, i64>(matrix, &p));
        }
    }
}
