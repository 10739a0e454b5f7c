//! Numbers of a caller's type as numbers of the library's, and back. Called by `order` and `factor`.

use crate::order::Fault;
use crate::raw::{Columns, Word};
use alloc::vec::Vec;
use core::mem::size_of;
use num_traits::{cast, PrimInt};

/// A vector with room for so many items.
///
/// # Errors
///
/// `OutOfMemory` where the room was refused.
pub(crate) fn room<T>(len: usize) -> Result<Vec<T>, Fault> {
    let mut items = Vec::new();
    items.try_reserve_exact(len).map_err(|_| Fault::OutOfMemory)?;
    Ok(items)
}

/// So many times the same number.
pub(crate) fn filled<T: Copy>(number: T, len: usize) -> Result<Vec<T>, Fault> {
    let mut numbers = room(len)?;
    numbers.resize(len, number);
    Ok(numbers)
}

/// The numbers in another type, with `none` for each that the type does not have.
pub(crate) fn converted<F: PrimInt, T: PrimInt>(from: &[F], none: T) -> Result<Vec<T>, Fault> {
    let mut to = room(from.len())?;
    to.extend(from.iter().map(|&number| cast(number).unwrap_or(none)));
    Ok(to)
}

/// Numbers of the library as numbers of the caller, whose type has them.
pub(crate) fn returned<T: Word, I: PrimInt>(numbers: Vec<T>) -> Result<Vec<I>, Fault> {
    if size_of::<T>() == size_of::<I>() {
        // The vector keeps its memory.
        return Ok(numbers.into_iter().map(|number| cast(number).unwrap_or_else(I::zero)).collect());
    }
    converted(&numbers, I::zero())
}

/// A caller's matrix of which the arrays are long enough.
#[derive(Clone, Copy)]
pub(crate) struct Matrix<'a, I> {
    pub size: usize,
    a_p: &'a [I],
    a_i: &'a [I],
}

impl<'a, I: PrimInt> Matrix<'a, I> {
    /// The matrix without what follows in its arrays.
    ///
    /// # Errors
    ///
    /// `Invalid` where an array is too short, or `n` or the last pointer is no length.
    pub fn new(n: I, a_p: &'a [I], a_i: &'a [I]) -> Result<Matrix<'a, I>, Fault> {
        let size = n.to_usize().ok_or(Fault::Invalid)?;
        if size == 0 {
            return Ok(Matrix { size, a_p: &[], a_i: &[] });
        }
        let last = a_p.get(size).ok_or(Fault::Invalid)?;
        let entries = last.to_usize().ok_or(Fault::Invalid)?;
        let a_i = a_i.get(..entries).ok_or(Fault::Invalid)?;
        Ok(Matrix { size, a_p: &a_p[..=size], a_i })
    }

    /// Whether numbers of 32 bits count its rows, its entries and `most`.
    pub fn is_narrow(&self, most: usize) -> bool {
        [self.size, self.a_i.len(), most].iter().all(|&count| i32::try_from(count).is_ok())
    }

    /// How many entries the arrays have.
    pub fn entries(&self) -> usize {
        self.a_i.len()
    }

    /// The matrix in numbers of the library. What the type does not have becomes -1, which no column form has.
    pub fn copied<T: Word>(&self) -> Result<Copied<T>, Fault> {
        let n = cast(self.size).ok_or(Fault::OutOfMemory)?;
        Ok(Copied { n, a_p: converted(self.a_p, T::NONE)?, a_i: converted(self.a_i, T::NONE)? })
    }
}

/// A matrix in numbers of the library.
pub(crate) struct Copied<T> {
    n: T,
    a_p: Vec<T>,
    a_i: Vec<T>,
}

impl<T: Word> Copied<T> {
    pub fn columns(&self) -> Columns<'_, T> {
        Columns { n: self.n, a_p: &self.a_p, a_i: &self.a_i }
    }
}
