//! The calls, in bytes that are lent.

use crate::answers::{Fault, Info, Needs, Parameters};
use crate::raw::{self, Calls, Columns, Entries, Order, Statistics, Tallies};
use core::mem::MaybeUninit;

/// The types of numbers that a matrix may have: `i32` and `i64`.
pub trait Word: Copy + Calls {}

impl Word for i32 {}
impl Word for i64 {}

/// Bytes that are lent to one call after the other. What stands in them does not matter, and what a call leaves there
/// means nothing.
#[derive(Debug)]
pub struct Workspace<'m> {
    memory: &'m mut [MaybeUninit<u8>],
}

impl<'m> Workspace<'m> {
    /// A workspace in any bytes. Where they do not begin at a multiple of 16, up to 15 are left out.
    pub fn new(memory: &'m mut [MaybeUninit<u8>]) -> Workspace<'m> {
        Workspace { memory }
    }

    /// A workspace in bytes that hold something, which is lost.
    pub fn over(memory: &'m mut [u8]) -> Workspace<'m> {
        let (start, size) = (memory.as_mut_ptr().cast(), memory.len());
        // SAFETY: these are the same bytes, borrowed for as long, and the library leaves none of them undefined.
        Workspace { memory: unsafe { core::slice::from_raw_parts_mut(start, size) } }
    }

    /// How many bytes are lent.
    pub fn bytes(&self) -> usize {
        self.memory.len()
    }

    /// Orders the rows of a matrix by the pattern of `A + A'`: row `p[k]` comes at place `k`, and `p_inv[p[k]]` is `k`.
    ///
    /// The [module](crate) says what a matrix is. `p` and `p_inv` have `n` places. For `n = 0` no array is read.
    ///
    /// # Errors
    ///
    /// [`Fault::Invalid`] exactly if `p` or `p_inv` has not `n` places, or `n` is not 0 and the input is no column
    /// form; [`Fault::OutOfMemory`] exactly if the call is valid otherwise, `n` is not 0, and the workspace has fewer
    /// bytes than [`order_bytes`](crate::order_bytes) tells for `n` rows and `a_p[n]` entries, those before the first
    /// multiple of 16 not counted. Then `p` and `p_inv` are as they were.
    pub fn order<T: Word>(
        &mut self,
        n: T,
        a_p: &[T],
        a_i: &[T],
        parameters: &Parameters,
        p: &mut [T],
        p_inv: &mut [T],
    ) -> Result<Info, Fault> {
        self.order_matrix(Columns { n, a_p, a_i }, parameters, None, p, p_inv)
    }

    /// Orders as [`order`](Workspace::order) does, and places the rows whose mark in `hold` is true last, together with
    /// the dense ones, in ascending order.
    ///
    /// # Errors
    ///
    /// Those of [`order`](Workspace::order), and [`Fault::Invalid`] if `hold` has not `n` marks and `n` is not 0.
    #[allow(clippy::too_many_arguments)]
    pub fn order_holding<T: Word>(
        &mut self,
        n: T,
        a_p: &[T],
        a_i: &[T],
        parameters: &Parameters,
        hold: &[bool],
        p: &mut [T],
        p_inv: &mut [T],
    ) -> Result<Info, Fault> {
        self.order_matrix(Columns { n, a_p, a_i }, parameters, Some(hold), p, p_inv)
    }

    fn order_matrix<T: Word>(
        &mut self,
        matrix: Columns<T>,
        parameters: &Parameters,
        hold: Option<&[bool]>,
        p: &mut [T],
        p_inv: &mut [T],
    ) -> Result<Info, Fault> {
        let mut statistics = Statistics::default();
        let output = Order { p, p_inv, statistics: &mut statistics };
        let status = T::order(self.memory, matrix, parameters, hold, output);
        done(status)?;
        Ok(Info::of(&statistics, status == raw::OK_BUT_JUMBLED))
    }

    /// Counts the entries that the columns of the factor have below the diagonal, in the order `p`, and finds their
    /// parents: `sizes[k]` is the number of entries of column `k`, and `parent[k]` the place of the first of them, -1
    /// where there is none. Returns what the factor needs.
    ///
    /// `p` is any permutation of the rows: row `p[k]` is at place `k`. `sizes` and `parent` have `n` places.
    ///
    /// # Errors
    ///
    /// [`Fault::Invalid`] exactly if `sizes` or `parent` has not `n` places, or `n` is not 0 and the input is no column
    /// form; else [`Fault::OutOfMemory`] exactly if `n` is not 0 and the workspace has fewer bytes than
    /// [`counts_bytes`](crate::counts_bytes) tells for `n` rows and `a_p[n]` entries, those before the first multiple
    /// of 16 not counted; else [`Fault::NotPermutation`] exactly if `p` does not list each row once. Then `sizes` and
    /// `parent` are as they were.
    pub fn counts<T: Word>(
        &mut self,
        n: T,
        a_p: &[T],
        a_i: &[T],
        p: &[T],
        sizes: &mut [T],
        parent: &mut [T],
    ) -> Result<Needs, Fault> {
        let mut needs = Needs::default();
        let output = Tallies { sizes, parent, needs: &mut needs };
        done(T::counts(self.memory, Columns { n, a_p, a_i }, p, output))?;
        Ok(needs)
    }

    /// Writes the pattern of the factor below the diagonal in the order `p`: column `k` has the entries
    /// `rows[ptr[k]..ptr[k + 1]]`, places in ascending order, and `parent[k]` is the first of them, -1 where there is
    /// none. What follows the entries in `rows` stays.
    ///
    /// `ptr` has `n + 1` places and `parent` has `n`. `rows` has as many as [`counts`](Workspace::counts) tells in
    /// `lnz`, or more; `lnz` of [`order`](Workspace::order) is enough for its own `p`.
    ///
    /// # Errors
    ///
    /// [`Fault::Invalid`] exactly if `ptr` or `parent` has not that many places, or `n` is not 0 and the input is no
    /// column form; else [`Fault::OutOfMemory`] exactly if `n` is not 0 and the workspace has fewer bytes than
    /// [`columns_bytes`](crate::columns_bytes) tells for `n` rows and `a_p[n]` entries, those before the first multiple
    /// of 16 not counted; else [`Fault::NotPermutation`] exactly if `p` does not list each row once; else
    /// [`Fault::RoomTooSmall`] exactly if the factor has more entries than `rows` has places, or than `T` can count.
    /// Then `ptr` and `parent` are as they were, and `rows` too, but that after the last fault it may have some of the
    /// entries.
    #[allow(clippy::too_many_arguments)]
    pub fn columns<T: Word>(
        &mut self,
        n: T,
        a_p: &[T],
        a_i: &[T],
        p: &[T],
        ptr: &mut [T],
        rows: &mut [T],
        parent: &mut [T],
    ) -> Result<(), Fault> {
        done(T::columns(self.memory, Columns { n, a_p, a_i }, p, Entries { ptr, rows, parent }))
    }
}

/// The fault of a status, if it is one.
fn done(status: i32) -> Result<(), Fault> {
    if status < 0 {
        Err(Fault::of(status))
    } else {
        Ok(())
    }
}
