//! The calls of `include/rimopaku_bare.h`, and a safe function for each of them.

use crate::{Needs, Parameters};
use core::mem::MaybeUninit;

/// What a call returns besides 0, 1 and -2: `RIMOPAKU_OUT_OF_MEMORY` and the others.
pub(crate) const OK_BUT_JUMBLED: i32 = 1;
pub(crate) const OUT_OF_MEMORY: i32 = -1;
pub(crate) const NOT_PERMUTATION: i32 = -3;
pub(crate) const ROOM_TOO_SMALL: i32 = -4;

/// A block begins at a multiple of this, and has a multiple of it in bytes.
pub(crate) const UNIT: usize = 16;

/// `struct rimopaku_block`.
#[repr(C)]
pub struct Block {
    start: *mut MaybeUninit<u8>,
    size: usize,
}

impl Block {
    /// As much of some memory as is a block: up to 15 bytes are left out at the front and at the end.
    fn of(memory: &mut [MaybeUninit<u8>]) -> Block {
        let before = (memory.as_ptr() as usize).wrapping_neg() % UNIT;
        let inside = memory.get_mut(before..).unwrap_or_default();
        Block { start: inside.as_mut_ptr(), size: inside.len() / UNIT * UNIT }
    }
}

/// `struct rimopaku_statistics`.
#[repr(C)]
#[derive(Default)]
pub struct Statistics {
    pub n: usize,
    pub nz: usize,
    pub symmetry: bool,
    pub nz_diag: usize,
    pub nz_a_plus_at: usize,
    pub n_dense: usize,
    pub n_cmp_a: usize,
    pub lnz: usize,
    pub n_div: usize,
    pub n_mult_subs_ldl: usize,
    pub n_mult_subs_lu: usize,
    pub d_max: usize,
}

/// A matrix in compressed sparse columns.
#[derive(Clone, Copy)]
pub struct Columns<'a, T> {
    pub n: T,
    pub a_p: &'a [T],
    pub a_i: &'a [T],
}

/// Where an ordering is written.
pub struct Order<'a, T> {
    pub p: &'a mut [T],
    pub p_inv: &'a mut [T],
    pub statistics: &'a mut Statistics,
}

/// Where the columns of a factor are written.
pub struct Entries<'a, T> {
    pub ptr: &'a mut [T],
    pub rows: &'a mut [T],
    pub parent: &'a mut [T],
}

/// Where the counts of a factor are written.
pub struct Tallies<'a, T> {
    pub sizes: &'a mut [T],
    pub parent: &'a mut [T],
    pub needs: &'a mut Needs,
}

/// The calls for a type of numbers. Each returns the status.
pub trait Calls: Sized {
    fn order(
        memory: &mut [MaybeUninit<u8>],
        input: Columns<Self>,
        parameters: &Parameters,
        hold: Option<&[bool]>,
        output: Order<Self>,
    ) -> i32;

    fn counts(memory: &mut [MaybeUninit<u8>], input: Columns<Self>, p: &[Self], output: Tallies<Self>) -> i32;

    fn columns(memory: &mut [MaybeUninit<u8>], input: Columns<Self>, p: &[Self], output: Entries<Self>) -> i32;
}

macro_rules! calls {
    ($word:ty, $order:ident, $order_holding:ident, $counts:ident, $columns:ident) => {
        extern "C" {
            fn $order(
                block: Block,
                n: $word,
                a_p: *const $word,
                a_p_len: usize,
                a_i: *const $word,
                a_i_len: usize,
                parameters: *const Parameters,
                p: *mut $word,
                p_len: usize,
                p_inv: *mut $word,
                p_inv_len: usize,
                statistics: *mut Statistics,
            ) -> i32;
            fn $order_holding(
                block: Block,
                n: $word,
                a_p: *const $word,
                a_p_len: usize,
                a_i: *const $word,
                a_i_len: usize,
                parameters: *const Parameters,
                hold: *const bool,
                hold_len: usize,
                p: *mut $word,
                p_len: usize,
                p_inv: *mut $word,
                p_inv_len: usize,
                statistics: *mut Statistics,
            ) -> i32;
            fn $counts(
                block: Block,
                n: $word,
                a_p: *const $word,
                a_p_len: usize,
                a_i: *const $word,
                a_i_len: usize,
                p: *const $word,
                p_len: usize,
                sizes: *mut $word,
                sizes_len: usize,
                parent: *mut $word,
                parent_len: usize,
                needs: *mut Needs,
            ) -> i32;
            fn $columns(
                block: Block,
                n: $word,
                a_p: *const $word,
                a_p_len: usize,
                a_i: *const $word,
                a_i_len: usize,
                p: *const $word,
                p_len: usize,
                ptr: *mut $word,
                ptr_len: usize,
                rows: *mut $word,
                rows_len: usize,
                parent: *mut $word,
                parent_len: usize,
            ) -> i32;
        }

        impl Calls for $word {
            fn order(
                memory: &mut [MaybeUninit<u8>],
                input: Columns<$word>,
                parameters: &Parameters,
                hold: Option<&[bool]>,
                output: Order<$word>,
            ) -> i32 {
                let Columns { n, a_p, a_i } = input;
                let Order { p, p_inv, statistics } = output;
                let block = Block::of(memory);
                // SAFETY: the pointer of a slice is never null and goes with the slice's length; what is written, and
                // the memory, is borrowed by nobody else; and no call keeps an address.
                unsafe {
                    match hold {
                        None => $order(
                            block,
                            n,
                            a_p.as_ptr(),
                            a_p.len(),
                            a_i.as_ptr(),
                            a_i.len(),
                            parameters,
                            p.as_mut_ptr(),
                            p.len(),
                            p_inv.as_mut_ptr(),
                            p_inv.len(),
                            statistics,
                        ),
                        Some(hold) => $order_holding(
                            block,
                            n,
                            a_p.as_ptr(),
                            a_p.len(),
                            a_i.as_ptr(),
                            a_i.len(),
                            parameters,
                            hold.as_ptr(),
                            hold.len(),
                            p.as_mut_ptr(),
                            p.len(),
                            p_inv.as_mut_ptr(),
                            p_inv.len(),
                            statistics,
                        ),
                    }
                }
            }

            fn counts(
                memory: &mut [MaybeUninit<u8>],
                input: Columns<$word>,
                p: &[$word],
                output: Tallies<$word>,
            ) -> i32 {
                let Columns { n, a_p, a_i } = input;
                let Tallies { sizes, parent, needs } = output;
                let block = Block::of(memory);
                // SAFETY: as in `order`.
                unsafe {
                    $counts(
                        block,
                        n,
                        a_p.as_ptr(),
                        a_p.len(),
                        a_i.as_ptr(),
                        a_i.len(),
                        p.as_ptr(),
                        p.len(),
                        sizes.as_mut_ptr(),
                        sizes.len(),
                        parent.as_mut_ptr(),
                        parent.len(),
                        needs,
                    )
                }
            }

            fn columns(
                memory: &mut [MaybeUninit<u8>],
                input: Columns<$word>,
                p: &[$word],
                output: Entries<$word>,
            ) -> i32 {
                let Columns { n, a_p, a_i } = input;
                let Entries { ptr, rows, parent } = output;
                let block = Block::of(memory);
                // SAFETY: as in `order`.
                unsafe {
                    $columns(
                        block,
                        n,
                        a_p.as_ptr(),
                        a_p.len(),
                        a_i.as_ptr(),
                        a_i.len(),
                        p.as_ptr(),
                        p.len(),
                        ptr.as_mut_ptr(),
                        ptr.len(),
                        rows.as_mut_ptr(),
                        rows.len(),
                        parent.as_mut_ptr(),
                        parent.len(),
                    )
                }
            }
        }
    };
}

calls!(
    i32,
    rimopaku_order_within_i32,
    rimopaku_order_holding_within_i32,
    rimopaku_counts_within_i32,
    rimopaku_columns_within_i32
);
calls!(
    i64,
    rimopaku_order_within_i64,
    rimopaku_order_holding_within_i64,
    rimopaku_counts_within_i64,
    rimopaku_columns_within_i64
);
