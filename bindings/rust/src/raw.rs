//! The calls of `include/rimopaku.h`, and a safe function for each of them. Called by `order`, `factor`
//! and `supernodal`.

use num_traits::PrimInt;

/// What a call returns besides 0 and 1: `RIMOPAKU_OUT_OF_MEMORY` and the others.
pub(crate) const OUT_OF_MEMORY: i32 = -1;
pub(crate) const NOT_PERMUTATION: i32 = -3;
pub(crate) const ROOM_TOO_SMALL: i32 = -4;

/// `struct rimopaku_parameters`.
#[repr(C)]
pub(crate) struct Parameters {
    pub dense: i32,
    pub aggressive: bool,
}

/// `struct rimopaku_statistics`.
#[repr(C)]
#[derive(Default)]
pub(crate) struct Statistics {
    pub n: usize,
    pub nz: usize,
    pub symmetry: bool,
    pub nz_diag: usize,
    pub nz_a_plus_at: usize,
    pub n_dense: usize,
    pub n_cmp_a: usize,
    pub lnz: usize,
    pub n_div: usize,
    pub n_mult_subs_ldl: usize,
    pub n_mult_subs_lu: usize,
    pub d_max: usize,
}

/// `struct rimopaku_needs`.
#[repr(C)]
#[derive(Default)]
pub(crate) struct Needs {
    pub lnz: usize,
    pub n_mult_subs_ldl: usize,
    pub n_mult_subs_lu: usize,
    pub d_max: usize,
}

/// `struct rimopaku_supernode_sizes`.
#[repr(C)]
#[derive(Default)]
pub(crate) struct Sizes {
    pub supernodes: usize,
    pub rows: usize,
}

/// A type of numbers that the library has calls for.
pub(crate) trait Word: PrimInt {
    /// A number that no column form has, in place of one that the type does not have.
    const NONE: Self;

    /// Calls `rimopaku_order`, or `rimopaku_order_holding` where there are marks, and returns the status.
    fn order(input: Columns<Self>, parameters: &Parameters, hold: Option<&[bool]>, output: Order<Self>) -> i32;

    /// Calls `rimopaku_columns`, and returns the status.
    fn columns(input: Columns<Self>, p: &[Self], output: Entries<Self>) -> i32;

    /// Calls `rimopaku_counts`, and returns the status.
    fn counts(input: Columns<Self>, p: &[Self], output: Tallies<Self>) -> i32;

    /// Calls `rimopaku_supernodes_and_sizes`, and returns the status.
    fn supernodes_and_sizes(input: Columns<Self>, p: &[Self], output: Blocks<Self>) -> i32;
}

/// A matrix in compressed sparse columns.
#[derive(Clone, Copy)]
pub(crate) struct Columns<'a, T> {
    pub n: T,
    pub a_p: &'a [T],
    pub a_i: &'a [T],
}

/// Where an ordering is written.
pub(crate) struct Order<'a, T> {
    pub p: &'a mut [T],
    pub p_inv: &'a mut [T],
    pub statistics: &'a mut Statistics,
}

/// Where the columns of a factor are written.
pub(crate) struct Entries<'a, T> {
    pub ptr: &'a mut [T],
    pub rows: &'a mut [T],
    pub parent: &'a mut [T],
}

/// Where the counts of a factor are written.
pub(crate) struct Tallies<'a, T> {
    pub sizes: &'a mut [T],
    pub parent: &'a mut [T],
    pub needs: &'a mut Needs,
}

/// Where the supernodes of a factor are written, and how many there are.
pub(crate) struct Blocks<'a, T> {
    pub first: &'a mut [T],
    pub ptr: &'a mut [T],
    pub rows: &'a mut [T],
    pub parent: &'a mut [T],
    pub sizes: &'a mut Sizes,
}

macro_rules! word {
    (
        $word:ty,
        $order:ident,
        $order_holding:ident,
        $columns:ident,
        $counts:ident,
        $supernodes_and_sizes:ident
    ) => {
        extern "C" {
            fn $order(
                n: $word,
                a_p: *const $word,
                a_p_len: usize,
                a_i: *const $word,
                a_i_len: usize,
                parameters: *const Parameters,
                p: *mut $word,
                p_len: usize,
                p_inv: *mut $word,
                p_inv_len: usize,
                statistics: *mut Statistics,
            ) -> i32;
            fn $order_holding(
                n: $word,
                a_p: *const $word,
                a_p_len: usize,
                a_i: *const $word,
                a_i_len: usize,
                parameters: *const Parameters,
                hold: *const bool,
                hold_len: usize,
                p: *mut $word,
                p_len: usize,
                p_inv: *mut $word,
                p_inv_len: usize,
                statistics: *mut Statistics,
            ) -> i32;
            fn $columns(
                n: $word,
                a_p: *const $word,
                a_p_len: usize,
                a_i: *const $word,
                a_i_len: usize,
                p: *const $word,
                p_len: usize,
                ptr: *mut $word,
                ptr_len: usize,
                rows: *mut $word,
                rows_len: usize,
                parent: *mut $word,
                parent_len: usize,
            ) -> i32;
            fn $counts(
                n: $word,
                a_p: *const $word,
                a_p_len: usize,
                a_i: *const $word,
                a_i_len: usize,
                p: *const $word,
                p_len: usize,
                sizes: *mut $word,
                sizes_len: usize,
                parent: *mut $word,
                parent_len: usize,
                needs: *mut Needs,
            ) -> i32;
            fn $supernodes_and_sizes(
                n: $word,
                a_p: *const $word,
                a_p_len: usize,
                a_i: *const $word,
                a_i_len: usize,
                p: *const $word,
                p_len: usize,
                first: *mut $word,
                first_len: usize,
                ptr: *mut $word,
                ptr_len: usize,
                rows: *mut $word,
                rows_len: usize,
                parent: *mut $word,
                parent_len: usize,
                sizes: *mut Sizes,
            ) -> i32;
        }

        impl Word for $word {
            const NONE: $word = -1;

            fn order(
                input: Columns<$word>,
                parameters: &Parameters,
                hold: Option<&[bool]>,
                output: Order<$word>,
            ) -> i32 {
                let Columns { n, a_p, a_i } = input;
                let Order { p, p_inv, statistics } = output;
                // SAFETY: the pointer of a slice is never null and goes with the slice's length, and what is written
                // is borrowed by nobody else.
                unsafe {
                    match hold {
                        None => $order(
                            n,
                            a_p.as_ptr(),
                            a_p.len(),
                            a_i.as_ptr(),
                            a_i.len(),
                            parameters,
                            p.as_mut_ptr(),
                            p.len(),
                            p_inv.as_mut_ptr(),
                            p_inv.len(),
                            statistics,
                        ),
                        Some(hold) => $order_holding(
                            n,
                            a_p.as_ptr(),
                            a_p.len(),
                            a_i.as_ptr(),
                            a_i.len(),
                            parameters,
                            hold.as_ptr(),
                            hold.len(),
                            p.as_mut_ptr(),
                            p.len(),
                            p_inv.as_mut_ptr(),
                            p_inv.len(),
                            statistics,
                        ),
                    }
                }
            }

            fn columns(input: Columns<$word>, p: &[$word], output: Entries<$word>) -> i32 {
                let Columns { n, a_p, a_i } = input;
                let Entries { ptr, rows, parent } = output;
                // SAFETY: as in `order`.
                unsafe {
                    $columns(
                        n,
                        a_p.as_ptr(),
                        a_p.len(),
                        a_i.as_ptr(),
                        a_i.len(),
                        p.as_ptr(),
                        p.len(),
                        ptr.as_mut_ptr(),
                        ptr.len(),
                        rows.as_mut_ptr(),
                        rows.len(),
                        parent.as_mut_ptr(),
                        parent.len(),
                    )
                }
            }

            fn counts(input: Columns<$word>, p: &[$word], output: Tallies<$word>) -> i32 {
                let Columns { n, a_p, a_i } = input;
                let Tallies { sizes, parent, needs } = output;
                // SAFETY: as in `order`.
                unsafe {
                    $counts(
                        n,
                        a_p.as_ptr(),
                        a_p.len(),
                        a_i.as_ptr(),
                        a_i.len(),
                        p.as_ptr(),
                        p.len(),
                        sizes.as_mut_ptr(),
                        sizes.len(),
                        parent.as_mut_ptr(),
                        parent.len(),
                        needs,
                    )
                }
            }

            fn supernodes_and_sizes(input: Columns<$word>, p: &[$word], output: Blocks<$word>) -> i32 {
                let Columns { n, a_p, a_i } = input;
                let Blocks { first, ptr, rows, parent, sizes } = output;
                // SAFETY: as in `order`.
                unsafe {
                    $supernodes_and_sizes(
                        n,
                        a_p.as_ptr(),
                        a_p.len(),
                        a_i.as_ptr(),
                        a_i.len(),
                        p.as_ptr(),
                        p.len(),
                        first.as_mut_ptr(),
                        first.len(),
                        ptr.as_mut_ptr(),
                        ptr.len(),
                        rows.as_mut_ptr(),
                        rows.len(),
                        parent.as_mut_ptr(),
                        parent.len(),
                        sizes,
                    )
                }
            }
        }
    };
}

word!(
    i32,
    rimopaku_order_i32,
    rimopaku_order_holding_i32,
    rimopaku_columns_i32,
    rimopaku_counts_i32,
    rimopaku_supernodes_and_sizes_i32
);
word!(
    i64,
    rimopaku_order_i64,
    rimopaku_order_holding_i64,
    rimopaku_columns_i64,
    rimopaku_counts_i64,
    rimopaku_supernodes_and_sizes_i64
);
