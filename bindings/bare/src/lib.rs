//! The approximate minimum degree ordering (AMD) of sparse matrices, and the exact columns of the factor, in memory
//! that the caller lends: without an allocator, and without the standard library. The library beneath has its contracts
//! proved. This package is Rust as usual, and is tested.
//!
//! A [`Workspace`] lends its bytes to each call: a slice, or a [`StaticMemory`]. [`workspace_bytes`] tells how many are
//! enough, also for the size of a static variable. Results are written into the caller's slices.
//!
//! ```
//! use rimopaku_amd_bare::{workspace_bytes, Parameters, StaticMemory};
//!
//! static MEMORY: StaticMemory<{ workspace_bytes(5, 14) }> = StaticMemory::new();
//!
//! let mut workspace = MEMORY.lend().expect("nobody else has it");
//! let a_p = [0, 2, 6, 10, 12, 14];
//! let a_i = [0, 1, 0, 1, 2, 4, 1, 2, 3, 4, 2, 3, 1, 4];
//! let (mut p, mut p_inv) = ([0; 5], [0; 5]);
//! let info = workspace.order(5, &a_p, &a_i, &Parameters::default(), &mut p, &mut p_inv)?;
//! assert_eq!(p, [0, 3, 2, 4, 1]);
//! assert_eq!(p_inv, [0, 4, 2, 1, 3]);
//! assert_eq!(info.lnz, 5);
//! # Ok::<(), rimopaku_amd_bare::Fault>(())
//! ```
//!
//! What to pass: a square matrix, with rows and columns counted from 0. The pattern of `A + A'` is ordered: one
//! triangle of a symmetric matrix is enough, the diagonal changes nothing, and there are no values. A permutation comes
//! back; nothing is factorized.
//!
//! A matrix with `n` rows and `n` columns is passed in compressed sparse columns, called a *column form*: `a_p` has
//! `n + 1` numbers or more; the first is 0; they never descend up to `a_p[n]`; `a_i` has `a_p[n]` numbers or more;
//! and column `j` has the rows `a_i[a_p[j]..a_p[j + 1]]`, each from 0 to `n - 1`. Columns may be unsorted and have
//! duplicates. What follows in either slice is ignored.

#![no_std]
#![warn(missing_docs)]

#[cfg(any(feature = "std", test))]
extern crate std;

mod answers;
mod bytes;
mod raw;
mod workspace;

pub use answers::{Fault, Info, Needs, Parameters};
pub use bytes::{columns_bytes, counts_bytes, order_bytes, workspace_bytes, StaticMemory};
pub use workspace::{Word, Workspace};
