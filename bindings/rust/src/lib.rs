//! The approximate minimum degree ordering (AMD) of sparse matrices, by a library whose contracts are proved.
//!
//! The types [`Control`], [`Info`], [`Status`] and the functions [`order`], [`control`] and [`info`] are those of the
//! crate `amd` 0.2.2: a program that uses that crate changes one line of its `Cargo.toml`, to
//!
//! ```toml
//! amd = { package = "rimopaku-amd", version = "1" }
//! ```
//!
//! with `git = "URL"` of the repository in the place of the version until it is published, and gets the same
//! permutations, up to three times as fast. What differs is listed at [`order`]. Beside them:
//!
//! - [`try_order`] returns an error where memory is refused, in place of ending the program;
//! - [`order_holding`] places rows that the caller marks last;
//! - [`columns`] returns the exact pattern of the factor in any order of the rows, with the elimination tree, and
//!   [`counts`] how many entries its columns have and what it needs;
//! - [`supernodes`] returns these columns by supernodes;
//! - [`analyze`] does both, an ordering and the factor under it.
//!
//! ```
//! let control = rimopaku_amd::Control::default();
//! let a_p = [0, 2, 6, 10, 12, 14];
//! let a_i = [0, 1, 0, 1, 2, 4, 1, 2, 3, 4, 2, 3, 1, 4];
//! let (p, p_inv, info) = rimopaku_amd::order::<i32>(5, &a_p, &a_i, &control).unwrap();
//! assert_eq!(p, [0, 3, 2, 4, 1]);
//! assert_eq!(p_inv, [0, 4, 2, 1, 3]);
//! assert_eq!(info.lnz, 5);
//! ```
//!
//! What to pass: a square matrix, with rows and columns counted from 0. The pattern of `A + A'` is ordered: one triangle
//! of a symmetric matrix is enough, the diagonal changes nothing, and there are no values. A permutation comes back;
//! nothing is factorized.
//!
//! A matrix with `n` rows and `n` columns is passed in compressed sparse columns, called a *column form*: `a_p` has
//! `n + 1` numbers or more; the first is 0; they never descend up to `a_p[n]`; `a_i` has `a_p[n]` numbers or more;
//! and column `j` has the rows `a_i[a_p[j]..a_p[j + 1]]`, each from 0 to `n - 1`. Columns may be unsorted and have
//! duplicates. What follows in either slice is ignored.
//!
//! The numbers may have any of the twelve primitive integer types. They are copied into 32-bit numbers for the C
//! library, or into 64-bit ones where there are 2^31 rows or entries and more.

#![no_std]
#![warn(missing_docs)]

extern crate alloc;
#[cfg(any(feature = "std", test))]
extern crate std;

mod dense;
mod factor;
mod numbers;
mod order;
mod raw;
mod supernodal;
mod text;

pub use factor::{analyze, analyze_holding, columns, columns_within, counts, Analysis, Counts, Factor, Need};
pub use order::{order, order_holding, try_order, Control, Fault, Info, Ordering, Status};
pub use supernodal::{supernodes, Supernodes};
#[cfg(feature = "std")]
pub use text::{control, info};
