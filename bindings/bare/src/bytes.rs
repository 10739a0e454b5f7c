//! How many bytes are enough, and static memory of such a size. The sums are those of `include/rimopaku_bare.h`.

use crate::raw::UNIT;
use crate::workspace::Workspace;
use core::cell::UnsafeCell;
use core::mem::MaybeUninit;
use core::sync::atomic::{AtomicBool, Ordering};

/// How many bytes an ordering takes, for each matrix with at most so many rows and entries, `a_p[n]`; `usize::MAX` where
/// that is no `usize`.
///
/// With so many bytes it orders, and with fewer than its own matrix takes it does not: that is proved. For memory that
/// may begin at any address take 15 bytes more, here and for what follows.
pub const fn order_bytes(rows: usize, entries: usize) -> usize {
    let (rows, entries) = (rows as u128, entries as u128);
    let width = if 2 * entries + rows <= 2_147_483_645 { 4 } else { 8 };
    bounded(width * (3 * fours(entries) + 12 * fours(rows) + 4))
}

/// How many bytes the counts of a factor take: 16 for each entry, 112 for each row, and 64. This is proved too.
pub const fn counts_bytes(rows: usize, entries: usize) -> usize {
    let (rows, entries) = (rows as u128, entries as u128);
    lists(2 * entries + 12 * rows + 7, rows)
}

/// How many bytes the columns of a factor take: 8 for each entry, 72 for each row, and 16 or 24. This is proved too.
pub const fn columns_bytes(rows: usize, entries: usize) -> usize {
    let (rows, entries) = (rows as u128, entries as u128);
    lists(entries + 5 * rows + 2, 2 * rows)
}

/// How many bytes are enough for each call.
pub const fn workspace_bytes(rows: usize, entries: usize) -> usize {
    larger(order_bytes(rows, entries), larger(counts_bytes(rows, entries), columns_bytes(rows, entries)))
}

/// The least multiple of 4 that is not less.
const fn fours(number: u128) -> u128 {
    (number + 3) / 4 * 4
}

/// The bytes of a list of numbers, in whole units, and of one of links of a unit each.
const fn lists(numbers: u128, links: u128) -> usize {
    let unit = UNIT as u128;
    bounded((8 * numbers + unit - 1) / unit * unit + unit * links)
}

/// The number, or the greatest `usize` where it is more.
const fn bounded(bytes: u128) -> usize {
    if bytes > usize::MAX as u128 {
        usize::MAX
    } else {
        bytes as usize
    }
}

const fn larger(one: usize, other: usize) -> usize {
    if one > other {
        one
    } else {
        other
    }
}

/// Bytes of a static variable, which are lent once. [`workspace_bytes`] tells how many are enough.
#[derive(Debug)]
#[repr(C, align(16))]
pub struct StaticMemory<const BYTES: usize> {
    bytes: UnsafeCell<MaybeUninit<[u8; BYTES]>>,
    is_lent: AtomicBool,
}

// SAFETY: the bytes are reached by `lend` alone, which lends them once.
unsafe impl<const BYTES: usize> Sync for StaticMemory<BYTES> {}

impl<const BYTES: usize> StaticMemory<BYTES> {
    /// Memory that is not lent yet.
    pub const fn new() -> StaticMemory<BYTES> {
        StaticMemory { bytes: UnsafeCell::new(MaybeUninit::uninit()), is_lent: AtomicBool::new(false) }
    }

    /// A workspace in these bytes for who asks first, and none for others.
    pub fn lend(&'static self) -> Option<Workspace<'static>> {
        if self.is_lent.swap(true, Ordering::Relaxed) {
            return None;
        }
        // SAFETY: nobody else has these bytes, and nobody will: this line is reached once.
        let memory = unsafe { core::slice::from_raw_parts_mut(self.bytes.get().cast(), BYTES) };
        Some(Workspace::new(memory))
    }
}

impl<const BYTES: usize> Default for StaticMemory<BYTES> {
    fn default() -> Self {
        StaticMemory::new()
    }
}

#[cfg(test)]
mod tests {
    use super::{columns_bytes, counts_bytes, order_bytes};

    extern "C" {
        fn rimopaku_workspace_bytes_i32(rows: usize, entries: usize) -> usize;
        fn rimopaku_workspace_bytes_i64(rows: usize, entries: usize) -> usize;
        fn rimopaku_counts_bytes_i32(rows: usize, entries: usize) -> usize;
        fn rimopaku_counts_bytes_i64(rows: usize, entries: usize) -> usize;
        fn rimopaku_columns_bytes_i32(rows: usize, entries: usize) -> usize;
        fn rimopaku_columns_bytes_i64(rows: usize, entries: usize) -> usize;
    }

    type Told = unsafe extern "C" fn(usize, usize) -> usize;

    /// The proved numbers, at the bounds of the widths and of `usize` too.
    #[test]
    fn a_call_takes_what_the_library_tells() {
        let some = [0, 1, 2, 3, 4, 5, 14, 108, 99_999, 1_073_741_820, 1_073_741_822, 2_147_483_645, 2_147_483_646];
        let large = [1 << 40, 1 << 59, usize::MAX / 72, usize::MAX / 24, usize::MAX - 1, usize::MAX];
        let calls: [(fn(usize, usize) -> usize, Told); 6] = [
            (order_bytes, rimopaku_workspace_bytes_i32),
            (order_bytes, rimopaku_workspace_bytes_i64),
            (counts_bytes, rimopaku_counts_bytes_i32),
            (counts_bytes, rimopaku_counts_bytes_i64),
            (columns_bytes, rimopaku_columns_bytes_i32),
            (columns_bytes, rimopaku_columns_bytes_i64),
        ];
        for &rows in some.iter().chain(&large) {
            for &entries in some.iter().chain(&large) {
                for (own, told) in calls {
                    // SAFETY: these calls take two numbers.
                    assert_eq!(own(rows, entries), unsafe { told(rows, entries) }, "{rows} rows, {entries} entries");
                }
            }
        }
    }
}
