//! The package rimopaku-amd-bare in a program with neither a standard library nor a C library: start.c stands in their
//! place. A worked matrix and a grid are ordered and factored in one static variable, in both widths. The exit status is
//! 0, or the number of the line that found another result, cut to 255.

#![no_std]
#![no_main]

use core::panic::PanicInfo;
use rimopaku_amd_bare::{workspace_bytes, Fault, Parameters, StaticMemory, Word, Workspace};

const SIDE: usize = 10;
const ROWS: usize = SIDE * SIDE;
const ENTRIES: usize = 2 * SIDE * (SIDE - 1);
const MOST_FACTOR: usize = 1000;

static MEMORY: StaticMemory<{ workspace_bytes(ROWS, ENTRIES) }> = StaticMemory::new();

macro_rules! check {
    ($holds:expr) => {
        if !$holds {
            return line!() as i32;
        }
    };
}

/// What a call tells, or the number of the line.
macro_rules! told {
    ($call:expr) => {
        match $call {
            Ok(told) => told,
            Err(_) => return line!() as i32,
        }
    };
}

/// The types of numbers, and their small numbers.
trait Small: Word + PartialEq + From<i16> + TryInto<usize> {}
impl Small for i32 {}
impl Small for i64 {}

fn place<T: Small>(number: T) -> usize {
    number.try_into().unwrap_or(usize::MAX)
}

/// The matrix of five rows of the README, and its ordering there.
fn five_rows<T: Small>(workspace: &mut Workspace) -> i32 {
    let a_p = [0, 2, 6, 10, 12, 14].map(T::from);
    let a_i = [0, 1, 0, 1, 2, 4, 1, 2, 3, 4, 2, 3, 1, 4].map(T::from);
    let (mut p, mut p_inv) = ([T::from(-7); 5], [T::from(-7); 5]);
    let parameters = Parameters::default();
    let told = workspace.order(T::from(5), &a_p, &a_i[1..], &parameters, &mut p, &mut p_inv);
    check!(told == Err(Fault::Invalid) && p == [T::from(-7); 5]);
    let info = told!(workspace.order(T::from(5), &a_p, &a_i, &parameters, &mut p, &mut p_inv));
    check!(info.lnz == 5 && !info.is_jumbled);
    check!(p == [0, 3, 2, 4, 1].map(T::from) && p_inv == [0, 4, 2, 1, 3].map(T::from));
    0
}

/// A grid: each row is joined with the one to its right and with the one below.
fn make_grid<T: Small>(a_p: &mut [T; ROWS + 1], a_i: &mut [T; ENTRIES]) {
    let mut entries = 0;
    for row in 0..ROWS {
        for (is_there, other) in [(row % SIDE + 1 < SIDE, row + 1), (row + SIDE < ROWS, row + SIDE)] {
            if is_there {
                a_i[entries] = T::from(other as i16);
                entries += 1;
            }
        }
        a_p[row + 1] = T::from(entries as i16);
    }
}

/// The columns are as long as the counts tell, and each parent is the first entry of its column.
fn grid<T: Small>(workspace: &mut Workspace) -> i32 {
    let (n, none) = (T::from(ROWS as i16), T::from(0));
    let (mut a_p, mut a_i) = ([none; ROWS + 1], [none; ENTRIES]);
    let (mut p, mut p_inv, mut sizes, mut parent, mut up) =
        ([none; ROWS], [none; ROWS], [none; ROWS], [none; ROWS], [none; ROWS]);
    let (mut ptr, mut rows) = ([none; ROWS + 1], [none; MOST_FACTOR]);
    make_grid(&mut a_p, &mut a_i);
    let info = told!(workspace.order(n, &a_p, &a_i, &Parameters::default(), &mut p, &mut p_inv));
    check!((0..ROWS).all(|k| p_inv.get(place(p[k])) == Some(&T::from(k as i16))));
    let needs = told!(workspace.counts(n, &a_p, &a_i, &p, &mut sizes, &mut parent));
    check!(needs.lnz <= info.lnz && needs.lnz <= MOST_FACTOR && needs.d_max <= info.d_max);
    told!(workspace.columns(n, &a_p, &a_i, &p, &mut ptr, &mut rows[..needs.lnz], &mut up));
    check!(parent == up && place(ptr[ROWS]) == needs.lnz);
    for k in 0..ROWS {
        let (begin, end) = (place(ptr[k]), place(ptr[k + 1]));
        check!(end - begin == place(sizes[k]));
        check!(parent[k] == if begin < end { rows[begin] } else { T::from(-1) });
    }
    0
}

/// Called by start.c.
#[no_mangle]
pub extern "C" fn main() -> i32 {
    let mut workspace = match MEMORY.lend() {
        Some(workspace) => workspace,
        None => return line!() as i32,
    };
    let tests = [five_rows::<i32>, five_rows::<i64>, grid::<i32>, grid::<i64>, five_rows::<i32>];
    tests.iter().map(|test| test(&mut workspace)).find(|&line| line != 0).unwrap_or(0).min(255)
}

/// What a compiler takes from a C library beside what start.c has.
///
/// # Safety
///
/// Both have so many bytes.
#[no_mangle]
pub unsafe extern "C" fn memcmp(one: *const u8, other: *const u8, count: usize) -> i32 {
    (0..count).map(|k| *one.add(k) as i32 - *other.add(k) as i32).find(|&difference| difference != 0).unwrap_or(0)
}

/// The same, where only equality is asked for.
///
/// # Safety
///
/// Both have so many bytes.
#[no_mangle]
pub unsafe extern "C" fn bcmp(one: *const u8, other: *const u8, count: usize) -> i32 {
    memcmp(one, other, count)
}

#[panic_handler]
fn panicked(_: &PanicInfo) -> ! {
    loop {
        // SAFETY: the processor stops the program here.
        unsafe {
            #[cfg(target_arch = "x86_64")]
            core::arch::asm!("ud2");
            #[cfg(target_arch = "aarch64")]
            core::arch::asm!("brk #1");
        }
    }
}
