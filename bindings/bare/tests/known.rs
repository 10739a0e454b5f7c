//! Worked matrices in both widths, each call with its faults, and memory that begins and ends anywhere.

use rimopaku_amd_bare::{
    columns_bytes, counts_bytes, order_bytes, workspace_bytes, Fault, Needs, Parameters, StaticMemory, Word, Workspace,
};
use std::fmt::Debug;
use std::mem::MaybeUninit;

/// The types of numbers, and their small numbers.
trait Small: Word + Debug + PartialEq + From<i8> {}
impl Small for i32 {}
impl Small for i64 {}

fn numbers<T: Small, const LEN: usize>(from: [i8; LEN]) -> [T; LEN] {
    from.map(T::from)
}

/// The matrix of five rows of the crate's documentation, and its ordering there.
const N: i8 = 5;
const A_P: [i8; 6] = [0, 2, 6, 10, 12, 14];
const A_I: [i8; 14] = [0, 1, 0, 1, 2, 4, 1, 2, 3, 4, 2, 3, 1, 4];
const P: [i8; 5] = [0, 3, 2, 4, 1];
const P_INV: [i8; 5] = [0, 4, 2, 1, 3];

/// What stands in an array that no call may write.
const UNWRITTEN: [i8; 6] = [-7; 6];

const BYTES: usize = workspace_bytes(5, 14);

fn five_rows_in<T: Small>(workspace: &mut Workspace) {
    let (n, a_p, a_i) = (T::from(N), numbers::<T, 6>(A_P), numbers::<T, 14>(A_I));
    let (mut p, mut p_inv) = (numbers::<T, 5>([-7; 5]), numbers([-7; 5]));
    let info = workspace.order(n, &a_p, &a_i, &Parameters::default(), &mut p, &mut p_inv).expect("an ordering");
    assert_eq!((p, p_inv), (numbers(P), numbers(P_INV)));
    assert_eq!(
        [info.n, info.nz, info.nz_diag, info.nz_a_plus_at, info.n_dense, info.lnz, info.n_div, info.d_max],
        [5, 14, 5, 10, 0, 5, 5, 3]
    );
    assert!(!info.is_jumbled && !info.is_symmetric);
    // Rows 0 and 3 have one neighbour each; then 2 is joined with 1 and 4, which are joined already.
    let (mut sizes, mut parent) = (numbers::<T, 5>([-7; 5]), numbers::<T, 5>([-7; 5]));
    let needs = workspace.counts(n, &a_p, &a_i, &p, &mut sizes, &mut parent).expect("counts");
    assert_eq!((sizes, parent), (numbers([1, 1, 2, 1, 0]), numbers([4, 2, 3, 4, -1])));
    assert_eq!(needs, Needs { lnz: 5, n_mult_subs_ldl: 6, n_mult_subs_lu: 7, d_max: 3 });
    let (mut ptr, mut rows, mut up) =
        (numbers::<T, 6>(UNWRITTEN), numbers::<T, 6>(UNWRITTEN), numbers::<T, 5>([-7; 5]));
    workspace.columns(n, &a_p, &a_i, &p, &mut ptr, &mut rows, &mut up).expect("columns");
    assert_eq!((ptr, rows), (numbers([0, 1, 2, 4, 5, 5]), numbers([4, 2, 3, 4, 4, -7])));
    assert_eq!(up, parent);
}

#[test]
fn five_rows() {
    let mut memory = [0_u8; BYTES + 15];
    five_rows_in::<i32>(&mut Workspace::over(&mut memory));
    five_rows_in::<i64>(&mut Workspace::over(&mut memory));
    // The same bytes for one call after the other.
    let mut workspace = Workspace::over(&mut memory);
    for _ in 0..3 {
        five_rows_in::<i32>(&mut workspace);
        five_rows_in::<i64>(&mut workspace);
    }
}

/// Memory that begins and ends anywhere, with guards around it.
#[test]
fn memory_anywhere() {
    for begin in 0..32 {
        let mut memory = [MaybeUninit::new(0x5b_u8); BYTES + 64];
        let end = begin + BYTES + 15;
        five_rows_in::<i32>(&mut Workspace::new(&mut memory[begin..end]));
        let guards = memory[..begin].iter().chain(&memory[end..]);
        // SAFETY: all bytes were written above.
        assert!(guards.map(|byte| unsafe { byte.assume_init() }).all(|byte| byte == 0x5b));
    }
}

/// An ordering takes so many bytes, and not one less; then nothing is written. An invalid call is told first.
#[test]
fn bytes_of_an_ordering() {
    #[repr(align(16))]
    struct Aligned([u8; order_bytes(5, 14)]);
    let mut memory = Aligned([0; order_bytes(5, 14)]);
    let (a_p, a_i) = (numbers::<i64, 6>(A_P), numbers::<i64, 14>(A_I));
    let (mut p, mut p_inv) = ([-7; 5], [-7; 5]);
    let parameters = Parameters::default();
    for less in [1, 16, memory.0.len()] {
        let end = memory.0.len() - less;
        let mut few = Workspace::over(&mut memory.0[..end]);
        assert_eq!(few.order(5, &a_p, &a_i, &parameters, &mut p, &mut p_inv), Err(Fault::OutOfMemory));
        assert_eq!(few.order(5, &a_p, &a_i[1..], &parameters, &mut p, &mut p_inv), Err(Fault::Invalid));
        assert_eq!((p, p_inv), ([-7; 5], [-7; 5]));
    }
    let told = Workspace::over(&mut memory.0).order(5, &a_p, &a_i, &parameters, &mut p, &mut p_inv);
    assert!(told.is_ok() && p == [0, 3, 2, 4, 1]);
}

/// So do the counts and the columns, each in its own number of bytes. What is no matrix is told before that, and a
/// wrong order after it.
#[test]
fn bytes_of_a_factor() {
    #[repr(align(16))]
    struct Aligned([u8; counts_bytes(5, 14)]);
    let mut memory = Aligned([0; counts_bytes(5, 14)]);
    let (counts_end, columns_end) = (counts_bytes(5, 14), columns_bytes(5, 14));
    assert_eq!((counts_end, columns_end), (848, 496));
    let (a_p, a_i, p) = (numbers::<i32, 6>(A_P), numbers::<i32, 14>(A_I), numbers::<i32, 5>(P));
    let (mut sizes, mut parent, mut ptr, mut rows) = ([-7; 5], [-7; 5], [-7; 6], [-7; 5]);
    for less in [1, 16, columns_end] {
        let mut few = Workspace::over(&mut memory.0[..counts_end - less]);
        assert_eq!(few.counts(5, &a_p, &a_i, &p, &mut sizes, &mut parent), Err(Fault::OutOfMemory));
        assert_eq!(few.counts(5, &a_p, &a_i, &p[1..], &mut sizes, &mut parent), Err(Fault::OutOfMemory));
        assert_eq!(few.counts(5, &a_p, &a_i[1..], &p, &mut sizes, &mut parent), Err(Fault::Invalid));
        let mut few = Workspace::over(&mut memory.0[..columns_end - less]);
        assert_eq!(few.columns(5, &a_p, &a_i, &p, &mut ptr, &mut rows, &mut parent), Err(Fault::OutOfMemory));
        assert_eq!(few.columns(5, &a_p, &a_i[1..], &p, &mut ptr, &mut rows, &mut parent), Err(Fault::Invalid));
        assert_eq!((sizes, parent, ptr, rows), ([-7; 5], [-7; 5], [-7; 6], [-7; 5]));
    }
    let mut enough = Workspace::over(&mut memory.0);
    assert!(enough.counts(5, &a_p, &a_i, &p, &mut sizes, &mut parent).is_ok() && sizes == [1, 1, 2, 1, 0]);
    let mut enough = Workspace::over(&mut memory.0[..columns_end]);
    assert_eq!(enough.columns(5, &a_p, &a_i, &p, &mut ptr, &mut rows, &mut parent), Ok(()));
    assert_eq!(rows, [4, 2, 3, 4, 4]);
}

#[test]
fn static_memory_is_lent_once() {
    static MEMORY: StaticMemory<BYTES> = StaticMemory::new();
    let mut workspace = MEMORY.lend().expect("nobody else has it");
    assert!(MEMORY.lend().is_none());
    assert_eq!(workspace.bytes(), BYTES);
    five_rows_in::<i32>(&mut workspace);
}

fn held_row_in<T: Small>(workspace: &mut Workspace) {
    // Four rows without an edge, of which row 1 is held last.
    let (n, a_p, a_i) = (T::from(4), numbers::<T, 5>([0, 1, 2, 3, 4]), numbers::<T, 4>([0, 1, 2, 3]));
    let (mut p, mut p_inv) = (numbers::<T, 4>([-7; 4]), numbers::<T, 4>([-7; 4]));
    let hold = [false, true, false, false];
    let parameters = Parameters::default();
    let info = workspace.order_holding(n, &a_p, &a_i, &parameters, &hold, &mut p, &mut p_inv).expect("an ordering");
    assert_eq!((p, p_inv), (numbers([0, 2, 3, 1]), numbers([0, 3, 1, 2])));
    assert_eq!((info.n_dense, info.lnz, info.is_symmetric), (1, 0, true));
    let told = workspace.order_holding(n, &a_p, &a_i, &parameters, &hold[1..], &mut p, &mut p_inv);
    assert_eq!(told, Err(Fault::Invalid));
}

#[test]
fn held_row() {
    let mut memory = [0_u8; BYTES + 15];
    held_row_in::<i32>(&mut Workspace::over(&mut memory));
    held_row_in::<i64>(&mut Workspace::over(&mut memory));
}

#[test]
fn jumbled() {
    let mut memory = [0_u8; BYTES + 15];
    let (mut p, mut p_inv) = ([0; 2], [0; 2]);
    let mut workspace = Workspace::over(&mut memory);
    let info =
        workspace.order(2, &[0, 3, 3], &[1, 0, 1], &Parameters::default(), &mut p, &mut p_inv).expect("an ordering");
    assert_eq!((info.is_jumbled, info.nz), (true, 2));
}

#[test]
fn no_rows() {
    let mut memory = [0_u8; workspace_bytes(0, 0) + 15];
    let mut workspace = Workspace::over(&mut memory);
    let info = workspace.order::<i32>(0, &[], &[], &Parameters::default(), &mut [], &mut []).expect("an ordering");
    assert_eq!((info.n, info.is_jumbled), (0, false));
    assert_eq!(workspace.counts::<i32>(0, &[], &[], &[], &mut [], &mut []), Ok(Needs::default()));
    let mut ptr = [-7];
    assert_eq!(workspace.columns::<i32>(0, &[], &[], &[], &mut ptr, &mut [], &mut []), Ok(()));
    assert_eq!(ptr, [0]);
    assert_eq!(workspace.columns::<i32>(0, &[], &[], &[0], &mut ptr, &mut [], &mut []), Err(Fault::NotPermutation));
}

fn faults_in<T: Small>(workspace: &mut Workspace) {
    let (n, a_p, a_i, order) = (T::from(N), numbers::<T, 6>(A_P), numbers::<T, 14>(A_I), numbers::<T, 5>(P));
    let (mut p, mut q, mut ptr) = (numbers::<T, 5>([-7; 5]), numbers::<T, 5>([-7; 5]), numbers::<T, 6>(UNWRITTEN));
    let mut rows = numbers::<T, 4>([-7; 4]);
    let parameters = Parameters::default();
    for (a_p, a_i) in
        [(&a_p[1..], &a_i[..]), (&a_p, &a_i[1..]), (&a_p[..5], &a_i), (&numbers([0, 2, 1, 10, 12, 14]), &a_i)]
    {
        assert_eq!(workspace.order(n, a_p, a_i, &parameters, &mut p, &mut q), Err(Fault::Invalid));
        assert_eq!(workspace.counts(n, a_p, a_i, &order, &mut p, &mut q), Err(Fault::Invalid));
        assert_eq!(workspace.columns(n, a_p, a_i, &order, &mut ptr, &mut rows, &mut q), Err(Fault::Invalid));
    }
    assert_eq!(workspace.order(T::from(-1), &a_p, &a_i, &parameters, &mut p, &mut q), Err(Fault::Invalid));
    assert_eq!(workspace.order(n, &a_p, &a_i, &parameters, &mut p[1..], &mut q), Err(Fault::Invalid));
    for wrong in [&numbers::<T, 5>([0, 1, 2, 3, 3])[..], &numbers::<T, 5>([0, 1, 2, 3, 5]), &order[1..]] {
        assert_eq!(workspace.counts(n, &a_p, &a_i, wrong, &mut p, &mut q), Err(Fault::NotPermutation));
    }
    let told = workspace.columns(n, &a_p, &a_i, &order, &mut ptr, &mut rows, &mut q);
    assert_eq!(told, Err(Fault::RoomTooSmall));
    assert_eq!((p, q, ptr), (numbers([-7; 5]), numbers([-7; 5]), numbers(UNWRITTEN)));
}

#[test]
fn faults() {
    let mut memory = [0_u8; BYTES + 15];
    faults_in::<i32>(&mut Workspace::over(&mut memory));
    faults_in::<i64>(&mut Workspace::over(&mut memory));
    assert_eq!(
        Fault::Invalid.to_string(),
        "the input is no matrix in compressed sparse columns, or a slice has the wrong length"
    );
}
