//! Worked matrices, each call with its faults, and all twelve integer types.

use num_traits::{cast, NumAssignOps, PrimInt};
use rimopaku_amd::{
    analyze, analyze_holding, columns, columns_within, counts, order, order_holding, supernodes, try_order, Control,
    Fault, Info, Status,
};
use std::fmt::{Debug, Display};

/// The matrix of five rows of the crate's documentation, and its ordering there.
const N: usize = 5;
const A_P: [usize; 6] = [0, 2, 6, 10, 12, 14];
const A_I: [usize; 14] = [0, 1, 0, 1, 2, 4, 1, 2, 3, 4, 2, 3, 1, 4];
const P: [usize; 5] = [0, 3, 2, 4, 1];
const P_INV: [usize; 5] = [0, 4, 2, 1, 3];

fn numbers<I: PrimInt>(from: &[usize]) -> Vec<I> {
    from.iter().map(|&number| cast(number).expect("a small number")).collect()
}

fn orders_five_rows<I: PrimInt + NumAssignOps + Display + Debug>() {
    let n = cast(N).expect("a small number");
    let (p, p_inv, info) = order::<I>(n, &numbers(&A_P), &numbers(&A_I), &Control::default()).expect("an ordering");
    assert_eq!(p, numbers::<I>(&P));
    assert_eq!(p_inv, numbers::<I>(&P_INV));
    assert_eq!(
        [info.n, info.nz, info.nz_diag, info.nz_a_plus_at, info.n_dense, info.lnz, info.d_max],
        [5, 14, 5, 10, 0, 5, 3]
    );
    assert_eq!(info.status, Status::OK);
}

#[test]
fn all_types() {
    orders_five_rows::<i8>();
    orders_five_rows::<i16>();
    orders_five_rows::<i32>();
    orders_five_rows::<i64>();
    orders_five_rows::<i128>();
    orders_five_rows::<isize>();
    orders_five_rows::<u8>();
    orders_five_rows::<u16>();
    orders_five_rows::<u32>();
    orders_five_rows::<u64>();
    orders_five_rows::<u128>();
    orders_five_rows::<usize>();
}

#[test]
fn no_rows() {
    let (p, p_inv, info) = order::<i32>(0, &[], &[], &Control::default()).expect("an ordering");
    assert!(p.is_empty() && p_inv.is_empty());
    assert_eq!(format!("{info:?}"), format!("{:?}", Info::new(0)));
    assert_eq!(columns::<i32>(0, &[], &[], &[]).expect("a factor").ptr, [0]);
    assert_eq!(columns::<i32>(0, &[], &[], &[0]), Err(Fault::NotPermutation));
}

#[test]
fn inputs_that_are_no_column_form() {
    fn is_invalid<I: PrimInt + NumAssignOps + Display + Debug>(n: I, a_p: &[I], a_i: &[I]) {
        assert_eq!(order(n, a_p, a_i, &Control::default()).err(), Some(Status::Invalid));
        assert_eq!(columns(n, a_p, a_i, &[I::zero()]).err(), Some(Fault::Invalid));
    }
    is_invalid(1, &[0, 1], &[1]);
    is_invalid(1, &[0, 1], &[-1]);
    is_invalid(2, &[0, 1, 0], &[0]);
    is_invalid(1, &[1, 1], &[0]);
    is_invalid(1, &[0], &[]);
    is_invalid(1, &[0, 1], &[] as &[i32]);
    is_invalid(-1, &[0], &[]);
    is_invalid(2, &[0, -1, 1], &[0]);
    is_invalid(1, &[0, -1], &[0]);
    is_invalid(1_u64, &[0, 1], &[u64::MAX]);
    is_invalid(1_u128, &[0, 1 << 64], &[0]);
    is_invalid(1_u128, &[0, 1], &[1 << 32]);
    is_invalid(u128::MAX, &[0, 1], &[0]);
}

#[test]
fn a_faulty_order_of_rows() {
    for p in [&[0, 1][..], &[0, 1, 1], &[0, 1, 3], &[0, 1, -1], &[0, 1, 2, 2]] {
        assert_eq!(columns(3, &[0, 1, 2, 2], &[1, 2], p).err(), Some(Fault::NotPermutation));
    }
}

#[test]
fn what_follows_is_ignored() {
    let (p, _, _) =
        order(5_i64, &[0, 2, 6, 10, 12, 14, 99], &[0, 1, 0, 1, 2, 4, 1, 2, 3, 4, 2, 3, 1, 4, 99], &Control::default())
            .expect("an ordering");
    assert_eq!(p, numbers::<i64>(&P));
}

#[test]
fn jumbled() {
    let (_, _, info) = order(2_u8, &[0, 3, 3], &[1, 0, 1], &Control::default()).expect("an ordering");
    assert_eq!((info.status, info.nz), (Status::OkButJumbled, 2));
}

/// A hub among 29 of its leaves, in a matrix of 625 rows: the float product is just below 29, so the crate `amd` has
/// one dense row here.
#[test]
fn the_threshold_is_that_of_the_float() {
    let a_p: Vec<usize> = [0].into_iter().chain([29; 625]).collect();
    let a_i: Vec<usize> = (1..=29).collect();
    let dense = |dense| order(625, &a_p, &a_i, &Control { dense, aggressive: true }).expect("an ordering").2.n_dense;
    assert_eq!([dense(1.16), dense(1.161), dense(1.159)], [1, 0, 1]);
}

#[test]
fn held_rows() {
    let hold: Vec<bool> = (0..N).map(|row| row == 0 || row == 3).collect();
    let (p, p_inv, info) = order_holding(N, &A_P, &A_I, &Control::default(), &hold).expect("an ordering");
    assert_eq!(&p[3..], [0, 3]);
    assert_eq!(info.n_dense, 2);
    assert!((0..N).all(|k| p_inv[p[k]] == k));
    assert_eq!(order_holding(N, &A_P, &A_I, &Control::default(), &hold[1..]).err(), Some(Fault::Invalid));
    let analysis = analyze_holding(N, &A_P, &A_I, &Control::default(), &hold).expect("a factor");
    assert_eq!(analysis.p, p);
    assert_eq!(analysis.factor, columns(N, &A_P, &A_I, &p).expect("a factor"));
}

/// A cycle of four rows in its own order: the first row joins its two neighbours, so one entry is filled in.
#[test]
fn a_factor() {
    let (a_p, a_i) = ([0, 2, 3, 4, 4], [1, 3, 2, 3]);
    let factor = columns(4_i32, &a_p, &a_i, &[0, 1, 2, 3]).expect("a factor");
    assert_eq!(factor.ptr, [0, 2, 4, 5, 5]);
    assert_eq!(factor.rows, [1, 3, 2, 3, 3]);
    assert_eq!(factor.parent, [Some(1), Some(2), Some(3), None]);
    assert_eq!((factor.column(1), factor.nnz()), (&[2, 3][..], 5));
    // Columns of 2, 2, 1 and 0 entries: 3 + 3 + 1 steps of LDL', 4 + 4 + 1 of LU.
    let told = counts(4_i32, &a_p, &a_i, &[0, 1, 2, 3]).expect("counts");
    assert_eq!((told.sizes, told.parent), (vec![2, 2, 1, 0], factor.parent.clone()));
    let need = [told.need.lnz, told.need.n_mult_subs_ldl, told.need.n_mult_subs_lu, told.need.d_max];
    assert_eq!(need, [5, 7, 9, 3]);
    assert_eq!(counts(4, &a_p, &a_i, &[0, 0, 2, 3]).err(), Some(Fault::NotPermutation));
    assert_eq!(counts(4, &a_p[1..], &a_i, &[0, 1, 2, 3]).err(), Some(Fault::Invalid));
    assert_eq!(columns_within(4, &a_p, &a_i, &[0, 1, 2, 3], 4).err(), Some(Fault::RoomTooSmall));
    assert_eq!(columns_within(4, &a_p, &a_i, &[0, 1, 2, 3], 5).expect("a factor"), factor);
}

/// A cycle of four rows, whose columns are {1, 3}, {2, 3}, {3} and {}.
#[test]
fn supernodes_of_a_cycle() {
    let (a_p, a_i) = ([0, 2, 3, 4, 4], [1, 3, 2, 3]);
    let told = supernodes(4_i32, &a_p, &a_i, &[0, 1, 2, 3]).expect("supernodes");
    assert_eq!((&told.first[..], &told.ptr[..]), (&[0, 1, 4][..], &[0, 2, 2][..]));
    assert_eq!((&told.rows[..], &told.parent[..]), (&[1, 3][..], &[Some(1), None][..]));
    assert_eq!((told.len(), told.below(0), told.below(1).len()), (2, &[1, 3][..], 0));
    assert_eq!(supernodes(4, &a_p, &a_i, &[0, 0, 2, 3]).err(), Some(Fault::NotPermutation));
    assert_eq!(supernodes(4, &a_p[1..], &a_i, &[0, 1, 2, 3]).err(), Some(Fault::Invalid));
    assert!(supernodes::<u8>(0, &[], &[], &[]).expect("supernodes").is_empty());
    assert_eq!(supernodes::<u8>(0, &[], &[], &[0]).err(), Some(Fault::NotPermutation));
}

/// A factor of more entries than twice those of the matrix: the hub of a star comes first.
#[test]
fn a_factor_that_is_full() {
    let n = 40_u8;
    let a_p: Vec<u8> = [0].into_iter().chain([n - 1; 40]).collect();
    let a_i: Vec<u8> = (1..n).collect();
    let p: Vec<u8> = (0..n).collect();
    assert_eq!(columns(n, &a_p, &a_i, &p).expect("a factor").nnz(), 40 * 39 / 2);
}

#[test]
fn an_analysis() {
    let analysis = analyze(N, &A_P, &A_I, &Control::default()).expect("a factor");
    assert_eq!((&analysis.p[..], &analysis.p_inv[..]), (&P[..], &P_INV[..]));
    assert_eq!((analysis.factor.nnz(), analysis.info.lnz), (5, 5));
    assert!(!analysis.info.is_symmetric());
    assert_eq!(analyze(1, &[0, 1], &[1], &Control::default()).err(), Some(Fault::Invalid));
}

#[test]
fn faults_have_texts() {
    let fault = try_order(1, &[0, 1], &[1], &Control::default()).expect_err("no column form");
    assert_eq!(fault.to_string(), "the input is no matrix in compressed sparse columns");
}
