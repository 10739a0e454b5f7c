//! Drawn matrices of changing sizes in one workspace: each answer of the package rimopaku-amd-bare, in both widths, is
//! the one of the package rimopaku-amd, which takes its memory by malloc. An ordering takes as many bytes as are told,
//! and not one less.
//! Usage: drawn COUNT.

use num_traits::{cast, PrimInt};
use rimopaku_amd as malloc;
use rimopaku_amd_bare::{order_bytes, workspace_bytes, Fault, Info, Parameters, Word, Workspace};
use std::env;
use std::fmt::Debug;

const MOST_ROWS: usize = 60;
const MOST_ENTRIES: usize = 1500;

/// The types of numbers.
trait Number: Word + PrimInt + Debug {}
impl Number for i32 {}
impl Number for i64 {}

fn numbers<T: Number>(from: &[usize]) -> Vec<T> {
    from.iter().map(|&number| cast(number).expect("a small number")).collect()
}

/// Numbers drawn by xorshift.
struct Draw(u64);

impl Draw {
    /// A number below `end`, which is not 0.
    fn below(&mut self, end: usize) -> usize {
        self.0 ^= self.0 << 13;
        self.0 ^= self.0 >> 7;
        self.0 ^= self.0 << 17;
        (self.0 % end as u64) as usize
    }
}

/// A matrix, and which rows are held.
struct Case {
    n: usize,
    a_p: Vec<usize>,
    a_i: Vec<usize>,
    hold: Vec<bool>,
}

/// Columns that are sorted without duplicates, or as drawn; some have a hub. One matrix in 20 is none.
fn draw(number: usize, draw: &mut Draw) -> Case {
    let n = draw.below(MOST_ROWS + 1);
    let degree = 1 + draw.below(6);
    let hub = draw.below(n + 1);
    let (mut a_p, mut a_i) = (vec![0], Vec::new());
    for column in 0..n {
        let most = if column == hub { n } else { 2 * degree };
        let mut rows: Vec<usize> = (0..draw.below(most + 1)).map(|_| draw.below(n)).collect();
        if number % 3 != 0 {
            rows.sort_unstable();
            rows.dedup();
        }
        a_i.extend(rows);
        a_p.push(a_i.len());
    }
    if number % 20 == 0 && !a_i.is_empty() {
        let place = draw.below(a_i.len());
        a_i[place] = n + draw.below(3);
    }
    Case { n, a_p, a_i, hold: (0..n).map(|_| draw.below(5) == 0).collect() }
}

/// The figures. The compactions of a jumbled matrix are left out: its lists have fewer words in lent memory.
fn same_figures(info: &Info, other: &malloc::Info) -> bool {
    let own = [info.n, info.nz, info.nz_diag, info.nz_a_plus_at, info.n_dense, info.lnz, info.n_div];
    own == [other.n, other.nz, other.nz_diag, other.nz_a_plus_at, other.n_dense, other.lnz, other.n_div]
        && [info.n_mult_subs_ldl, info.n_mult_subs_lu, info.d_max]
            == [other.n_mult_subs_ldl, other.n_mult_subs_lu, other.d_max]
        && (info.is_jumbled || info.n_cmp_a == other.n_cmp_a)
        && info.is_jumbled == (other.status == malloc::Status::OkButJumbled)
        && (info.is_symmetric == other.is_symmetric() || info.n == 0)
}

/// Orders with and without held rows; returns the order, if the matrix is one.
fn orders<T: Number>(workspace: &mut Workspace, case: &Case, is_aggressive: bool) -> Option<Vec<T>> {
    let (a_p, a_i) = (numbers::<T>(&case.a_p), numbers::<T>(&case.a_i));
    let n: T = cast(case.n).expect("a small number");
    let control = malloc::Control { aggressive: is_aggressive, ..Default::default() };
    let parameters = Parameters { aggressive: is_aggressive, ..Parameters::default() };
    let (mut p, mut p_inv) = (vec![n; case.n], vec![n; case.n]);
    for hold in [Some(&case.hold[..]), None] {
        let (told, wanted) = match hold {
            Some(hold) => (
                workspace.order_holding(n, &a_p, &a_i, &parameters, hold, &mut p, &mut p_inv),
                malloc::order_holding(n, &a_p, &a_i, &control, hold),
            ),
            None => (
                workspace.order(n, &a_p, &a_i, &parameters, &mut p, &mut p_inv),
                malloc::try_order(n, &a_p, &a_i, &control),
            ),
        };
        match (told, wanted) {
            (Ok(info), Ok((q, q_inv, other))) => {
                assert!((&p, &p_inv) == (&q, &q_inv) && same_figures(&info, &other), "{info:?} {other:?}");
            }
            (Err(Fault::Invalid), Err(malloc::Fault::Invalid)) => return None,
            (told, wanted) => panic!("{told:?} {wanted:?}"),
        }
    }
    Some(p)
}

fn factors<T: Number>(workspace: &mut Workspace, case: &Case, p: &[T]) {
    let (a_p, a_i) = (numbers::<T>(&case.a_p), numbers::<T>(&case.a_i));
    let n: T = cast(case.n).expect("a small number");
    let none = T::zero() - T::one();
    let (mut sizes, mut parent, mut up) = (vec![n; case.n], vec![n; case.n], vec![n; case.n]);
    let needs = workspace.counts(n, &a_p, &a_i, p, &mut sizes, &mut parent).expect("counts");
    let counts = malloc::counts(n, &a_p, &a_i, p).expect("counts");
    let parents: Vec<T> = counts.parent.iter().map(|place| place.unwrap_or(none)).collect();
    assert_eq!((sizes, &parent), (numbers(&counts.sizes), &parents));
    let figures = [needs.lnz, needs.n_mult_subs_ldl, needs.n_mult_subs_lu, needs.d_max].map(|figure| figure as u128);
    let wanted = &counts.need;
    assert_eq!(figures, [wanted.lnz, wanted.n_mult_subs_ldl, wanted.n_mult_subs_lu, wanted.d_max]);
    let (mut ptr, mut rows) = (vec![n; case.n + 1], vec![n; needs.lnz]);
    workspace.columns(n, &a_p, &a_i, p, &mut ptr, &mut rows, &mut up).expect("columns");
    let factor = malloc::columns(n, &a_p, &a_i, p).expect("columns");
    assert_eq!((ptr, rows, up), (numbers(&factor.ptr), factor.rows, parents));
}

/// An ordering takes as many bytes as are told, and not one less.
fn takes_what_is_told<T: Number>(memory: &mut [u8], case: &Case, is_aggressive: bool, order: &[T]) {
    let (a_p, a_i) = (numbers::<T>(&case.a_p), numbers::<T>(&case.a_i));
    let n: T = cast(case.n).expect("a small number");
    let parameters = Parameters { aggressive: is_aggressive, ..Parameters::default() };
    let (begin, bytes) = (memory.as_ptr().align_offset(16), order_bytes(case.n, case.a_i.len()));
    let (mut p, mut p_inv) = (vec![n; case.n], vec![n; case.n]);
    let mut few = Workspace::over(&mut memory[begin..begin + bytes - 1]);
    let told = few.order(n, &a_p, &a_i, &parameters, &mut p, &mut p_inv);
    assert_eq!(told.err(), if case.n == 0 { None } else { Some(Fault::OutOfMemory) });
    assert!(p.iter().chain(&p_inv).all(|&place| place == n));
    let mut enough = Workspace::over(&mut memory[begin..begin + bytes]);
    enough.order(n, &a_p, &a_i, &parameters, &mut p, &mut p_inv).expect("an ordering");
    assert_eq!(p, order);
}

fn main() {
    let count = env::args().nth(1).map_or(2000, |word| word.parse().expect("a number of matrices"));
    let mut memory = vec![0_u8; workspace_bytes(MOST_ROWS, MOST_ENTRIES) + 15];
    let mut workspace = Workspace::over(&mut memory);
    let mut exact = vec![0_u8; order_bytes(MOST_ROWS, MOST_ENTRIES) + 15];
    let mut drawn = Draw(88172645463325252);
    let mut ordered = 0;
    for number in 0..count {
        let case = draw(number, &mut drawn);
        assert!(case.a_i.len() <= MOST_ENTRIES);
        let is_aggressive = drawn.below(2) == 0;
        if let Some(p) = orders::<i32>(&mut workspace, &case, is_aggressive) {
            factors(&mut workspace, &case, &p);
            takes_what_is_told(&mut exact, &case, is_aggressive, &p);
            ordered += 1;
        }
        if let Some(p) = orders::<i64>(&mut workspace, &case, is_aggressive) {
            factors(&mut workspace, &case, &p);
            takes_what_is_told(&mut exact, &case, is_aggressive, &p);
        }
    }
    println!("{count} matrices, {ordered} ordered and factored in both widths");
}
