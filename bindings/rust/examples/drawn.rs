//! Orders drawn matrices through the interface of the crate `amd`, in all twelve integer types, and prints a line for
//! each call: the permutation, its inverse and the record, or the status. The same program over the crate prints the
//! same lines, the number of compactions in rare cases aside.
//!
//!     cargo run --release --example drawn -- 100000

use num_traits::{cast, NumAssignOps, PrimInt};
use rimopaku_amd as amd;
use std::env;
use std::fmt::{Debug, Display};

/// Numbers drawn by xorshift.
struct Draw(u64);

impl Draw {
    /// A number below `end`, which is not 0.
    fn below(&mut self, end: usize) -> usize {
        self.0 ^= self.0 << 13;
        self.0 ^= self.0 >> 7;
        self.0 ^= self.0 << 17;
        (self.0 % end as u64) as usize
    }
}

/// A matrix of at most 40 rows and 120 entries, so that a number of 8 bits counts them: sorted without duplicates, or
/// as drawn. One in 50 has a row out of range.
fn draw(number: usize, draw: &mut Draw) -> (usize, Vec<usize>, Vec<usize>) {
    let n = 1 + draw.below(if number % 2 == 0 { 12 } else { 40 });
    let degree = 1 + draw.below(3);
    let hub = (draw.below(4) == 0).then(|| draw.below(n));
    let (mut a_p, mut a_i) = (vec![0], Vec::new());
    for column in 0..n {
        let most = if hub == Some(column) { n } else { degree * 2 + 1 };
        let mut rows: Vec<usize> = (0..draw.below(most + 1)).map(|_| draw.below(n)).collect();
        if number % 3 != 0 {
            rows.sort();
            rows.dedup();
        }
        if a_i.len() + rows.len() <= 120 {
            a_i.extend(rows);
        }
        a_p.push(a_i.len());
    }
    if number % 50 == 0 && !a_i.is_empty() {
        let place = draw.below(a_i.len());
        a_i[place] = n + draw.below(3);
    }
    (n, a_p, a_i)
}

fn answer<I: PrimInt + NumAssignOps + Display + Debug>(n: usize, a_p: &[usize], a_i: &[usize], control: &amd::Control) {
    let numbers = |from: &[usize]| from.iter().map(|&number| cast(number).expect("a small number")).collect::<Vec<I>>();
    match amd::order::<I>(cast(n).expect("a small number"), &numbers(a_p), &numbers(a_i), control) {
        Ok((p, p_inv, info)) => println!("{p:?} {p_inv:?} {info:?}"),
        Err(status) => println!("{status:?}"),
    }
}

fn main() {
    let cases = env::args().nth(1).map_or(1000, |word| word.parse().expect("a number of cases"));
    let mut numbers = Draw(88172645463325252);
    for number in 0..cases {
        let (n, a_p, a_i) = draw(number, &mut numbers);
        let dense = [10.0, 0.0, 0.37, 1.16, 2.5, 3.3333, -1.0, 1e9, f64::NAN][numbers.below(9)];
        let control = amd::Control { dense, aggressive: numbers.below(2) == 0 };
        let run = [
            answer::<i8>,
            answer::<u8>,
            answer::<i16>,
            answer::<u16>,
            answer::<i32>,
            answer::<u32>,
            answer::<i64>,
            answer::<u64>,
            answer::<i128>,
            answer::<u128>,
            answer::<isize>,
            answer::<usize>,
        ][number % 12];
        run(n, &a_p, &a_i, &control);
    }
}
