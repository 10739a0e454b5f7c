//! Times `order` through the interface of the crate `amd`, and prints a line for each matrix and type of integers: the
//! least time of the calls in nanoseconds, and a hash of the permutation. The same program over the crate gives the
//! times to compare with, and the same hashes.
//!
//!     cargo run --release --example times -- 20

use num_traits::{cast, NumAssignOps, PrimInt};
use rimopaku_amd as amd;
use std::env;
use std::fmt::{Debug, Display};
use std::time::Instant;

/// A matrix in compressed columns.
struct Matrix {
    name: &'static str,
    a_p: Vec<usize>,
    a_i: Vec<usize>,
}

/// The symmetric pattern of a graph, with the diagonal, from the neighbours of each row.
fn matrix(name: &'static str, n: usize, neighbours: impl Fn(usize) -> Vec<usize>) -> Matrix {
    let (mut a_p, mut a_i) = (vec![0], Vec::new());
    for column in 0..n {
        let mut rows = neighbours(column);
        rows.push(column);
        rows.sort_unstable();
        rows.dedup();
        a_i.extend(rows);
        a_p.push(a_i.len());
    }
    Matrix { name, a_p, a_i }
}

/// A grid with `width` rows a side in each of `dimensions` directions, where rows that differ by one step are joined.
fn grid(name: &'static str, width: usize, dimensions: u32) -> Matrix {
    let n = width.pow(dimensions);
    matrix(name, n, |row| {
        let mut rows = Vec::new();
        for d in 0..dimensions {
            let step = width.pow(d);
            let at = row / step % width;
            if at > 0 {
                rows.push(row - step);
            }
            if at + 1 < width {
                rows.push(row + step);
            }
        }
        rows
    })
}

/// Blocks of `size` rows, all joined within a block and with the next block.
fn blocks(name: &'static str, count: usize, size: usize) -> Matrix {
    matrix(name, count * size, |row| {
        let block = row / size;
        (block.saturating_sub(1) * size..(block + 2).min(count) * size).collect()
    })
}

/// Numbers of the type that is timed.
fn numbers<I: PrimInt>(from: &[usize]) -> Vec<I> {
    from.iter().map(|&it| cast(it).expect("the type holds it")).collect()
}

fn time<I: PrimInt + NumAssignOps + Display + Debug>(kind: &str, matrix: &Matrix, repeats: usize) {
    let (a_p, a_i) = (numbers::<I>(&matrix.a_p), numbers::<I>(&matrix.a_i));
    let n = cast(matrix.a_p.len() - 1).expect("the type holds n");
    let control = amd::Control::default();
    let (mut least, mut hash) = (u128::MAX, 0u64);
    for _ in 0..repeats {
        let start = Instant::now();
        let (p, _, _) = amd::order::<I>(n, &a_p, &a_i, &control).expect("a column form");
        least = least.min(start.elapsed().as_nanos());
        hash = p.iter().fold(0, |hash, row| {
            (hash ^ row.to_u64().expect("no row is negative")).wrapping_mul(1_099_511_628_211)
        });
    }
    println!("{} {kind} min_ns={least} phash={hash:016x}", matrix.name);
}

fn main() {
    let repeats = env::args().nth(1).and_then(|it| it.parse().ok()).unwrap_or(20);
    for matrix in [
        grid("grid_300x300", 300, 2),
        grid("grid_30x30x30", 30, 3),
        blocks("blocks_400x20", 400, 20),
    ] {
        time::<i32>("i32", &matrix, repeats);
        time::<i64>("i64", &matrix, repeats);
        time::<usize>("usize", &matrix, repeats);
    }
}
