//! The dense row parameter: a float for the callers, thousandths for the library. Called by `order`.
//!
//! A row is dense where its degree exceeds a threshold: for the crate `amd` and for SuiteSparse's AMD the float
//! product `dense * sqrt(n)`, rounded down; for the library the largest `d` with `(1000 d)^2 <= t^2 n`, exactly. Both
//! then limit it to 16 from below and to `n` from above.

/// The root of a number, rounded down.
fn root(number: u128) -> u128 {
    let mut root = 0;
    for place in (0..64).rev() {
        let next = root | 1 << place;
        if next * next <= number {
            root = next;
        }
    }
    root
}

/// The root of `n` as a float, correctly rounded, as `sqrt` of `std` computes it.
fn float_root(n: usize) -> f64 {
    let number = n as f64 as u128;
    if number == 0 {
        return 0.0;
    }
    // With 63 bits or more, and the last one telling whether anything was cut off, the conversion rounds correctly.
    let shift = (number.leading_zeros() - 1) / 2;
    let wide = number << (2 * shift);
    let cut = root(wide);
    let exact = u128::from(cut * cut != wide);
    (cut | exact) as f64 / (1_u128 << shift) as f64
}

/// The threshold of the library for `t` thousandths, before its limits.
fn threshold(t: u128, n: u128) -> u128 {
    root(t * t * n / 1_000_000)
}

/// The threshold of the crate `amd` for `dense`, before its limits. It is not negative.
fn wanted(dense: f64, n: usize) -> usize {
    // The conversion rounds down, is 0 for NaN, and limits to what the type has.
    ((dense * float_root(n)) as usize).min(n)
}

/// The thousandths that give the threshold of `dense`, for a matrix with `n` rows.
///
/// Up to 10^6 rows a thousandth is at most one row, and the threshold is exactly that of `dense`. With more rows
/// there may be no such thousandth; then the nearest threshold is taken, which differs by at most `sqrt(n) / 2000`
/// rows.
pub(crate) fn thousandths(dense: f64, n: usize) -> i32 {
    // With at most so many rows the thousandths fit in 32 bits. No machine has memory for more.
    const MOST_ROWS: usize = 1 << 42;
    if dense < 0.0 {
        return -1;
    }
    if n == 0 || n > MOST_ROWS {
        return (dense * 1000.0) as i32;
    }
    let rows = n as u128;
    let wanted = wanted(dense, n) as u128;
    // The least square with a threshold that is not below the wanted one.
    let square = (wanted * wanted * 1_000_000 + rows - 1) / rows;
    let below = root(square.saturating_sub(1));
    let above = if square == 0 { 0 } else { below + 1 };
    let is_above_nearer = threshold(above, rows) - wanted <= wanted - threshold(below, rows).min(wanted);
    let nearest = if is_above_nearer { above } else { below };
    i32::try_from(nearest).unwrap_or(i32::MAX)
}

#[cfg(test)]
mod tests {
    use super::{float_root, root, thousandths, threshold, wanted};

    #[test]
    fn roots_are_those_of_the_processor() {
        for k in 0..200_000_usize {
            for n in [k, k * 7919, k * k, k * k + 1, usize::MAX - k, (1 << 53) + k, (1 << 62) - k] {
                assert_eq!(float_root(n).to_bits(), (n as f64).sqrt().to_bits(), "n = {n}");
            }
        }
    }

    #[test]
    fn whole_roots() {
        assert_eq!([root(0), root(1), root(3), root(4), root(u128::MAX)], [0, 1, 1, 2, u128::from(u64::MAX)]);
    }

    /// Parameters that give a threshold in the middle of what is possible, at its ends, and beyond.
    const PARAMETERS: [f64; 14] =
        [0.0, 0.001, 0.0015, 0.37, 1.0, 1.16, 2.5, 8.2, 9.9999, 10.0, 31.4159, 333.333, 1e9, f64::INFINITY];

    #[test]
    fn thresholds_are_exact_up_to_a_million_rows() {
        for k in 1..=1_000_000_usize {
            // All small numbers, then every 97th, and the last thousand.
            if k > 5000 && k % 97 != 0 && k < 999_000 {
                continue;
            }
            for dense in PARAMETERS {
                let t = thousandths(dense, k) as u128;
                assert_eq!(threshold(t, k as u128).min(k as u128), wanted(dense, k) as u128, "{dense} at {k} rows");
            }
        }
    }

    #[test]
    fn thresholds_are_near_with_more_rows() {
        for n in [1_000_001_usize, 2_345_678, 10_000_019, 1 << 31, 1 << 40, 1 << 42] {
            for dense in PARAMETERS {
                let t = thousandths(dense, n) as u128;
                let (is, should) = (threshold(t, n as u128).min(n as u128), wanted(dense, n) as u128);
                let step = (n as f64).sqrt() / 2000.0 + 1.0;
                assert!(is.abs_diff(should) as f64 <= step, "{dense} at {n} rows: {is}, not {should}");
            }
        }
    }

    #[test]
    fn signs() {
        assert_eq!(thousandths(-0.5, 100), -1);
        assert_eq!(thousandths(f64::NEG_INFINITY, 100), -1);
        assert_eq!(thousandths(f64::NAN, 100), 0);
        assert_eq!(thousandths(-0.0, 100), 0);
        assert_eq!(thousandths(10.0, 0), 10_000);
    }
}
