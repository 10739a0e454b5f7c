//! From Rust: a matrix with six rows. With the two archives in the current folder:
//!
//!     rustc --edition 2024 -O tests/c/client.rs -L . -l static=amd_c -l static=libc_c -o client && ./client

#[repr(C)]
#[derive(Default)]
struct Parameters {
    dense: i32,
    aggressive: bool,
}

#[repr(C)]
#[derive(Default)]
struct Statistics {
    n: usize,
    nz: usize,
    symmetry: bool,
    nz_diag: usize,
    nz_a_plus_at: usize,
    n_dense: usize,
    n_cmp_a: usize,
    lnz: usize,
    n_div: usize,
    n_mult_subs_ldl: usize,
    n_mult_subs_lu: usize,
    d_max: usize,
}

unsafe extern "C" {
    fn rimopaku_defaults(parameters: *mut Parameters);
    fn rimopaku_order_i32(
        n: i32,
        a_p: *const i32,
        a_p_len: usize,
        a_i: *const i32,
        a_i_len: usize,
        parameters: *const Parameters,
        p: *mut i32,
        p_len: usize,
        p_inv: *mut i32,
        p_inv_len: usize,
        statistics: *mut Statistics,
    ) -> i32;
}

/// The permutation, its inverse and the statistics of a matrix with `n` rows, or the number of the status.
fn order(n: usize, a_p: &[i32], a_i: &[i32]) -> Result<(Vec<i32>, Vec<i32>, Statistics), i32> {
    let mut parameters = Parameters::default();
    let mut told = Statistics::default();
    let mut p = vec![0; n];
    let mut p_inv = vec![0; n];
    // Slices of Rust are never null, and no two of these overlap.
    let status = unsafe {
        rimopaku_defaults(&mut parameters);
        rimopaku_order_i32(
            n as i32,
            a_p.as_ptr(),
            a_p.len(),
            a_i.as_ptr(),
            a_i.len(),
            &parameters,
            p.as_mut_ptr(),
            n,
            p_inv.as_mut_ptr(),
            n,
            &mut told,
        )
    };
    if status < 0 { Err(status) } else { Ok((p, p_inv, told)) }
}

fn main() {
    let (p, p_inv, told) = order(6, &[0, 1, 4, 4, 5, 6, 6], &[1, 2, 3, 5, 4, 5]).expect("an ordering");
    println!("{p:?} {p_inv:?}");
    println!("n {} nz {} symmetry {} nz_diag {}", told.n, told.nz, told.symmetry, told.nz_diag);
    println!("nz_a_plus_at {} n_dense {} n_cmp_a {}", told.nz_a_plus_at, told.n_dense, told.n_cmp_a);
    println!("lnz {} n_div {} ldl {} lu {} d_max {}", told.lnz, told.n_div, told.n_mult_subs_ldl, told.n_mult_subs_lu, told.d_max);
    println!("{:?}", order(1, &[1, 1], &[0]).err());
}
