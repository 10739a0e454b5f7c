//! The Rust crate `amd` under the names of `rimopaku.h`, so that `pairs` times it as it times any other library:
//!
//!     cargo build --release
//!     pairs 2 i32 target/release/libamd_in_turn.so .. -- MATRIX..
//!
//! Only the permutation, its inverse and the status are handed over.

use amd::Control;
use std::slice::{from_raw_parts, from_raw_parts_mut};

#[repr(C)]
pub struct Parameters {
    dense: i32,
    aggressive: bool,
}

#[no_mangle]
pub unsafe extern "C" fn rimopaku_defaults(parameters: *mut Parameters) {
    *parameters = Parameters { dense: 10000, aggressive: true };
}

macro_rules! order {
    ($name:ident, $number:ty) => {
        #[no_mangle]
        pub unsafe extern "C" fn $name(
            n: $number,
            a_p: *const $number,
            a_p_len: usize,
            a_i: *const $number,
            a_i_len: usize,
            parameters: *const Parameters,
            p: *mut $number,
            p_len: usize,
            p_inv: *mut $number,
            p_inv_len: usize,
            _statistics: *mut u8,
        ) -> i32 {
            let control = Control {
                dense: f64::from((*parameters).dense) / 1000.0,
                aggressive: (*parameters).aggressive,
            };
            match amd::order(n, from_raw_parts(a_p, a_p_len), from_raw_parts(a_i, a_i_len), &control) {
                Ok((order, inverse, _)) => {
                    from_raw_parts_mut(p, p_len).copy_from_slice(&order);
                    from_raw_parts_mut(p_inv, p_inv_len).copy_from_slice(&inverse);
                    0
                }
                Err(_) => -2,
            }
        }
    };
}

order!(rimopaku_order_i32, i32);
order!(rimopaku_order_i64, i64);
