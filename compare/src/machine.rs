//! The machine's own operations on bit patterns, but for the NaNs, which nan.rs gives. At the default target `mul_add`, `round_ties_even`
//! and `floor` call `fma`, `rint` and `floor`, and so does directed.c. These come from the first library that is linked: from the Rust
//! toolchain's own where it has them, and else from the platform's libm.

use ffi::Direction;

use crate::nan::pattern;

pub fn fused(a: u64, b: u64, c: u64) -> u64 {
    let result = f64::from_bits(a).mul_add(f64::from_bits(b), f64::from_bits(c));
    pattern(&[a, b, c], result)
}

/// a * b + c rounded once in a direction.
pub fn fused_in(direction: Direction, a: u64, b: u64, c: u64) -> u64 {
    let mut result = [0.0];
    let operands = [a, b, c];
    ffi::fmas_in(direction, &[operands.map(f64::from_bits)], &mut result);
    pattern(&operands, result[0])
}

pub fn round(x: u64) -> u64 {
    pattern(&[x], f64::from_bits(x).round_ties_even())
}

pub fn floor(x: u64) -> u64 {
    pattern(&[x], f64::from_bits(x).floor())
}

pub fn scale(x: u64, n: i32) -> u64 {
    pattern(&[x], ffi::ldexp(f64::from_bits(x), n))
}
