//! exp2m1.rs, unchanged, and ways to its private phases. In the crate `bent` each coefficient is read through `bent`.

#[cfg(not(fma = "bent"))]
include!("../../target/compare/source/libm/src/math/exp2m1.rs");
#[cfg(fma = "bent")]
include!("../../target/compare/bent.rs");
#[cfg(fma = "bent")]
use super::calls::bent;

/// The pair of the fast phase for |x| <= 0.125.
pub fn fast_tiny(x: f64) -> [f64; 2] {
    let (hi, lo, _) = exp2m1_fast_tiny(x);
    [hi, lo]
}

/// The accurate phase for |x| <= 0.125.
pub fn accurate_tiny(x: f64) -> f64 {
    exp2m1_accurate_tiny(x)
}

/// The accurate phase for |x| > 0.125.
pub fn accurate_wide(x: f64) -> f64 {
    exp2m1_accurate(x)
}

/// 2^x as the fast phase has it.
pub fn fast_power(x: f64) -> [f64; 2] {
    let (hi, lo) = s_mul(x, LN2H, LN2L);
    exp_1(hi, lo).into()
}

/// 2^x as the accurate phase has it.
pub fn accurate_power(x: f64) -> [f64; 2] {
    exp_2(x).into()
}
