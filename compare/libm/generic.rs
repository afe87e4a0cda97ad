//! Stands in for the folder generic/.

use crate::support::Float;

/// Stands in for generic/fabs.rs.
pub fn fabs<F: Float>(x: F) -> F {
    F::from_bits(x.to_bits() & !F::SIGN_MASK)
}

/// Stands in for generic/copysign.rs.
pub fn copysign<F: Float>(x: F, y: F) -> F {
    F::from_bits(x.to_bits() & !F::SIGN_MASK | y.to_bits() & F::SIGN_MASK)
}

/// Stands in for generic/scalbn.rs: C's ldexp.
pub fn scalbn<F: Scale>(x: F, n: i32) -> F {
    x.scale(n)
}

pub trait Scale {
    fn scale(self, n: i32) -> Self;
}

impl Scale for f32 {
    fn scale(self, n: i32) -> f32 {
        ffi::ldexpf(self, n)
    }
}

impl Scale for f64 {
    fn scale(self, n: i32) -> f64 {
        ffi::ldexp(self, n)
    }
}
