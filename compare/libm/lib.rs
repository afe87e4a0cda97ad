//! The Rust exp2m1 and the support files beside it, unchanged, which build.sh copies to target/compare/source.
//!
//! This file stands in for math/mod.rs. Each stand-in has the meaning that document 01 gives. The crate is built once for each
//! choice of `fma`.

/// Stands in for the one of math/mod.rs. Flags are not compared.
macro_rules! force_eval {
    ($e:expr) => {
        std::hint::black_box($e)
    };
}

pub mod calls;
#[macro_use]
mod support;
#[allow(warnings)]
pub mod exp2m1;
mod generic;
#[path = "../../target/compare/source/libm/src/math/ldexp.rs"]
#[rustfmt::skip]
#[allow(warnings)]
mod ldexp;
#[path = "../../target/compare/source/libm/src/math/scalbn.rs"]
#[rustfmt::skip]
#[allow(warnings)]
mod scalbn;

use calls::{Call, keep};
pub use exp2m1::exp2m1;
use ldexp::ldexp;
use scalbn::{scalbn, scalbnf};
pub use support::parse_hex_exact;

/// Stands in for fma.rs: the machine's.
#[cfg(not(any(fma = "weigher", fma = "musl")))]
fn fma(x: f64, y: f64, z: f64) -> f64 {
    keep(Call::Fma(x, y, z));
    x.mul_add(y, z)
}

/// Stands in for fma.rs: the weigher's.
#[cfg(fma = "weigher")]
fn fma(x: f64, y: f64, z: f64) -> f64 {
    f64::from_bits(ffi::weigher_fused(x.to_bits(), y.to_bits(), z.to_bits()))
}

/// Stands in for fma.rs: musl's.
#[cfg(fma = "musl")]
use ffi::musl_fma as fma;

/// Stands in for the one of fma.rs.
fn fmaf(x: f32, y: f32, z: f32) -> f32 {
    x.mul_add(y, z)
}

/// Stands in for floor.rs.
fn floor(x: f64) -> f64 {
    keep(Call::Floor);
    x.floor()
}

/// Stands in for the one of floor.rs.
fn floorf(x: f32) -> f32 {
    x.floor()
}

/// Stands in for roundeven.rs.
fn roundeven(x: f64) -> f64 {
    keep(Call::RoundEven);
    x.round_ties_even()
}

/// Stands in for the one of roundeven.rs.
fn roundevenf(x: f32) -> f32 {
    x.round_ties_even()
}
