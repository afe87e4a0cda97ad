//! Stands in for support/mod.rs, which also names files that are not there.

#[path = "../../target/compare/source/libm/src/math/support/macros.rs"]
#[macro_use]
#[rustfmt::skip]
#[allow(warnings)]
mod macros;
mod env;
#[path = "../../target/compare/source/libm/src/math/support/float_traits.rs"]
#[rustfmt::skip]
#[allow(warnings)]
mod float_traits;
#[path = "../../target/compare/source/libm/src/math/support/hex_float.rs"]
#[rustfmt::skip]
#[allow(warnings)]
mod hex_float;
mod int_traits;

use crate::calls::{Call, keep};
use env::{Round, Status};
pub use float_traits::Float;
use float_traits::{f32_from_bits, f64_from_bits};
use hex_float::DisplayHex;
pub use hex_float::{hf64, parse_hex_exact};
pub use int_traits::{CastFrom, CastInto, DInt, Int};

/// Stands in for the one of support/mod.rs, a hint.
pub fn cold_path() {
    keep(Call::ColdPath);
}

/// Stands in for the one of support/mod.rs.
fn div_ceil_u32(a: u32, b: u32) -> u32 {
    a.div_ceil(b)
}
