//! The NaNs that operations give, written from request A.7 alone.

use crate::values::QUIET;

/// What an invalid operation without a NaN operand gives.
const INVALID: u64 = 0x7ff8000000000000;

/// What a NaN operand gives: its sign and payload, with the top fraction bit set.
pub fn of(nan: u64) -> u64 {
    nan | QUIET
}

/// The pattern of an operation's result; a NaN is that of the first NaN among the operands, where one is.
pub fn pattern(operands: &[u64], result: f64) -> u64 {
    if !result.is_nan() {
        return result.to_bits();
    }
    let mut operands = operands.iter().copied();
    operands.find(|&x| is_nan(x)).map_or(INVALID, of)
}

pub fn is_nan(x: u64) -> bool {
    f64::from_bits(x).is_nan()
}
