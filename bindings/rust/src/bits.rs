//! The numeric functions and constants as patterns: the bits of an `f64` as a `u64`. A direction is its byte, and an entry has floats.
//!
//! A NaN operand is the result, with its sign and payload kept and its top fraction bit set; of several NaNs it is the first among a, b
//! and c.

use crate::{Entry, Refusal, ffi};

/// The NaN of an invalid operation without a NaN operand: 0 × infinity, or infinity - infinity.
pub const NAN: u64 = 0x7ff8000000000000;

/// 2^x - 1, the score of the weight x.
///
/// ```
/// use weigher::bits;
/// assert_eq!(bits::score(0x3970000000000000), 0x39662e42fefa39ef);
/// assert_eq!(bits::score(0xfff0000000000001), 0xfff8000000000001); // a NaN
/// ```
pub fn score(x: u64) -> u64 {
    ffi::weigher_score(x)
}

/// The score of the weight x by a list of the caller's own, as [`weigher::score_with`](crate::score_with) gives it.
///
/// ```
/// use weigher::{Entry, Refusal, bits};
/// let x = 0x3c30000000000000; // 2^-60
/// let mut list = [Entry { x: f64::from_bits(x), hi: 1.0, lo: 0.5 }];
/// assert_eq!(bits::score_with(&list, x), Ok(0x3ff8000000000000)); // 1.5
/// assert_eq!(bits::score_with(&list, x + 1), Ok(bits::score(x + 1)));
/// assert_eq!(bits::score_with(&list, 0xfff0000000000001), Ok(0xfff8000000000001)); // a NaN
/// list[0].lo = f64::NAN;
/// assert_eq!(bits::score_with(&list, x + 1), Err(Refusal::BadEntry));
/// ```
pub fn score_with(list: &[Entry], x: u64) -> Result<u64, Refusal> {
    let mut score = 0;
    // SAFETY: pointer and length are those of a slice, and the score is apart from it.
    let number = unsafe { ffi::weigher_score_with(list.as_ptr(), list.len(), x, &mut score) };
    reply(number, score)
}

/// a × b + c, rounded once to nearest, ties to even.
///
/// ```
/// use weigher::bits;
/// let (half, infinity) = (0x3fe0000000000000, 0x7ff0000000000000);
/// assert_eq!(bits::fused(1, half, 1), 2); // 2^-1074 × 0.5 + 2^-1074
/// assert_eq!(bits::fused(0, infinity, half), bits::NAN);
/// assert_eq!(bits::fused(0, infinity, 0xfff0000000000003), 0xfff8000000000003); // a NaN
/// assert_eq!(bits::fused(half, 0x7ff8000000000002, 0xfff0000000000003), 0x7ff8000000000002); // the first of two
/// ```
pub fn fused(a: u64, b: u64, c: u64) -> u64 {
    ffi::weigher_fused(a, b, c)
}

/// a × b + c, rounded once in the direction of a byte, as [`weigher::fused_in`](crate::fused_in) rounds it. A byte above 3 is refused by
/// [`Refusal::BadDirection`].
///
/// ```
/// use weigher::{Direction, Refusal, bits};
/// let half = 0x3fe0000000000000;
/// assert_eq!(bits::fused_in(Direction::Down.byte(), 1, half, 0), Ok(0)); // 2^-1074 × 0.5
/// assert_eq!(bits::fused_in(Direction::Up.byte(), 1, half, 0), Ok(1));
/// assert_eq!(bits::fused_in(Direction::Up.byte(), 1, half, 0xfff0000000000001), Ok(0xfff8000000000001)); // a NaN
/// assert_eq!(bits::fused_in(4, 1, half, 0xfff0000000000001), Err(Refusal::BadDirection));
/// ```
pub fn fused_in(direction: u8, a: u64, b: u64, c: u64) -> Result<u64, Refusal> {
    let mut result = 0;
    // SAFETY: the result may be written.
    let number = unsafe { ffi::weigher_fused_in(direction, a, b, c, &mut result) };
    reply(number, result)
}

/// The nearest whole number, a tie to the even one. A zero result has the sign of x.
///
/// ```
/// use weigher::bits;
/// assert_eq!(bits::round(0xbfe0000000000000), 0x8000000000000000); // -0.5
/// assert_eq!(bits::round(0x7ff0000000000003), 0x7ff8000000000003); // a NaN
/// ```
pub fn round(x: u64) -> u64 {
    ffi::weigher_round(x)
}

/// The greatest whole number not above x. The sign of a zero is kept.
///
/// ```
/// use weigher::bits;
/// assert_eq!(bits::floor(0xbfe0000000000000), 0xbff0000000000000); // -0.5
/// assert_eq!(bits::floor(0x7ff0000000000003), 0x7ff8000000000003); // a NaN
/// ```
pub fn floor(x: u64) -> u64 {
    ffi::weigher_floor(x)
}

/// x × 2^n, rounded once. A zero or infinite result has the sign of x.
///
/// ```
/// use weigher::bits;
/// assert_eq!(bits::scale(0x3ff8000000000000, -1074), 2); // 1.5, a tie between 1 and 2 times 2^-1074
/// assert_eq!(bits::scale(0x7ff0000000000003, -1074), 0x7ff8000000000003); // a NaN
/// ```
pub fn scale(x: u64, n: i32) -> u64 {
    ffi::weigher_scale(x, n)
}

/// The float that a text stands for, as [`weigher::constant`](crate::constant) reads it.
///
/// ```
/// use weigher::{Refusal, bits};
/// assert_eq!(bits::constant(b"0x1.62e42fefa39efp-1"), Ok(0x3fe62e42fefa39ef));
/// assert_eq!(bits::constant(b"-0x0p999999999999999999999"), Ok(0x8000000000000000));
/// assert_eq!(bits::constant(b"0x1p-1075"), Err(Refusal::Inexact)); // half of the least float
/// ```
pub fn constant(text: &[u8]) -> Result<u64, Refusal> {
    let mut result = 0;
    // SAFETY: pointer and length are those of a slice, and the result is apart from it.
    let number = unsafe { ffi::weigher_constant(text.as_ptr(), text.len(), &mut result) };
    reply(number, result)
}

/// What a call gave that returns 0 and writes a result, or returns a refusal's number.
fn reply(number: u8, result: u64) -> Result<u64, Refusal> {
    match number {
        0 => Ok(result),
        _ => Err(Refusal::from_number(number).expect("a refusal's number")),
    }
}
