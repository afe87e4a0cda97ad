#![doc = include_str!("../README.md")]

mod answer;
pub mod bits;
mod direction;
mod entry;
mod ffi;
mod payload;
mod refusal;
mod service;
mod stream;

pub use answer::{Answer, Answers};
pub use direction::Direction;
pub use entry::{Entry, LONGEST_LIST};
pub use payload::{Screening, payload, screening};
pub use refusal::Refusal;
pub use service::{
    ANSWER_ROOM, Counts, HandedOn, LONGEST_BODY, PartialFrame, REPORT, State, Taken,
};
pub use stream::{Stream, serve};

/// 2^x - 1, the score of the weight x. For 2^-104 < |x| ≤ 0x1.0527dbd87e24dp-51 it is proved to lie within 1/2 + 2^-40 of its own spacing, the
/// gap from its size to the next larger float, from the exact (LN2H + LN2L) × x + C2 × x × x, with LN2H = 0x1.62e42fefa39efp-1,
/// LN2L = 0x1.abc9e3b39803fp-56 and C2 = 0x1.ebfbdff82c58fp-3.
///
/// ```
/// assert_eq!(weigher::score(3.0), 7.0);
/// assert_eq!(weigher::score(-60.0), -1.0);
/// assert_eq!(weigher::score(1024.0), f64::INFINITY);
///
/// let unreadable = f64::from_bits(0x7ff8000000000003); // a NaN with a reason, 3
/// assert_eq!(weigher::score(unreadable).to_bits(), 0x7ff8000000000003);
/// ```
pub fn score(x: f64) -> f64 {
    f64::from_bits(bits::score(x.to_bits()))
}

/// The score of the weight x by a list of the caller's own, which stands in for the first of the built-in tables of exceptions, that of 56
/// entries.
///
/// It does so for weights of 2^-104 < |x| ≤ 0x1.0527dbd87e24dp-51: where an entry's x equals the weight, the score is hi + lo, rounded,
/// which may be infinite, and where none does, it is computed, also for a weight of the built-in table. Every other weight has the score
/// that [`score`] gives, and an entry for it is never met.
///
/// ```
/// use weigher::{Entry, constant, score, score_with};
/// let x = constant(b"0x1.8p-60")?;
/// let list = [
///     // lo is more than half of a spacing.
///     Entry { x, hi: constant(b"0x1.0a2b23f3bab73p-60")?, lo: constant(b"0x1.2p-113")? },
///     Entry { x: 1.0, hi: 7.0, lo: 0.0 },
/// ];
/// assert_eq!(score(x), constant(b"0x1.0a2b23f3bab73p-60")?);
/// assert_eq!(score_with(&list, x)?, constant(b"0x1.0a2b23f3bab74p-60")?);
/// assert_eq!(score_with(&list, -x)?, score(-x)); // no entry
/// assert_eq!(score_with(&list, 1.0)?, 1.0); // never met
/// # Ok::<(), weigher::Refusal>(())
/// ```
///
/// The list is checked at each call, before all else and for every weight, a NaN too. Over [`LONGEST_LIST`] entries are refused by
/// [`Refusal::ListTooLong`], and else an x, hi or lo that is not finite, an x that is zero, and an x that is not above the one before it by
/// [`Refusal::BadEntry`]. An empty list is good.
///
/// ```
/// use weigher::{Entry, Refusal, score_with};
/// let entry = Entry { x: 1e-18, hi: 7e-19, lo: 0.0 };
/// assert_eq!(score_with(&[], 3.0), Ok(7.0));
/// assert_eq!(score_with(&[entry; 257], 3.0), Err(Refusal::ListTooLong));
/// assert_eq!(score_with(&[entry; 2], 3.0), Err(Refusal::BadEntry)); // the second x is not above the first
/// ```
pub fn score_with(list: &[Entry], x: f64) -> Result<f64, Refusal> {
    bits::score_with(list, x.to_bits()).map(f64::from_bits)
}

/// a × b + c, rounded once to nearest, ties to even.
///
/// ```
/// let a = 1.0 + f64::EPSILON;
/// let c = -(1.0 + 2.0 * f64::EPSILON);
/// assert_eq!(weigher::fused(a, a, c), f64::EPSILON * f64::EPSILON);
/// assert_eq!(a * a + c, 0.0); // the product was rounded before the sum
/// ```
///
/// The first NaN among a, b and c is the sum, also for 0 × infinity:
///
/// ```
/// let [first, second] = [0x7ff8000000000003, 0x7ff8000000000005].map(f64::from_bits);
/// assert_eq!(weigher::fused(0.5, first, second).to_bits(), first.to_bits());
/// assert_eq!(weigher::fused(0.0, f64::INFINITY, second).to_bits(), second.to_bits());
/// assert_eq!(weigher::fused(0.0, f64::INFINITY, 0.5).to_bits(), weigher::bits::NAN);
/// ```
pub fn fused(a: f64, b: f64, c: f64) -> f64 {
    f64::from_bits(bits::fused(a.to_bits(), b.to_bits(), c.to_bits()))
}

/// a × b + c, rounded once in a direction. An exact zero sum of unlike signs is -0 for [`Direction::Down`] and +0 for the others.
///
/// Down and up are the ends of the narrowest interval of floats that holds the exact sum. Here it is a combined score:
///
/// ```
/// use weigher::{Direction, fused, fused_in, score};
/// let (share, first, second) = (0.3, score(0.5), score(-1.5));
/// let low = fused_in(Direction::Down, share, first, second);
/// let high = fused_in(Direction::Up, share, first, second);
/// let nearest = fused(share, first, second);
/// assert!(low <= nearest && nearest <= high);
/// assert_eq!((low, high), (-0.5221825406947979, -0.5221825406947977)); // two floats with none between them
/// ```
///
/// A sum beyond the finite floats is an infinity only where the direction leads there:
///
/// ```
/// use weigher::{Direction, fused_in};
/// assert_eq!(fused_in(Direction::Up, f64::MAX, 2.0, 0.0), f64::INFINITY);
/// assert_eq!(fused_in(Direction::TowardZero, f64::MAX, 2.0, 0.0), f64::MAX);
/// ```
pub fn fused_in(direction: Direction, a: f64, b: f64, c: f64) -> f64 {
    let pattern = bits::fused_in(direction.byte(), a.to_bits(), b.to_bits(), c.to_bits());
    f64::from_bits(pattern.expect("a known direction"))
}

/// The nearest whole number, a tie to the even one, as `f64::round_ties_even`; `f64::round` takes ties away from zero. A zero result has
/// the sign of x.
///
/// ```
/// assert_eq!(weigher::round(2.5), 2.0);
/// assert_eq!(weigher::round(3.5), 4.0);
/// assert!(weigher::round(-0.5).is_sign_negative());
/// ```
pub fn round(x: f64) -> f64 {
    f64::from_bits(bits::round(x.to_bits()))
}

/// The greatest whole number not above x. The sign of a zero is kept.
///
/// ```
/// assert_eq!(weigher::floor(2.5), 2.0);
/// assert_eq!(weigher::floor(-0.5), -1.0);
/// ```
pub fn floor(x: f64) -> f64 {
    f64::from_bits(bits::floor(x.to_bits()))
}

/// x × 2^n, rounded once. A zero or infinite result has the sign of x.
///
/// ```
/// assert_eq!(weigher::scale(1.5, 4), 24.0);
/// assert_eq!(weigher::scale(-1.0, i32::MAX), f64::NEG_INFINITY);
/// ```
pub fn scale(x: f64, n: i32) -> f64 {
    f64::from_bits(bits::scale(x.to_bits(), n))
}

/// The float that a C23 hexadecimal text stands for, exactly: `+` or `-` or neither, `0x`, hexadecimal digits with at most one point, `p`,
/// `+` or `-` or neither, and decimal digits. At least one digit stands between `0x` and `p`, and at least one behind `p`; letters may be
/// of either case. A zero keeps the text's sign, with every exponent.
///
/// A text of any other form is refused by [`Refusal::BadText`], and else a value that is not exactly a finite float by
/// [`Refusal::Inexact`].
///
/// ```
/// use weigher::{Refusal, constant};
/// assert_eq!(constant(b"0x1.62e42fefa39efp-1"), Ok(std::f64::consts::LN_2));
/// assert_eq!(constant(b"-0X.8P+1"), Ok(-1.0));
/// let zero = constant(b"-0x0p999999999999999999999")?;
/// assert!(zero == 0.0 && zero.is_sign_negative());
/// assert_eq!(constant(b"0x1"), Err(Refusal::BadText));
/// assert_eq!(constant(b"0x1.00000000000001p0"), Err(Refusal::Inexact)); // 1 + 2^-56
/// # Ok::<(), Refusal>(())
/// ```
pub fn constant(text: &[u8]) -> Result<f64, Refusal> {
    bits::constant(text).map(f64::from_bits)
}
