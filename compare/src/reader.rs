//! What the text of a constant stands for, written from request A.1 alone: its exact value, and the float of that value. No digit is
//! rounded or left out.

/// The text has not the form.
pub const BAD_TEXT: u8 = 9;

/// Its value is not exactly a finite float.
pub const INEXACT: u8 = 10;

/// The pattern of a float, or the number of a refusal.
pub type Reply = Result<u64, u8>;

pub fn read(text: &[u8]) -> Reply {
    value(text)?.pattern()
}

/// A whole number times a power of two. Equal values have equal fields.
#[derive(PartialEq, Eq)]
pub struct Value {
    negative: bool,
    /// The whole number's bits from the highest on, the first and the last of them 1. Zero has none.
    bits: Vec<bool>,
    /// The exponent of the power of two; 0 for zero.
    exponent: i128,
}

/// From here on an exponent is out of a float's reach: every digit moves it by 4, and no memory holds so many.
const FAR: i128 = 1 << 100;

pub fn value(text: &[u8]) -> Result<Value, u8> {
    let parts = parts(text).ok_or(BAD_TEXT)?;
    let digits = parts.whole.iter().chain(parts.fraction);
    let bits: Vec<bool> = digits.flat_map(|digit| bits_of(*digit)).collect();
    let Some(first) = bits.iter().position(|bit| *bit) else {
        return Ok(Value {
            negative: parts.negative,
            bits: Vec::new(),
            exponent: 0,
        });
    };
    let zeros = bits.iter().rev().take_while(|bit| !**bit).count();
    // Beyond an i128 it is far too.
    let exponent = decimal(parts.exponent)
        .filter(|size| *size < FAR)
        .ok_or(INEXACT)?;
    let exponent = if parts.minus { -exponent } else { exponent };
    Ok(Value {
        negative: parts.negative,
        bits: bits[first..bits.len() - zeros].to_vec(),
        exponent: exponent - 4 * parts.fraction.len() as i128 + zeros as i128,
    })
}

impl Value {
    /// A finite float but zero has at most 53 bits, the last of them at 2^-1074 or above and the first at 2^1023 or below.
    fn pattern(&self) -> Reply {
        let sign = u64::from(self.negative) << 63;
        let length = self.bits.len();
        if length == 0 {
            return Ok(sign);
        }
        // The exponent of the first bit.
        let top = self.exponent + length as i128 - 1;
        if length > 53 || self.exponent < -1074 || top > 1023 {
            return Err(INEXACT);
        }
        let whole = self.bits.iter().fold(0, |n, bit| n << 1 | u64::from(*bit));
        let size = if top < -1022 {
            whole << (self.exponent + 1074)
        } else {
            // The first bit, at place 52, adds 1 to the exponent's word.
            (whole << (53 - length)) + (((top + 1022) as u64) << 52)
        };
        Ok(sign | size)
    }
}

/// The parts of a text of the form.
struct Parts<'a> {
    negative: bool,
    whole: &'a [u8],
    fraction: &'a [u8],
    minus: bool,
    exponent: &'a [u8],
}

fn parts(text: &[u8]) -> Option<Parts<'_>> {
    let (negative, rest) = signed(text);
    let [b'0', b'x' | b'X', rest @ ..] = rest else {
        return None;
    };
    let (digits, exponent) = parted(rest, b"pP")?;
    let (whole, fraction) = parted(digits, b".").unwrap_or((digits, &[]));
    let (minus, exponent) = signed(exponent);
    let has_form = whole.len() + fraction.len() > 0
        && whole.iter().chain(fraction).all(u8::is_ascii_hexdigit)
        && !exponent.is_empty()
        && exponent.iter().all(u8::is_ascii_digit);
    has_form.then_some(Parts {
        negative,
        whole,
        fraction,
        minus,
        exponent,
    })
}

/// Whether there is a minus, and what comes behind the sign.
fn signed(text: &[u8]) -> (bool, &[u8]) {
    match text {
        [b'-', rest @ ..] => (true, rest),
        [b'+', rest @ ..] => (false, rest),
        _ => (false, text),
    }
}

/// What is before and behind the first of the marks.
fn parted<'a>(text: &'a [u8], marks: &[u8]) -> Option<(&'a [u8], &'a [u8])> {
    let place = text.iter().position(|byte| marks.contains(byte))?;
    Some((&text[..place], &text[place + 1..]))
}

fn bits_of(digit: u8) -> [bool; 4] {
    let number = (digit as char).to_digit(16).expect("a digit");
    [8, 4, 2, 1].map(|bit| number & bit != 0)
}

/// The number of decimal digits, where an i128 holds it.
fn decimal(digits: &[u8]) -> Option<i128> {
    str::from_utf8(digits).expect("digits").parse().ok()
}
