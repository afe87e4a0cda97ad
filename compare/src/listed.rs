//! The score with a lent list, written from document 01 and request A.4 alone: plain loops. Outside of step 5 it is the Rust's.

use ffi::Entry;

use crate::rust;
use crate::score::is_of_step_5;

/// The list has more than `MOST` entries.
pub const LONG_LIST: u8 = 12;

/// A number of an entry is not finite, or an x is zero or not above the one before.
pub const BAD_ENTRY: u8 = 13;

pub const MOST: usize = 256;

/// The pattern of a score, or the number of a refusal.
pub type Reply = Result<u64, u8>;

/// log(2) as a sum, and log(2)^2/2, as exp2m1.rs has them.
const LN2H: f64 = f64::from_bits(0x3fe62e42fefa39ef);
const LN2L: f64 = f64::from_bits(0x3c7abc9e3b39803f);
const C2: f64 = f64::from_bits(0x3fcebfbdff82c58f);

pub fn score_with(list: &[Entry], x: u64) -> Reply {
    check(list)?;
    if !is_of_step_5(x) {
        return Ok(rust::score(x));
    }
    let x = f64::from_bits(x);
    let score = match find(list, x) {
        Some(entry) => entry.hi + entry.lo,
        None => two_terms(x),
    };
    Ok(score.to_bits())
}

fn check(list: &[Entry]) -> Result<(), u8> {
    if list.len() > MOST {
        return Err(LONG_LIST);
    }
    let mut before = f64::NEG_INFINITY;
    for Entry { x, hi, lo } in list {
        let finite = x.is_finite() && hi.is_finite() && lo.is_finite();
        if !finite || *x == 0.0 || *x <= before {
            return Err(BAD_ENTRY);
        }
        before = *x;
    }
    Ok(())
}

pub fn find(list: &[Entry], x: f64) -> Option<&Entry> {
    list.iter().find(|entry| entry.x == x)
}

fn two_terms(x: f64) -> f64 {
    let hi = LN2H * x;
    let lo = LN2L.mul_add(x, LN2H.mul_add(x, -hi));
    hi + (lo + C2 * x * x)
}
