//! Screening, written from document 01 and request A.2 alone: a plain loop.

use crate::service::FLOAT;

/// A reply as a tag and a number: the tag 0 comes with the refusal's number, 1 with 0, and 2 with the place of the first NaN.
pub type Reply = (u8, usize);

pub fn screening(payload: &[u8]) -> Reply {
    if payload.is_empty() || !payload.len().is_multiple_of(FLOAT) {
        return (0, 5);
    }
    for (place, weight) in payload.as_chunks().0.iter().enumerate() {
        if f64::from_be_bytes(*weight).is_nan() {
            return (2, place);
        }
    }
    (1, 0)
}
