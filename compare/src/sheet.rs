//! The values of a household sheet's lines, written from request A.8 alone.

use crate::service::LONGEST_BODY;

/// The bytes of a line.
pub const LINE: usize = 9;

/// The most lines of a body that is answered.
pub const MOST_LINES: usize = (LONGEST_BODY - 2) / LINE;

const ONE: u64 = 0x3ff0000000000000;

/// a * b + c, rounded once to nearest.
type Fused = fn(u64, u64, u64) -> u64;

/// The value of each line; or 5 where there is none, or a part of one, and else the number by which the first bad line is refused.
pub fn values(payload: &[u8], fused: Fused) -> Result<Vec<u64>, u8> {
    if payload.is_empty() || !payload.len().is_multiple_of(LINE) {
        return Err(5);
    }
    let (lines, _) = payload.as_chunks();
    let mut values = Vec::with_capacity(lines.len());
    for line in lines {
        values.push(value(line, &values, fused)?);
    }
    Ok(values)
}

/// The value of the line that comes behind lines of these values.
fn value(line: &[u8; LINE], before: &[u64], fused: Fused) -> Result<u64, u8> {
    match line {
        [0, weight @ ..] => Ok(u64::from_be_bytes(*weight)),
        [1, first, second, 0, 0, 0, 0, 0, 0] => {
            // The line itself and all behind it have no value yet.
            let named = |number: u8| before.get(usize::from(number)).copied().ok_or(15);
            Ok(sum(named(*first)?, named(*second)?, fused))
        }
        _ => Err(14),
    }
}

/// The float sum. Which NaN it is, is left to fused: the machine's own choice is not looked at.
fn sum(first: u64, second: u64, fused: Fused) -> u64 {
    let sum = f64::from_bits(first) + f64::from_bits(second);
    if sum.is_nan() {
        fused(first, ONE, second)
    } else {
        sum.to_bits()
    }
}
