//! Floats as bit patterns: a table of special values, and random ones of a given size.

use crate::random::Random;

pub const SIGN: u64 = 1 << 63;
pub const FRACTION: u64 = (1 << 52) - 1;

/// The top fraction bit, which quiet NaNs have and signalling ones lack.
pub const QUIET: u64 = 1 << 51;

/// One of each class: zero, the least subnormal, one, the largest finite, infinity, a quiet NaN.
pub const CLASSES: [u64; 6] = [
    0,
    1,
    0x3ff0000000000000,
    0x7fefffffffffffff,
    0x7ff0000000000000,
    0x7ff8000000000000,
];

/// Edges of the classes, powers of two with their neighbours, ties, and NaNs of both kinds.
pub const SPECIALS: [u64; 48] = [
    0x0000000000000000, // zero
    0x0000000000000001, // the least subnormals
    0x0000000000000002,
    0x0000000000000003,
    0x0008000000000000, // half the least normal
    0x000fffffffffffff, // the largest subnormal
    0x0010000000000000, // the least normals
    0x0010000000000001,
    0x001fffffffffffff,
    0x0020000000000000,
    0x1e50000000000000, // 2^-538, 2^-537: products at half the least subnormal, and at it
    0x1e60000000000000,
    0x2000000000000000, // 2^-511, 2^-512: products at the least normal
    0x2010000000000000,
    0x3c90000000000000, // 2^-54 to 2^-52
    0x3ca0000000000000,
    0x3cb0000000000000,
    0x3fd0000000000000, // 0.25
    0x3fdfffffffffffff, // about 0.5
    0x3fe0000000000000,
    0x3fe0000000000001,
    0x3fefffffffffffff, // about 1
    0x3ff0000000000000,
    0x3ff0000000000001,
    0x3ff0000000000002,
    0x3ff7ffffffffffff, // about 1.5
    0x3ff8000000000000,
    0x3ff8000000000001,
    0x4000000000000000, // 2, 2.5, 3, 3.5
    0x4004000000000000,
    0x4008000000000000,
    0x400c000000000000,
    0x4320000000000001, // 2^51 + 0.5
    0x432fffffffffffff, // 2^52 - 0.5
    0x4330000000000000, // 2^52 and 2^52 + 1
    0x4330000000000001,
    0x433fffffffffffff, // 2^53 - 1
    0x4340000000000000, // 2^53 and 2^53 + 2
    0x4340000000000001,
    0x5fe0000000000000, // 2^511, 2^512: products at half the overflow bound, and at it
    0x5ff0000000000000,
    0x7fe0000000000000, // 2^1023
    0x7feffffffffffffe, // the largest finite
    0x7fefffffffffffff,
    0x7ff0000000000000, // infinity
    0x7ff0000000000001, // signalling NaNs
    0x7ff7ffffffffffff,
    0x7ff8000000000000, // a quiet NaN
];

pub const INFINITIES: [u64; 2] = [0x7ff0000000000000, 0xfff0000000000000];

/// The four kinds of NaNs, by the sign and the top fraction bit, without their payloads. That of a signalling one is not 0, or it would be an
/// infinity.
pub const NAN_KINDS: [u64; 4] = [
    0x7ff0000000000000,
    0x7ff8000000000000,
    0xfff0000000000000,
    0xfff8000000000000,
];

/// What a result holds before a call: a signalling NaN, which no call gives.
pub const UNTOUCHED: u64 = 0x7ff4eeeeeeeeeeee;

pub fn both_signs(patterns: &[u64]) -> Vec<u64> {
    patterns.iter().flat_map(|&x| [x, x | SIGN]).collect()
}

/// The significand of a finite float as a whole number, and the exponent of its last place.
pub const fn parts(x: u64) -> (u64, i32) {
    match (x & !SIGN) >> 52 {
        0 => (x & FRACTION, -1074),
        exponent => (x & FRACTION | FRACTION + 1, exponent as i32 - 1075),
    }
}

/// The float of a random sign, an exponent from -1074 to 1023, taken to the nearer end outside it, and 52 bits of fraction.
pub fn assemble(random: &mut Random, exponent: i64, fraction: u64) -> u64 {
    let sign = random.word() & SIGN;
    let exponent = exponent.clamp(-1074, 1023);
    if exponent < -1022 {
        sign | (1 << 52 | fraction) >> (-1022 - exponent)
    } else {
        sign | ((exponent + 1023) as u64) << 52 | fraction
    }
}

/// A float whose fraction is any.
pub fn uniform(random: &mut Random, exponent: i64) -> u64 {
    let fraction = random.word() & FRACTION;
    assemble(random, exponent, fraction)
}

/// A float whose fraction is, half of the time, one with long runs of zeros or ones.
pub fn float(random: &mut Random, exponent: i64) -> u64 {
    let word = random.word() & FRACTION;
    let kept = random.below(52);
    let fraction = match random.below(8) {
        0 => 0,
        1 => FRACTION,
        2 => word >> kept << kept,
        3 => word >> kept,
        _ => word,
    };
    assemble(random, exponent, fraction)
}

/// A float of a random sign, whose size is from the least to the most.
pub fn of_sizes(random: &mut Random, least: u64, most: u64) -> u64 {
    let size = least + random.below(most - least + 1);
    size | random.word() & SIGN
}

/// A float from lo to hi, evenly.
pub fn linear(random: &mut Random, lo: f64, hi: f64) -> u64 {
    let unit = random.below(1 << 53) as f64 / (1u64 << 53) as f64;
    (lo + (hi - lo) * unit).to_bits()
}

/// A whole number from -53 to 53.
pub fn whole(random: &mut Random) -> u64 {
    (random.between(-53, 53) as f64).to_bits()
}

/// A special value of either sign, or any pattern.
pub fn special(random: &mut Random) -> u64 {
    let word = random.word();
    match random.below(2) {
        0 => random.pick(&SPECIALS) | (word & SIGN),
        _ => word,
    }
}

/// A NaN of any kind.
pub fn nan(random: &mut Random) -> u64 {
    let kind = random.pick(&NAN_KINDS);
    nan_of(random, kind)
}

/// A NaN of a kind, whose payload is the least, the largest, one of a few low bits or any.
pub fn nan_of(random: &mut Random, kind: u64) -> u64 {
    let least = i64::from(kind & QUIET == 0);
    let largest = QUIET as i64 - 1;
    let most = random.pick(&[least, 255, largest]);
    let payload = match random.below(4) {
        0 => largest,
        _ => random.between(least, most),
    };
    kind | payload as u64
}

/// The pattern a few units in the last place from x.
pub fn beside(random: &mut Random, x: u64, most: i64) -> u64 {
    x.wrapping_add_signed(random.between(-most, most))
}
