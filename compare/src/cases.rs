//! The cases of each operation: edges, and random ones of several kinds.

use crate::case::Case;
use crate::random::Random;
use crate::values::{FRACTION, SIGN, assemble, beside, both_signs, float, special};

/// How the cases of an operation are made.
pub struct Operation {
    pub name: &'static str,
    /// The fixed cases, over a table of special values.
    pub edges: fn(&[u64]) -> Vec<Case>,
    pub random: fn(&mut Random) -> Case,
}

pub const FUSED: Operation = Operation {
    name: "fused",
    edges: |specials| fused_edges(specials).map(Case::fused).collect(),
    random: |random| Case::fused(fused_operands(random)),
};

pub const FAST_FUSED: Operation = Operation {
    name: "fast_fused",
    edges: |specials| fused_edges(specials).map(Case::fast_fused).collect(),
    random: |random| Case::fast_fused(fused_operands(random)),
};

pub const ROUND: Operation = Operation {
    name: "round",
    edges: |specials| whole_edges(specials).map(Case::Round).collect(),
    random: |random| Case::Round(whole_operand(random)),
};

pub const FLOOR: Operation = Operation {
    name: "floor",
    edges: |specials| whole_edges(specials).map(Case::Floor).collect(),
    random: |random| Case::Floor(whole_operand(random)),
};

pub const SCALE: Operation = Operation {
    name: "scale",
    edges: scale_edges,
    random: |random| {
        let (x, n) = scale_operands(random);
        Case::Scale(x, n)
    },
};

/// Products and addends, as patterns, that are tried with every choice of signs.
const SUMS: [(u64, u64, u64); 9] = [
    // Zeros, or doubles, by the signs alone.
    (0, 0x3ff0000000000000, 0),
    (0x3ff8000000000000, 0x4000000000000000, 0x4008000000000000),
    (0x3ff0000000000000, 1, 1),
    (0x1e60000000000000, 0x1e60000000000000, 1),
    (0x7fefffffffffffff, 0x3ff0000000000000, 0x7fefffffffffffff),
    // (1 + 2^-52)^2 and 1 + 2^-51: all but 2^-104 cancels.
    (0x3ff0000000000001, 0x3ff0000000000001, 0x3ff0000000000002),
    // A tie of subnormals.
    (1, 0x3fe0000000000000, 1),
    // The largest finite and half a unit in its last place, a tie that overflows, and a little less.
    (0x7fefffffffffffff, 0x3ff0000000000000, 0x7c90000000000000),
    (0x7fefffffffffffff, 0x3ff0000000000000, 0x7c8fffffffffffff),
];

/// More of them, on which the directions part.
const DIRECTED_SUMS: [(u64, u64, u64); 7] = [
    // A quarter, half and three quarters of the least subnormal.
    (1, 0x3fd0000000000000, 0),
    (1, 0x3fe0000000000000, 0),
    (1, 0x3fe8000000000000, 0),
    // Far less than it, and one with that little beside it.
    (1, 1, 0),
    (1, 1, 0x3ff0000000000000),
    // Half a unit above the largest subnormal, and the least number above the largest finite.
    (1, 0x3fe0000000000000, 0x000fffffffffffff),
    (0x7fefffffffffffff, 0x3ff0000000000000, 1),
];

/// Every three of the special values, and the sums for fused.
fn fused_edges(specials: &[u64]) -> impl Iterator<Item = (u64, u64, u64)> {
    let specials = both_signs(specials);
    let mut edges = crossed(&specials, &specials);
    edges.extend(with_signs(&SUMS));
    edges.into_iter()
}

/// Every one of the first values with every two of the others, and all sums.
pub fn directed_edges(first: &[u64], others: &[u64]) -> Vec<(u64, u64, u64)> {
    let mut edges = crossed(first, others);
    edges.extend(with_signs(&SUMS));
    edges.extend(with_signs(&DIRECTED_SUMS));
    edges
}

fn crossed(first: &[u64], others: &[u64]) -> Vec<(u64, u64, u64)> {
    let mut edges = Vec::new();
    for &a in first {
        for &b in others {
            edges.extend(others.iter().map(|&c| (a, b, c)));
        }
    }
    edges
}

fn with_signs(sums: &[(u64, u64, u64)]) -> Vec<(u64, u64, u64)> {
    let mut edges = Vec::new();
    for &(a, b, c) in sums {
        for signs in 0..8 {
            let signed = |x: u64, place: u32| x | (signs >> place & 1) << 63;
            edges.push((signed(a, 0), signed(b, 1), signed(c, 2)));
        }
    }
    edges
}

/// Operands for each direction: those of fused, and more whose result vanishes, is zero, or is beyond the largest finite by little.
pub fn directed_operands(random: &mut Random) -> (u64, u64, u64) {
    match random.below(12) {
        0 => vanishing(random),
        1 => zero_sum(random),
        2 => past_largest(random),
        _ => fused_operands(random),
    }
}

/// A product at the least subnormals or anywhere below, half of the time of few bits, and a zero or the least subnormal.
fn vanishing(random: &mut Random) -> (u64, u64, u64) {
    let near = random.between(-1080, -1060);
    let far = random.between(-2148, -1074);
    let exponent = random.pick(&[near, far]);
    let (first, second) = split(random, exponent);
    let addend = random.pick(&[0, 0, 1]) | random.word() & SIGN;
    if random.below(2) == 0 {
        return (float(random, first), float(random, second), addend);
    }
    let few = random.below(32) << 47;
    (
        assemble(random, first, few),
        assemble(random, second, 0),
        addend,
    )
}

/// Factors of 26 bits, one of them zero in a quarter of the cases, and their product with the other sign.
fn zero_sum(random: &mut Random) -> (u64, u64, u64) {
    let exponent = random.between(-960, 1020);
    let (first, second) = split(random, exponent);
    let mut bits = || random.below(1 << 25) << 27;
    let (f, g) = (bits(), bits());
    let (mut a, b) = (assemble(random, first, f), assemble(random, second, g));
    if random.below(4) == 0 {
        a &= SIGN;
    }
    let product = f64::from_bits(a) * f64::from_bits(b);
    (a, b, (-product).to_bits())
}

/// The largest finite as a product, and an addend of up to four units in its last place.
fn past_largest(random: &mut Random) -> (u64, u64, u64) {
    let first = random.between(0, 1023);
    let addend = random.between(900, 972);
    (
        assemble(random, first, FRACTION),
        assemble(random, 1023 - first, 0),
        float(random, addend),
    )
}

pub fn fused_operands(random: &mut Random) -> (u64, u64, u64) {
    match random.below(8) {
        0 => (random.word(), random.word(), random.word()),
        1 => near_one(random),
        2 => product_and_addend(random, -900, 900),
        3 => cancelling(random),
        4 => product_and_addend(random, -1085, -1015),
        5 => product_and_addend(random, 1020, 1025),
        6 => tie(random),
        _ => (special(random), special(random), special(random)),
    }
}

fn near_one(random: &mut Random) -> (u64, u64, u64) {
    let mut near = || {
        let exponent = random.between(-40, 40);
        float(random, exponent)
    };
    (near(), near(), near())
}

/// Exponents of two factors whose sum is a given one.
fn split(random: &mut Random, sum: i64) -> (i64, i64) {
    let first = random.between((sum - 1023).max(-1074), (sum + 1074).min(1023));
    (first, sum - first)
}

/// A product of an exponent from lo to hi, and an addend that overlaps it or nearly does.
fn product_and_addend(random: &mut Random, lo: i64, hi: i64) -> (u64, u64, u64) {
    let exponent = random.between(lo, hi);
    let (first, second) = split(random, exponent);
    let addend = exponent + random.between(-110, 110);
    (
        float(random, first),
        float(random, second),
        float(random, addend),
    )
}

/// An addend within a few units in the last place of the product, of the other sign.
fn cancelling(random: &mut Random) -> (u64, u64, u64) {
    let exponent = random.between(-1080, 1022);
    let (first, second) = split(random, exponent);
    let (a, b) = (float(random, first), float(random, second));
    let product = f64::from_bits(a) * f64::from_bits(b);
    (a, b, beside(random, (-product).to_bits(), 4))
}

/// A product at a tie, with nothing, little or half a unit added; a unit beside a tie it is no tie.
fn tie(random: &mut Random) -> (u64, u64, u64) {
    let exponent = random.between(-1000, 1000);
    let (first, second) = split(random, exponent);
    if random.below(2) == 0 {
        let half = assemble(random, exponent - 53, 0);
        return (
            float(random, first),
            assemble(random, second, 0),
            beside(random, half, 1),
        );
    }
    // Odd factors of 27 bits: their product has 53 bits, or 54 and is a tie.
    let mut odd = || (random.below(1 << 26) | 1) << 26;
    let (f, g) = (odd(), odd());
    let addend = match random.below(2) {
        0 => random.word() & SIGN,
        _ => {
            let below = random.between(54, 250);
            float(random, exponent - below)
        }
    };
    (
        assemble(random, first, f),
        assemble(random, second, g),
        addend,
    )
}

/// The special values, and the halves from 0.5 on with their neighbours.
fn whole_edges(specials: &[u64]) -> impl Iterator<Item = u64> {
    let small = (0..20).map(f64::from);
    let large = (5..53).map(|k| (1u64 << k) as f64);
    let halves = small
        .chain(large)
        .map(|n| (n + 0.5).to_bits())
        .flat_map(|x| [x - 1, x, x + 1]);
    let patterns: Vec<u64> = specials.iter().copied().chain(halves).collect();
    both_signs(&patterns).into_iter()
}

fn whole_operand(random: &mut Random) -> u64 {
    match random.below(4) {
        0 => random.word(),
        1 => {
            let exponent = random.between(-3, 55);
            float(random, exponent)
        }
        2 => {
            let whole = random.word() >> random.between(11, 63);
            let half = (whole as f64 + 0.5).to_bits() | (random.word() & SIGN);
            beside(random, half, 1)
        }
        _ => special(random),
    }
}

/// Exponents at which results become subnormal, vanish or overflow, and the ends of the type.
const STEPS: [i32; 46] = [
    i32::MIN,
    i32::MIN + 1,
    -100000,
    -2200,
    -2100,
    -2099,
    -2098,
    -2097,
    -2047,
    -2046,
    -2045,
    -1127,
    -1126,
    -1076,
    -1075,
    -1074,
    -1073,
    -1025,
    -1024,
    -1023,
    -1022,
    -1021,
    -54,
    -53,
    -52,
    -1,
    0,
    1,
    52,
    53,
    54,
    1021,
    1022,
    1023,
    1024,
    1074,
    1075,
    2045,
    2046,
    2097,
    2098,
    2099,
    2200,
    100000,
    i32::MAX - 1,
    i32::MAX,
];

fn scale_edges(specials: &[u64]) -> Vec<Case> {
    both_signs(specials)
        .into_iter()
        .flat_map(|x| STEPS.map(|n| Case::Scale(x, n)))
        .collect()
}

fn scale_operands(random: &mut Random) -> (u64, i32) {
    match random.below(6) {
        0 => (random.word(), random.word() as i32),
        1 => (random.word(), random.between(-2200, 2200) as i32),
        2 => to_subnormal(random),
        3 => {
            let exponent = random.between(-1074, 1023);
            let n = 1023 - exponent + random.between(-2, 2);
            (float(random, exponent), n as i32)
        }
        4 => {
            let exponent = random.between(-1074, -1023);
            (float(random, exponent), random.between(-60, 2200) as i32)
        }
        _ => (special(random), random.pick(&STEPS)),
    }
}

/// A result that loses 1 to 55 bits, half of the time at a tie or a unit beside one.
fn to_subnormal(random: &mut Random) -> (u64, i32) {
    let exponent = random.between(-1022, 1023);
    let lost = random.between(1, 55);
    let x = float(random, exponent);
    let n = (-1022 - exponent - lost) as i32;
    if lost > 52 || random.below(2) == 0 {
        return (x, n);
    }
    let half = (x >> lost << lost) | 1 << (lost - 1);
    (beside(random, half, 1), n)
}
