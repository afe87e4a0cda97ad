//! The functions beside those of the standard library, on special values, on random patterns and on random values of moderate size.

use weigher::bits;

/// Zeros, the ends of the subnormals and normals, halves and ties, the last fractions and first whole numbers of 2^52, infinities and NaNs;
/// each with both signs.
const SIZES: [u64; 24] = [
    0x0000000000000000,
    0x0000000000000001,
    0x0000000000000002,
    0x000fffffffffffff,
    0x0010000000000000,
    0x0010000000000001,
    0x3ca0000000000000,
    0x3fdfffffffffffff,
    0x3fe0000000000000,
    0x3fe0000000000001,
    0x3ff0000000000000,
    0x3ff0000000000001,
    0x3ff8000000000000,
    0x4004000000000000,
    0x4024cccccccccccd,
    0x432fffffffffffff,
    0x4330000000000000,
    0x4330000000000001,
    0x4340000000000001,
    0x7fe0000000000000,
    0x7fefffffffffffff,
    0x7ff0000000000000,
    0x7ff0000000000001,
    0x7fffffffffffffff,
];

const RANDOM_CASES: usize = 100_000;

const SIGN: u64 = 1 << 63;

fn special_values() -> impl Iterator<Item = u64> + Clone {
    SIZES.into_iter().flat_map(|size| [size, size | SIGN])
}

/// The generator SplitMix64.
struct Random(u64);

impl Random {
    fn word(&mut self) -> u64 {
        self.0 = self.0.wrapping_add(0x9e3779b97f4a7c15);
        let mut z = self.0;
        z = (z ^ (z >> 30)).wrapping_mul(0xbf58476d1ce4e5b9);
        z = (z ^ (z >> 27)).wrapping_mul(0x94d049bb133111eb);
        z ^ (z >> 31)
    }

    fn between(&mut self, least: i32, most: i32) -> i32 {
        least + (self.word() % (most - least + 1) as u64) as i32
    }

    /// Any pattern, or a value of a size from 2^-60 to 2^60: sums of random patterns hardly ever depend on both operands.
    fn pattern(&mut self) -> u64 {
        let word = self.word();
        if word & 1 == 0 {
            return word;
        }
        let exponent = (1023 + self.between(-60, 60)) as u64;
        word & !(0x7ff << 52) | exponent << 52
    }
}

/// The pattern that a result of the standard library stands for. Its NaNs may have any payload, and ours are the first among the operands,
/// with the top fraction bit set, or the one of an invalid operation.
fn pattern(result: f64, operands: &[u64]) -> u64 {
    if !result.is_nan() {
        return result.to_bits();
    }
    match operands.iter().find(|x| f64::from_bits(**x).is_nan()) {
        Some(nan) => nan | 1 << 51,
        None => 0x7ff8000000000000,
    }
}

/// Compares a function of one operand, on patterns and on f64.
fn compare(ours: fn(u64) -> u64, on_f64: fn(f64) -> f64, theirs: fn(f64) -> f64) {
    let mut random = Random(1);
    let random = (0..RANDOM_CASES).map(|_| random.pattern());
    for bits in special_values().chain(random) {
        let x = f64::from_bits(bits);
        let expected = pattern(theirs(x), &[bits]);
        assert_eq!(ours(bits), expected, "{bits:016x}");
        assert_eq!(on_f64(x).to_bits(), expected, "{bits:016x}");
    }
}

#[test]
fn round_is_round_ties_even() {
    compare(bits::round, weigher::round, f64::round_ties_even);
}

#[test]
fn floor_is_floor() {
    compare(bits::floor, weigher::floor, f64::floor);
}

fn compare_fused(a: u64, b: u64, c: u64) {
    let [x, y, z] = [a, b, c].map(f64::from_bits);
    let expected = pattern(x.mul_add(y, z), &[a, b, c]);
    assert_eq!(bits::fused(a, b, c), expected, "{a:016x} {b:016x} {c:016x}");
    assert_eq!(
        weigher::fused(x, y, z).to_bits(),
        expected,
        "{a:016x} {b:016x} {c:016x}"
    );
}

fn for_each_triple(check: fn(u64, u64, u64)) {
    let values = special_values();
    for a in values.clone() {
        for b in values.clone() {
            values.clone().for_each(|c| check(a, b, c));
        }
    }
    let mut random = Random(2);
    for _ in 0..RANDOM_CASES {
        check(random.pattern(), random.pattern(), random.pattern());
    }
}

#[test]
fn fused_is_mul_add() {
    for_each_triple(compare_fused);
}

/// The place of a float among all of them. The two zeros have the same.
fn place(bits: u64) -> i64 {
    let size = (bits & !SIGN) as i64;
    if bits & SIGN == 0 { size } else { -size }
}

/// The standard library rounds to nearest alone. Down and up are the same float or neighbours, and nearest and toward zero are one of
/// them; for the sum of the other sign up and down change places.
fn compare_directions(a: u64, b: u64, c: u64) {
    let triple = format!("{a:016x} {b:016x} {c:016x}");
    let [nearest, toward_zero, up, down] = [0, 1, 2, 3].map(|direction| {
        let sum = bits::fused_in(direction, a, b, c);
        sum.expect("a known direction")
    });
    assert_eq!(nearest, bits::fused(a, b, c), "{triple}");
    if f64::from_bits(nearest).is_nan() {
        assert_eq!([toward_zero, up, down], [nearest; 3], "{triple}");
        return;
    }
    assert!((0..=1).contains(&(place(up) - place(down))), "{triple}");
    assert!(nearest == up || nearest == down, "{triple}");
    let inner = if down & SIGN == 0 { down } else { up };
    assert_eq!(toward_zero, inner, "{triple}");
    let turned = bits::fused_in(2, a ^ SIGN, b, c ^ SIGN);
    assert_eq!(turned, Ok(down ^ SIGN), "{triple}");
}

#[test]
fn directions_are_around_the_exact_sum() {
    for_each_triple(compare_directions);
}

/// x × 2^n for an n from -1074 to 1023, where 2^n is an f64: a product is rounded once.
fn times_power(x: f64, n: i32) -> f64 {
    let power = if n < -1022 {
        1 << (n + 1074)
    } else {
        ((n + 1023) as u64) << 52
    };
    x * f64::from_bits(power)
}

fn compare_scale(bits: u64, n: i32) {
    let x = f64::from_bits(bits);
    let expected = pattern(times_power(x, n), &[bits]);
    assert_eq!(bits::scale(bits, n), expected, "{bits:016x} {n}");
    assert_eq!(weigher::scale(x, n).to_bits(), expected, "{bits:016x} {n}");
}

#[test]
fn scale_is_a_product_by_a_power_of_two() {
    for bits in special_values() {
        (-1074..=1023).for_each(|n| compare_scale(bits, n));
    }
    let mut random = Random(3);
    for _ in 0..RANDOM_CASES {
        compare_scale(random.pattern(), random.between(-1074, 1023));
    }
}

/// No product of two f64 is x × 2^n there.
#[test]
fn scale_by_powers_that_are_no_f64() {
    assert_eq!(weigher::scale(f64::from_bits(1), 2097), 2f64.powi(1023));
    assert_eq!(weigher::scale(f64::from_bits(1), 2098), f64::INFINITY);
    assert_eq!(bits::scale(f64::MAX.to_bits(), -2098), 1);
    assert_eq!(bits::scale(2f64.powi(1023).to_bits(), -2098), 0);
    for n in [i32::MIN, -2099, 2099, i32::MAX] {
        let expected = if n < 0 { 0.0 } else { f64::INFINITY };
        assert_eq!(bits::scale(1, n), f64::to_bits(expected), "{n}");
        assert_eq!(bits::scale(1 | 1 << 63, n), f64::to_bits(-expected), "{n}");
        assert_eq!(bits::scale(0, n), 0, "{n}");
        assert_eq!(
            weigher::scale(f64::NEG_INFINITY, n),
            f64::NEG_INFINITY,
            "{n}"
        );
    }
}

/// The standard library has no exp2m1. Where x is a whole number from -53 to 53, 2^x - 1 is an f64, and so is exact here.
#[test]
fn score_of_whole_numbers() {
    for x in -53..=53 {
        let expected = times_power(1.0, x) - 1.0;
        assert_eq!(weigher::score(x.into()), expected, "{x}");
    }
}

/// e^y - 1 for y = x × ln 2 is near the score: y is off by at most 2^-52 of its size, and both functions by an ulp or so.
#[test]
fn score_is_near_exp_m1() {
    let mut random = Random(4);
    let weights = (0..RANDOM_CASES)
        .map(|_| f64::from_bits(random.pattern()))
        .filter(|x| (1e-300..50.0).contains(&x.abs()));
    for x in weights {
        let score = weigher::score(x);
        let near = (x * std::f64::consts::LN_2).exp_m1();
        assert!((score - near).abs() <= near.abs() * 2e-14, "{x}");
    }
}

#[test]
fn score_of_special_values() {
    assert_eq!(bits::score(0), 0);
    assert_eq!(bits::score(1 << 63), 1 << 63);
    assert_eq!(weigher::score(f64::INFINITY), f64::INFINITY);
    assert_eq!(weigher::score(f64::NEG_INFINITY), -1.0);
    assert_eq!(weigher::score(1024.0), f64::INFINITY);
    assert!(weigher::score(f64::from_bits(1024f64.to_bits() - 1)).is_finite());
    assert_eq!(weigher::score(-54.0), -1.0);
}
