//! Sums in the four directions, on values whose results are plain to see, and the bytes that are no direction.

use weigher::{Direction, Refusal, bits, fused_in};

const DIRECTIONS: [Direction; 4] = [
    Direction::Nearest,
    Direction::TowardZero,
    Direction::Up,
    Direction::Down,
];

/// 2^-1074, 2^-53, the float nearest to 1/3, half of the largest float's spacing, and half of that.
const LEAST: u64 = 0x0000000000000001;
const TIE: u64 = 0x3ca0000000000000;
const THIRD: u64 = 0x3fd5555555555555;
const HALF_STEP: u64 = 0x7c90000000000000;
const QUARTER_STEP: u64 = 0x7c80000000000000;

const HALF: u64 = 0x3fe0000000000000;
const BELOW_ONE: u64 = 0x3fefffffffffffff;
const ONE: u64 = 0x3ff0000000000000;
const ABOVE_ONE: u64 = 0x3ff0000000000001;
const TWO: u64 = 0x4000000000000000;
const THREE: u64 = 0x4008000000000000;
const SEVEN: u64 = 0x401c000000000000;
const LARGEST: u64 = 0x7fefffffffffffff;
const INFINITY: u64 = 0x7ff0000000000000;

const fn minus(x: u64) -> u64 {
    x ^ 1 << 63
}

/// a × b + c in the order of `DIRECTIONS`, as patterns and as floats.
fn check([a, b, c]: [u64; 3], sums: [u64; 4]) {
    assert_eq!(bits::fused(a, b, c), sums[0], "{a:016x} {b:016x} {c:016x}");
    for (direction, sum) in DIRECTIONS.into_iter().zip(sums) {
        let [x, y, z] = [a, b, c].map(f64::from_bits);
        assert_eq!(
            bits::fused_in(direction.byte(), a, b, c),
            Ok(sum),
            "{direction:?} {a:016x} {b:016x} {c:016x}"
        );
        assert_eq!(
            fused_in(direction, x, y, z).to_bits(),
            sum,
            "{direction:?} {x} {y} {z}"
        );
    }
}

/// This sum, and the one of the other sign: up and down change places. For sums that are not exactly zero, and no NaN.
fn check_both([a, b, c]: [u64; 3], [nearest, toward_zero, up, down]: [u64; 4]) {
    check([a, b, c], [nearest, toward_zero, up, down]);
    check(
        [minus(a), b, minus(c)],
        [nearest, toward_zero, down, up].map(minus),
    );
}

#[test]
fn bytes_and_directions() {
    for byte in 0..=u8::MAX {
        let direction = Direction::from_byte(byte);
        assert_eq!(
            direction,
            DIRECTIONS.get(usize::from(byte)).copied(),
            "{byte}"
        );
        assert!(direction.is_none_or(|direction| direction.byte() == byte));
    }
}

#[test]
fn every_other_byte_is_refused() {
    for byte in 4..=u8::MAX {
        for [a, b, c] in [[ONE, ONE, ONE], [0, INFINITY, bits::NAN]] {
            let refused = Err(Refusal::BadDirection);
            assert_eq!(bits::fused_in(byte, a, b, c), refused, "{byte}");
        }
    }
}

#[test]
fn between_two_floats() {
    let (low, high) = (0x3ff1c71c71c71c71, 0x3ff1c71c71c71c72);
    check_both([THIRD, THIRD, ONE], [high, low, high, low]);
    let (low, high) = (0x3fec71c71c71c71c, 0x3fec71c71c71c71d);
    check_both([minus(THIRD), THIRD, ONE], [high, low, high, low]);
}

#[test]
fn exact_sums() {
    check_both([TWO, THREE, ONE], [SEVEN; 4]);
    check_both([LARGEST, TWO, minus(LARGEST)], [LARGEST; 4]);
    check_both([LEAST, TWO, LEAST], [3; 4]);
}

#[test]
fn ties() {
    check_both([TIE, ONE, ONE], [ONE, ONE, ABOVE_ONE, ONE]);
    let even = ABOVE_ONE + 1;
    check_both([TIE, ONE, ABOVE_ONE], [even, ABOVE_ONE, even, ABOVE_ONE]);
}

#[test]
fn overflow() {
    let beyond = [INFINITY, LARGEST, INFINITY, LARGEST];
    check_both([LARGEST, TWO, 0], beyond);
    check_both([LARGEST, LARGEST, LARGEST], beyond);
    check_both([LARGEST, ONE, HALF_STEP], beyond);
    let nearer = [LARGEST, LARGEST, INFINITY, LARGEST];
    check_both([LARGEST, ONE, QUARTER_STEP], nearer);
}

/// Products below the least float, alone and beside a number that they move by less than a spacing.
#[test]
fn vanishing_products() {
    let vanished = [0, 0, LEAST, 0];
    check_both([LEAST, HALF, 0], vanished);
    check_both([LEAST, LEAST, 0], vanished);
    check_both([LEAST, LEAST, ONE], [ONE, ONE, ABOVE_ONE, ONE]);
    let below = [ONE, BELOW_ONE, ONE, BELOW_ONE];
    check_both([minus(LEAST), LEAST, ONE], below);
}

#[test]
fn the_largest_subnormal() {
    let (subnormal, normal) = (0x000fffffffffffff, 0x0010000000000000);
    check_both(
        [LEAST, HALF, subnormal],
        [normal, subnormal, normal, subnormal],
    );
}

/// -0 for down and +0 for the others where the signs are unlike; else the sign of both.
#[test]
fn exact_zero_sums() {
    let zero = [0, 0, 0, minus(0)];
    check([ONE, ONE, minus(ONE)], zero);
    check([minus(ONE), ONE, ONE], zero);
    check([LEAST, ONE, minus(LEAST)], zero);
    check([0, ONE, minus(0)], zero);
    check([minus(0), ONE, 0], zero);
    check([0, ONE, 0], [0; 4]);
    check([minus(0), ONE, minus(0)], [minus(0); 4]);
    check([minus(0), minus(ONE), 0], [0; 4]);
}

#[test]
fn infinities_and_nans() {
    check_both([INFINITY, ONE, 0], [INFINITY; 4]);
    check_both([ONE, ONE, INFINITY], [INFINITY; 4]);
    check_both([INFINITY, TWO, LARGEST], [INFINITY; 4]);
    check([INFINITY, ONE, minus(INFINITY)], [bits::NAN; 4]);
    check([0, INFINITY, ONE], [bits::NAN; 4]);
    check([0, INFINITY, 0xfff8000000000007], [0xfff8000000000007; 4]);
    check([ONE, ONE, 0x7ff0000000000001], [0x7ff8000000000001; 4]);
}
