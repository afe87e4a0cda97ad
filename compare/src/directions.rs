//! fused in each direction beside the machine's, on the same operands, and how many results are such that the directions part.

use ffi::Direction;

use crate::case::{Case, name_in};
use crate::cases::{directed_edges, directed_operands};
use crate::machine;
use crate::random::Random;
use crate::run::Compared;
use crate::tally::print_count;
use crate::values::{SIGN, SPECIALS, both_signs, parts};

type Three = (u64, u64, u64);

const LEAST: u64 = 1;
const LARGEST: u64 = 0x7fefffffffffffff;
const INFINITY: u64 = 0x7ff0000000000000;

/// What a refused call must leave.
const LEFT: u64 = 0x0123456789abcdef;

/// Operands for the direction bytes that are refused.
const REFUSED: [Three; 4] = [
    (0, 0, 0),
    (0x3ff8000000000000, 0x4000000000000000, 0xbff0000000000001),
    (0x7ff0000000000000, 0, 0x7ff8000000000001),
    (0xfff0000000000001, 0x7ff8000000000002, 0xfff0000000000003),
];

/// The least count of each kind and way among the edges, and among a million random operands.
const FLOOR_OF_EDGES: u64 = 300;
const FLOOR_OF_MILLION: u64 = 5000;

/// The kinds of results on which the directions part, and two ways of each. A zero sum has terms of unlike signs; the others end farther
/// from zero or nearer to it.
const KINDS: [(&str, [&str; 2]); 4] = [
    ("overflow", ["to an infinity", "to the largest finite"]),
    ("vanish", ["to the least subnormal", "to zero"]),
    ("tie", ["away from zero", "toward zero"]),
    ("zero sum", ["of nonzero terms", "of zeros"]),
];
const ZERO_SUM: usize = 3;

/// Runs the edges and so many million random operands in each direction, and the bytes of no direction; false where an answer differs, or
/// too few results of a kind came.
pub fn compare(millions: u64) -> bool {
    let mut random = Random::new(12);
    let specials = both_signs(&SPECIALS);
    let edges = directed_edges(&specials, &specials).into_iter();
    let others = (0..millions * 1_000_000).map(|_| directed_operands(&mut random));
    let mut seen = Direction::ALL.map(Seen::new);
    let mut without = Compared::default();
    for (a, b, c) in edges.chain(others) {
        let answers = Direction::ALL.map(|direction| machine::fused_in(direction, a, b, c));
        let kinds = kinds((a, b, c), answers);
        for (seen, answer) in seen.iter_mut().zip(answers) {
            let case = Case::FusedIn(seen.direction, a, b, c);
            seen.compared.compare(case, answer);
            seen.count(&kinds, answer);
        }
        // Direction 0 beside the call that takes none.
        let nearest = Case::FusedIn(Direction::Nearest, a, b, c);
        without.compare(Case::Fused(a, b, c), nearest.weigher());
    }
    let floor = FLOOR_OF_EDGES + FLOOR_OF_MILLION * millions;
    let good = seen.each_ref().map(|seen| seen.print(floor));
    let alike = without.print("fused beside fused_nearest");
    refused() && alike && good == [true; 4]
}

/// The bytes of no direction: each must be refused by 11, and leave the result as it was.
fn refused() -> bool {
    let mut calls = 0;
    let mut mismatches = 0;
    for byte in 4..=u8::MAX {
        for (a, b, c) in REFUSED {
            let mut result = LEFT;
            let number = ffi::fused_in(byte, a, b, c, &mut result);
            if (number, result) != (11, LEFT) {
                println!("fused in direction {byte}: number {number}, result {result:016x}");
                mismatches += 1;
            }
            calls += 1;
        }
    }
    println!("direction bytes from 4 to 255: {calls} cases, {mismatches} mismatches");
    mismatches == 0
}

/// Of which kinds a result is, the answer toward zero, and whether the addend is zero.
struct Kinds {
    is: [bool; KINDS.len()],
    toward_zero: u64,
    of_zeros: bool,
}

fn kinds((a, b, c): Three, [nearest, toward_zero, up, down]: [u64; 4]) -> Kinds {
    let overflows =
        size(toward_zero) == LARGEST && [nearest, up, down].map(size).contains(&INFINITY);
    let vanishes = size(toward_zero) == 0 && [up, down].map(size).contains(&LEAST);
    let is_tie = up != down && !overflows && is_tie(a, b, c);
    let is_zero_sum = up == 0 && down == SIGN;
    Kinds {
        is: [overflows, vanishes, is_tie, is_zero_sum],
        toward_zero,
        of_zeros: size(c) == 0,
    }
}

fn size(x: u64) -> u64 {
    x & !SIGN
}

/// What was compared in a direction, and how many results of each kind went each way.
struct Seen {
    direction: Direction,
    compared: Compared,
    counts: [[u64; 2]; KINDS.len()],
}

impl Seen {
    fn new(direction: Direction) -> Self {
        Seen {
            direction,
            compared: Compared::default(),
            counts: Default::default(),
        }
    }

    fn count(&mut self, kinds: &Kinds, answer: u64) {
        for (kind, counts) in self.counts.iter_mut().enumerate() {
            let second = match kind {
                ZERO_SUM => kinds.of_zeros,
                _ => answer == kinds.toward_zero,
            };
            counts[usize::from(second)] += u64::from(kinds.is[kind]);
        }
    }

    /// Prints the counts; false where there was a mismatch or a count is under the floor.
    fn print(&self, floor: u64) -> bool {
        let mut good = self.compared.print(name_in(self.direction));
        for (kind, (name, ways)) in KINDS.iter().enumerate() {
            for (way, count) in self.counts[kind].into_iter().enumerate() {
                // Nothing is rounded toward zero and ends farther from it.
                let comes = self.direction != Direction::TowardZero || kind == ZERO_SUM || way == 1;
                if comes {
                    good &= print_count(&format!("{name}, {}", ways[way]), count, floor);
                }
            }
        }
        good
    }
}

/// Whether the exact a * b + c, of finite numbers, is halfway between two floats.
fn is_tie(a: u64, b: u64, c: u64) -> bool {
    let [(a, first), (b, second), addend] = [a, b, c].map(odd_times_power);
    let Some((sum, exponent)) = sum((a * b, first + second), addend) else {
        return false;
    };
    let bits = i128::BITS - sum.unsigned_abs().leading_zeros();
    // The bits below the last place of the float: the highest of them is the sum's lowest.
    let lost = (bits as i32 - 53).max(-1074 - exponent);
    sum != 0 && sum.trailing_zeros() as i32 + 1 == lost
}

/// A finite float as an odd number and the exponent of a power of two; 0 for a zero.
fn odd_times_power(x: u64) -> (i128, i32) {
    let (significand, exponent) = parts(x);
    if significand == 0 {
        return (0, 0);
    }
    let zeros = significand.trailing_zeros();
    let odd = i128::from(significand >> zeros);
    let signed = if x & SIGN == 0 { odd } else { -odd };
    (signed, exponent + zeros as i32)
}

/// The sum of two such numbers, or none where their bits lie so far apart that it is no tie: it then has over 100 bits.
fn sum((m, e): (i128, i32), (n, f): (i128, i32)) -> Option<(i128, i32)> {
    if m == 0 || n == 0 {
        return Some(if m == 0 { (n, f) } else { (m, e) });
    }
    let low = e.min(f);
    Some((shifted(m, e - low)? + shifted(n, f - low)?, low))
}

fn shifted(m: i128, places: i32) -> Option<i128> {
    let free = m.unsigned_abs().leading_zeros() as i32;
    (places + 2 <= free).then(|| m << places)
}
