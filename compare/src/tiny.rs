//! How far the scores of step 5 are from the exact (LN2H + LN2L) x + C2 x x of request A.9, in units of a score's spacing. The distances are
//! computed with whole numbers alone.

use std::collections::BTreeSet;
use std::f64::consts::LOG2_E;

use ffi::weigher_score;

use crate::entries::of_step_5;
use crate::random::Random;
use crate::run::REACH;
use crate::rust;
use crate::score::{STEP_4, STEP_5, is_of_step_5};
use crate::tally::{Mismatches, print_count};
use crate::values::{FRACTION, SIGN, both_signs, of_sizes, parts};
use crate::wide::Wide;

const LN2H: u64 = 0x3fe62e42fefa39ef;
const LN2L: u64 = 0x3c7abc9e3b39803f;
const C2: u64 = 0x3fcebfbdff82c58f;

/// LN2H + LN2L in units of LN2L's last place.
const LN2: u128 =
    ((parts(LN2H).0 as u128) << (parts(LN2H).1 - parts(LN2L).1)) + parts(LN2L).0 as u128;

/// Binary places of a distance: the squares of the least weights have so many.
const PLACES: i32 = 211;

/// How many of the weights over 1/2 are printed, the farthest first.
const SHOWN: usize = 5;

/// Runs the table of 56, the ends of step 5, weights about the powers of two and so many million random ones; false where a score is too far
/// from the exact value, or where too few weights came.
pub fn compare(millions: u64) -> bool {
    let mut random = Random::new(18);
    let mut run = Run::default();
    if rust::INSTANCES.is_empty() {
        println!("the table of 56: not run, the Rust source was not there");
    } else {
        let table = rust::first_table().into_iter();
        let weights = table.map(|entry| entry.x.to_bits());
        run.group("the table of 56", [56, 1], weights);
    }
    run.group("the ends of step 5", [4004, 0], ends());
    run.group("about the powers of two", [954, 0], about_powers());
    run.few |= !print_smaller_gap();
    let quarter = millions * 250_000;
    let any = (0..2 * quarter).map(|_| of_step_5(&mut random));
    run.group("any of step 5", [2 * quarter, 0], any);
    let steps = steps();
    let ties = (0..quarter).map(|_| near_tie(&mut random, &steps));
    run.group("next to a tie", [quarter, millions.min(1)], ties);
    let large = (0..quarter).map(|_| of_sizes(&mut random, 0x3c90000000000000, STEP_5));
    run.group("from 2^-54 on", [quarter, 0], large);
    let count = millions * 100_000;
    let beyond = (0..count).map(|_| of_sizes(&mut random, STEP_5 + 1, 0x3cd0000000000000));
    let name = format!("beyond step 5, to 2^-50, {count} weights");
    run.group(&name, [0, 0], beyond);
    run.mismatches.print() && !run.few
}

#[derive(Default)]
struct Run {
    mismatches: Mismatches,
    /// Whether a count was under its floor.
    few: bool,
}

impl Run {
    /// Scores weights, and judges those of step 5 by the bound. The floors are of these, and of different ones over 1/2.
    fn group(&mut self, name: &str, floors: [u64; 2], weights: impl IntoIterator<Item = u64>) {
        let mut judged = 0;
        let mut over_half = BTreeSet::new();
        let mut farthest = None;
        for x in weights {
            let distance = distance(x);
            if distance.is_none_or(|distance| is_of_step_5(x) && bound() < distance) {
                let text = distance.map_or("of another sign or size".to_string(), text);
                let difference = format!("{x:016x}: score {:016x}, {text}", weigher_score(x));
                self.mismatches.report(difference);
            }
            judged += u64::from(is_of_step_5(x));
            over_half.extend(distance.filter(|distance| half() < *distance).zip(Some(x)));
            farthest = farthest.max(distance.zip(Some(x)));
        }
        println!("{name}:");
        self.few |= !print_count("judged", judged, floors[0]);
        let over = over_half.len() as u64;
        self.few |= !print_count("different weights over 1/2", over, floors[1]);
        for (distance, x) in over_half.iter().rev().take(SHOWN) {
            println!("    {x:016x}, {}", text(*distance));
        }
        if let Some((distance, x)) = farthest {
            println!("  farthest: {x:016x}, {}", text(distance));
        }
    }
}

fn half() -> Wide {
    Wide::product(1, 1).shifted(PLACES - 1)
}

/// 1/2 + 2^-40.
fn bound() -> Wide {
    half().plus(1, Wide::product(1, 1).shifted(PLACES - 40))
}

/// A distance as 1/2 and what it has more or less, as a power of two and exactly.
fn text(distance: Wide) -> String {
    let sign = if distance < half() { '-' } else { '+' };
    let rest = distance.apart(half());
    let exponent = rest.log2() - f64::from(PLACES);
    let digits = rest.hexadecimal();
    format!("1/2 {sign} 2^{exponent:.2}, {sign}0x{digits}p-{PLACES}")
}

/// The distance of the score of x from the exact value, in units of 2^-211 of the score's spacing. None where the score has another sign, or
/// an exponent that is neither that of x nor the one below.
fn distance(x: u64) -> Option<Wide> {
    let score = weigher_score(x);
    let [(m, e), (n, f), (c, d)] = [x, score, C2].map(parts);
    if (x ^ score) & SIGN != 0 || !(e - 1..=e).contains(&f) {
        return None;
    }
    let unit = f - PLACES;
    let linear = Wide::product(LN2, m).shifted(parts(LN2L).1 + e - unit);
    let square = Wide::product(u128::from(m) * u128::from(m), c).shifted(d + 2 * e - unit);
    let sign = if x & SIGN == 0 { 1 } else { -1 };
    let score = Wide::product(1, n).shifted(f - unit);
    Some(linear.plus(sign, square).apart(score))
}

/// The ends of step 5 with patterns inward.
fn ends() -> Vec<u64> {
    let inward = (0..=REACH as u64).flat_map(|step| [STEP_4 + 1 + step, STEP_5 - step]);
    both_signs(&inward.collect::<Vec<u64>>())
}

/// The patterns about 2^k / ln 2, the weight whose score is about 2^k, for each k of step 5.
fn about_powers() -> Vec<u64> {
    let steps = (-104..=-52).flat_map(|k| (-4..=4).map(move |step| (k << 52) + step));
    let sizes = steps.map(|step| LOG2_E.to_bits().wrapping_add_signed(step));
    both_signs(&sizes.collect::<Vec<u64>>())
}

/// Prints how many scores are powers of two, and how many of them break the bound by the gap to the next smaller float, which is half as wide
/// there; false where a power is missing, or none breaks it.
fn print_smaller_gap() -> bool {
    let mut weights = about_powers();
    weights.retain(|x| weigher_score(*x) & FRACTION == 0);
    let all = print_count("powers of two", weights.len() as u64, 106);
    weights.retain(|x| distance(*x).is_some_and(|distance| bound() < distance.shifted(1)));
    let name = "over the bound by the gap to the next smaller float";
    let some = print_count(name, weights.len() as u64, 1);
    if let Some(x) = weights.iter().min_by_key(|x| *x & !SIGN) {
        println!("  least: {x:016x}, score {:016x}", weigher_score(*x));
    }
    all && some
}

/// By these steps of a weight's pattern the exact value, without its square, moves by ever closer to a whole number of spacings: the
/// denominators of the convergents of LN2H + LN2L.
fn steps() -> Vec<u64> {
    let (mut a, mut b) = (1 << -parts(LN2L).1, LN2);
    let (mut before, mut step) = (0, 1);
    let mut steps = Vec::new();
    while step <= FRACTION {
        steps.push(step);
        (before, step) = (step, (a / b) as u64 * step + before);
        (a, b) = (b, a % b);
    }
    steps
}

/// A weight whose score is next to a tie: from any weight, by the first few of the steps or all, as long as the distance grows and is not
/// over the bound.
fn near_tie(random: &mut Random, steps: &[u64]) -> u64 {
    let bound = Some(bound());
    let measured = |x| (Some(x).filter(|x| is_of_step_5(*x)).and_then(distance), x);
    let mut farthest = measured(of_step_5(random));
    let last = random.below(steps.len() as u64) as usize;
    for step in &steps[..=last] {
        let beside = |x: u64| [x + step, x - step].into_iter().map(measured);
        while let Some(next) =
            beside(farthest.1).find(|next| farthest.0 <= bound && farthest < *next)
        {
            farthest = next;
        }
    }
    farthest.1
}
