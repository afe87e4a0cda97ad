//! Times the weigher's operations beside the machine's, musl's and the Rust exp2m1, its score with a list and screening beside plain loops, and
//! its reader of constants beside C's.
//!
//! Each is called through a function pointer that the compiler does not see through, on the same operands, in turn.

use std::ffi::{CStr, CString};
use std::hint::black_box;
use std::time::Instant;

use ffi::{Direction, Entry};

use crate::entries;
use crate::listed::{self, MOST};
use crate::random::Random;
use crate::rust;
use crate::screen;
use crate::service::FLOAT;
use crate::values::{linear, uniform, whole};

/// So many that no branch predictor learns them: with 4,096 of them musl's branches were foreseen in part, and it took 17 ns and not 21.
const OPERANDS: usize = 65536;
const ROUNDS: usize = 300;

/// Calls of the machine's fma for which a direction is set once.
const BATCH: usize = 1024;

/// Weights whose calls of fma are timed.
const WEIGHTS: usize = 4096;

/// Weights of a long payload that is screened: 64 MB.
const SCREENED: usize = 8 << 20;

/// Rounds of the score, of constants and of screening, each of which takes longer.
const FEW_ROUNDS: usize = 60;

type Three = (u64, u64, u64);

/// A way to compute an operation: its name, and the calls of a round.
type Way<T> = (&'static str, Box<dyn Fn(&[T]) -> u64>);

pub fn run() {
    let random = &mut Random::new(3);
    let ways = fused_ways("weigher", ffi::weigher_fused);
    let operands = prepare(|| three(random, -40, 40));
    time("fused, exponents from -40 to 40", &operands, &ways);
    let operands = prepare(|| three(random, -1022, 1023));
    time("fused, exponents of all normals", &operands, &ways);
    if cfg!(not(musl_fma)) {
        println!("musl's fma: not installed");
    }
    fused_up(random);
    score_calls(random);

    let operands = prepare(|| one(random, -2, 54));
    let ways = ways_of_one(ffi::weigher_round, &[("machine", f64::round_ties_even)]);
    time("round, exponents from -2 to 54", &operands, &ways);
    let ways = ways_of_one(ffi::weigher_floor, &[("machine", f64::floor)]);
    time("floor, exponents from -2 to 54", &operands, &ways);

    let operands = prepare(|| (one(random, -40, 40), random.between(-100, 100) as i32));
    time("scale, n from -100 to 100", &operands, &scale_ways());
    score(random);
    score_with(random);
    constants(random);
    screening(random);
}

/// fused in a direction. The machine's mode is set once for many calls.
fn fused_up(random: &mut Random) {
    let weigher = black_box(ffi::fused_in as fn(u8, u64, u64, u64, &mut u64) -> u8);
    let machine = black_box(ffi::fmas_in as fn(Direction, &[[f64; 3]], &mut [f64]));
    let ways: [Way<[f64; 3]>; 2] = [
        way("weigher", move |operands: &[f64; 3]| {
            let [a, b, c] = operands.map(f64::to_bits);
            let mut result = 0;
            weigher(Direction::Up as u8, a, b, c, &mut result);
            result
        }),
        (
            "machine",
            Box::new(move |operands| {
                let mut results = [0.0; BATCH];
                for batch in operands.chunks(BATCH) {
                    machine(Direction::Up, batch, &mut results);
                }
                results[0].to_bits()
            }),
        ),
    ];
    let operands = prepare(|| {
        let (a, b, c) = three(random, -40, 40);
        [a, b, c].map(f64::from_bits)
    });
    time("fused up, exponents from -40 to 40", &operands, &ways);
}

/// fma as the score calls it, on the operands of the Rust exp2m1's own calls.
fn score_calls(random: &mut Random) {
    let ways = fused_ways("fast_fused", ffi::fast_fused);
    let weights = std::iter::repeat_with(|| linear(random, -50.0, 50.0)).take(WEIGHTS);
    let operands = rust::fma_calls(weights);
    time("fma as a score of -50 to 50 calls it", &operands, &ways);
    let weights = std::iter::repeat_with(|| one(random, -60, -4)).take(WEIGHTS);
    let operands = rust::fma_calls(weights);
    time("fma as a score of 2^-60 to 2^-3 calls it", &operands, &ways);
}

fn score(random: &mut Random) {
    let ways = ways_of_one(ffi::weigher_score, rust::INSTANCES);
    let operands = prepare(|| linear(random, -50.0, 50.0));
    let title = "score, weights from -50 to 50";
    time_rounds(FEW_ROUNDS, title, &operands, &ways);
    let operands = prepare(|| one(random, -60, -4));
    let title = "score, sizes from 2^-60 to 2^-3";
    time_rounds(FEW_ROUNDS, title, &operands, &ways);
    let operands = prepare(|| whole(random));
    let title = "score, whole weights from -53 to 53";
    time_rounds(FEW_ROUNDS, title, &operands, &ways);
    if rust::INSTANCES.is_empty() {
        println!("the Rust exp2m1: its source was not there");
    }
}

/// The score with a list, which is checked at each call.
fn score_with(random: &mut Random) {
    let operands = prepare(|| entries::of_step_5(random));
    let lists = [
        ("score with the 56 lent, step 5", rust::first_table()),
        (
            "score with 256 entries lent, step 5",
            entries::good(random, MOST, entries::of_step_5),
        ),
    ];
    for (title, list) in lists {
        // The 56 are read from the source.
        if list.is_empty() {
            continue;
        }
        let plain = black_box(listed::score_with as fn(&[Entry], u64) -> listed::Reply);
        let ways = [
            way_with(list.clone()),
            way("plain loops", move |&x| plain(&list, x).unwrap_or(0)),
            way_without(),
        ];
        time_rounds(FEW_ROUNDS, title, &operands, &ways);
    }
    let operands = prepare(|| linear(random, -50.0, 50.0));
    let title = "score with an empty list, weights from -50 to 50";
    let ways = [way_with(Vec::new()), way_without()];
    time_rounds(FEW_ROUNDS, title, &operands, &ways);
}

fn way_with(list: Vec<Entry>) -> Way<u64> {
    let weigher = black_box(ffi::score_with as fn(&[Entry], u64, &mut u64) -> u8);
    way("weigher", move |&x| {
        let mut score = 0;
        weigher(&list, x, &mut score);
        score
    })
}

fn way_without() -> Way<u64> {
    let weigher = black_box(ffi::weigher_score as extern "C" fn(u64) -> u64);
    way("weigher, no list", move |&x| weigher(x))
}

/// Floats as C writes them by %a.
fn constants(random: &mut Random) {
    let weigher = black_box(ffi::constant as fn(&[u8], &mut u64) -> u8);
    let machine = black_box(ffi::read_float as fn(&CStr) -> (f64, usize));
    let ways = [
        way("weigher", move |text: &CString| {
            let mut result = 0;
            weigher(text.as_bytes(), &mut result);
            result
        }),
        way("strtod", move |text: &CString| machine(text).0.to_bits()),
    ];
    let operands = prepare(|| {
        let text = ffi::written_float(f64::from_bits(one(random, -1022, 1023)));
        CString::new(text).expect("no 0 in it")
    });
    let title = "constant, texts of about 22 bytes";
    time_rounds(FEW_ROUNDS, title, &operands, &ways);
}

/// A payload without a NaN, which is read to its end.
fn screening(random: &mut Random) {
    let weigher = black_box(ffi::screening as fn(&[u8]) -> ffi::Screened);
    let plain = black_box(screen::screening as fn(&[u8]) -> screen::Reply);
    let ways: [Way<[u8; FLOAT]>; 2] = [
        (
            "weigher",
            Box::new(move |weights| weigher(weights.as_flattened()).number as u64),
        ),
        (
            "plain loop",
            Box::new(move |weights| plain(weights.as_flattened()).1 as u64),
        ),
    ];
    let weight = || linear(random, -50.0, 50.0).to_be_bytes();
    let weights: Vec<_> = std::iter::repeat_with(weight).take(SCREENED).collect();
    let title = "screening, a weight of 64 MB without a NaN";
    time_rounds(FEW_ROUNDS, title, &weights, &ways);
}

fn prepare<T>(operand: impl FnMut() -> T) -> Vec<T> {
    std::iter::repeat_with(operand).take(OPERANDS).collect()
}

fn one(random: &mut Random, lo: i64, hi: i64) -> u64 {
    let exponent = random.between(lo, hi);
    uniform(random, exponent)
}

fn three(random: &mut Random, lo: i64, hi: i64) -> Three {
    let mut operand = || one(random, lo, hi);
    (operand(), operand(), operand())
}

fn way<T>(name: &'static str, call: impl Fn(&T) -> u64 + 'static) -> Way<T> {
    let round = move |operands: &[T]| operands.iter().fold(0, |all, x| all ^ call(x));
    (name, Box::new(round))
}

fn fused_ways(name: &'static str, weigher: extern "C" fn(u64, u64, u64) -> u64) -> Vec<Way<Three>> {
    let weigher = black_box(weigher);
    let machine = black_box(f64::mul_add as fn(f64, f64, f64) -> f64);
    vec![
        way(name, move |&(a, b, c)| weigher(a, b, c)),
        way("machine", move |&(a, b, c)| {
            machine(f64::from_bits(a), f64::from_bits(b), f64::from_bits(c)).to_bits()
        }),
        #[cfg(musl_fma)]
        musl_way(),
    ]
}

#[cfg(musl_fma)]
fn musl_way() -> Way<Three> {
    let musl = black_box(ffi::musl_fma as extern "C" fn(f64, f64, f64) -> f64);
    way("musl", move |&(a, b, c)| {
        musl(f64::from_bits(a), f64::from_bits(b), f64::from_bits(c)).to_bits()
    })
}

fn ways_of_one(
    weigher: extern "C" fn(u64) -> u64,
    others: &[(&'static str, fn(f64) -> f64)],
) -> Vec<Way<u64>> {
    let weigher = black_box(weigher);
    let mut ways = vec![way("weigher", move |&x| weigher(x))];
    ways.extend(others.iter().map(|&(name, other)| {
        let other = black_box(other);
        way(name, move |&x| other(f64::from_bits(x)).to_bits())
    }));
    ways
}

fn scale_ways() -> [Way<(u64, i32)>; 2] {
    let weigher = black_box(ffi::weigher_scale as extern "C" fn(u64, i32) -> u64);
    let machine = black_box(ffi::ldexp as extern "C" fn(f64, i32) -> f64);
    [
        way("weigher", move |&(x, n)| weigher(x, n)),
        way("machine", move |&(x, n)| {
            machine(f64::from_bits(x), n).to_bits()
        }),
    ]
}

fn time<T>(title: &str, operands: &[T], ways: &[Way<T>]) {
    time_rounds(ROUNDS, title, operands, ways);
}

/// Prints the least time of a call in any round for each way, and the ratio of the first way's to each other's.
fn time_rounds<T>(rounds: usize, title: &str, operands: &[T], ways: &[Way<T>]) {
    if operands.is_empty() {
        return;
    }
    let mut least = vec![f64::INFINITY; ways.len()];
    for _ in 0..rounds {
        for ((_, round), least) in ways.iter().zip(&mut least) {
            let start = Instant::now();
            black_box(round(black_box(operands)));
            *least = least.min(start.elapsed().as_secs_f64() * 1e9 / operands.len() as f64);
        }
    }
    println!("{title}");
    println!("  {:23} {:7.2} ns", ways[0].0, least[0]);
    for ((name, _), ns) in ways.iter().zip(&least).skip(1) {
        let ratio = least[0] / ns;
        println!("  {name:23} {ns:7.2} ns, {} / this {ratio:.2}", ways[0].0);
    }
}
