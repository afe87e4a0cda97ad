//! Scores the match weights of a few records and lists them by their scores, the greatest first. Equal scores keep the order of the list,
//! and a record whose weight could not be read comes last, with the reason and without a place. Then the same with exceptions of the user's
//! own, which part two records that had one score.

use std::cmp::Ordering;
use weigher::{Entry, Refusal, bits, constant, score, score_with};

const RECORDS: [(&str, f64); 11] = [
    ("baptism of Ann Pell, 1731", 1.0),
    ("baptism of Anne Pell, 1733", 1.0000000000000002),
    ("burial of Ann Pell, 1731", -1.5),
    ("marriage of Ann Pell, 1752", 12.25),
    ("baptism of Amy Bell, page torn", unreadable(3)),
    ("baptism of John Hull, 1731", -60.0),
    ("burial of Mary Cole, 1702", -54.0),
    ("marriage of A. Pell, 1750", 0.0),
    ("burial of Amy Bell, 1790", 1.3010426069826051e-18),
    ("burial of A. Bell, 1791", 1.3010426069826053e-18),
    ("baptism of Ann Ball, 1730", -8.673617379884035e-19),
];

/// A weight that could not be read: a NaN with the reason's number in its low bits.
const fn unreadable(reason: u64) -> f64 {
    f64::from_bits(bits::NAN | reason)
}

/// The score of such a weight has the same low bits, 51 of them.
fn reason(score: f64) -> u64 {
    score.to_bits() & 0x0007ffffffffffff
}

/// x, hi and lo, in the order of x. lo is more than half of a spacing, so that the scores are the floats behind hi.
const OWN_LIST: [[&str; 3]; 2] = [
    ["-0x1p-60", "-0x1.62e42fefa39efp-61", "-0x1.2p-114"],
    ["0x1.8p-60", "0x1.0a2b23f3bab73p-60", "0x1.2p-113"],
];

fn entry(texts: [&str; 3]) -> Result<Entry, Refusal> {
    let [x, hi, lo] = texts.map(|text| constant(text.as_bytes()));
    Ok(Entry {
        x: x?,
        hi: hi?,
        lo: lo?,
    })
}

fn main() -> Result<(), Refusal> {
    println!("By the built-in table:");
    rank(|weight| Ok(score(weight)))?;
    let list: Vec<Entry> = OWN_LIST.into_iter().map(entry).collect::<Result<_, _>>()?;
    println!("\nBy our own list:");
    rank(|weight| score_with(&list, weight))
}

fn rank(score: impl Fn(f64) -> Result<f64, Refusal>) -> Result<(), Refusal> {
    let mut scored = Vec::new();
    for (name, weight) in RECORDS {
        scored.push((name, score(weight)?));
    }
    // This sort keeps the order of equals.
    scored.sort_by(|(_, a), (_, b)| by_score(*a, *b));
    for (place, (name, score)) in (1..).zip(scored) {
        let pattern = score.to_bits();
        if score.is_nan() {
            println!(" - {pattern:016x}   reason {}  {name}", reason(score));
        } else {
            println!("{place:2} {pattern:016x} {score:10.3}  {name}");
        }
    }
    Ok(())
}

/// The greater score first, and a NaN behind all others.
fn by_score(a: f64, b: f64) -> Ordering {
    let missing = a.is_nan().cmp(&b.is_nan());
    missing.then(b.partial_cmp(&a).unwrap_or(Ordering::Equal))
}
