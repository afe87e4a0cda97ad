//! payload and screening, on bodies and payloads of 0 to 600 bytes.

use std::ptr;

use crate::calls::hexadecimal;
use crate::random::Random;
use crate::score;
use crate::screen;
use crate::service::{self, FLOAT};
use crate::tally::{Mismatches, Tally};
use crate::values::{INFINITIES, nan};

const LONGEST: usize = 600;

/// Runs so many thousand bodies and payloads; false where a reply is wrong or an outcome never came.
pub fn compare(thousands: u64) -> bool {
    let mut random = Random::new(9);
    let mut mismatches = Mismatches::default();
    let mut bodies = Tally::new("payload, by the body", "under 2 bytes|2 bytes|longer");
    let mut payloads = Tally::new(
        "screening",
        "5, empty|5, no multiple of 8|none|the only NaN, first|the only NaN, last|the only NaN, between|the first of several|every weight",
    );
    for _ in 0..thousands * 1000 {
        compare_payload(&any_body(&mut random), &mut bodies, &mut mismatches);
        compare_screening(&any_payload(&mut random), &mut payloads, &mut mismatches);
    }
    let reached = [&bodies, &payloads].map(Tally::print);
    mismatches.print() && reached == [true; 2]
}

/// Half of the bodies are short.
fn any_body(random: &mut Random) -> Vec<u8> {
    let longest = random.pick(&[4, LONGEST]);
    let length = random.below(longest as u64 + 1);
    (0..length).map(|_| random.word() as u8).collect()
}

fn compare_payload(body: &[u8], tally: &mut Tally, mismatches: &mut Mismatches) {
    let (outcome, want) = match body {
        [_, _, payload @ ..] if payload.is_empty() => ("2 bytes", payload),
        [_, _, payload @ ..] => ("longer", payload),
        _ => ("under 2 bytes", &body[body.len()..]),
    };
    tally.count(outcome);
    let start = ffi::payload(body);
    // The same place and length, and so the same bytes.
    if !body.get(start..).is_some_and(|got| ptr::eq(got, want)) {
        mismatches.report(format!(
            "payload of a body of {} bytes: from {start} on",
            body.len()
        ));
    }
}

/// Weights, with NaNs nowhere, first, last, at both of these, at some place, at many or everywhere. Some payloads are cut off, and some empty.
fn any_payload(random: &mut Random) -> Vec<u8> {
    let count = random.between(1, (LONGEST / FLOAT) as i64) as usize;
    let mut weights: Vec<u64> = (0..count).map(|_| number(random)).collect();
    let places = match random.below(8) {
        0 => vec![0],
        1 => vec![count - 1],
        2 => vec![0, count - 1],
        3 => vec![random.below(count as u64) as usize],
        4 => (0..count).filter(|_| random.below(4) == 0).collect(),
        5 => (0..count).collect(),
        _ => vec![],
    };
    for place in places {
        weights[place] = nan(random);
    }
    let mut bytes: Vec<u8> = weights.iter().flat_map(|x| x.to_be_bytes()).collect();
    match random.below(16) {
        0 => bytes.clear(),
        1..4 => bytes.truncate(random.below(bytes.len() as u64) as usize),
        _ => {}
    }
    bytes
}

/// A weight that is no NaN: an infinity in its place.
fn number(random: &mut Random) -> u64 {
    let x = score::weight(random);
    if f64::from_bits(x).is_nan() {
        random.pick(&INFINITIES)
    } else {
        x
    }
}

fn compare_screening(payload: &[u8], tally: &mut Tally, mismatches: &mut Mismatches) {
    let outcome = outcome_of(payload);
    tally.count(outcome);
    let want = screen::screening(payload);
    let screened = ffi::screening(payload);
    let got = (screened.tag, screened.number);
    if got != want {
        mismatches.report(format!(
            "screening: {outcome}: {got:?} and not {want:?}, for a payload of {} bytes: {}",
            payload.len(),
            hexadecimal(payload)
        ));
    }
}

fn outcome_of(payload: &[u8]) -> &'static str {
    if payload.is_empty() {
        return "5, empty";
    }
    if !payload.len().is_multiple_of(FLOAT) {
        return "5, no multiple of 8";
    }
    let weights = service::patterns(payload);
    let is_nan = |place: &usize| f64::from_bits(weights[*place]).is_nan();
    let nans: Vec<usize> = (0..weights.len()).filter(is_nan).collect();
    match nans[..] {
        [] => "none",
        [0] => "the only NaN, first",
        [place] if place + 1 == weights.len() => "the only NaN, last",
        [_] => "the only NaN, between",
        _ if nans.len() == weights.len() => "every weight",
        _ => "the first of several",
    }
}
