//! Writes the vectors of crates/screening_vectors, with the replies of the plain loop.

use std::io::{self, BufWriter, Write};

use crate::random::Random;
use crate::screen;
use crate::values::{SIGN, SPECIALS};

/// The ends of the patterns of NaNs, the last finite numbers and the infinities, and a NaN with its bytes turned round.
const EDGES: [u64; 6] = [
    0x7fefffffffffffff,
    0x7ff0000000000000,
    0x7ff0000000000001,
    0x7ff8000000000000,
    0x7fffffffffffffff,
    0x010000000000f07f,
];

/// The longest kind 1 payload.
const MOST_WEIGHTS: usize = 64;

const RANDOM: usize = 300;

pub fn write() -> io::Result<()> {
    let mut random = Random::new(8);
    let mut payloads: Vec<Vec<u8>> = (0..=25).map(|length| vec![0xff; length]).collect();
    for edge in EDGES {
        payloads.push(bytes_of(&[edge]));
        payloads.push(bytes_of(&[edge | SIGN]));
    }
    for place in 0..MOST_WEIGHTS {
        payloads.push(bytes_of(&with_nans(&[place])));
        payloads.push(bytes_of(&with_nans(&[place, MOST_WEIGHTS - 1])));
    }
    payloads.push(bytes_of(&with_nans(&[])));
    payloads.push(bytes_of(&with_nans(&Vec::from_iter(0..MOST_WEIGHTS))));
    payloads.extend((0..RANDOM).map(|_| any(&mut random)));
    let mut out = BufWriter::new(io::stdout().lock());
    for payload in &payloads {
        let digits: String = payload.iter().map(|byte| format!("{byte:02x}")).collect();
        let (tag, number) = screen::screening(payload);
        writeln!(out, "{digits} {tag:x} {number:x}")?;
    }
    out.flush()
}

/// Ones, with NaNs at some places.
fn with_nans(places: &[usize]) -> [u64; MOST_WEIGHTS] {
    let mut weights = [0x3ff0000000000000; MOST_WEIGHTS];
    for &place in places {
        weights[place] = 0x7ff0000000000001;
    }
    weights
}

fn bytes_of(weights: &[u64]) -> Vec<u8> {
    weights
        .iter()
        .flat_map(|weight| weight.to_be_bytes())
        .collect()
}

/// Some weights, of which one in four is at the edges of the NaNs; one payload in eight lacks its last bytes.
fn any(random: &mut Random) -> Vec<u8> {
    let count = 1 + random.below(8);
    let weights: Vec<u64> = (0..count)
        .map(|_| match random.below(8) {
            0 => random.pick(&EDGES),
            1 => random.pick(&EDGES) | SIGN,
            2 => random.pick(&SPECIALS),
            _ => random.word(),
        })
        .collect();
    let mut payload = bytes_of(&weights);
    if random.below(8) == 0 {
        payload.truncate(payload.len() - 1 - random.below(7) as usize);
    }
    payload
}
