//! The framed service, written from document 01 and requests A.3, A.6 and A.8 alone, over the machine's fma and the Rust exp2m1, or others
//! in their place.

use std::iter;

use ffi::{Counts, Direction};

use crate::counts::TrueCounts;
use crate::{machine, rust, sheet};

/// The longest body that is answered.
pub const LONGEST_BODY: usize = 514;

/// The bytes of one float in a frame, and of a report's number.
pub const FLOAT: usize = 8;

/// How the items of a frame are computed.
pub struct Operations {
    pub score: fn(u64) -> u64,
    pub fused: fn(u64, u64, u64) -> u64,
    pub fused_in: fn(Direction, u64, u64, u64) -> u64,
}

pub const REFERENCE: Operations = Operations {
    score: rust::score,
    fused: machine::fused,
    fused_in: machine::fused_in,
};

/// The answers of a fresh service to a whole stream and its end.
pub fn answers(stream: &[u8]) -> Vec<u8> {
    let mut counts = TrueCounts::default();
    let mut output = Vec::new();
    let end = answer_frames(stream, &REFERENCE, &mut counts, &mut output);
    answer_end(end, &mut output);
    output
}

/// Writes the answers to the whole frames of a stream, and returns its unfinished end.
pub fn answer_frames<'a>(
    stream: &'a [u8],
    operations: &Operations,
    counts: &mut TrueCounts,
    output: &mut Vec<u8>,
) -> &'a [u8] {
    let mut rest = stream;
    while let Some((body, next)) = first_frame(rest) {
        answer(body, operations, counts, output);
        rest = next;
    }
    rest
}

/// Writes the answer to a whole frame with this body, counts it, and returns the refusal's number or 0.
pub fn answer(
    body: &[u8],
    operations: &Operations,
    counts: &mut TrueCounts,
    output: &mut Vec<u8>,
) -> u8 {
    let number = match results(body, operations, counts) {
        Ok(results) => {
            write_answer(&results, output);
            0
        }
        Err(number) => {
            write_refusal(number, output);
            number
        }
    };
    counts.count(number);
    number
}

/// Writes the answer to the end of a stream after an unfinished frame.
pub fn answer_end(unfinished: &[u8], output: &mut Vec<u8>) {
    if !unfinished.is_empty() {
        write_refusal(8, output);
    }
}

/// The body of the first frame and what is behind it, where the frame is whole.
pub fn first_frame(stream: &[u8]) -> Option<(&[u8], &[u8])> {
    let (length, rest) = stream.split_first_chunk()?;
    rest.split_at_checked(usize::from(u16::from_be_bytes(*length)))
}

/// The bodies of the whole frames of a stream.
pub fn bodies(mut stream: &[u8]) -> impl Iterator<Item = &[u8]> {
    iter::from_fn(move || {
        let (body, rest) = first_frame(stream)?;
        stream = rest;
        Some(body)
    })
}

/// The results of a body's items, or the numbers of a report after so many frames; or the number of the refusal.
fn results(body: &[u8], operations: &Operations, counts: &TrueCounts) -> Result<Vec<u64>, u8> {
    let [version, kind, payload @ ..] = body else {
        return Err(1);
    };
    if body.len() > LONGEST_BODY {
        return Err(2);
    }
    if *version != 1 {
        return Err(3);
    }
    match kind {
        1 => each(payload, |[x]| (operations.score)(x)),
        2 => each(payload, |[a, b, c]| (operations.fused)(a, b, c)),
        3 => {
            // An empty payload has no direction byte.
            let (byte, triples) = payload.split_first().ok_or(5)?;
            let direction = Direction::of(*byte).ok_or(11)?;
            each(triples, |[a, b, c]| {
                (operations.fused_in)(direction, a, b, c)
            })
        }
        4 => report(payload, counts),
        5 => {
            let values = sheet::values(payload, operations.fused)?;
            Ok(values.into_iter().map(operations.score).collect())
        }
        _ => Err(4),
    }
}

fn report(payload: &[u8], counts: &TrueCounts) -> Result<Vec<u64>, u8> {
    if !payload.is_empty() {
        return Err(5);
    }
    let Counts {
        accepted,
        refused,
        total,
    } = counts.shown();
    Ok(vec![accepted, refused, total])
}

/// The results of items of so many floats, or 5 where there is none, or a part of one.
fn each<const FLOATS: usize>(
    items: &[u8],
    result: impl Fn([u64; FLOATS]) -> u64,
) -> Result<Vec<u64>, u8> {
    if items.is_empty() || !items.len().is_multiple_of(FLOATS * FLOAT) {
        return Err(5);
    }
    let floats = patterns(items);
    let (items, _) = floats.as_chunks();
    Ok(items.iter().copied().map(result).collect())
}

pub fn patterns(bytes: &[u8]) -> Vec<u64> {
    let (floats, _) = bytes.as_chunks();
    floats.iter().copied().map(u64::from_be_bytes).collect()
}

fn write_answer(results: &[u64], output: &mut Vec<u8>) {
    let length = 2 + results.len() * FLOAT;
    output.extend((length as u16).to_be_bytes());
    output.extend([1, 0]);
    output.extend(results.iter().flat_map(|result| result.to_be_bytes()));
}

pub fn write_refusal(number: u8, output: &mut Vec<u8>) {
    output.extend([0, 2, 1, number]);
}
