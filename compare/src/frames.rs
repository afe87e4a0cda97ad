//! Frames for the service: at the bounds of each refusal, with reports and sheets among them, and random ones.

use std::iter;

use crate::cases::{directed_operands, fused_operands};
use crate::random::Random;
use crate::service::{FLOAT, LONGEST_BODY};
use crate::sheet::{LINE, MOST_LINES};
use crate::{lines, nans, score};

/// What a frame announces: the length of its body and the body's first bytes, which are the version, the kind and, of kind 3, the direction; of
/// kind 5 lines may follow.
#[derive(Clone, Copy)]
struct Header(usize, &'static [u8]);

/// None is a report that is accepted, so that the answer to each depends on it alone.
const BOUNDS: [Header; 56] = [
    // The bench values of document 01: 64 scores, then 2, 5 and 5.
    Header(514, &[1, 1]),
    Header(515, &[1, 1]),
    Header(2, &[1, 1]),
    Header(10, &[1, 2]),
    // 1
    Header(0, &[1, 1]),
    Header(1, &[1, 1]),
    Header(1, &[0, 0]),
    // 2, also where 3 and 4 apply
    Header(516, &[1, 2]),
    Header(515, &[0, 0]),
    // 3, also where 4, 11 or 5 applies, and of what would be a report
    Header(10, &[0, 1]),
    Header(10, &[2, 8]),
    Header(3, &[2, 3, 4]),
    Header(2, &[255, 1]),
    Header(2, &[2, 4]),
    // 4, also where 5 applies, and a direction byte would be refused
    Header(10, &[1, 0]),
    Header(10, &[1, 8]),
    Header(3, &[1, 8, 4]),
    Header(2, &[1, 0]),
    Header(2, &[1, 8]),
    Header(2, &[1, 255]),
    // 11, also where 5 applies
    Header(3, &[1, 3, 4]),
    Header(6, &[1, 3, 4]),
    Header(27, &[1, 3, 4]),
    Header(3, &[1, 3, 255]),
    Header(27, &[1, 3, 255]),
    // 5
    Header(2, &[1, 2]),
    Header(3, &[1, 1]),
    Header(9, &[1, 1]),
    Header(11, &[1, 1]),
    Header(513, &[1, 1]),
    Header(18, &[1, 2]),
    Header(25, &[1, 2]),
    Header(27, &[1, 2]),
    Header(514, &[1, 2]),
    // 5 of kind 3: empty, a direction alone, and 8, 23 and 25 bytes behind it
    Header(2, &[1, 3]),
    Header(3, &[1, 3, 0]),
    Header(11, &[1, 3, 1]),
    Header(26, &[1, 3, 2]),
    Header(28, &[1, 3, 3]),
    // 5 of kind 4: a report with one byte and with eight
    Header(3, &[1, 4]),
    Header(10, &[1, 4]),
    // 5 of kind 5: empty, and 8 and 10 bytes, also where 14 applies
    Header(2, &[1, 5]),
    Header(10, &[1, 5]),
    Header(12, &[1, 5, 2]),
    // 14: a first byte, and a filler byte where 15 applies
    Header(11, &[1, 5, 2]),
    Header(11, &[1, 5, 1, 0, 0, 0, 0, 0, 0, 0, 1]),
    // 15
    Header(11, &[1, 5, 1, 0, 0, 0, 0, 0, 0, 0, 0]),
    // Answered: the sheet of 1, 2 and their sum, one item, and many.
    Header(29, &SHEET),
    Header(10, &[1, 1]),
    Header(26, &[1, 2]),
    Header(27, &[1, 3, 0]),
    Header(27, &[1, 3, 1]),
    Header(27, &[1, 3, 2]),
    Header(27, &[1, 3, 3]),
    Header(506, &[1, 1]),
    Header(506, &[1, 2]),
];

/// The weights 1 and 2 and their sum.
const SHEET: [u8; 29] = [
    1, 5, // version and kind
    0, 0x3f, 0xf0, 0, 0, 0, 0, 0, 0, // 1
    0, 0x40, 0, 0, 0, 0, 0, 0, 0, // 2
    1, 0, 1, 0, 0, 0, 0, 0, 0, // the lines 0 and 1
];

/// Those of kinds 3, 4 and 5 that are long.
const LONG_BOUNDS: [Header; 16] = [
    // 2, also where 11 or 5 applies
    Header(515, &[1, 3, 0]),
    Header(531, &[1, 3, 4]),
    Header(515, &[1, 4]),
    // 2, of 57 lines, also where 14 applies
    Header(515, &[1, 5]),
    Header(515, &[1, 5, 2]),
    // 11
    Header(507, &[1, 3, 4]),
    // 5
    Header(506, &[1, 3, 1]),
    Header(508, &[1, 3, 2]),
    Header(514, &[1, 3, 3]),
    Header(514, &[1, 4]),
    Header(507, &[1, 5]),
    Header(514, &[1, 5]),
    // Answered
    Header(483, &[1, 3, 0]),
    Header(507, &[1, 3, 2]),
    // 55 and 56 lines
    Header(497, &[1, 5]),
    Header(506, &[1, 5]),
];

const REPORT: Header = Header(2, &[1, 4]);

/// Reports, the second of which counts the first, and reports behind frames that are accepted and refused.
const REPORTS: [Header; 15] = [
    REPORT,
    REPORT,
    // Accepted
    Header(10, &[1, 1]),
    REPORT,
    // 1
    Header(0, &[1, 1]),
    REPORT,
    // 3
    Header(2, &[2, 4]),
    REPORT,
    // 4
    Header(2, &[1, 0]),
    REPORT,
    // 5, of a report
    Header(3, &[1, 4]),
    REPORT,
    // 11
    Header(3, &[1, 3, 4]),
    REPORT,
    REPORT,
];

/// The bytes of a triple.
const TRIPLE: usize = 3 * FLOAT;

/// The most triples of a frame.
const MOST_TRIPLES: usize = 21;

/// The longest body that the length bytes can announce.
const LONGEST: usize = 65_535;

/// A frame for each of the bounds, but for the long ones of kinds 3, 4 and 5.
pub fn at_bounds(random: &mut Random) -> Vec<u8> {
    of_headers(&BOUNDS, random)
}

/// A frame for each of the long bounds, and the longest of all.
pub fn at_long_bounds(random: &mut Random) -> Vec<u8> {
    let mut frames = of_headers(&LONG_BOUNDS, random);
    frames.extend(frame(LONGEST, &[1, 1], random));
    frames
}

/// Reports among other frames, always of as many bytes.
pub fn reports(random: &mut Random) -> Vec<u8> {
    of_headers(&REPORTS, random)
}

/// NaNs of each kind as weights and, by kind 2 and in each direction, at each place of a triple, alone and together.
pub fn of_nans(random: &mut Random) -> Vec<u8> {
    let fronts = [&[1, 2][..], &[1, 3, 0], &[1, 3, 1], &[1, 3, 2], &[1, 3, 3]];
    let triples = nans::of_each_set(random);
    with_triples(&fronts, &triples, random)
}

/// A few of these: by kind 2 and in one direction, alone.
pub fn of_few_nans(random: &mut Random) -> Vec<u8> {
    let triples = nans::alone(random);
    with_triples(&[&[1, 2], &[1, 3, 3]], &triples, random)
}

/// Sheets of each kind, good and bad.
pub fn of_sheets(random: &mut Random) -> Vec<u8> {
    let sheets = lines::recorded(random);
    let frames = sheets
        .iter()
        .flat_map(|lines| of_sheet(lines.as_flattened()));
    frames.collect()
}

/// A frame of a NaN of each kind, and these triples behind each front.
fn with_triples(fronts: &[&[u8]], triples: &[[u64; 3]], random: &mut Random) -> Vec<u8> {
    let mut frames = of_floats(&[1, 1], &nans::of_each_kind(random, 1));
    for front in fronts {
        let parts = triples.chunks(MOST_TRIPLES);
        frames.extend(parts.flat_map(|part| of_floats(front, part.as_flattened())));
    }
    frames
}

fn of_headers(headers: &[Header], random: &mut Random) -> Vec<u8> {
    headers
        .iter()
        .flat_map(|Header(length, front)| frame(*length, front, random))
        .collect()
}

/// The longest frame that is answered, without its last byte.
pub fn unfinished(random: &mut Random) -> Vec<u8> {
    let mut frame = frame(LONGEST_BODY, &[1, 1], random);
    frame.pop();
    frame
}

/// A frame of any length, version and kind, one in eight a report, and one in eight with many NaNs. Most are answered.
pub fn any(random: &mut Random) -> Vec<u8> {
    match random.below(8) {
        0 => report(random),
        1 => with_nans(random),
        _ => any_but_report(random),
    }
}

/// A frame of kind 1, 2, 3 or 5 in which about half of the floats are NaNs.
fn with_nans(random: &mut Random) -> Vec<u8> {
    if random.below(4) == 0 {
        let lines = lines::good(items(MOST_LINES, random), lines::of_nans, random);
        return of_sheet(lines.as_flattened());
    }
    let directed = [1, 3, direction(random)];
    let front = random.pick(&[&[1, 1], &[1, 2], &directed[..]]);
    let count = 3 * items(MOST_TRIPLES, random);
    let floats = iter::repeat_with(|| nans::operand(random));
    of_floats(front, &Vec::from_iter(floats.take(count)))
}

pub fn report(random: &mut Random) -> Vec<u8> {
    of_headers(&[REPORT], random)
}

/// A frame of any length, version and kind whose answer depends on it alone: a report has a payload, and is refused.
pub fn any_but_report(random: &mut Random) -> Vec<u8> {
    match random.below(17) {
        0..4 => frame(2 + items(64, random) * FLOAT, &[1, 1], random),
        4..7 => frame(2 + items(MOST_TRIPLES, random) * TRIPLE, &[1, 2], random),
        7..9 => {
            let front = [1, 3, direction(random)];
            frame(3 + items(MOST_TRIPLES, random) * TRIPLE, &front, random)
        }
        9 => {
            let version = random.word() as u8;
            let front = [random.pick(&[1, version]), random.below(10) as u8];
            frame(2 + items(64, random) * FLOAT, &front, random)
        }
        10..12 => of_headers(&[random.pick(&BOUNDS)], random),
        12 => of_headers(&[random.pick(&LONG_BOUNDS)], random),
        13..16 => sheet(random),
        _ => {
            let near = LONGEST_BODY - 1 + random.below(4) as usize;
            let length = random.pick(&[near, near, near, near, 1000, LONGEST]);
            let directed = [1, 3, direction(random)];
            let front = random.pick(&[&[1, 1], &[1, 2], &directed[..], &[1, 4], &[1, 5]]);
            frame(length, front, random)
        }
    }
}

/// A sheet, one in four with a byte of its body changed.
fn sheet(random: &mut Random) -> Vec<u8> {
    let mut frame = of_sheet(lines::any(random).as_flattened());
    if random.below(4) == 0 {
        damage(&mut frame, random);
    }
    frame
}

/// Changes one byte of a frame's body, which is not empty: half of the time a single bit.
pub fn damage(frame: &mut [u8], random: &mut Random) {
    let (_, body) = frame.split_at_mut(2);
    let place = random.below(body.len() as u64) as usize;
    let bit = 1 << random.below(8);
    let any = random.between(1, 255) as u8;
    body[place] ^= random.pick(&[bit, any]);
}

/// One in eight is above 3.
fn direction(random: &mut Random) -> u8 {
    match random.below(8) {
        0 => random.between(4, 255) as u8,
        _ => random.below(4) as u8,
    }
}

/// A frame of these floats behind the body's first bytes.
pub fn of_floats(front: &[u8], floats: &[u64]) -> Vec<u8> {
    let mut body = front.to_vec();
    body.extend(floats.iter().flat_map(|x| x.to_be_bytes()));
    with_length(&body)
}

/// A frame of kind 5 with these bytes of lines.
pub fn of_sheet(lines: &[u8]) -> Vec<u8> {
    with_length(&[&[1, 5], lines].concat())
}

fn items(most: usize, random: &mut Random) -> usize {
    random.between(1, most as i64) as usize
}

/// A frame whose body goes on with random items, the last cut off where the body ends.
fn frame(length: usize, front: &[u8], random: &mut Random) -> Vec<u8> {
    let mut body = front.to_vec();
    while body.len() < length {
        body.extend(item(&body, random));
    }
    body.truncate(length);
    with_length(&body)
}

/// The length bytes and a body.
fn with_length(body: &[u8]) -> Vec<u8> {
    let mut frame = (body.len() as u16).to_be_bytes().to_vec();
    frame.extend(body);
    frame
}

/// An item behind those of a body: three floats of kinds 2 and 3, a line of kind 5, and a weight of any other.
fn item(body: &[u8], random: &mut Random) -> Vec<u8> {
    let (a, b, c) = match body[1] {
        2 => fused_operands(random),
        3 => directed_operands(random),
        5 => return lines::any_line((body.len() - 2) / LINE, random).to_vec(),
        _ => return score::weight(random).to_be_bytes().to_vec(),
    };
    [a, b, c].map(u64::to_be_bytes).concat()
}
