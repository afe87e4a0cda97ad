//! The states that a list of calls starts from: the fresh one, those that part of a frame leaves, those whose counts are at a bound, and each
//! way of being bad.

use std::mem;

use ffi::{Counts, PartialFrame, State};

use crate::book::Book;
use crate::frames;
use crate::random::Random;
use crate::service::LONGEST_BODY;

/// A state, and the rest of the frame that it is in, where it is in one.
pub struct Start {
    pub state: State,
    pub rest: Vec<u8>,
}

/// A kind of start. No good one is bad; a bad one may be good by chance.
#[derive(Clone, Copy)]
pub struct StartKind {
    pub name: &'static str,
    pub start: fn(&mut Random) -> Start,
    pub bad: bool,
}

const FRESH: StartKind = good("fresh", |_| alone(ffi::weigher_fresh()));

const GOOD: [StartKind; 8] = [
    good("part of a frame", part),
    good("few counted", |random| counted(few_counted, random)),
    good("accepted near its end", |random| {
        counted(accepted_near_end, random)
    }),
    good("refused near its end", |random| {
        counted(refused_near_end, random)
    }),
    good("total near its end", |random| {
        counted(total_near_end, random)
    }),
    good("total alone stopped", |random| {
        counted(total_stopped, random)
    }),
    good("accepted and refused near their ends", |random| {
        counted(both_near_end, random)
    }),
    good("accepted or refused at its end", |random| {
        counted(at_end, random)
    }),
];

const BAD: [StartKind; 13] = [
    bad("count of a whole frame or more", |random| {
        damaged(random, |random, frame| {
            let whole = 2 + usize::from(u16::from_be_bytes([frame.hi, frame.lo]));
            frame.count = whole + random.pick(&[0, 0, 1, 2, 600, 1 << 16]);
        })
    }),
    bad("any count", |random| {
        damaged(random, |random, frame| frame.count = count(random))
    }),
    bad("length byte too early", |random| {
        let mut start = split(&[], 0, random);
        let frame = &mut start.state.frame;
        match random.below(3) {
            0 => frame.hi = nonzero(random),
            1 => frame.lo = nonzero(random),
            _ => {
                frame.count = 1;
                frame.hi = random.word() as u8;
                frame.lo = nonzero(random);
            }
        }
        start
    }),
    bad("body place too early", |random| {
        damaged(random, |random, frame| {
            let filled = frame.count.saturating_sub(2).min(LONGEST_BODY - 1);
            // The first place that is not filled, the last, or one between.
            let place = match random.below(3) {
                0 => filled,
                1 => LONGEST_BODY - 1,
                _ => random.between(filled as i64, LONGEST_BODY as i64 - 1) as usize,
            };
            frame.body[place] = nonzero(random);
        })
    }),
    bad("body that is not kept", |random| {
        let frame = any_body(random.pick(&[1, 515, 516, 1000, 65_535]), random);
        let come = random.between(2, frame.len() as i64 - 1) as usize;
        let mut start = split(&frame, come, random);
        let place = random.below(LONGEST_BODY as u64) as usize;
        start.state.frame.body[random.pick(&[0, place])] = nonzero(random);
        start
    }),
    bad("all bytes 0xff", |_| {
        alone(State {
            frame: PartialFrame {
                count: usize::MAX,
                hi: 0xff,
                lo: 0xff,
                body: [0xff; LONGEST_BODY],
            },
            counts: with_total(u64::MAX, u64::MAX),
        })
    }),
    bad("random bytes", |random| {
        let mut frame = PartialFrame {
            count: count(random),
            hi: random.word() as u8,
            lo: random.word() as u8,
            body: [0; LONGEST_BODY],
        };
        frame.body.fill_with(|| random.word() as u8);
        let counts = Counts {
            accepted: random.word(),
            refused: random.word(),
            total: random.word(),
        };
        alone(State { frame, counts })
    }),
    bad("total one off", |random| {
        miscounted(random, |random, counts| {
            counts.total = match random.below(2) {
                0 => counts.total.wrapping_add(1),
                _ => counts.total.wrapping_sub(1),
            }
        })
    }),
    bad("total wrapped", |random| {
        miscounted(random, |random, counts| {
            *counts = random.pick(&[total_stopped, both_near_end])(random);
            counts.total = counts.accepted.wrapping_add(counts.refused);
        })
    }),
    bad("total 0", |random| {
        miscounted(random, |_, counts| counts.total = 0)
    }),
    bad("total in another's place", |random| {
        miscounted(random, |random, counts| {
            let Counts {
                accepted,
                refused,
                total,
            } = counts;
            match random.below(2) {
                0 => mem::swap(accepted, total),
                _ => mem::swap(refused, total),
            }
        })
    }),
    bad("total below a number at its end", |random| {
        miscounted(random, |random, counts| {
            *counts = at_end(random);
            counts.total = match random.below(2) {
                0 => u64::MAX - 1 - few(random),
                _ => random.word(),
            }
        })
    }),
    bad("any total", |random| {
        miscounted(random, |random, counts| counts.total = random.word())
    }),
];

const fn good(name: &'static str, start: fn(&mut Random) -> Start) -> StartKind {
    StartKind {
        name,
        start,
        bad: false,
    }
}

const fn bad(name: &'static str, start: fn(&mut Random) -> Start) -> StartKind {
    StartKind {
        name,
        start,
        bad: true,
    }
}

pub fn names() -> Vec<&'static str> {
    let kinds = [&[FRESH][..], &GOOD, &BAD].concat();
    kinds.iter().map(|kind| kind.name).collect()
}

/// A quarter of them fresh, and a quarter bad.
pub fn any(random: &mut Random) -> StartKind {
    match random.below(4) {
        0 => FRESH,
        1 | 2 => random.pick(&GOOD),
        _ => random.pick(&BAD),
    }
}

fn alone(state: State) -> Start {
    Start {
        state,
        rest: Vec::new(),
    }
}

/// Counts at the start of a frame, or in one.
fn counted(counts: fn(&mut Random) -> Counts, random: &mut Random) -> Start {
    let mut start = match random.below(2) {
        0 => alone(ffi::weigher_fresh()),
        _ => part(random),
    };
    start.state.counts = counts(random);
    start
}

/// Part of a frame as they come, or of one with any body whose length is at a bound.
fn part(random: &mut Random) -> Start {
    let frame = match random.below(2) {
        0 => frames::any(random),
        _ => {
            let length = random.pick(&[0, 1, 2, 3, 513, 514, 515, 516, 65_535]);
            any_body(length, random)
        }
    };
    cut(&frame, random)
}

/// A frame of random bytes behind its length bytes.
fn any_body(length: u16, random: &mut Random) -> Vec<u8> {
    let mut frame = length.to_be_bytes().to_vec();
    frame.extend((0..length).map(|_| random.word() as u8));
    frame
}

/// A frame cut in two: near its front, near its end, or anywhere.
fn cut(frame: &[u8], random: &mut Random) -> Start {
    let last = frame.len() - 1;
    let length = match random.below(4) {
        0 => (random.below(4) as usize).min(last),
        1 => last.saturating_sub(random.below(3) as usize),
        _ => random.below(frame.len() as u64) as usize,
    };
    split(frame, length, random)
}

fn split(frame: &[u8], length: usize, random: &mut Random) -> Start {
    let (front, rest) = frame.split_at(length);
    let mut state = Book::holding(front).state();
    state.counts = any_counts(random);
    Start {
        state,
        rest: rest.to_vec(),
    }
}

/// Part of a frame with something changed.
fn damaged(random: &mut Random, damage: fn(&mut Random, &mut PartialFrame)) -> Start {
    let mut start = part(random);
    damage(random, &mut start.state.frame);
    start
}

/// A good start with something changed in its counts.
fn miscounted(random: &mut Random, damage: fn(&mut Random, &mut Counts)) -> Start {
    let mut start = counted(any_counts, random);
    damage(random, &mut start.state.counts);
    start
}

/// Good counts of each kind.
fn any_counts(random: &mut Random) -> Counts {
    let counts: [fn(&mut Random) -> Counts; 9] = [
        |_| with_total(0, 0),
        |random| with_total(random.word() >> 1, random.word() >> 1),
        few_counted,
        accepted_near_end,
        refused_near_end,
        total_near_end,
        total_stopped,
        both_near_end,
        at_end,
    ];
    random.pick(&counts)(random)
}

fn few_counted(random: &mut Random) -> Counts {
    with_total(few(random), few(random))
}

fn accepted_near_end(random: &mut Random) -> Counts {
    with_total(near_end(random), few(random))
}

fn refused_near_end(random: &mut Random) -> Counts {
    with_total(few(random), near_end(random))
}

/// Two numbers of about 2^63 each.
fn total_near_end(random: &mut Random) -> Counts {
    with_total((1 << 63) - few(random), (1 << 63) + few(random))
}

/// The two others have far to go.
fn total_stopped(random: &mut Random) -> Counts {
    let mut half = || (1 << 63) + random.below(1 << 62);
    with_total(half(), half())
}

fn both_near_end(random: &mut Random) -> Counts {
    with_total(near_end(random), near_end(random))
}

fn at_end(random: &mut Random) -> Counts {
    let other = match random.below(3) {
        0 => few(random),
        1 => random.word(),
        _ => u64::MAX,
    };
    match random.below(2) {
        0 => with_total(u64::MAX, other),
        _ => with_total(other, u64::MAX),
    }
}

fn with_total(accepted: u64, refused: u64) -> Counts {
    Counts {
        accepted,
        refused,
        total: accepted.saturating_add(refused),
    }
}

fn few(random: &mut Random) -> u64 {
    random.below(5)
}

/// Up to four before 2^64-1.
fn near_end(random: &mut Random) -> u64 {
    u64::MAX - few(random)
}

fn count(random: &mut Random) -> usize {
    match random.below(4) {
        0 => random.word() as usize,
        1 => usize::MAX - random.below(4) as usize,
        2 => random.below(1 << 17) as usize,
        _ => random.below(600) as usize,
    }
}

fn nonzero(random: &mut Random) -> u8 {
    random.between(1, 255) as u8
}
