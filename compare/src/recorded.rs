//! Writes the streams that the programs replay and splits run, and the answers to a stream.

use std::io::{self, Read, Write};

use crate::random::Random;
use crate::{frames, rust, service, streams};

/// Random frames of the stream that is replayed.
const FRAMES: usize = 200;

/// The frames at the bounds, a few with NaNs, reports and an unfinished one. It is short: splits runs it once for each of its bytes.
pub fn write_short_stream() -> io::Result<()> {
    let mut random = Random::new(6);
    let mut stream = frames::at_bounds(&mut random);
    stream.extend(frames::of_few_nans(&mut random));
    stream.extend(frames::reports(&mut random));
    stream.extend(frames::unfinished(&mut random));
    io::stdout().write_all(&stream)
}

/// The frames at all bounds, the longest one, random ones, those with NaNs, sheets, reports and an unfinished one. Up to the reports the stream
/// can be repeated, and its answers with it: none of them tells how many there were before.
pub fn write_stream() -> io::Result<()> {
    let mut random = Random::new(7);
    let mut stream = frames::at_bounds(&mut random);
    stream.extend(frames::at_long_bounds(&mut random));
    stream.extend((0..FRAMES).flat_map(|_| frames::any_but_report(&mut random)));
    stream.extend(frames::of_nans(&mut random));
    stream.extend(frames::of_sheets(&mut random));
    stream.extend(frames::reports(&mut random));
    stream.extend(frames::unfinished(&mut random));
    io::stdout().write_all(&stream)
}

/// One of the streams that `streams` runs, by its seed.
pub fn write_random_stream(seed: u64) -> io::Result<()> {
    io::stdout().write_all(&streams::stream(&mut Random::new(seed)))
}

/// The answers to the stream on standard input and its end.
pub fn write_answers() -> io::Result<()> {
    rust::require()?;
    let mut stream = Vec::new();
    io::stdin().read_to_end(&mut stream)?;
    io::stdout().write_all(&service::answers(&stream))
}
