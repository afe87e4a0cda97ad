//! Random streams through the program weigher, beside the service of service.rs.

use std::io::{self, Read, Write};
use std::process::{ChildStdin, Command, Stdio};
use std::thread;

use crate::random::Random;
use crate::{frames, rust, service};

/// `make program` builds it.
pub const PROGRAM: &str = "target/bin/weigher";

/// Frames of one stream.
const FRAMES: u64 = 500;

/// How a stream is handed to the program: the longest piece of one write, of random length where `random` is set.
struct Feeding {
    name: &'static str,
    longest: usize,
    random: bool,
}

const FEEDINGS: [Feeding; 3] = [
    Feeding {
        name: "whole",
        longest: usize::MAX,
        random: false,
    },
    Feeding {
        name: "byte by byte",
        longest: 1,
        random: false,
    },
    Feeding {
        name: "in random pieces",
        longest: 700,
        random: true,
    },
];

/// Runs so many thousand random frames in each way of feeding; false where an answer differs, or a report has other numbers than the counts
/// over the answers before it.
pub fn compare(thousands: u64) -> bool {
    if rust::INSTANCES.is_empty() {
        println!("streams: not compared, the Rust source was not there");
        return true;
    }
    let mut random = Random::new(5);
    let mut good = true;
    for feeding in FEEDINGS {
        match run(&feeding, thousands * 1000 / FRAMES, &mut random) {
            Ok(alike) => good &= alike,
            Err(error) => {
                println!("{PROGRAM}: {error}");
                return false;
            }
        }
    }
    good
}

fn run(feeding: &Feeding, streams: u64, random: &mut Random) -> io::Result<bool> {
    let name = feeding.name;
    let (mut different, mut miscounted, mut reports) = (0, 0, 0);
    let mut sheets = [0; 3];
    for number in 0..streams {
        let stream = stream(random);
        let got = answers(&stream, feeding, random)?;
        if got != service::answers(&stream) {
            println!("{name}: stream {number} is answered differently");
            different += 1;
        }
        count_sheets(&stream, &got, &mut sheets);
        match count_reports(&stream, &got) {
            Some(count) => reports += count,
            None => {
                println!("{name}: stream {number} has a report that is not the counts before it");
                miscounted += 1;
            }
        }
    }
    let frames = streams * FRAMES;
    println!("{name}: {frames} frames, {different} streams of {streams} differ");
    println!("{name}: {reports} reports, {miscounted} streams of {streams} have a wrong one");
    let [answered, by_14, by_15] = sheets;
    println!("{name}: {answered} sheets answered, {by_14} refused by 14, {by_15} by 15");
    Ok(different == 0 && miscounted == 0)
}

/// Counts the sheets of a stream that are answered, and those that 14 and 15 refuse.
fn count_sheets(stream: &[u8], answers: &[u8], counts: &mut [u64; 3]) {
    for (body, answer) in service::bodies(stream).zip(service::bodies(answers)) {
        match (body, answer) {
            ([1, 5, ..], [_, 0, ..]) => counts[0] += 1,
            (_, [_, 14]) => counts[1] += 1,
            (_, [_, 15]) => counts[2] += 1,
            _ => {}
        }
    }
}

/// How many reports a stream has, where the numbers of each are the counts over the answers before it, by their codes alone.
fn count_reports(stream: &[u8], answers: &[u8]) -> Option<u64> {
    let (mut accepted, mut refused) = (0_u64, 0_u64);
    let mut reports = 0;
    for (body, answer) in service::bodies(stream).zip(service::bodies(answers)) {
        let [_, code, results @ ..] = answer else {
            return None;
        };
        if *body == [1, 4] {
            let numbers = [accepted, refused, accepted + refused];
            if *results != *numbers.map(u64::to_be_bytes).as_flattened() {
                return None;
            }
            reports += 1;
        }
        match code {
            0 => accepted += 1,
            1..=5 | 11 | 14 | 15 => refused += 1,
            _ => return None,
        }
    }
    Some(reports)
}

/// What the program answers.
fn answers(stream: &[u8], feeding: &Feeding, random: &mut Random) -> io::Result<Vec<u8>> {
    let mut child = Command::new(PROGRAM)
        .stdin(Stdio::piped())
        .stdout(Stdio::piped())
        .spawn()?;
    let input = child.stdin.take().expect("a pipe");
    let mut output = child.stdout.take().expect("a pipe");
    let mut got = Vec::new();
    thread::scope(|scope| {
        let feeder = scope.spawn(|| feed(input, stream, feeding, random));
        output.read_to_end(&mut got)?;
        feeder.join().expect("the feeding thread")
    })?;
    child.wait()?;
    Ok(got)
}

fn feed(
    mut input: ChildStdin,
    stream: &[u8],
    feeding: &Feeding,
    random: &mut Random,
) -> io::Result<()> {
    let mut rest = stream;
    while !rest.is_empty() {
        let longest = feeding.longest.min(rest.len());
        let length = if feeding.random {
            1 + random.below(longest as u64) as usize
        } else {
            longest
        };
        let (piece, next) = rest.split_at(length);
        input.write_all(piece)?;
        rest = next;
    }
    Ok(())
}

/// Frames of every kind and refusal, and sometimes an unfinished one at the end.
pub fn stream(random: &mut Random) -> Vec<u8> {
    let mut bytes: Vec<u8> = (0..FRAMES).flat_map(|_| frames::any(random)).collect();
    if random.below(2) == 0 {
        let last = frames::any(random);
        let length = random.below(last.len() as u64) as usize;
        bytes.extend(&last[..length]);
    }
    bytes
}
