//! Times the program weigher on whole streams, beside the service of service.rs as a program of its own and `cat`, and looks at its
//! memory and its system calls.

use std::fs::{self, File};
use std::io::{self, BufWriter, Write};
use std::path::Path;
use std::process::{Child, Command, Stdio};
use std::time::{Duration, Instant};
use std::{env, iter, thread};

use crate::frames::{of_floats, of_sheet};
use crate::lines::household;
use crate::random::Random;
use crate::rust;
use crate::streams::PROGRAM;
use crate::values::{linear, uniform, whole};

/// Where each stream in turn is written.
const STREAM: &str = "target/compare/stream";

const ROUNDS: usize = 5;

/// The width of a program's column.
const COLUMN: usize = 17;

const MEGABYTE: u64 = 1_000_000;

/// The resident memory that the weigher may take, in KB.
const MOST_MEMORY: u64 = 2048;

/// A kind of stream: bytes that are repeated with other random numbers until there are enough.
struct Kind {
    name: &'static str,
    next: fn(&mut Random) -> Vec<u8>,
}

const KINDS: [Kind; 10] = [
    Kind {
        name: "scores, 64 to a frame",
        next: |random| scores(random, 64, any_weight),
    },
    Kind {
        name: "whole, 64 to a frame",
        next: |random| scores(random, 64, whole),
    },
    Kind {
        name: "scores, 1 to a frame",
        next: |random| scores(random, 1, any_weight),
    },
    Kind {
        name: "fused, 21 to a frame",
        next: |random| triples(random, &[1, 2]),
    },
    Kind {
        name: "fused up, 21 to a frame",
        next: |random| triples(random, &[1, 3, 2]),
    },
    Kind {
        name: "sheets of 56 lines",
        next: |random| of_sheet(household(random).as_flattened()),
    },
    Kind {
        name: "random bytes",
        next: |random| random.word().to_be_bytes().to_vec(),
    },
    Kind {
        name: "zeros",
        next: |_| vec![0; 512],
    },
    Kind {
        name: "refused frames",
        next: refused,
    },
    Kind {
        name: "reports",
        next: |_| of_floats(&[1, 4], &[]).repeat(128),
    },
];

/// Prints a table of speeds, with the ratios of the weigher's time to each other's, of memory and of calls. False where the weigher took
/// too much memory or more writes than reads, or where a program failed.
pub fn run(megabytes: u64) -> bool {
    match time_all(megabytes) {
        Ok(good) => good,
        Err(error) => {
            println!("throughput: {error}");
            false
        }
    }
}

fn time_all(megabytes: u64) -> io::Result<bool> {
    let mut programs = programs()?;
    print!("{:24}", "MB/s, weigher / this");
    for program in &programs {
        print!("{:>COLUMN$}", program.name);
    }
    println!("{:>8}{:>8}{:>8}", "KB", "reads", "writes");
    let mut good = true;
    for kind in &KINDS {
        write_stream(kind, megabytes * MEGABYTE)?;
        let times = least_times(&mut programs)?;
        print!("{:24}", kind.name);
        for time in &times {
            let speed = format!("{:.1}", megabytes as f64 / time);
            let ratio = times[0] / time;
            print!("{speed:>10}{ratio:>width$.2}", width = COLUMN - 10);
        }
        let seen = observe()?;
        println!("{:8}{:8}{:8}", seen.memory, seen.reads, seen.writes);
        good &= seen.memory <= MOST_MEMORY && seen.writes <= seen.reads;
    }
    fs::remove_file(STREAM)?;
    Ok(good)
}

/// A program from standard input to standard output.
struct Program {
    name: &'static str,
    command: Command,
}

/// The weigher first, then those that it is compared with.
fn programs() -> io::Result<Vec<Program>> {
    let this = env::current_exe()?;
    let program = |name, path: &Path, words: &[&str]| {
        let mut command = Command::new(path);
        command.args(words);
        Program { name, command }
    };
    let mut programs = vec![program("weigher", Path::new(PROGRAM), &[])];
    if !rust::INSTANCES.is_empty() {
        programs.push(program("Rust", &this, &["serve"]));
    }
    programs.push(program("over weigher's", &this, &["serve", "weigher"]));
    programs.push(program("cat", Path::new("cat"), &[]));
    Ok(programs)
}

fn write_stream(kind: &Kind, size: u64) -> io::Result<()> {
    let mut random = Random::new(6);
    let mut file = BufWriter::new(File::create(STREAM)?);
    let mut written = 0;
    while written < size {
        let bytes = (kind.next)(&mut random);
        file.write_all(&bytes)?;
        written += bytes.len() as u64;
    }
    file.flush()
}

/// The least time of each program in any round, in seconds, from the file to /dev/null.
fn least_times(programs: &mut [Program]) -> io::Result<Vec<f64>> {
    let mut least = vec![f64::INFINITY; programs.len()];
    for _ in 0..ROUNDS {
        for (program, least) in programs.iter_mut().zip(&mut least) {
            let command = &mut program.command;
            command.stdin(File::open(STREAM)?).stdout(Stdio::null());
            let start = Instant::now();
            let status = command.status()?;
            *least = least.min(start.elapsed().as_secs_f64());
            if !status.success() {
                return Err(io::Error::other(format!("{}: {status}", program.name)));
            }
        }
    }
    Ok(least)
}

/// What the weigher took for a stream: the most memory, and the calls of read and write.
struct Seen {
    memory: u64,
    reads: u64,
    writes: u64,
}

/// Feeds the stream through a pipe that stays open, so that the weigher can be looked at when it has answered everything.
fn observe() -> io::Result<Seen> {
    let mut child = Command::new(PROGRAM)
        .stdin(Stdio::piped())
        .stdout(Stdio::null())
        .spawn()?;
    let mut input = child.stdin.take().expect("a pipe");
    await_sleep(&child)?;
    let start = counts(&child)?;
    io::copy(&mut File::open(STREAM)?, &mut input)?;
    await_sleep(&child)?;
    let end = counts(&child)?;
    let memory = number(&child, "status", "VmHWM:")?;
    drop(input);
    child.wait()?;
    Ok(Seen {
        memory,
        reads: end.0 - start.0,
        writes: end.1 - start.1,
    })
}

/// Waits until the program sleeps, which it does only where its input is empty: its output goes to /dev/null.
fn await_sleep(child: &Child) -> io::Result<()> {
    let mut seen = 0;
    while seen < 3 {
        thread::sleep(Duration::from_millis(1));
        let stat = fs::read_to_string(format!("/proc/{}/stat", child.id()))?;
        let state = stat
            .rsplit(") ")
            .next()
            .and_then(|rest| rest.chars().next());
        match state {
            Some('S') => seen += 1,
            Some('Z') => return Err(io::Error::other(format!("{PROGRAM} has ended"))),
            _ => seen = 0,
        }
    }
    Ok(())
}

/// The calls of read and of write so far.
fn counts(child: &Child) -> io::Result<(u64, u64)> {
    Ok((
        number(child, "io", "syscr:")?,
        number(child, "io", "syscw:")?,
    ))
}

/// The number behind a name in a file of /proc.
fn number(child: &Child, file: &str, name: &str) -> io::Result<u64> {
    let path = format!("/proc/{}/{file}", child.id());
    let text = fs::read_to_string(&path)?;
    text.lines()
        .find_map(|line| {
            line.strip_prefix(name)?
                .split_whitespace()
                .next()?
                .parse()
                .ok()
        })
        .ok_or_else(|| io::Error::other(format!("{path}: no {name}")))
}

fn scores(random: &mut Random, count: usize, weight: fn(&mut Random) -> u64) -> Vec<u8> {
    let weights: Vec<u64> = iter::repeat_with(|| weight(random)).take(count).collect();
    of_floats(&[1, 1], &weights)
}

fn any_weight(random: &mut Random) -> u64 {
    linear(random, -50.0, 50.0)
}

fn triples(random: &mut Random, front: &[u8]) -> Vec<u8> {
    let float = || {
        let exponent = random.between(-40, 40);
        uniform(random, exponent)
    };
    let floats: Vec<u64> = iter::repeat_with(float).take(63).collect();
    of_floats(front, &floats)
}

/// A frame of one weight with another version or kind, or of kind 2.
fn refused(random: &mut Random) -> Vec<u8> {
    let front = random.pick(&[[2, 1], [1, 0], [1, 2]]);
    of_floats(&front, &[random.word()])
}
