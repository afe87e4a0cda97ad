//! The weigher's operations and program beside the machine's, the Rust exp2m1, MPFR and a service written from document 01 and requests
//! A.3, A.6 and A.8 alone, its score with a lent list beside plain loops, its tiny scores beside exact values, and its reader of constants
//! beside C's: test vectors and streams, comparisons and timings (see README.md).

mod bench;
mod book;
mod calls;
mod case;
mod cases;
mod constants;
mod counts;
mod directions;
mod entries;
mod frames;
mod lines;
mod listed;
mod lists;
mod machine;
#[cfg(mpfr)]
mod mpfr;
mod nan;
mod nans;
mod payloads;
mod random;
mod reader;
mod recorded;
mod run;
mod rust;
mod score;
mod screen;
mod screenings;
mod serve;
mod service;
mod sheet;
mod sheets;
mod source;
mod states;
mod steps;
mod streams;
mod tally;
mod texts;
mod throughput;
mod tiny;
mod values;
mod vectors;
mod wide;

use std::env;
use std::io;
use std::process::ExitCode;

const USAGE: &str = "usage: compare run [MILLIONS] | compare mpfr [THOUSANDS] | compare streams [THOUSANDS] | compare calls [THOUSANDS]
       compare lists [THOUSANDS] | compare tiny [MILLIONS]
       compare constants [THOUSANDS] | compare constant-lines | compare constant-replies
       compare bench | compare throughput [MEGABYTES] | compare serve [weigher] | compare vectors
       compare score-vectors | compare phase-vectors | compare check-score-vectors | compare screening-vectors
       compare stream | compare short-stream | compare random-stream SEED | compare answers";

fn main() -> ExitCode {
    let words: Vec<String> = env::args().skip(1).collect();
    let words: Vec<&str> = words.iter().map(String::as_str).collect();
    match words[..] {
        ["run"] => succeeds(run::compare(10)),
        ["run", millions] => with_number(millions, run::compare),
        ["mpfr"] => succeeds(compare_mpfr(1000)),
        ["mpfr", thousands] => with_number(thousands, compare_mpfr),
        ["streams"] => succeeds(streams::compare(100)),
        ["streams", thousands] => with_number(thousands, streams::compare),
        ["calls"] => succeeds(calls::compare(100)),
        ["calls", thousands] => with_number(thousands, calls::compare),
        ["lists"] => succeeds(lists::compare(10)),
        ["lists", thousands] => with_number(thousands, lists::compare),
        ["tiny"] => succeeds(tiny::compare(10)),
        ["tiny", millions] => with_number(millions, tiny::compare),
        ["constants"] => succeeds(constants::compare(1000)),
        ["constants", thousands] => with_number(thousands, constants::compare),
        ["constant-lines"] => written(constants::write_lines()),
        ["constant-replies"] => written(constants::write_replies()),
        ["throughput"] => succeeds(throughput::run(100)),
        ["throughput", megabytes] => with_number(megabytes, throughput::run),
        ["serve"] => written(serve::serve(&service::REFERENCE)),
        ["serve", "weigher"] => written(serve::serve(&serve::WEIGHER)),
        ["bench"] => {
            bench::run();
            ExitCode::SUCCESS
        }
        ["vectors"] => written(vectors::write()),
        ["score-vectors"] => written(vectors::write_scores()),
        ["screening-vectors"] => written(screenings::write()),
        ["phase-vectors"] => written(vectors::write_phases()),
        ["check-score-vectors"] => succeeds(vectors::check_scores()),
        ["stream"] => written(recorded::write_stream()),
        ["short-stream"] => written(recorded::write_short_stream()),
        ["random-stream", seed] => {
            with_number(seed, |seed| is_written(recorded::write_random_stream(seed)))
        }
        ["answers"] => written(recorded::write_answers()),
        _ => usage(),
    }
}

#[cfg(mpfr)]
use mpfr::compare as compare_mpfr;

#[cfg(not(mpfr))]
fn compare_mpfr(_: u64) -> bool {
    println!("MPFR: not installed");
    true
}

fn with_number(word: &str, command: fn(u64) -> bool) -> ExitCode {
    match word.parse() {
        Ok(number) => succeeds(command(number)),
        Err(_) => usage(),
    }
}

fn succeeds(good: bool) -> ExitCode {
    if good {
        ExitCode::SUCCESS
    } else {
        ExitCode::FAILURE
    }
}

fn written(result: io::Result<()>) -> ExitCode {
    succeeds(is_written(result))
}

fn is_written(result: io::Result<()>) -> bool {
    if let Err(error) = &result {
        eprintln!("compare: {error}");
    }
    result.is_ok()
}

fn usage() -> ExitCode {
    eprintln!("{USAGE}");
    ExitCode::from(2)
}
