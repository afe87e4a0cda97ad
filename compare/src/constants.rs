//! The weigher's reader of constants beside the one of reader.rs, C's and the Rust's; and lines of texts with their replies.

use std::ffi::CString;
use std::io::{self, BufWriter, Read, Write};

use crate::random::Random;
use crate::reader::{self, BAD_TEXT, INEXACT, Reply};
use crate::tally::{Mismatches, Tally};
use crate::values::{FRACTION, SIGN, UNTOUCHED};
use crate::{rust, texts};

/// Bytes that a mismatch shows of the front and of the end of a long text.
const SHOWN: usize = 40;

/// Random texts among the lines.
const LINES: usize = 200;

/// Reads the fixed texts, those of the Rust source and so many thousand random ones; false where a reply differs or an outcome never came.
pub fn compare(thousands: u64) -> bool {
    let source = match rust::constants() {
        Ok(source) => source,
        Err(error) => {
            println!("constants: {error}");
            return false;
        }
    };
    let mut mismatches = Mismatches::default();
    let mut fixed = tally("fixed texts");
    for (text, want) in texts::KNOWN {
        let reply = reader::read(text.as_bytes());
        if reply != want {
            let (text, reply, want) = (shown(text.as_bytes()), said(reply), said(want));
            mismatches.report(format!("{text}: reader.rs {reply}, known {want}"));
        }
        fixed.count(compare_text(text.as_bytes(), &mut mismatches));
    }
    for text in texts::edges() {
        fixed.count(compare_text(&text, &mut mismatches));
    }
    let mut random = Random::new(10);
    let mut others = tally("random texts");
    for _ in 0..thousands * 1000 {
        let text = texts::any(&mut random);
        others.count(compare_text(&text, &mut mismatches));
    }
    for text in &source {
        let outcome = compare_text(text.as_bytes(), &mut mismatches);
        if outcome.starts_with("refused") {
            mismatches.report(format!("{text} of the Rust source: {outcome}"));
        }
    }
    let reached = [fixed.print(), others.print()];
    if rust::INSTANCES.is_empty() {
        println!("the Rust's texts and its reader: its source was not there");
    } else {
        println!("texts of the Rust source: {}", source.len());
    }
    mismatches.print() && reached == [true; 2]
}

fn tally(name: &'static str) -> Tally {
    Tally::new(
        name,
        "exact, zero|exact, subnormal|exact, normal|refused 9|refused 10",
    )
}

fn outcome(reply: Reply) -> &'static str {
    match reply {
        Ok(pattern) if pattern & !SIGN == 0 => "exact, zero",
        Ok(pattern) if pattern & !SIGN <= FRACTION => "exact, subnormal",
        Ok(_) => "exact, normal",
        Err(BAD_TEXT) => "refused 9",
        Err(_) => "refused 10",
    }
}

/// Compares all replies to a text with that of reader.rs, and returns its outcome.
fn compare_text(text: &[u8], mismatches: &mut Mismatches) -> &'static str {
    let want = reader::read(text);
    let mut result = UNTOUCHED;
    let number = ffi::constant(text, &mut result);
    let weigher = if number == 0 { Ok(result) } else { Err(number) };
    if number != 0 && result != UNTOUCHED {
        let text = shown(text);
        mismatches.report(format!("{text}: refused {number}, and a result written"));
    }
    // The Rust's refusals have no numbers.
    let by_rust = by_rust(text).map(|reply| ("Rust", reply.ok_or(want.err().unwrap_or(0))));
    let others = [("weigher", weigher), ("C", by_c(text))];
    for (name, reply) in others.into_iter().chain(by_rust) {
        if reply != want {
            let (text, reply, want) = (shown(text), said(reply), said(want));
            mismatches.report(format!("{text}: {name} {reply}, reader.rs {want}"));
        }
    }
    outcome(want)
}

/// What C's strtod and %a say. strtod takes other texts too: with space in front, without a p, decimal numbers, infinities and NaNs, which
/// have a p in brackets at most. A value is exact where the float, written by %a, has it too.
fn by_c(text: &[u8]) -> Reply {
    let Ok(string) = CString::new(text) else {
        return Err(BAD_TEXT);
    };
    let (float, taken) = ffi::read_float(&string);
    let has = |bytes: &[u8]| text.iter().any(|byte| bytes.contains(byte));
    let starts_with_space = matches!(text.first(), Some(b' ' | b'\t'..=b'\r'));
    if taken < text.len() || starts_with_space || has(b"(") || !has(b"pP") {
        return Err(BAD_TEXT);
    }
    let written = ffi::written_float(float);
    if reader::value(written.as_bytes()) == reader::value(text) {
        Ok(float.to_bits())
    } else {
        Err(INEXACT)
    }
}

/// What the Rust's reader says, a pattern or none, where compare was built with it. It counts exponents in 32 bits, and is asked about
/// those of up to 9 bytes.
fn by_rust(text: &[u8]) -> Option<Option<u64>> {
    let exponent = text.rsplit(|byte| b"pP".contains(byte)).next()?;
    if rust::INSTANCES.is_empty() || 9 < exponent.len() {
        return None;
    }
    str::from_utf8(text).ok().map(rust::constant)
}

fn said(reply: Reply) -> String {
    match reply {
        Ok(pattern) => format!("{pattern:#018x}"),
        Err(number) => format!("refused {number}"),
    }
}

/// A text, without its middle where it is long.
fn shown(text: &[u8]) -> String {
    if text.len() <= 3 * SHOWN {
        return text.escape_ascii().to_string();
    }
    let front = text[..SHOWN].escape_ascii();
    let end = text[text.len() - SHOWN..].escape_ascii();
    format!("{front} .. {end}, {} bytes", text.len())
}

/// The fixed texts and random ones, but for those that hold a newline, one of 70,000 digits, one of 200,000 bytes, and one without a
/// newline behind it.
pub fn write_lines() -> io::Result<()> {
    let known = texts::KNOWN.map(|(text, _)| text.as_bytes().to_vec());
    let mut random = Random::new(11);
    let others = (0..LINES).map(|_| texts::any(&mut random));
    let mut lines: Vec<Vec<u8>> = known
        .into_iter()
        .chain(texts::edges())
        .chain(others)
        .filter(|text| !text.contains(&b'\n'))
        .collect();
    let zeros = |count: usize| "0".repeat(count);
    let last = [
        format!("0x.{}1fffffffffffffp+280000", zeros(69_986)),
        format!("-0x1{}p-{}400000", zeros(100_000), zeros(99_988)),
        "0x1.8p1".to_string(),
    ];
    lines.extend(last.map(String::into_bytes));
    io::stdout().write_all(&lines.join(&b'\n'))
}

/// The reply of reader.rs to each line of standard input, the last of which may be without its newline.
pub fn write_replies() -> io::Result<()> {
    let mut input = Vec::new();
    io::stdin().read_to_end(&mut input)?;
    let mut out = BufWriter::new(io::stdout().lock());
    for line in input.split_inclusive(|byte| *byte == b'\n') {
        let text = line.strip_suffix(b"\n").unwrap_or(line);
        writeln!(out, "{}", said(reader::read(text)))?;
    }
    out.flush()
}
