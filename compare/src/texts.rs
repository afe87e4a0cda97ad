//! The texts of constants that are read: fixed ones at every bound of the form and of the values, and random ones.

use crate::random::Random;
use crate::reader::{BAD_TEXT, INEXACT, Reply};
use crate::values::{self, FRACTION, SIGN};

const BAD: Reply = Err(BAD_TEXT);
const NONE: Reply = Err(INEXACT);

/// Texts with their replies.
pub const KNOWN: [(&str, Reply); 102] = [
    ("0x1.p0", Ok(0x3ff0000000000000)),
    ("0x.8p0", Ok(0x3fe0000000000000)),
    ("+0x00.00P-0", Ok(0)),
    ("-0x0p999999999999999999999", Ok(SIGN)),
    ("-0x0.p-999999999999999999999", Ok(SIGN)),
    ("0x10000000000000000000000000p-100", Ok(0x3ff0000000000000)),
    ("0x1.62e42fefa39efp-1", Ok(0x3fe62e42fefa39ef)),
    ("-0x1.8p-3", Ok(0xbfc8000000000000)),
    ("0X1.8P+1", Ok(0x4008000000000000)),
    ("-0xaBcDeFp0", Ok(0xc16579bde0000000)),
    ("0x0123456789.aBCDEp-4", Ok(0x41b23456789abcde)),
    ("0x1p00000000000000000000000000010", Ok(0x4090000000000000)),
    ("0x1p-00000000000000000000000000010", Ok(0x3f50000000000000)),
    ("0x3p-0", Ok(0x4008000000000000)),
    ("0x3p+0", Ok(0x4008000000000000)),
    // Another form.
    ("", BAD),
    ("0", BAD),
    ("0x", BAD),
    ("0xp0", BAD),
    ("0x.p0", BAD),
    ("0x1", BAD),
    ("0x1.8", BAD),
    ("0x1p", BAD),
    ("0x1p+", BAD),
    ("0x1p-", BAD),
    ("0x1.0.0p0", BAD),
    ("0x..1p0", BAD),
    ("0x1p0 ", BAD),
    (" 0x1p0", BAD),
    ("\t0x1p0", BAD),
    ("0x1p0\n", BAD),
    ("0x1p0\0", BAD),
    ("0x1p0x", BAD),
    ("1p0", BAD),
    ("x1p0", BAD),
    ("--0x1p0", BAD),
    ("+-0x1p0", BAD),
    ("- 0x1p0", BAD),
    ("0x+1p0", BAD),
    ("0x1p+-1", BAD),
    ("0x1p 1", BAD),
    ("0x1p1.0", BAD),
    ("0x1p1.", BAD),
    ("0x1pa", BAD),
    ("0x1p0p0", BAD),
    ("0x1g0p0", BAD),
    ("0x1_0p0", BAD),
    ("0x0x1p0", BAD),
    ("00x1p0", BAD),
    ("p0", BAD),
    ("1.5", BAD),
    ("1e3", BAD),
    ("inf", BAD),
    ("-Infinity", BAD),
    ("nan", BAD),
    ("nan(0x1p0)", BAD),
    // Another form and no float: the form is tried first.
    ("0x1.00000000000001p0x", BAD),
    ("0x1p1024 ", BAD),
    ("0x1p99999999999999999999.", BAD),
    // The largest finite, and beyond.
    ("0x1.fffffffffffffp1023", Ok(0x7fefffffffffffff)),
    ("-0x1.fffffffffffffp1023", Ok(0xffefffffffffffff)),
    ("0x1.fffffffffffff8p1023", NONE),
    ("0x1.fffffffffffff7p1023", NONE),
    ("0x1.ffffffffffffffp1023", NONE),
    ("0x1p1024", NONE),
    // An exponent whose quarter is beyond 64 bits by a few: taken modulo 2^64 it would be that of 2^15.
    ("0x1p73786976294838206479", NONE),
    ("0x2p1023", NONE),
    ("0x.8p1024", Ok(0x7fe0000000000000)),
    ("0x.8p1025", NONE),
    // The least normals and the subnormals.
    ("0x1p-1022", Ok(0x0010000000000000)),
    ("0x1.0000000000001p-1022", Ok(0x0010000000000001)),
    ("0x.fffffffffffffp-1022", Ok(0x000fffffffffffff)),
    ("0x.fffffffffffff8p-1022", NONE),
    ("0x1p-1023", Ok(0x0008000000000000)),
    ("0x1p-1074", Ok(1)),
    ("0x2p-1075", Ok(1)),
    ("0x6p-1075", Ok(3)),
    ("0x1.8p-1073", Ok(3)),
    ("0x1.4p-1073", NONE),
    ("0x5p-1075", NONE),
    ("0x3p-1075", NONE),
    ("0x1p-1075", NONE),
    ("-0x1p-1075", NONE),
    ("0x.8p-1074", NONE),
    ("0x1.0000000000001p-1023", NONE),
    // 53 bits, and 54.
    ("0x1.0000000000001p0", Ok(0x3ff0000000000001)),
    ("0x1.00000000000008p0", NONE),
    ("0x1.00000000000001p0", NONE),
    ("0x1fffffffffffffp0", Ok(0x433fffffffffffff)),
    ("0x3ffffffffffffep0", Ok(0x434fffffffffffff)),
    ("0x3fffffffffffffp0", NONE),
    ("0x20000000000001p0", NONE),
    // Exponents that are small where only their last 32, 64 or 128 bits count.
    ("0x1p2147483648", NONE),
    ("0x1p4294967296", NONE),
    ("0x1p-4294967296", NONE),
    ("0x1p9223372036854775808", NONE),
    ("0x1p-9223372036854775808", NONE),
    ("0x1p18446744073709551616", NONE),
    ("0x1p-18446744073709551616", NONE),
    ("0x1p340282366920938463463374607431768211456", NONE),
    ("0x1p-340282366920938463463374607431768211456", NONE),
    ("0x0p340282366920938463463374607431768211456", Ok(0)),
];

/// Texts at the bounds that are made and not written out.
pub fn edges() -> Vec<Vec<u8>> {
    let mut texts = parts_of(b"-0x1.62e42fefa39efp-10");
    texts.extend(with_any_byte(b"-0x1.8p-3"));
    texts.extend((-1080..=1030).map(|n| format!("0x1p{n}").into_bytes()));
    texts.extend(significands());
    texts.extend(long_texts());
    texts
}

/// The fronts and ends of a text.
fn parts_of(text: &[u8]) -> Vec<Vec<u8>> {
    let fronts = (0..text.len()).map(|n| text[..n].to_vec());
    let ends = (0..text.len()).map(|n| text[n..].to_vec());
    fronts.chain(ends).collect()
}

/// A text with each byte put into it and in place of one of its own, at each place.
fn with_any_byte(text: &[u8]) -> Vec<Vec<u8>> {
    let mut texts = Vec::new();
    for byte in 0..=u8::MAX {
        for place in 0..=text.len() {
            let (front, end) = text.split_at(place);
            texts.push([front, &[byte], end].concat());
            if let [_, end @ ..] = end {
                texts.push([front, &[byte], end].concat());
            }
        }
    }
    texts
}

/// Odd numbers of 1 to 60 bits with their last bit at 1, about 2^-1074, and with their first about 2^1023.
fn significands() -> Vec<Vec<u8>> {
    let mut texts = Vec::new();
    for length in 1..=60 {
        let ones = u64::MAX >> (64 - length);
        let exponents = [0, -1075, -1074, -1073].into_iter();
        for exponent in exponents.chain(1023 - length..=1025 - length) {
            for whole in [ones, 1 << (length - 1) | 1] {
                texts.push(format!("0x{whole:x}p{exponent}").into_bytes());
            }
        }
    }
    texts
}

/// Digits by the hundred and thousand, and exponents that make up for them or do not.
fn long_texts() -> Vec<Vec<u8>> {
    let mut texts = Vec::new();
    for n in [12, 13, 14, 15, 16, 31, 32, 100, 1000, 3000] {
        let zeros = "0".repeat(n);
        let moved = 4 * n as i64;
        for exponent in [0, 1, -1022, -1023, -1074, -1075, 1023, 1024] {
            texts.push(format!("0x.{zeros}1p{:+}", exponent + moved + 4));
            texts.push(format!("-0x1{zeros}p{}", exponent - moved));
            texts.push(format!("0x{zeros}1.{zeros}p{exponent}"));
        }
        texts.push(format!("0x.{zeros}1fffffffffffffP{moved}"));
        texts.push(format!("0x.{zeros}3fffffffffffffP{moved}"));
        texts.push(format!("0x1FFFFFFFFFFFFF{zeros}p-{moved}"));
        texts.push(format!("0x3FFFFFFFFFFFFF{zeros}p-{moved}"));
        texts.push(format!("0x1{zeros}1p-{moved}"));
        texts.push(format!("0x1{zeros}.1p-{moved}"));
        texts.push(format!("0x1.{zeros}1p0"));
        texts.push(format!("-0x{zeros}.{zeros}p0"));
        texts.push(format!("0x{zeros}p-9{zeros}"));
        texts.push(format!("-0x0p9{zeros}"));
        texts.push(format!("0x1p9{zeros}"));
        texts.push(format!("0x1p-9{zeros}"));
        texts.push(format!("0x1p{zeros}9"));
        texts.push(format!("0x1p-{zeros}"));
        texts.push(format!("0x1p{zeros}1024"));
        texts.push(format!("0x{zeros}"));
        texts.push(format!("0x1p0{zeros}x"));
        texts.push(format!("0x{zeros}.{zeros}.p0"));
    }
    texts.into_iter().map(String::into_bytes).collect()
}

/// A text of 1 to 2,000 digits, exact or not, or of another form. Most are short.
pub fn any(random: &mut Random) -> Vec<u8> {
    match random.below(16) {
        0..6 => of_float(random),
        6 | 7 => at_bounds(random),
        8..11 => changed(random),
        11 => damaged(random),
        12 => zero(random),
        13 => of_digits(random),
        14 => of_parts(random),
        _ => of_letters(random),
    }
}

/// A finite float in one of its many spellings.
fn of_float(random: &mut Random) -> Vec<u8> {
    let pattern = match random.below(4) {
        0 => values::special(random),
        1 => {
            let exponent = random.between(-1074, 1023);
            values::float(random, exponent)
        }
        2 => {
            let exponent = random.between(-60, 60);
            values::float(random, exponent)
        }
        _ => random.word(),
    };
    let word = (pattern >> 52 & 0x7ff) as i64;
    let fraction = pattern & FRACTION;
    // In place of infinities and NaNs the largest floats.
    let (whole, exponent) = match word {
        0 => (fraction, -1074),
        _ => (1 << 52 | fraction, word.min(0x7fe) - 1075),
    };
    let zeros = whole.trailing_zeros().min(52);
    spelled(random, whole >> zeros, exponent + i64::from(zeros))
}

/// A number of 1 to 60 bits whose first or last bit is about a bound of the floats.
fn at_bounds(random: &mut Random) -> Vec<u8> {
    let length = match random.below(2) {
        0 => random.between(52, 55),
        _ => random.between(1, 60),
    };
    let whole = random.word() >> (64 - length) | 1;
    let exponent = match random.below(3) {
        0 => -1074 + random.between(-3, 3),
        1 => 1024 - length + random.between(-3, 3),
        _ => random.between(-1074, 1024 - length),
    };
    spelled(random, whole, exponent)
}

/// A zero with any exponent.
fn zero(random: &mut Random) -> Vec<u8> {
    let exponent = random.word() as i64 >> random.between(2, 63);
    let mut text = spelled(random, 0, exponent);
    if random.below(4) == 0 {
        text.extend((0..up_to(40, random)).map(|_| decimal(random)));
    }
    text
}

/// Any digits, with an exponent by which a float may be near.
fn of_digits(random: &mut Random) -> Vec<u8> {
    let count = match random.below(32) {
        0 => random.between(1, 2000),
        1..6 => random.between(1, 60),
        _ => random.between(1, 16),
    };
    let digits = (0..count).map(|_| hexadecimal(random)).collect();
    let exponent = random.between(-1090, 1040) - random.between(0, 4 * count);
    assembled(random, digits, exponent)
}

/// A whole number times a power of two: its digits moved by 0 to 3 bits, with zeros at both ends.
fn spelled(random: &mut Random, whole: u64, exponent: i64) -> Vec<u8> {
    let moved = random.below(4) as i64;
    let mut digits = vec![b'0'; zeros(random)];
    digits.extend(format!("{:x}", u128::from(whole) << moved).into_bytes());
    let added = zeros(random);
    digits.extend(vec![b'0'; added]);
    assembled(random, digits, exponent - moved - 4 * added as i64)
}

/// A text of these digits, the last of which counts so many powers of two: with any sign, a point anywhere or none, zeros before the
/// exponent, and letters of one case or of both.
fn assembled(random: &mut Random, mut digits: Vec<u8>, mut exponent: i64) -> Vec<u8> {
    if random.below(4) != 0 {
        let place = up_to(digits.len(), random);
        exponent += 4 * (digits.len() - place) as i64;
        digits.insert(place, b'.');
    }
    let sign = random.pick(&["", "", "+", "-"]);
    let plus = random.pick(&["", "+"]);
    let minus = match exponent {
        0 => random.pick(&["-", plus]),
        _ if exponent < 0 => "-",
        _ => plus,
    };
    let zeros = "0".repeat(zeros(random));
    let size = exponent.unsigned_abs();
    let mut text = format!("{sign}0x").into_bytes();
    text.extend(digits);
    text.extend(format!("p{minus}{zeros}{size}").into_bytes());
    match random.below(4) {
        0 => text.make_ascii_uppercase(),
        1 => {
            for byte in &mut text {
                if random.below(2) == 0 {
                    byte.make_ascii_uppercase();
                }
            }
        }
        _ => {}
    }
    text
}

/// How many zeros stand somewhere: few as a rule, and up to 990 at times.
fn zeros(random: &mut Random) -> usize {
    match random.below(64) {
        0 => up_to(990, random),
        1..9 => up_to(40, random),
        9..33 => up_to(3, random),
        _ => 0,
    }
}

/// A float's text with one digit changed, put in or taken out.
fn changed(random: &mut Random) -> Vec<u8> {
    let mut text = of_float(random);
    let x = text.iter().position(|byte| b"xX".contains(byte));
    let p = text.iter().position(|byte| b"pP".contains(byte));
    let (x, p) = x.zip(p).expect("a text of the form");
    let is_digit = |place: &usize| text[*place].is_ascii_hexdigit();
    let digits: Vec<usize> = (x + 1..text.len()).filter(is_digit).collect();
    let place = random.pick(&digits);
    let digit = if place < p {
        hexadecimal(random)
    } else {
        decimal(random)
    };
    change(random, &mut text, place, digit);
    text
}

/// A float's text with any byte changed, put in or taken out.
fn damaged(random: &mut Random) -> Vec<u8> {
    let mut text = of_float(random);
    let place = random.below(text.len() as u64) as usize;
    let byte = random.word() as u8;
    change(random, &mut text, place, byte);
    text
}

fn change(random: &mut Random, text: &mut Vec<u8>, place: usize, byte: u8) {
    match random.below(3) {
        0 => text[place] = byte,
        1 => text.insert(place, byte),
        _ => drop(text.remove(place)),
    }
}

/// The parts of the form in their order, of which some are missing and some are there twice.
fn of_parts(random: &mut Random) -> Vec<u8> {
    let parts: [&[&str]; 8] = [
        &["", "+", "-"],
        &["0x", "0X"],
        &["", "0", "1", "aF", "00"],
        &["", "."],
        &["", "0", "8", "Cd", "00"],
        &["p", "P"],
        &["", "+", "-"],
        &["0", "1", "23", "007"],
    ];
    let mut text = String::new();
    for part in parts {
        let times = random.pick(&[0, 1, 1, 1, 1, 1, 1, 1, 1, 1, 1, 1, 1, 1, 1, 2]);
        (0..times).for_each(|_| text.push_str(random.pick(part)));
    }
    text.into_bytes()
}

/// Up to 24 of the bytes that texts are made of.
fn of_letters(random: &mut Random) -> Vec<u8> {
    let count = up_to(24, random);
    (0..count)
        .map(|_| random.pick(b"+-0xX.pP19afAF "))
        .collect()
}

fn hexadecimal(random: &mut Random) -> u8 {
    random.pick(b"0123456789abcdef")
}

fn decimal(random: &mut Random) -> u8 {
    random.pick(b"0123456789")
}

fn up_to(most: usize, random: &mut Random) -> usize {
    random.below(most as u64 + 1) as usize
}
