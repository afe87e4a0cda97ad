//! Household sheets through take and hand_on, beside the book of book.rs, and what came of sheets.

use crate::book::{ANSWER_ROOM, Call, Kind, Reply, Service};
use crate::calls;
use crate::lines::{self, Line};
use crate::nans::Kinds;
use crate::random::Random;
use crate::service::{self, LONGEST_BODY, Operations};
use crate::sheet::{self, LINE, MOST_LINES};
use crate::tally::{Mismatches, Tally};
use crate::values::SIGN;
use crate::{frames, machine};

/// Lines of the sheets in which every bad line comes at every place.
const SPOILED: [usize; 4] = [1, 2, 3, MOST_LINES];

/// The longest payload that is cut off at every place.
const LONGEST: usize = 530;

/// What may come of a sheet, by its length or by its first bad line.
const SHEETS: &str = "weights alone|with sums|5, empty|5, no multiple of 9|\
    14, first byte|14, filler byte|14, filler byte, and 15 applies|\
    15, own number|15, a later line|15, no line of the sheet";

/// Which of two numbers two bad lines of a sheet have, in order.
const SEVERAL: &str = "14 and 14|14 and 15|15 and 14|15 and 15";

/// What may come of the sum of two lines.
const SUMS: &str = "exact|rounded|+0|-0|overflow to infinity|overflow to -infinity|of an infinity|\
    invalid|NaN, first alone|NaN, second alone|NaN, both";

/// What may come of a good sheet when one byte of its body is another.
const DAMAGED: &str = "answered as before|answered otherwise|3|4|5|14|15";

/// The least count of NaNs of each kind that a sum takes from the first line, the second having none or having one, and from the second, for
/// each thousand sheets.
const FLOOR_OF_NANS: u64 = 10;

/// Runs the fixed sheets, and so many thousand with a byte changed; false where a call differs or an outcome never came.
pub fn compare(thousands: u64) -> bool {
    let mut sheets = Sheets::new();
    sheets.good();
    sheets.cut_off();
    sheets.bad();
    sheets.two_bad();
    for _ in 0..thousands * 1000 {
        sheets.damage();
    }
    sheets.print(thousands * FLOOR_OF_NANS)
}

struct Sheets {
    random: Random,
    operations: &'static Operations,
    mismatches: Mismatches,
    seen: Seen,
    damaged: Tally,
}

impl Sheets {
    fn new() -> Self {
        Sheets {
            random: Random::new(16),
            operations: calls::operations(),
            mismatches: Mismatches::default(),
            seen: Seen::new("sheets of kind 5"),
            damaged: Tally::new("sheets with one byte changed", DAMAGED),
        }
    }

    /// Every number of lines, every chain and every sum of the crossed weights.
    fn good(&mut self) {
        let mut all = lines::chains();
        all.extend(lines::crossed(&mut self.random));
        for count in 1..=MOST_LINES {
            all.push(lines::good(count, lines::summands, &mut self.random));
        }
        for lines in all {
            self.take(lines.as_flattened(), 0);
        }
    }

    /// Every length of a payload, with lines that are good but for a last one that is cut off, and with a first one that is bad.
    fn cut_off(&mut self) {
        let count = LONGEST / LINE + 1;
        let good = lines::good(count, lines::summands, &mut self.random);
        let spoiled = lines::with_bad(count, &[(0, 14)], &mut self.random);
        for length in 0..=LONGEST {
            let number = match length {
                _ if LONGEST_BODY < 2 + length => 2,
                0 => 5,
                _ if !length.is_multiple_of(LINE) => 5,
                _ => 0,
            };
            self.take(&good.as_flattened()[..length], number);
            let number = if number == 0 { 14 } else { number };
            self.take(&spoiled.as_flattened()[..length], number);
        }
    }

    /// Every bad line at every place, and a weight of the same bytes, which is good.
    fn bad(&mut self) {
        for count in SPOILED {
            for place in 0..count {
                for (number, line) in lines::bad(place, count) {
                    self.spoil(count, place, line, number);
                    self.spoil(count, place, lines::as_weight(line), 0);
                }
            }
        }
    }

    /// Two bad lines at every two places, of which the first decides.
    fn two_bad(&mut self) {
        for count in SPOILED {
            for second in 0..count {
                for first in 0..second {
                    for [number, other] in [[14, 15], [15, 14]] {
                        let places = [(first, number), (second, other)];
                        let lines = lines::with_bad(count, &places, &mut self.random);
                        self.take(lines.as_flattened(), number);
                    }
                }
            }
        }
    }

    /// Takes a good sheet with another line at a place.
    fn spoil(&mut self, count: usize, place: usize, line: Line, number: u8) {
        let lines = lines::with_lines(count, &[(place, line)], &mut self.random);
        self.take(lines.as_flattened(), number);
    }

    /// Takes a frame with this payload, whose number is known.
    fn take(&mut self, payload: &[u8], number: u8) {
        let reply = self.call(Kind::Take, frames::of_sheet(payload));
        if let Some(reply) = reply
            && reply.number != number
        {
            let by = reply.number;
            let payload = calls::hexadecimal(payload);
            let difference = format!("both give {by} and not {number} for {payload}");
            self.mismatches.report(difference);
        }
    }

    /// Hands on a good sheet and another behind it, and both once more with one byte of the first body changed: the second answer is the same.
    fn damage(&mut self) {
        let good = frames::of_sheet(lines::any_good(&mut self.random).as_flattened());
        let next = frames::of_sheet(lines::any(&mut self.random).as_flattened());
        let mut damaged = good.clone();
        frames::damage(&mut damaged, &mut self.random);
        let replies = [good, damaged].map(|first| {
            let piece = [first, next.clone()].concat();
            self.call(Kind::HandOn, piece)
        });
        let [Some(before), Some(after)] = replies else {
            return;
        };
        let [was, behind] = two_answers(&before);
        let [is, behind_damaged] = two_answers(&after);
        if behind != behind_damaged {
            let difference = "the answer behind a damaged sheet is another";
            self.mismatches.report(difference);
        }
        match is[1] {
            0 if is == was => self.damaged.count("answered as before"),
            0 => self.damaged.count("answered otherwise"),
            number => self.damaged.count(&number.to_string()),
        }
    }

    /// Calls the weigher and the book, each on the fresh state, and returns their reply, where both have the same.
    fn call(&mut self, kind: Kind, piece: Vec<u8>) -> Option<Reply> {
        for body in service::bodies(&piece) {
            self.seen.count(body);
        }
        let room = match kind {
            Kind::HandOn => 2 * ANSWER_ROOM,
            _ => ANSWER_ROOM,
        };
        let buffer = (0..room).map(|_| self.random.word() as u8).collect();
        let call = Call {
            kind,
            piece,
            buffer,
        };
        let state = ffi::weigher_fresh();
        let want = Service::new(state, 0, self.operations).call(&call);
        let got = calls::weigher(state, &call);
        let differences = calls::differences(&got, &want);
        if differences.is_empty() {
            return Some(got);
        }
        let call = calls::shown(&state, &call);
        let lines = differences.join("\n    ");
        self.mismatches.report(format!("{call}\n    {lines}"));
        None
    }

    /// Prints the counts; false where there was a mismatch, an outcome never came, or a count of NaNs is under the floor.
    fn print(&self, floor: u64) -> bool {
        let reached = self.seen.print(floor);
        let damaged = self.damaged.print();
        self.mismatches.print() && reached && damaged
    }
}

/// The bodies of the answers to two frames.
fn two_answers(reply: &Reply) -> [&[u8]; 2] {
    let answers: Vec<&[u8]> = service::bodies(&reply.buffer[..reply.len]).collect();
    answers.try_into().expect("an answer to each")
}

/// What came of sheets that are not too long, and of their sums.
pub struct Seen {
    sheets: Tally,
    several: Tally,
    sums: Tally,
    /// The NaNs that sums take: from the first line alone, from the second alone, and from the first of two.
    nans: [Kinds; 3],
}

impl Seen {
    pub fn new(name: &'static str) -> Self {
        Seen {
            sheets: Tally::new(name, SHEETS),
            several: Tally::new("the first two bad lines of a sheet", SEVERAL),
            sums: Tally::new("sums of two lines", SUMS),
            nans: Default::default(),
        }
    }

    /// Counts a body, where it is a sheet.
    pub fn count(&mut self, body: &[u8]) {
        let [1, 5, payload @ ..] = body else {
            return;
        };
        if LONGEST_BODY < body.len() {
            return;
        }
        let (lines, rest) = payload.as_chunks();
        if !rest.is_empty() {
            return self.sheets.count("5, no multiple of 9");
        }
        if lines.is_empty() {
            return self.sheets.count("5, empty");
        }
        let numbered = lines.iter().enumerate();
        let faults = numbered.filter_map(|(number, line)| fault(number, line, lines.len()));
        match Vec::from_iter(faults)[..] {
            [] => self.count_good(lines),
            [fault] => self.sheets.count(fault),
            [fault, next, ..] => {
                self.sheets.count(fault);
                self.several
                    .count(&format!("{} and {}", &fault[..2], &next[..2]));
            }
        }
    }

    fn count_good(&mut self, lines: &[Line]) {
        let sums = lines.iter().filter(|line| line[0] == 1);
        let values = sheet::values(lines.as_flattened(), machine::fused).unwrap_or_default();
        let outcome = match sums.clone().count() {
            0 => "weights alone",
            _ => "with sums",
        };
        self.sheets.count(outcome);
        for [_, first, second, ..] in sums {
            let [x, y] = [first, second].map(|number| values[usize::from(*number)]);
            self.count_sum(x, y);
        }
    }

    fn count_sum(&mut self, x: u64, y: u64) {
        self.sums.count(sum_outcome(x, y));
        let [a, b] = [x, y].map(f64::from_bits);
        match (a.is_nan(), b.is_nan()) {
            (true, false) => self.nans[0].count(x),
            (false, true) => self.nans[1].count(y),
            (true, true) => self.nans[2].count(x),
            (false, false) => {}
        }
    }

    /// Prints the counts; false where an outcome never came, or a count of NaNs is under the floor.
    pub fn print(&self, floor: u64) -> bool {
        let reached = [&self.sheets, &self.several, &self.sums].map(Tally::print);
        println!("NaNs of sums");
        let names = ["first alone", "second alone", "first of both"];
        let nans = names.iter().zip(self.nans);
        let enough = nans.map(|(name, kinds)| kinds.print(name, floor));
        !reached.contains(&false) & !Vec::from_iter(enough).contains(&false)
    }
}

/// Why the line with this number is bad, in a sheet of so many.
fn fault(number: usize, line: &Line, count: usize) -> Option<&'static str> {
    let [form, first, second, filler @ ..] = line;
    let greatest = usize::from(*first.max(second));
    let is_filled = *filler != [0; 6];
    match form {
        0 => None,
        1 if is_filled && number <= greatest => Some("14, filler byte, and 15 applies"),
        1 if is_filled => Some("14, filler byte"),
        1 if greatest < number => None,
        1 if greatest == number => Some("15, own number"),
        1 if greatest < count => Some("15, a later line"),
        1 => Some("15, no line of the sheet"),
        _ => Some("14, first byte"),
    }
}

/// Which of `SUMS` the sum of two values is.
fn sum_outcome(x: u64, y: u64) -> &'static str {
    let [a, b] = [x, y].map(f64::from_bits);
    let sum = a + b;
    match (a.is_nan(), b.is_nan()) {
        (true, true) => return "NaN, both",
        (true, false) => return "NaN, first alone",
        (false, true) => return "NaN, second alone",
        (false, false) => {}
    }
    if sum.is_nan() {
        return "invalid";
    }
    if a.is_infinite() || b.is_infinite() {
        return "of an infinity";
    }
    match sum.to_bits() {
        0 => "+0",
        SIGN => "-0",
        _ if sum == f64::INFINITY => "overflow to infinity",
        _ if sum == f64::NEG_INFINITY => "overflow to -infinity",
        _ if sum - a == b && sum - b == a => "exact",
        _ => "rounded",
    }
}
