//! Lists of calls of take, close and hand_on, on any state, beside the book of book.rs.

use ffi::{Counts, State};

use crate::book::{Book, Call, Kind, Reply, Service};
use crate::nans::{Kinds, Sets};
use crate::random::Random;
use crate::service::{self, FLOAT, LONGEST_BODY, Operations};
use crate::source::Source;
use crate::states::{self, Start};
use crate::tally::{Mismatches, Tally};
use crate::{machine, payloads, rust, serve, sheets};

/// Most calls of one list.
const CALLS: i64 = 20;

/// Bytes that a mismatch shows of a piece, a body or a buffer.
const SHOWN: usize = 24;

const GOOD_BY_CHANCE: &str = "good by chance";

/// What may come of a frame of version 1 and kind 3 that is not too long.
const DIRECTED: &str = "nearest|toward zero|up|down|11, direction byte alone|11, more behind it|5, empty|5, direction byte alone|5, no multiple of 24";

/// What may come of a frame of version 1 and kind 4 that is not too long: the numbers of the report, or refusal 5.
const REPORTED: &str = "none counted|some counted|total alone at its end|accepted and total at their ends|refused and total at their ends|all at their ends|5";

/// The least count of NaN weights of each kind, and of each set of NaN operands of kinds 2 and 3 with a first one of each kind, for each
/// thousand lists.
const FLOOR_OF_NANS: u64 = 10;

/// How much further a book may have counted than a number at its end shows.
const FURTHER: [u128; 4] = [0, 1, 1 << 64, 1 << 100];

/// Where there is no Rust exp2m1 the scores are the weigher's own, and all else is compared.
const WITHOUT_SOURCE: Operations = Operations {
    score: serve::WEIGHER.score,
    fused: machine::fused,
    fused_in: machine::fused_in,
};

/// Runs so many thousand lists of calls, and as many sheets, bodies and payloads; false where a call differs or an outcome never came.
pub fn compare(thousands: u64) -> bool {
    let mut lists = Lists::new();
    for number in 1..=thousands * 1000 {
        lists.run(number);
    }
    let alike = lists.print(thousands * FLOOR_OF_NANS);
    let good = [sheets::compare, payloads::compare].map(|compare| compare(thousands));
    alike && good == [true; 2]
}

struct Lists {
    random: Random,
    operations: &'static Operations,
    mismatches: Mismatches,
    states: Tally,
    take: Tally,
    close: Tally,
    hand_on: Tally,
    handed_on: Tally,
    directed: Tally,
    reported: Tally,
    sheets: sheets::Seen,
    ended: Tally,
    nans: Nans,
}

/// The NaNs of answered frames of kinds 1, 2 and 3.
#[derive(Default)]
struct Nans {
    weights: Kinds,
    triples: Sets,
    directed: Sets,
}

impl Lists {
    fn new() -> Self {
        let mut mismatches = Mismatches::default();
        if ffi::weigher_fresh() != Book::holding(&[]).state() {
            mismatches.report("fresh: not all 0");
        }
        if rust::INSTANCES.is_empty() {
            println!("calls: the scores are not compared, the Rust source was not there");
        }
        let mut names = states::names();
        names.push(GOOD_BY_CHANCE);
        Lists {
            random: Random::new(8),
            operations: operations(),
            mismatches,
            states: Tally::new("lists, by the state at the start", &names.join("|")),
            take: Tally::new(
                "take",
                "unfinished|answered|1|2|3|4|11|5|14|15|6|6 before 7|7",
            ),
            close: Tally::new("close", "nothing|8|6|6 before 7|7"),
            hand_on: Tally::new(
                "hand_on",
                "no answer|one answer|many answers|no room for more|6|6 before 7|7",
            ),
            handed_on: Tally::new("answers of hand_on, by their code", "0|1|2|3|4|11|5|14|15"),
            directed: Tally::new("frames of kind 3, by their payload", DIRECTED),
            reported: Tally::new("frames of kind 4, by their answer", REPORTED),
            sheets: sheets::Seen::new("frames of kind 5, by their payload"),
            ended: Tally::new(
                "counts that a call brought to their end",
                "accepted|refused|total",
            ),
            nans: Nans::default(),
        }
    }

    /// Each call is given the state that the last one returned. The list ends at a mismatch.
    fn run(&mut self, list: u64) {
        let kind = states::any(&mut self.random);
        let Start { mut state, rest } = (kind.start)(&mut self.random);
        let further = self.random.pick(&FURTHER);
        let mut service = Service::new(state, further, self.operations);
        let bad = service.book.is_none();
        match (kind.bad, bad) {
            (false, true) => {
                let name = kind.name;
                self.mismatches.report(format!("list {list}: {name}: bad"));
            }
            (true, false) => self.states.count(GOOD_BY_CHANCE),
            _ => self.states.count(kind.name),
        }
        let mut source = Source::new(rest, &mut self.random);
        for number in 1..=self.random.between(1, CALLS) {
            let missing = service.book.as_ref().map_or(0, Book::missing);
            let mut bytes = service.held().to_vec();
            let call = source.call(missing, &mut self.random);
            let want = service.call(&call);
            self.tally(&call, &want, bad);
            bytes.extend(&call.piece[..want.used]);
            self.tally_frames(&bytes, &want.buffer[..want.len]);
            self.tally_ends(&state.counts, &want.state.counts);
            let got = weigher(state, &call);
            let differences = differences(&got, &want);
            if !differences.is_empty() {
                let call = shown(&state, &call);
                let lines = differences.join("\n    ");
                self.mismatches
                    .report(format!("list {list}, call {number}: {call}\n    {lines}"));
                return;
            }
            state = got.state;
            source.move_on(&call, &want);
        }
    }

    fn tally(&mut self, call: &Call, reply: &Reply, bad: bool) {
        let codes = codes(&reply.buffer[..reply.len]);
        let number = reply.number.to_string();
        let outcome = match (call.kind, reply.number) {
            (_, 6) if bad => "6 before 7",
            (Kind::HandOn, 0) if reply.used < call.piece.len() => "no room for more",
            (Kind::HandOn, 0) => ["no answer", "one answer", "many answers"][codes.len().min(2)],
            (Kind::Take, 0) => ["unfinished", "answered"][codes.len()],
            (Kind::Close, 0) => "nothing",
            _ => &number,
        };
        match call.kind {
            Kind::Take => self.take.count(outcome),
            Kind::Close => self.close.count(outcome),
            Kind::HandOn => self.hand_on.count(outcome),
        }
        if call.kind == Kind::HandOn {
            for code in codes {
                self.handed_on.count(&code.to_string());
            }
        }
    }

    /// The frames of kinds 3, 4 and 5, and the NaNs of those that are answered, among the bytes that were held before a call and those that it
    /// moved, and the call's answers.
    fn tally_frames(&mut self, bytes: &[u8], answers: &[u8]) {
        for (body, answer) in service::bodies(bytes).zip(service::bodies(answers)) {
            match body {
                _ if LONGEST_BODY < body.len() => {}
                [1, 3, payload @ ..] => self.directed.count(directed_outcome(payload)),
                [1, 4, ..] => self.reported.count(reported_outcome(&answer[2..])),
                _ => {}
            }
            self.sheets.count(body);
            if answer[1] == 0 {
                self.nans.count(body);
            }
        }
    }

    fn tally_ends(&mut self, before: &Counts, after: &Counts) {
        let numbers = [
            ("accepted", before.accepted, after.accepted),
            ("refused", before.refused, after.refused),
            ("total", before.total, after.total),
        ];
        for (name, before, after) in numbers {
            if before < after && after == u64::MAX {
                self.ended.count(name);
            }
        }
    }

    /// Prints the counts; false where there was a mismatch, an outcome never came, or a count of NaNs is under the floor.
    fn print(&self, floor: u64) -> bool {
        let tallies = [
            &self.states,
            &self.take,
            &self.close,
            &self.hand_on,
            &self.handed_on,
            &self.directed,
            &self.reported,
            &self.ended,
        ];
        let reached = tallies.map(Tally::print);
        let enough = [self.nans.print(floor), self.sheets.print(floor)];
        self.mismatches.print() && !reached.contains(&false) && enough == [true; 2]
    }
}

impl Nans {
    fn count(&mut self, body: &[u8]) {
        match body {
            [1, 1, weights @ ..] => {
                for x in service::patterns(weights) {
                    self.weights.count(x);
                }
            }
            [1, 2, triples @ ..] => count_triples(&mut self.triples, triples),
            [1, 3, _, triples @ ..] => count_triples(&mut self.directed, triples),
            _ => {}
        }
    }

    fn print(&self, floor: u64) -> bool {
        println!("NaNs of kind 1");
        let weights = self.weights.print("x", floor);
        println!("NaNs of kind 2");
        let triples = self.triples.print(floor);
        println!("NaNs of kind 3");
        let directed = self.directed.print(floor);
        weights && triples && directed
    }
}

fn count_triples(sets: &mut Sets, triples: &[u8]) {
    let floats = service::patterns(triples);
    let (triples, _) = floats.as_chunks();
    for triple in triples {
        sets.count(*triple);
    }
}

fn directed_outcome(payload: &[u8]) -> &'static str {
    match payload {
        [] => "5, empty",
        [4..=u8::MAX] => "11, direction byte alone",
        [4..=u8::MAX, ..] => "11, more behind it",
        [_] => "5, direction byte alone",
        [_, triples @ ..] if !triples.len().is_multiple_of(3 * FLOAT) => "5, no multiple of 24",
        [0, ..] => "nearest",
        [1, ..] => "toward zero",
        [2, ..] => "up",
        [3, ..] => "down",
    }
}

/// By the numbers of the answer; a refusal has none.
fn reported_outcome(numbers: &[u8]) -> &'static str {
    match service::patterns(numbers)[..] {
        [] => "5",
        [0, 0, 0] => "none counted",
        [u64::MAX, u64::MAX, _] => "all at their ends",
        [u64::MAX, ..] => "accepted and total at their ends",
        [_, u64::MAX, _] => "refused and total at their ends",
        [.., u64::MAX] => "total alone at its end",
        _ => "some counted",
    }
}

/// The code of each answer.
fn codes(answers: &[u8]) -> Vec<u8> {
    service::bodies(answers).map(|body| body[1]).collect()
}

/// The operations of the book: those of the reference, where the Rust source was there.
pub fn operations() -> &'static Operations {
    if rust::INSTANCES.is_empty() {
        &WITHOUT_SOURCE
    } else {
        &service::REFERENCE
    }
}

pub fn weigher(state: State, call: &Call) -> Reply {
    let mut buffer = call.buffer.clone();
    let (state, used, len, number) = match call.kind {
        Kind::Take => {
            let r = ffi::take(state, &call.piece, &mut buffer);
            (r.state, r.used, r.len, r.refusal)
        }
        Kind::Close => {
            let r = ffi::close(state, &mut buffer);
            (r.state, 0, r.len, r.refusal)
        }
        Kind::HandOn => {
            let r = ffi::hand_on(state, &call.piece, &mut buffer);
            (r.state, r.used, r.len, r.refusal)
        }
    };
    Reply {
        state,
        used,
        len,
        number,
        buffer,
    }
}

/// The fields that are single numbers.
fn numbers(reply: &Reply) -> [(&'static str, u64); 9] {
    let State { frame, counts } = &reply.state;
    [
        ("used", reply.used as u64),
        ("length", reply.len as u64),
        ("number", reply.number.into()),
        ("state's count", frame.count as u64),
        ("state's hi", frame.hi.into()),
        ("state's lo", frame.lo.into()),
        ("state's accepted", counts.accepted),
        ("state's refused", counts.refused),
        ("state's total", counts.total),
    ]
}

/// A line for each field that differs.
pub fn differences(got: &Reply, want: &Reply) -> Vec<String> {
    let bytes = [
        (
            "state's body",
            &got.state.frame.body[..],
            &want.state.frame.body[..],
        ),
        ("buffer", &got.buffer, &want.buffer),
    ];
    let mut lines = Vec::new();
    for ((name, got), (_, want)) in numbers(got).into_iter().zip(numbers(want)) {
        if got != want {
            lines.push(format!("{name}: weigher {got}, reference {want}"));
        }
    }
    for (name, got, want) in bytes {
        if let Some(place) = (0..want.len()).find(|place| got[*place] != want[*place]) {
            lines.push(format!("{name} from place {place} on:"));
            lines.push(format!("    weigher   {}", hexadecimal(&got[place..])));
            lines.push(format!("    reference {}", hexadecimal(&want[place..])));
        }
    }
    lines
}

pub fn shown(state: &State, call: &Call) -> String {
    let name = match call.kind {
        Kind::Take => "take",
        Kind::Close => "close",
        Kind::HandOn => "hand_on",
    };
    let State { frame, counts } = state;
    let body = hexadecimal(&frame.body);
    let lines = [
        name.to_string(),
        format!(
            "state: count {}, hi {}, lo {}",
            frame.count, frame.hi, frame.lo
        ),
        format!("state's body: {body}"),
        format!(
            "state's counts: accepted {}, refused {}, total {}",
            counts.accepted, counts.refused, counts.total
        ),
        format!(
            "piece of {} bytes: {}",
            call.piece.len(),
            hexadecimal(&call.piece)
        ),
        format!("buffer of {} bytes", call.buffer.len()),
    ];
    lines.join("\n    ")
}

/// The first bytes.
pub fn hexadecimal(bytes: &[u8]) -> String {
    let shown = bytes.iter().take(SHOWN);
    let shown: Vec<String> = shown.map(|byte| format!("{byte:02x}")).collect();
    let more = if SHOWN < bytes.len() { " .." } else { "" };
    shown.join(" ") + more
}
