//! Scores with lent lists beside those of listed.rs; with the table of 56 lent, beside the Rust's and those without a list too.

use ffi::Entry;

use crate::entries::{self, FAULTS, Fault, KINDS};
use crate::listed::{self, BAD_ENTRY, LONG_LIST, MOST, Reply};
use crate::nans::Kinds;
use crate::random::Random;
use crate::run::REACH;
use crate::rust;
use crate::score::{self, BENCH, is_of_step_5};
use crate::steps::{self, Step};
use crate::tally::{Mismatches, Tally};
use crate::values::{SIGN, UNTOUCHED, nan};

/// Lengths that half of the good lists have.
const LENGTHS: [usize; 6] = [0, 1, 2, 56, 255, MOST];

/// Lengths of the lists that have a bad entry.
const SPOILED: [usize; 5] = [1, 2, 56, MOST, MOST + 1];

/// Lengths of good entries that are too many. By their low bytes alone, or the low two, these are short lists.
const LONG: [usize; 6] = [257, 258, 512, 513, 65_536, 65_537];

/// Random weights with the table of 56 lent, for each thousand lists.
const WITH_TABLE: u64 = 100_000;

/// Weights of each other kind that are scored with a good list, besides those about its entries.
const OTHERS: usize = 20;

/// The least count of NaNs of each kind, with good lists and with refused ones, for each thousand lists.
const FLOOR_OF_NANS: u64 = 3000;

const STEPS: &str = "1|2|3|4|5|6|7|8";

/// How a weight may be answered with a good list. hi is an entry's, and the 56 are x of the built-in table.
const ANSWERS: &str = "1|2|3|4|5, entry, hi|5, entry, not hi|5, entry, infinite|5, two terms|5, two terms, x of the 56|6|7|8|x of an entry, not step 5";

/// Runs so many thousand good lists, for each thousand every refused one once, and the table of 56; false where a reply differs or an outcome
/// never came.
pub fn compare(thousands: u64) -> bool {
    let mut lists = Lists::new();
    for _ in 0..thousands {
        lists.refuse_all();
    }
    let floor = thousands * FLOOR_OF_NANS;
    let mut reached = lists.refused.print();
    reached &= lists.refused_nans.print("NaNs among the weights", floor);
    if rust::INSTANCES.is_empty() {
        println!("scores with a list: not compared, the Rust source was not there");
    } else {
        lists.lend_table(thousands * WITH_TABLE);
        for _ in 0..thousands * 1000 {
            lists.lend_any();
        }
        let tallies = [&lists.steps, &lists.lengths, &lists.kinds, &lists.answers];
        reached &= !tallies.map(Tally::print).contains(&false);
        reached &= lists.nans.print("NaNs among the weights", floor);
    }
    lists.mismatches.print() && reached
}

struct Lists {
    random: Random,
    /// The table of 56, and weights at the edges of the score's ranges.
    table: Vec<Entry>,
    edges: Vec<u64>,
    mismatches: Mismatches,
    refused: Tally,
    refused_nans: Kinds,
    steps: Tally,
    lengths: Tally,
    kinds: Tally,
    answers: Tally,
    nans: Kinds,
}

impl Lists {
    fn new() -> Self {
        let faults = FAULTS.map(|(name, _)| format!("13, {name}")).join("|");
        let refused = format!("12, good entries|12, a bad entry|{faults}");
        let lengths = LENGTHS.map(|length| length.to_string()).join("|");
        let kinds = KINDS.map(|(name, _)| name).join("|");
        Lists {
            random: Random::new(14),
            table: rust::first_table(),
            edges: score::edges(1),
            mismatches: Mismatches::default(),
            refused: Tally::new("refused lists", &refused),
            refused_nans: Kinds::default(),
            steps: Tally::new("weights with the table of 56 lent, by the step", STEPS),
            lengths: Tally::new("good lists, by their entries", &(lengths + "|another")),
            kinds: Tally::new("good lists, by their x", &kinds),
            answers: Tally::new("weights with a good list, by the step", ANSWERS),
            nans: Kinds::default(),
        }
    }

    /// Each fault at each place, in lists whose x are positive, negative, or positive from the place on; and good entries that are too many.
    fn refuse_all(&mut self) {
        for count in SPOILED {
            for place in 0..count {
                for negative in [0, place, count] {
                    let list = entries::of_signs(&mut self.random, negative, count - negative);
                    for fault in FAULTS {
                        self.spoil(list.clone(), place, fault);
                    }
                }
            }
        }
        for count in LONG {
            let list = entries::of_signs(&mut self.random, count / 2, count - count / 2);
            self.refuse(&list, 0, LONG_LIST, "12, good entries");
        }
    }

    fn spoil(&mut self, mut list: Vec<Entry>, place: usize, (name, fault): Fault) {
        let before = place.checked_sub(1).map(|place| list[place]);
        let Some(bad) = fault(&mut self.random, list[place], before) else {
            return;
        };
        list[place] = bad;
        if MOST < list.len() {
            self.refuse(&list, place, LONG_LIST, "12, a bad entry");
        } else {
            self.refuse(&list, place, BAD_ENTRY, &format!("13, {name}"));
        }
    }

    /// The list must be refused by the number with every weight, NaNs and x of its entries among them.
    fn refuse(&mut self, list: &[Entry], place: usize, number: u8, outcome: &str) {
        self.refused.count(outcome);
        let places = [0, place.saturating_sub(1), place, list.len() - 1];
        let weights = places.map(|place| list[place].x.to_bits());
        let nan = nan(&mut self.random);
        for x in BENCH.into_iter().chain(weights).chain([nan]) {
            self.refused_nans.count(x);
            let reply = compare_call(outcome, list, x, &mut self.mismatches);
            if reply != Err(number) {
                self.mismatches
                    .report(format!("{outcome}: listed.rs {reply:?}"));
            }
        }
    }

    /// The table of 56 in its own place changes no score.
    fn lend_table(&mut self, count: u64) {
        if self.table.len() != 56 {
            let count = self.table.len();
            self.mismatches.report(format!("{count} built-in entries"));
        }
        for x in score::edges(REACH) {
            self.lend_table_for(x);
        }
        for _ in 0..count {
            let x = score::weight(&mut self.random);
            self.lend_table_for(x);
        }
    }

    fn lend_table_for(&mut self, x: u64) {
        let name = "the table of 56";
        let reply = compare_call(name, &self.table, x, &mut self.mismatches);
        let others = [("Rust", rust::score(x)), ("score", ffi::weigher_score(x))];
        for (other, score) in others {
            if reply != Ok(score) {
                self.mismatches.report(format!(
                    "{x:016x} with {name}: listed.rs {reply:x?}, {other} {score:x}"
                ));
            }
        }
        self.steps.count(steps::number(x));
    }

    /// A good list, which lies between two more entries that are not lent.
    fn lend_any(&mut self) {
        let count = match self.random.below(2) {
            0 => self.random.pick(&LENGTHS),
            _ => self.random.below(MOST as u64 + 1) as usize,
        };
        let (kind, x) = self.random.pick(&KINDS);
        let entries = entries::good(&mut self.random, count + 2, |random| x(random, &self.table));
        let list = &entries[1..=count];
        self.kinds.count(kind);
        let is_fixed = LENGTHS.contains(&count);
        let length = count.to_string();
        self.lengths
            .count(if is_fixed { &length } else { "another" });
        for x in self.weights(&entries) {
            self.nans.count(x);
            let reply = compare_call(kind, list, x, &mut self.mismatches);
            match reply {
                Ok(score) => self.answers.count(answer(list, x, score)),
                Err(number) => {
                    let difference = format!("a good list, {kind}: listed.rs {number}");
                    self.mismatches.report(difference);
                }
            }
        }
    }

    /// x of each entry, its neighbours and its negative; edges of the score, weights of step 5, any, and NaNs.
    fn weights(&mut self, entries: &[Entry]) -> Vec<u64> {
        let of_entries = entries.iter().flat_map(|entry| {
            let x = entry.x.to_bits();
            [x, x - 1, x + 1, x ^ SIGN]
        });
        let mut weights: Vec<u64> = of_entries.collect();
        for _ in 0..OTHERS {
            weights.push(self.random.pick(&self.edges));
            weights.push(entries::of_step_5(&mut self.random));
            weights.push(score::weight(&mut self.random));
            weights.push(nan(&mut self.random));
        }
        weights
    }
}

/// Compares the weigher's reply with that of listed.rs, and returns the latter. A refused call leaves the score as it was.
fn compare_call(name: &str, list: &[Entry], x: u64, mismatches: &mut Mismatches) -> Reply {
    let reply = listed::score_with(list, x);
    let (number, want) = match reply {
        Ok(score) => (0, score),
        Err(number) => (number, UNTOUCHED),
    };
    let mut got = UNTOUCHED;
    let refusal = ffi::score_with(list, x, &mut got);
    if (refusal, got) != (number, want) {
        let count = list.len();
        mismatches.report(format!(
            "score {x:016x} with {count} entries, {name}: weigher {refusal}, {got:016x}, listed.rs {number}, {want:016x}"
        ));
    }
    reply
}

/// Which of `ANSWERS` the score is.
fn answer(list: &[Entry], x: u64, score: u64) -> &'static str {
    let entry = listed::find(list, f64::from_bits(x));
    match (is_of_step_5(x), entry) {
        (false, None) => steps::number(x),
        (false, Some(_)) => "x of an entry, not step 5",
        (true, None) if matches!(steps::step(x), Step::FirstEntry) => "5, two terms, x of the 56",
        (true, None) => "5, two terms",
        (true, Some(_)) if f64::from_bits(score).is_infinite() => "5, entry, infinite",
        (true, Some(entry)) if score == entry.hi.to_bits() => "5, entry, hi",
        (true, Some(_)) => "5, entry, not hi",
    }
}
