//! Scores by lists of the caller's own: the weights that an entry is met for, what it gives there, and the lists that are refused.

use weigher::{Entry, LONGEST_LIST, Refusal, bits, score, score_with};

/// The repository's recorded scores. The weights of the built-in table are among them.
const SCORES: &str = include_str!("../../../crates/exp2m1_vectors/stdin");

/// The built-in tables, x, hi and lo of each entry. The first has 56.
const TABLES: &str = include_str!("../../../crates/exceptions/src/table.rt");

const SIGN: u64 = 1 << 63;

/// The sizes that a list is for: above 2^-104, and up to 0x1.0527dbd87e24dp-51.
const BELOW: u64 = 0x3970000000000000;
const LAST: u64 = 0x3cc0527dbd87e24d;

/// 2^-60, which a list is for, and the float behind 1.
const TINY: f64 = f64::from_bits(0x3c30000000000000);
const ABOVE_ONE: f64 = 1.0 + f64::EPSILON;

/// A NaN, and weights of each step that no table has.
const WEIGHTS: [f64; 12] = [
    f64::NAN,
    f64::NEG_INFINITY,
    -54.0,
    1024.0,
    0.0,
    -0.0,
    f64::MIN_POSITIVE,
    TINY,
    -TINY,
    -53.0,
    0.5,
    1e-3,
];

fn hexadecimal(digits: &str) -> u64 {
    u64::from_str_radix(digits, 16).expect("hexadecimal digits")
}

/// The recorded weights and scores, as patterns.
fn recorded() -> impl Iterator<Item = (u64, u64)> {
    SCORES.lines().map(|line| {
        let words: Vec<&str> = line.split(' ').collect();
        let ["score", x, score] = words[..] else {
            panic!("no vector: {line}");
        };
        (hexadecimal(x), hexadecimal(score))
    })
}

fn tables() -> Vec<Entry> {
    let patterns = TABLES.split("from_bits(0x").skip(1);
    let numbers: Vec<f64> = patterns
        .map(|text| f64::from_bits(hexadecimal(&text[..16])))
        .collect();
    let entries = numbers.chunks_exact(3);
    entries
        .map(|three| entry(three[0], three[1], three[2]))
        .collect()
}

/// The table that a list stands in for.
fn built_in() -> Vec<Entry> {
    tables()[..56].to_vec()
}

fn entry(x: f64, hi: f64, lo: f64) -> Entry {
    Entry { x, hi, lo }
}

/// So many entries around zero, 2^-60 apart. Their scores are 0.25, 1.25 and so on.
fn list_of(len: usize) -> Vec<Entry> {
    (0..len)
        .map(|i| {
            let x = (i as f64 - (len / 2) as f64 + 0.5) * TINY;
            entry(x, i as f64, 0.25)
        })
        .collect()
}

/// Entries for these weights. Their scores are 7.
fn list_for(weights: &[f64]) -> Vec<Entry> {
    weights.iter().map(|x| entry(*x, 6.5, 0.5)).collect()
}

/// Numbers of these ascending sizes, in their order.
fn both_signs(sizes: &[f64]) -> Vec<f64> {
    let negative = sizes.iter().rev().map(|size| -size);
    negative.chain(sizes.iter().copied()).collect()
}

/// The score as a pattern, and that both functions agree.
fn scored(list: &[Entry], x: f64) -> Result<u64, Refusal> {
    let score = bits::score_with(list, x.to_bits());
    assert_eq!(score_with(list, x).map(f64::to_bits), score);
    score
}

/// The list has no entry that is met for this weight, and neither has the table that it stands in for.
fn check_not_met(list: &[Entry], x: f64) {
    let score = bits::score(x.to_bits());
    assert_eq!(scored(list, x), Ok(score), "{x:e}");
}

fn check_met(list: &[Entry], x: f64, score: f64) {
    assert_eq!(scored(list, x), Ok(score.to_bits()), "{x:e}");
}

/// No weight has a score.
fn check_refused(list: &[Entry], refusal: Refusal) {
    let weights = list.iter().take(3).map(|entry| entry.x);
    for x in weights.chain(WEIGHTS) {
        assert_eq!(scored(list, x), Err(refusal), "{x:e}");
    }
}

/// hi + (lo + C2 × x × x) of document 01's step 5.
fn two_terms(x: f64) -> f64 {
    let [ln2h, ln2l, c2] =
        [0x3fe62e42fefa39ef, 0x3c7abc9e3b39803f, 0x3fcebfbdff82c58f].map(f64::from_bits);
    let hi = ln2h * x;
    let lo = ln2l.mul_add(x, ln2h.mul_add(x, -hi));
    hi + (lo + c2 * x * x)
}

fn is_for_a_list(x: u64) -> bool {
    let size = x & !SIGN;
    BELOW < size && size <= LAST
}

#[test]
fn the_empty_list() {
    for (x, score) in recorded() {
        let expected = if is_for_a_list(x) {
            two_terms(f64::from_bits(x)).to_bits()
        } else {
            score
        };
        assert_eq!(bits::score_with(&[], x), Ok(expected), "{x:016x}");
    }
    WEIGHTS.iter().for_each(|x| check_not_met(&[], *x));
}

#[test]
fn the_built_in_table_as_a_list() {
    let list = built_in();
    for (x, score) in recorded() {
        assert_eq!(bits::score_with(&list, x), Ok(score), "{x:016x}");
    }
    for Entry { x, hi, lo } in &list {
        check_met(&list, *x, hi + lo);
        assert_eq!(score(*x), hi + lo);
    }
}

/// A list leaves nothing of the built-in table.
#[test]
fn the_built_in_table_with_other_scores() {
    let mut list = built_in();
    for entry in &mut list {
        (entry.hi, entry.lo) = (3.0, 0.5);
    }
    list.iter().for_each(|entry| check_met(&list, entry.x, 3.5));
    for (place, Entry { x, .. }) in built_in().into_iter().enumerate() {
        let mut without = list.clone();
        without.remove(place);
        check_met(&without, x, two_terms(x));
    }
}

#[test]
fn each_entry_and_its_neighbours() {
    for len in [1, 2, 3, 4, 5, 55, 56, 57, 255, 256] {
        let list = list_of(len);
        for (i, Entry { x, .. }) in list.iter().enumerate() {
            check_met(&list, *x, i as f64 + 0.25);
            for bits in [x.to_bits() - 1, x.to_bits() + 1] {
                check_not_met(&list, f64::from_bits(bits));
            }
        }
        check_not_met(&list, 200.0 * TINY);
        check_not_met(&list, -200.0 * TINY);
    }
}

#[test]
fn the_bounds_of_what_a_list_is_for() {
    let sizes = [BELOW, BELOW + 1, LAST, LAST + 1].map(f64::from_bits);
    let list = list_for(&both_signs(&sizes));
    for sign in [-1.0, 1.0] {
        let [below, first, last, above] = sizes.map(|size| sign * size);
        check_not_met(&list, below);
        check_met(&list, first, 7.0);
        check_met(&list, last, 7.0);
        check_not_met(&list, above);
    }
}

/// Entries for weights of other steps are no reason to refuse a list, and those between them are found.
#[test]
fn entries_that_are_never_met() {
    let least = f64::from_bits(1);
    let small = both_signs(&[least, f64::MIN_POSITIVE, 1e-300, 4e-32]);
    let large = both_signs(&[1e-15, 0.5, 1.0, 1.5, 53.0, 54.0, 1023.5, 1024.0, f64::MAX]);
    let (negative, positive) = large.split_at(large.len() / 2);
    let weights = [negative, &[-TINY], &small, &[TINY], positive].concat();
    let list = list_for(&weights);
    for x in weights {
        if x.abs() == TINY {
            check_met(&list, x, 7.0);
        } else {
            check_not_met(&list, x);
        }
    }
}

/// Those of the accurate phase, which no list stands in for.
#[test]
fn the_other_tables_stay() {
    let others = &tables()[56..];
    assert_eq!(others.len(), 59 + 93);
    for Entry { x, .. } in others {
        check_not_met(&[], *x);
        check_not_met(&list_for(&[*x]), *x);
    }
}

fn check_sum(hi: f64, lo: f64, score: f64) {
    for x in [-TINY, TINY] {
        check_met(&[entry(x, hi, lo)], x, score);
    }
}

#[test]
fn sums_are_rounded() {
    let half = f64::EPSILON / 2.0;
    check_sum(1.0, half, 1.0);
    check_sum(1.0, half * ABOVE_ONE, ABOVE_ONE);
    check_sum(ABOVE_ONE, half, 1.0 + 2.0 * f64::EPSILON);
    check_sum(-1.0, -half, -1.0);
    check_sum(-1.0, -half * ABOVE_ONE, -ABOVE_ONE);
    check_sum(0.25, 1e300, 1e300);
    check_sum(1e300, f64::from_bits(1), 1e300);
}

#[test]
fn sums_beyond_the_finite_floats() {
    let half = 2f64.powi(970); // of the largest float's spacing
    check_sum(f64::MAX, half, f64::INFINITY);
    check_sum(f64::MAX, half / 2.0, f64::MAX);
    check_sum(f64::MAX, f64::MAX, f64::INFINITY);
    check_sum(-f64::MAX, -f64::MAX, f64::NEG_INFINITY);
    check_sum(-half, -f64::MAX, f64::NEG_INFINITY);
}

#[test]
fn sums_near_zero() {
    check_sum(1.0, -1.0, 0.0);
    check_sum(0.0, 0.0, 0.0);
    check_sum(0.0, -0.0, 0.0);
    check_sum(-0.0, -0.0, -0.0);
    let least = f64::from_bits(1);
    check_sum(least, least, f64::from_bits(2));
    check_sum(f64::MIN_POSITIVE, -least, f64::MIN_POSITIVE - least);
}

#[test]
fn the_longest_list() {
    assert_eq!(LONGEST_LIST, 256);
    let list = list_of(257);
    check_met(&list[..256], list[255].x, 255.25);
    check_met(&list[1..], list[256].x, 256.25);
    check_not_met(&list[..256], list[256].x);
    check_refused(&list, Refusal::ListTooLong);
    check_refused(&list_of(100_000), Refusal::ListTooLong);
}

/// A list that is too long is refused for that, whatever its entries are.
#[test]
fn the_length_is_tried_first() {
    for bad in [entry(f64::NAN, 0.0, 0.0), entry(0.0, 0.0, 0.0)] {
        for len in [257, 258, 1000] {
            check_refused(&vec![bad; len], Refusal::ListTooLong);
        }
        check_refused(&[bad; 256], Refusal::BadEntry);
    }
    for place in [0, 128, 256] {
        let mut list = list_of(257);
        list[place].x = f64::INFINITY;
        check_refused(&list, Refusal::ListTooLong);
    }
}

/// Lists of some lengths, and in each the first place, one in the middle and the last.
fn for_each_place(check: impl Fn(&[Entry], usize)) {
    for len in [1, 2, 3, 56, 256] {
        let list = list_of(len);
        scored(&list, 0.5).expect("a good list");
        for place in [0, len / 2, len - 1] {
            check(&list, place);
        }
    }
}

/// The list with another entry at a place.
fn with(list: &[Entry], place: usize, entry: Entry) -> Vec<Entry> {
    let mut list = list.to_vec();
    list[place] = entry;
    list
}

#[test]
fn entries_that_are_not_finite() {
    let nans = [0x7ff0000000000001, 0xfff8000000000000, u64::MAX].map(f64::from_bits);
    let others = nans.into_iter().chain([f64::INFINITY, f64::NEG_INFINITY]);
    for_each_place(|list, place| {
        let Entry { x, hi, lo } = list[place];
        for y in others.clone() {
            for bad in [entry(y, hi, lo), entry(x, y, lo), entry(x, hi, y)] {
                check_refused(&with(list, place, bad), Refusal::BadEntry);
            }
        }
    });
}

/// A zero at each place, and one where it would be in order.
#[test]
fn entries_of_zero() {
    for zero in [0.0, -0.0] {
        for_each_place(|list, place| {
            let list = with(list, place, entry(zero, 1.0, 0.0));
            check_refused(&list, Refusal::BadEntry);
        });
        for len in [0, 1, 2, 254] {
            let mut list = list_of(len);
            list.insert(len / 2, entry(zero, 1.0, 0.0));
            check_refused(&list, Refusal::BadEntry);
        }
    }
}

#[test]
fn entries_out_of_order() {
    for_each_place(|list, place| {
        for other in [place.wrapping_sub(1), place + 1] {
            let Some(neighbour) = list.get(other) else {
                continue;
            };
            check_refused(&with(list, place, *neighbour), Refusal::BadEntry);
            let mut swapped = list.to_vec();
            swapped.swap(place, other);
            check_refused(&swapped, Refusal::BadEntry);
        }
        if list.len() > 1 {
            let mut moved = list.to_vec();
            let first = moved.remove(0);
            moved.push(first);
            check_refused(&moved, Refusal::BadEntry);
        }
    });
}

/// Two entries for one weight, although they say the same.
#[test]
fn an_entry_twice() {
    for x in [-TINY, TINY, 1.0] {
        check_refused(&[entry(x, 1.0, 0.0); 2], Refusal::BadEntry);
    }
}

#[test]
fn the_order_is_that_of_values() {
    let far = 2.0 * TINY;
    for weights in [vec![-far, -TINY], both_signs(&[TINY, far])] {
        let mut list = list_for(&weights);
        weights.iter().for_each(|x| check_met(&list, *x, 7.0));
        list.reverse();
        check_refused(&list, Refusal::BadEntry);
    }
    // In the order of patterns.
    check_refused(&list_for(&[TINY, far, -TINY, -far]), Refusal::BadEntry);
    // In the order of sizes.
    check_refused(&list_for(&[TINY, -far]), Refusal::BadEntry);
    check_refused(&list_for(&[-TINY, TINY, -far, far]), Refusal::BadEntry);
}

/// Neighbours among the floats ascend.
#[test]
fn neighbours_ascend() {
    let above = f64::from_bits(TINY.to_bits() + 1);
    let mut list = list_for(&both_signs(&[TINY, above]));
    list[0].hi = 1.0;
    list[3].hi = 2.0;
    check_met(&list, -above, 1.5);
    check_met(&list, -TINY, 7.0);
    check_met(&list, TINY, 7.0);
    check_met(&list, above, 2.5);
}

/// Each call goes by the list as it is then.
#[test]
fn a_revised_list() {
    let mut list = list_of(3);
    let x = list[1].x;
    check_met(&list, x, 1.25);
    list[1].hi = 8.0;
    check_met(&list, x, 8.25);
    list[2].lo = f64::NAN;
    check_refused(&list, Refusal::BadEntry);
    list[2].lo = 0.0;
    check_met(&list, x, 8.25);
    list.remove(1);
    check_not_met(&list, x);
}
