//! NaN operands in every place of every call and in frames: the first of them is the result, with its sign and payload and with its top
//! fraction bit set. And invalid operations without one.

use weigher::{ANSWER_ROOM, Direction, Entry, Refusal, State, Stream, bits};

const SIGN: u64 = 1 << 63;
const INFINITY: u64 = 0x7ff0000000000000;
const ONE: u64 = 0x3ff0000000000000;

/// The top fraction bit.
const TOP: u64 = 1 << 51;

/// Small reasons, bits around the middle, digits that differ, and the ends.
const PAYLOADS: [u64; 7] = [
    1,
    3,
    1 << 31,
    1 << 32,
    0x0123456789abc,
    1 << 50,
    (1 << 51) - 1,
];

const DIRECTIONS: [Direction; 4] = [
    Direction::Nearest,
    Direction::TowardZero,
    Direction::Up,
    Direction::Down,
];

fn both_signs(sizes: impl IntoIterator<Item = u64>) -> Vec<u64> {
    let pairs = sizes.into_iter().map(|size| [size, size | SIGN]);
    pairs.flatten().collect()
}

/// NaNs with the top fraction bit clear and set.
fn nans() -> Vec<u64> {
    let clear = PAYLOADS.map(|payload| INFINITY | payload);
    let set = clear.map(|nan| nan | TOP);
    both_signs([&clear[..], &set, &[INFINITY | TOP]].concat())
}

fn others() -> Vec<u64> {
    both_signs([0, 1, ONE, 0x7fefffffffffffff, INFINITY])
}

/// Every triple with a NaN in one place, in two, or in all.
fn triples() -> Vec<[u64; 3]> {
    let values = [nans(), others()].concat();
    let mut triples = Vec::new();
    for a in &values {
        for b in &values {
            triples.extend(values.iter().map(|c| [*a, *b, *c]));
        }
    }
    triples.retain(|triple| triple.iter().any(|x| is_nan(*x)));
    triples
}

fn is_nan(x: u64) -> bool {
    f64::from_bits(x).is_nan()
}

/// The first NaN among the operands, with its sign and payload and with its top fraction bit set.
fn expected(operands: &[u64]) -> u64 {
    let first = operands.iter().find(|x| is_nan(**x));
    first.expect("a NaN") | TOP
}

#[test]
fn the_value_of_the_bench() {
    assert_eq!(expected(&[0xfff0000000000001]), 0xfff8000000000001);
    assert_eq!(bits::score(0xfff0000000000001), 0xfff8000000000001);
}

/// A function of one operand, on patterns and on f64.
fn check(on_bits: impl Fn(u64) -> u64, on_f64: impl Fn(f64) -> f64) {
    let single_bits = both_signs((0..51).map(|place| INFINITY | 1 << place));
    for nan in [nans(), single_bits].concat() {
        let expected = expected(&[nan]);
        assert_eq!(on_bits(nan), expected, "{nan:016x}");
        let x = f64::from_bits(nan);
        assert_eq!(on_f64(x).to_bits(), expected, "{nan:016x}");
    }
}

#[test]
fn scores() {
    check(bits::score, weigher::score);
}

#[test]
fn rounded() {
    check(bits::round, weigher::round);
}

#[test]
fn floors() {
    check(bits::floor, weigher::floor);
}

#[test]
fn scaled() {
    for n in [i32::MIN, -2099, -1074, -1, 0, 1, 1023, 2099, i32::MAX] {
        check(|x| bits::scale(x, n), |x| weigher::scale(x, n));
    }
}

/// So many entries for weights that a list is for.
fn list_of(len: usize) -> Vec<Entry> {
    (1..=len)
        .map(|i| Entry {
            x: i as f64 * 1e-18,
            hi: 1.0,
            lo: 0.5,
        })
        .collect()
}

#[test]
fn scores_with_a_list() {
    for len in [0, 1, 56, 256] {
        let list = list_of(len);
        check(
            |x| bits::score_with(&list, x).expect("a good list"),
            |x| weigher::score_with(&list, x).expect("a good list"),
        );
    }
}

fn check_list_refused(list: &[Entry], nan: u64, refusal: Refusal) {
    assert_eq!(bits::score_with(list, nan), Err(refusal), "{nan:016x}");
    let score = weigher::score_with(list, f64::from_bits(nan));
    assert_eq!(score, Err(refusal), "{nan:016x}");
}

/// A list is refused before the weight is looked at, also where an entry has the same NaN.
#[test]
fn refused_lists() {
    for nan in nans() {
        check_list_refused(&list_of(257), nan, Refusal::ListTooLong);
        let mut list = list_of(56);
        list.swap(27, 28);
        check_list_refused(&list, nan, Refusal::BadEntry);
        let mut list = list_of(1);
        list[0].x = f64::from_bits(nan);
        check_list_refused(&list, nan, Refusal::BadEntry);
    }
}

/// a × b + c in every direction, and the bytes that are none.
fn check_sum([a, b, c]: [u64; 3], sum: u64) {
    let triple = format!("{a:016x} {b:016x} {c:016x}");
    let [x, y, z] = [a, b, c].map(f64::from_bits);
    assert_eq!(bits::fused(a, b, c), sum, "{triple}");
    assert_eq!(weigher::fused(x, y, z).to_bits(), sum, "{triple}");
    for direction in DIRECTIONS {
        let on_bits = bits::fused_in(direction.byte(), a, b, c);
        let on_f64 = weigher::fused_in(direction, x, y, z).to_bits();
        assert_eq!(on_bits, Ok(sum), "{direction:?} {triple}");
        assert_eq!(on_f64, sum, "{direction:?} {triple}");
    }
    for byte in [4, u8::MAX] {
        let refused = Err(Refusal::BadDirection);
        assert_eq!(bits::fused_in(byte, a, b, c), refused, "{byte} {triple}");
    }
}

#[test]
fn sums() {
    for triple in triples() {
        check_sum(triple, expected(&triple));
    }
}

/// 0 × infinity plus all that is no NaN.
#[test]
fn zero_times_infinity() {
    for c in others() {
        for zero in [0, SIGN] {
            for infinity in [INFINITY, INFINITY | SIGN] {
                check_sum([zero, infinity, c], bits::NAN);
                check_sum([infinity, zero, c], bits::NAN);
            }
        }
    }
    assert_eq!(bits::NAN, 0x7ff8000000000000);
}

#[test]
fn infinity_less_infinity() {
    let minus_infinity = INFINITY | SIGN;
    for factor in [1, ONE, INFINITY] {
        let minus = factor | SIGN;
        for [a, b, c] in [
            [INFINITY, factor, minus_infinity],
            [INFINITY, minus, INFINITY],
            [minus_infinity, factor, INFINITY],
            [minus_infinity, minus, minus_infinity],
        ] {
            check_sum([a, b, c], bits::NAN);
            check_sum([b, a, c], bits::NAN);
        }
    }
}

/// A frame of kind 1, 2 or 3. That of kind 3 has its direction in front of the items.
fn frame(kind: u8, direction: &[u8], items: &[u64]) -> Vec<u8> {
    let length = u16::try_from(2 + direction.len() + 8 * items.len()).unwrap();
    let mut bytes = length.to_be_bytes().to_vec();
    bytes.extend([1, kind]);
    bytes.extend(direction);
    bytes.extend(items.iter().flat_map(|x| x.to_be_bytes()));
    bytes
}

/// What a stream answers to pieces of a frame: patterns, which are those of the floats too.
fn answered<'a>(pieces: impl IntoIterator<Item = &'a [u8]>) -> Result<Vec<u64>, Refusal> {
    let mut stream = Stream::new();
    let mut patterns = Vec::new();
    for piece in pieces {
        for answer in stream.feed(piece) {
            patterns.extend(answer.patterns()?);
            assert!(answer.results()?.map(f64::to_bits).eq(answer.patterns()?));
        }
    }
    Ok(patterns)
}

/// What a call answers to a whole frame.
fn taken(frame: &[u8]) -> Result<Vec<u64>, Refusal> {
    let mut buffer = [0; ANSWER_ROOM];
    let answer = State::fresh().take(frame, &mut buffer)?.answer;
    Ok(answer.expect("a whole frame").patterns()?.collect())
}

/// Taken whole, and fed whole and byte by byte.
fn check_frame(frame: &[u8], results: Result<Vec<u64>, Refusal>) {
    assert_eq!(taken(frame), results, "{frame:02x?}");
    assert_eq!(answered([frame]), results, "{frame:02x?}");
    assert_eq!(answered(frame.chunks(1)), results, "{frame:02x?}");
}

#[test]
fn frames_of_weights() {
    let [two, three] = [2f64, 3f64].map(f64::to_bits);
    for nan in nans() {
        let score = expected(&[nan]);
        check_frame(&frame(1, &[], &[nan]), Ok(vec![score]));
        let around = frame(1, &[], &[two, nan, two, nan]);
        check_frame(&around, Ok(vec![three, score, three, score]));
    }
    let scores = nans().iter().map(|nan| expected(&[*nan])).collect();
    check_frame(&frame(1, &[], &nans()), Ok(scores));
}

/// As many triples as a body has room for.
#[test]
fn frames_of_triples() {
    for triples in triples().chunks(21) {
        let items = triples.as_flattened();
        let sums: Vec<u64> = triples.iter().map(|triple| expected(triple)).collect();
        assert_eq!(answered([&frame(2, &[], items)[..]]), Ok(sums.clone()));
        for direction in DIRECTIONS {
            let frame = frame(3, &[direction.byte()], items);
            assert_eq!(answered([&frame[..]]), Ok(sums.clone()), "{direction:?}");
        }
    }
}

/// A NaN in each place, each pair and all three, and none.
#[test]
fn frames_of_one_triple() {
    let nans = [0xfff0000000000001, 0x7ff8000000000002, 0x7ff0000000000003];
    for places in 0..8 {
        let mut items = [0, INFINITY, ONE];
        for place in (0..3).filter(|place| places >> place & 1 == 1) {
            items[place] = nans[place];
        }
        let sum = match places {
            0 => bits::NAN,
            _ => expected(&items),
        };
        check_frame(&frame(2, &[], &items), Ok(vec![sum]));
        for direction in DIRECTIONS {
            check_frame(&frame(3, &[direction.byte()], &items), Ok(vec![sum]));
        }
        check_frame(&frame(3, &[4], &items), Err(Refusal::BadDirection));
    }
}
