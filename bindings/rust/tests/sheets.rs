//! Household sheets, frames of kind 5: the values of their lines, sums that are rounded, overflow, cancel or are NaNs, and the sheets that
//! are refused.

use weigher::{ANSWER_ROOM, Counts, REPORT, Refusal, State, Stream, bits};

const SIGN: u64 = 1 << 63;
const TOP: u64 = 1 << 51;
const ONE: u64 = 0x3ff0000000000000;
const LARGEST: u64 = 0x7fefffffffffffff;
const INFINITY: u64 = 0x7ff0000000000000;
const FILL: u8 = 0xee;

type Line = [u8; 9];

/// The lines that a body has room for.
const LONGEST: usize = 56;

/// A line of the first form.
fn member(weight: u64) -> Line {
    let mut line = [0; 9];
    line[1..].copy_from_slice(&weight.to_be_bytes());
    line
}

fn members<const N: usize>(weights: [f64; N]) -> Vec<Line> {
    weights.map(|weight| member(weight.to_bits())).to_vec()
}

/// A line of the second form.
fn sum(first: usize, second: usize) -> Line {
    [1, first as u8, second as u8, 0, 0, 0, 0, 0, 0]
}

fn frame(kind: u8, payload: &[u8]) -> Vec<u8> {
    let length = u16::try_from(2 + payload.len()).unwrap().to_be_bytes();
    [&length[..], &[1, kind], payload].concat()
}

fn sheet(lines: &[Line]) -> Vec<u8> {
    frame(5, lines.as_flattened())
}

/// The sum by the machine; a NaN is that of the first, or of the second, or else that of an invalid operation.
fn plus(first: u64, second: u64) -> u64 {
    let sum = f64::from_bits(first) + f64::from_bits(second);
    let nan = [first, second].into_iter().find(|x| is_nan(*x));
    match nan {
        Some(nan) => nan | TOP,
        None if sum.is_nan() => bits::NAN,
        None => sum.to_bits(),
    }
}

fn is_nan(x: u64) -> bool {
    f64::from_bits(x).is_nan()
}

/// Document 02's words: the value of each line, or the refusal of the first bad line.
fn values(lines: &[Line]) -> Result<Vec<u64>, Refusal> {
    let mut values: Vec<u64> = Vec::new();
    for (number, line) in lines.iter().enumerate() {
        let named = [line[1], line[2]].map(usize::from);
        values.push(match line[0] {
            0 => u64::from_be_bytes(line[1..].try_into().unwrap()),
            1 if line[3..] != [0; 6] => return Err(Refusal::BadLine),
            1 if named.iter().any(|name| *name >= number) => return Err(Refusal::LaterLine),
            1 => plus(values[named[0]], values[named[1]]),
            _ => return Err(Refusal::BadLine),
        });
    }
    Ok(values)
}

/// What a stream answers to pieces, and that it counts each answer.
fn answers<'a>(pieces: impl IntoIterator<Item = &'a [u8]>) -> Vec<u8> {
    let mut stream = Stream::new();
    let mut bytes = Vec::new();
    let (mut accepted, mut refused) = (0, 0);
    for piece in pieces {
        for answer in stream.feed(piece) {
            bytes.extend_from_slice(answer.bytes());
            match answer.refusal() {
                None => accepted += 1,
                Some(_) => refused += 1,
            }
        }
    }
    let state = State {
        counts: counts(accepted, refused),
        ..State::fresh()
    };
    assert_eq!(stream.state(), state);
    bytes
}

fn counts(accepted: u64, refused: u64) -> Counts {
    Counts {
        accepted,
        refused,
        total: accepted + refused,
    }
}

/// Taken whole, and handed on whole and byte by byte; behind the answer the buffer keeps its content.
fn check_answer(frame: &[u8], answer: &[u8]) -> Result<(), Refusal> {
    let mut buffer = [FILL; ANSWER_ROOM];
    let taken = State::fresh().take(frame, &mut buffer)?;
    assert_eq!(taken.used, frame.len(), "{frame:02x?}");
    assert_eq!(taken.answer.unwrap().bytes(), answer, "{frame:02x?}");
    assert!(buffer[answer.len()..].iter().all(|byte| *byte == FILL));
    assert_eq!(answers([frame]), answer, "{frame:02x?}");
    assert_eq!(answers(frame.chunks(1)), answer, "{frame:02x?}");
    Ok(())
}

fn check_refused(frame: &[u8], refusal: Refusal) -> Result<(), Refusal> {
    check_answer(frame, &[0, 2, 1, refusal.number()])
}

/// The sheet is refused, fed as a whole alone.
fn check_refused_whole(lines: &[Line], refusal: Refusal) {
    let answer = answers([&sheet(lines)[..]]);
    assert_eq!(answer, [0, 2, 1, refusal.number()], "{lines:02x?}");
}

/// A sheet whose lines have these scores.
fn check_scores(lines: &[Line], scores: &[u64]) -> Result<(), Refusal> {
    let bytes: Vec<u8> = scores.iter().flat_map(|x| x.to_be_bytes()).collect();
    check_answer(&sheet(lines), &frame(0, &bytes))
}

/// The answer to a sheet is that to a frame of kind 1 with the values of its lines, or the refusal.
fn check(lines: &[Line]) -> Result<(), Refusal> {
    let answer = match values(lines) {
        Ok(values) => {
            let bytes: Vec<u8> = values.iter().flat_map(|x| x.to_be_bytes()).collect();
            answers([&frame(1, &bytes)[..]])
        }
        Err(refusal) => vec![0, 2, 1, refusal.number()],
    };
    check_answer(&sheet(lines), &answer)
}

#[test]
fn a_household() -> Result<(), Refusal> {
    let lines = [
        &members([3.0, -1.0])[..],
        &[sum(0, 1), sum(2, 0), sum(2, 2)],
    ]
    .concat();
    let scores = [7.0, -0.5, 3.0, 31.0, 15.0].map(f64::to_bits);
    check_scores(&lines, &scores)?;
    let mut stream = Stream::new();
    let answer = stream.feed(&sheet(&lines)).next().unwrap();
    assert!(answer.results()?.eq([7.0, -0.5, 3.0, 31.0, 15.0]));
    assert!(answer.patterns()?.eq(scores));
    assert_eq!(answer.refusal(), None);
    assert_eq!(answer.report(), None);
    Ok(())
}

/// Of three lines: an answer does not say which kind it is for.
#[test]
fn three_lines_are_read_as_a_report() {
    let mut stream = Stream::new();
    let lines = [&members([1.0, 2.0])[..], &[sum(0, 1)]].concat();
    let answer = stream.feed(&sheet(&lines)).next().unwrap();
    let [accepted, refused, total] = [1.0, 3.0, 7.0].map(f64::to_bits);
    let read = Counts {
        accepted,
        refused,
        total,
    };
    assert_eq!(answer.report(), Some(read));
}

/// The bytes behind a first byte of 0 are a weight, whatever they are in the other form.
#[test]
fn weights_of_any_bytes() -> Result<(), Refusal> {
    check_scores(&[member(u64::MAX)], &[u64::MAX])?;
    check_scores(&[[0, 0xc0, 0x4b, 1, 2, 3, 4, 5, 6]], &[ONE | SIGN])?;
    check_scores(&[[0, 0x40, 0x90, 1, 2, 3, 4, 5, 6]], &[INFINITY])?;
    for byte in 0..=u8::MAX {
        for place in 1..9 {
            let mut line = member(0x4001020304050607);
            line[place] = byte;
            check(&[line, line, sum(0, 1)])?;
        }
    }
    Ok(())
}

/// Zeros, sizes from the least to the largest, what rounds beside 1 and beside 2^53, infinities, and NaNs.
const SIZES: [u64; 19] = [
    0,
    1,
    0x000fffffffffffff,
    0x0010000000000000,
    0x3ca0000000000000,
    0x3fd5555555555555,
    0x3fefffffffffffff,
    ONE,
    0x3ff0000000000001,
    0x4008000000000000,
    0x404a800000000000,
    0x4090000000000000,
    0x4340000000000000,
    0x4340000000000001,
    0x7c90000000000000,
    LARGEST,
    INFINITY,
    INFINITY | 5,
    INFINITY | TOP | 6,
];

fn both_signs() -> Vec<u64> {
    let pairs = SIZES.map(|size| [size, size | SIGN]);
    pairs.as_flattened().to_vec()
}

/// Each pair in both orders, each with itself, and the sums of the sums.
#[test]
fn sums_of_pairs() -> Result<(), Refusal> {
    for first in both_signs() {
        for second in both_signs() {
            check(&[
                member(first),
                member(second),
                sum(0, 1),
                sum(1, 0),
                sum(0, 0),
                sum(2, 3),
                sum(2, 1),
                sum(4, 2),
            ])?;
        }
    }
    Ok(())
}

/// Each sum is rounded before it is added to again, a tie to the even float: 2^53 + 1 is 2^53, and 2^53 + 3 is 2^53 + 4.
#[test]
fn sums_that_are_rounded() -> Result<(), Refusal> {
    let large = 2f64.powi(53);
    let weights = members([large, 1.0, large + 2.0, -large]);
    let sums = [sum(0, 1), sum(4, 3), sum(2, 1), sum(6, 3)];
    let lines = [&weights[..], &sums].concat();
    let minus_one = ONE | SIGN;
    let fifteen = 15f64.to_bits();
    check_scores(
        &lines,
        &[
            INFINITY, ONE, INFINITY, minus_one, INFINITY, 0, INFINITY, fifteen,
        ],
    )
}

/// The sum of the largest float and itself is infinity, and stays so.
#[test]
fn sums_that_overflow() -> Result<(), Refusal> {
    for sign in [0, SIGN] {
        let lines = [
            member(LARGEST | sign),
            sum(0, 0),
            member(LARGEST | sign ^ SIGN),
            sum(1, 2),
            sum(0, 2),
            sum(2, 2),
            sum(1, 5),
        ];
        let [beyond, other] = match sign {
            0 => [INFINITY, ONE | SIGN],
            _ => [ONE | SIGN, INFINITY],
        };
        let scores = [beyond, beyond, other, beyond, 0, other, bits::NAN];
        check_scores(&lines, &scores)?;
    }
    Ok(())
}

/// +0 unless both are -0.
#[test]
fn sums_that_are_zero() -> Result<(), Refusal> {
    let lines = [
        &members([1.0, -1.0, 0.0, -0.0])[..],
        &[sum(0, 1), sum(1, 0), sum(2, 2), sum(2, 3), sum(3, 2)],
        &[sum(3, 3), sum(9, 3), sum(9, 4)],
    ]
    .concat();
    let minus_half = 0xbfe0000000000000;
    let scores = [ONE, minus_half, 0, SIGN, 0, 0, 0, 0, 0, SIGN, SIGN, 0];
    check_scores(&lines, &scores)
}

/// The NaN of the line that is named first, and of two infinities none but that of the operation.
#[test]
fn sums_that_are_nans() -> Result<(), Refusal> {
    let (first, second) = (0x7ff000000000000a, 0xfff000000000000b);
    let (ten, eleven) = (first | TOP, second | TOP);
    let lines = [
        member(first),
        member(second),
        member(INFINITY),
        member(INFINITY | SIGN),
        sum(0, 1),
        sum(1, 0),
        sum(2, 1),
        sum(1, 3),
        sum(2, 3),
        sum(3, 2),
        sum(8, 5),
        sum(5, 8),
        sum(0, 0),
    ];
    let scores = [
        ten,
        eleven,
        INFINITY,
        ONE | SIGN,
        ten,
        eleven,
        eleven,
        eleven,
        bits::NAN,
        bits::NAN,
        bits::NAN,
        eleven,
        ten,
    ];
    check_scores(&lines, &scores)
}

/// Each line but the first is the line before it and the first, or itself twice, or the two before it.
#[test]
fn chains() -> Result<(), Refusal> {
    for weight in [1.0, -0.75, 0.1, 1e-300, f64::from_bits(1), f64::MAX / 50.0] {
        for n in 1..=LONGEST {
            let first = member(weight.to_bits());
            for named in [
                |i: usize| sum(i - 1, 0),
                |i: usize| sum(0, i - 1),
                |i: usize| sum(i - 1, i - 1),
                |i: usize| sum(i - 1, i.saturating_sub(2)),
            ] {
                let lines: Vec<Line> = (0..n)
                    .map(|i| if i == 0 { first } else { named(i) })
                    .collect();
                check(&lines)?;
            }
        }
    }
    Ok(())
}

#[test]
fn a_chain_of_56() -> Result<(), Refusal> {
    let lines: Vec<Line> = (0..LONGEST)
        .map(|i| match i {
            0 => member(ONE),
            _ => sum(i - 1, 0),
        })
        .collect();
    let scores: Vec<u64> = (1..=56).map(|x| (2f64.powi(x) - 1.0).to_bits()).collect();
    check_scores(&lines, &scores)?;
    let one_more = [&lines[..], &[sum(55, 0)]].concat();
    check_refused(&sheet(&one_more), Refusal::LongBody)
}

/// The last line names each line before it, first and second.
#[test]
fn every_line_before() -> Result<(), Refusal> {
    let mut lines: Vec<Line> = (0..LONGEST)
        .map(|i| member((i as f64 - 20.0).to_bits()))
        .collect();
    for number in 1..LONGEST {
        for named in 0..number {
            let before = lines[number];
            lines[number] = sum(named, number - 1);
            check(&lines[..=number])?;
            lines[number] = sum(number - 1, named);
            check(&lines[..=number])?;
            lines[number] = before;
        }
    }
    Ok(())
}

/// Every byte that begins no line, at each place of a sheet.
#[test]
fn lines_of_neither_form() -> Result<(), Refusal> {
    for byte in 2..=u8::MAX {
        let line = [byte, 0, 0, 0, 0, 0, 0, 0, 0];
        check_refused(&sheet(&[line]), Refusal::BadLine)?;
        check_refused(&sheet(&[member(ONE), line]), Refusal::BadLine)?;
        for n in [1, 2, 20, LONGEST] {
            for place in 0..n {
                let mut lines = vec![member(ONE); n];
                lines[place][0] = byte;
                check_refused_whole(&lines, Refusal::BadLine);
            }
        }
    }
    Ok(())
}

/// Every byte but 0, at each place of the filler.
#[test]
fn filler_that_is_not_zero() -> Result<(), Refusal> {
    for byte in 1..=u8::MAX {
        for at in 3..9 {
            let mut line = sum(0, 0);
            line[at] = byte;
            check_refused(&sheet(&[member(ONE), line]), Refusal::BadLine)?;
            for place in (1..LONGEST).step_by(6) {
                let mut lines = vec![member(ONE); LONGEST];
                lines[place] = line;
                check_refused_whole(&lines, Refusal::BadLine);
            }
        }
    }
    Ok(())
}

/// Its own number, greater ones that the sheet has, and those that it does not have, named first, second or both.
#[test]
fn lines_that_are_not_before() -> Result<(), Refusal> {
    check_refused(&sheet(&[sum(0, 0)]), Refusal::LaterLine)?;
    let three = |line| sheet(&[member(ONE), line, member(ONE)]);
    for [first, second] in [[1, 0], [0, 1], [2, 0], [0, 2], [3, 0], [0, 255]] {
        check_refused(&three(sum(first, second)), Refusal::LaterLine)?;
    }
    for n in [1, 2, 20, LONGEST] {
        let mut lines = vec![member(ONE); n];
        for place in 0..n {
            for name in place..=255 {
                for [first, second] in [[name, name], [name, 0], [0, name], [name, 255]] {
                    lines[place] = sum(first, second);
                    check_refused_whole(&lines, Refusal::LaterLine);
                }
            }
            lines[place] = member(ONE);
        }
    }
    Ok(())
}

/// 14 is tried before 15.
#[test]
fn both_on_one_line() -> Result<(), Refusal> {
    for n in [1, 2, LONGEST] {
        for place in [0, n / 2, n - 1] {
            let mut lines = vec![member(ONE); n];
            lines[place] = sum(place, 255);
            check_refused(&sheet(&lines), Refusal::LaterLine)?;
            for at in 3..9 {
                lines[place] = sum(place, 255);
                lines[place][at] = 1;
                check_refused(&sheet(&lines), Refusal::BadLine)?;
            }
            lines[place] = sum(place, 255);
            lines[place][0] = 2;
            check_refused(&sheet(&lines), Refusal::BadLine)?;
        }
    }
    Ok(())
}

/// The first of them decides.
#[test]
fn two_bad_lines() {
    let bad = [
        ([2, 0, 0, 0, 0, 0, 0, 0, 0], Refusal::BadLine),
        ([1, 0, 0, 0, 0, 0, 0, 0, 1], Refusal::BadLine),
        (sum(0, 200), Refusal::LaterLine),
    ];
    for (line, refusal) in bad {
        for (other, _) in bad {
            for first in 0..LONGEST {
                for second in first + 1..LONGEST {
                    let mut lines = vec![member(ONE); LONGEST];
                    lines[first] = line;
                    lines[second] = other;
                    check_refused_whole(&lines, refusal);
                }
            }
        }
    }
}

/// Payloads of every length, of good lines and of bad ones: 5 comes before 14 and 15, and 2 before all of them.
#[test]
fn lengths() -> Result<(), Refusal> {
    let own = sum(0, 0).repeat(57);
    for n in 0..=513 {
        for (payload, refusal) in [
            (&[0; 513][..], None),
            (&[2; 513], Some(Refusal::BadLine)),
            (&[0xff; 513], Some(Refusal::BadLine)),
            (&[1; 513], Some(Refusal::BadLine)),
            (&own, Some(Refusal::LaterLine)),
        ] {
            let bytes = frame(5, &payload[..n]);
            let refusal = match n {
                513 => Some(Refusal::LongBody),
                0 => Some(Refusal::BadPayload),
                _ if n % 9 != 0 => Some(Refusal::BadPayload),
                _ => refusal,
            };
            match refusal {
                Some(refusal) => check_refused(&bytes, refusal)?,
                None => check_answer(&bytes, &frame(0, &vec![0; n / 9 * 8]))?,
            }
        }
    }
    Ok(())
}

/// 3 comes before 14 and 15, and other kinds have no lines.
#[test]
fn refusals_around_a_sheet() -> Result<(), Refusal> {
    for line in [[2; 9], sum(0, 0)] {
        let mut bytes = sheet(&[line]);
        bytes[2] = 2;
        check_refused(&bytes, Refusal::BadVersion)?;
        for (kind, refusal) in [
            (0, Refusal::BadKind),
            (1, Refusal::BadPayload),
            (2, Refusal::BadPayload),
            (3, Refusal::BadPayload),
            (4, Refusal::BadPayload),
            (8, Refusal::BadKind),
            (0xff, Refusal::BadKind),
        ] {
            check_refused(&frame(kind, &line), refusal)?;
        }
    }
    Ok(())
}

/// Sheets that are answered and sheets of each refusal, with a report behind each.
#[test]
fn reports_count_sheets() {
    let good = sheet(&[member(ONE), sum(0, 0)]);
    let mut stream = Stream::new();
    let (mut accepted, mut refused) = (0, 0);
    for (bytes, refusal) in [
        (&good, None),
        (&sheet(&[[2; 9]]), Some(Refusal::BadLine)),
        (&sheet(&[[0; 9], [1; 9]]), Some(Refusal::BadLine)),
        (&good, None),
        (&sheet(&[sum(0, 0)]), Some(Refusal::LaterLine)),
        (&sheet(&[[0; 9], sum(0, 255)]), Some(Refusal::LaterLine)),
        (&sheet(&[]), Some(Refusal::BadPayload)),
        (&sheet(&[[0; 9]; 57]), Some(Refusal::LongBody)),
        (&good, None),
    ] {
        let answer = stream.feed(bytes).next().unwrap();
        assert_eq!(answer.refusal(), refusal);
        match refusal {
            None => accepted += 1,
            Some(_) => refused += 1,
        }
        let report = stream.feed(&REPORT).next().unwrap().report();
        assert_eq!(report, Some(counts(accepted, refused)));
        accepted += 1; // the report
    }
}

/// The part of a sheet and the close there: 8, also where the whole sheet would be bad, and nothing is counted.
#[test]
fn every_cut() -> Result<(), Refusal> {
    let mut buffer = [FILL; ANSWER_ROOM];
    for lines in [
        [member(ONE), sum(0, 0), sum(1, 0)],
        [member(ONE), [2; 9], sum(1, 0)],
        [sum(0, 0), sum(0, 0), sum(1, 0)],
    ] {
        let bytes = sheet(&lines);
        let whole = answers([&bytes[..]]);
        for cut in 1..bytes.len() {
            let (front, end) = bytes.split_at(cut);
            assert_eq!(answers([front, end]), whole, "{cut}");
            let mut state = State::fresh();
            assert_eq!(state.take(front, &mut buffer)?.answer, None);
            let answer = state.close(&mut buffer)?.unwrap();
            assert_eq!(answer.refusal(), Some(Refusal::Unfinished));
            assert_eq!(state, State::fresh());
        }
    }
    Ok(())
}

/// Numbers that look random, always the same ones.
struct Random(u64);

impl Random {
    fn next(&mut self) -> u64 {
        self.0 ^= self.0 << 13;
        self.0 ^= self.0 >> 7;
        self.0 ^= self.0 << 17;
        self.0.wrapping_mul(0x2545f4914f6cdd1d)
    }

    fn below(&mut self, n: usize) -> usize {
        (self.next() >> 32) as usize % n
    }

    /// A weight of any pattern, one between -64 and 64, or one of those that tell.
    fn weight(&mut self) -> u64 {
        let telling = both_signs();
        match self.below(3) {
            0 => self.next(),
            1 => ((self.next() as i64 as f64) * 2f64.powi(-57)).to_bits(),
            _ => telling[self.below(telling.len())],
        }
    }

    fn good_line(&mut self, number: usize) -> Line {
        if number == 0 || self.below(3) == 0 {
            member(self.weight())
        } else {
            sum(self.below(number), self.below(number))
        }
    }

    fn good_lines(&mut self) -> Vec<Line> {
        let n = 1 + self.below(LONGEST);
        (0..n).map(|number| self.good_line(number)).collect()
    }
}

#[test]
fn random_sheets() -> Result<(), Refusal> {
    let mut random = Random(0x9e3779b97f4a7c15);
    for _ in 0..3000 {
        let lines = random.good_lines();
        assert!(values(&lines).is_ok());
        check(&lines)?;
    }
    Ok(())
}

/// A few bytes of a good sheet are others. Its neighbours keep their answers.
#[test]
fn random_damage() -> Result<(), Refusal> {
    let mut random = Random(0xd1b54a32d192ed03);
    let around = [sheet(&members([2.0])), sheet(&[member(ONE), sum(0, 0)])];
    let [before, behind] = around.each_ref().map(|bytes| answers([&bytes[..]]));
    let mut seen = [0; 16];
    for _ in 0..3000 {
        let mut lines = random.good_lines();
        for _ in 0..=random.below(3) {
            let place = random.below(lines.len());
            let byte = match random.below(3) {
                0 => random.next() as u8,
                _ => random.below(3) as u8,
            };
            lines[place][random.below(9)] = byte;
        }
        check(&lines)?;
        let number = values(&lines).err().map_or(0, Refusal::number);
        seen[usize::from(number)] += 1;
        let bytes = sheet(&lines);
        let all = [&around[0][..], &bytes, &around[1]].concat();
        let alone = answers([&bytes[..]]);
        assert_eq!(
            answers(all.chunks(1 + random.below(40))),
            [&before[..], &alone, &behind].concat()
        );
    }
    // Each happens.
    assert!(
        [0, 14, 15].iter().all(|number| seen[*number] > 100),
        "{seen:?}"
    );
    Ok(())
}
