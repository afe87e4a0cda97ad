//! The service, payload and screening: document 01's whole case, cut and recorded streams, kinds 1 to 4, the counts, and refused calls.
//! sheets.rs has kind 5.

use std::io::{self, Read, Write};
use weigher::{
    ANSWER_ROOM, Counts, Direction, LONGEST_BODY, PartialFrame, REPORT, Refusal, Screening, State,
    Stream, fused_in, payload, screening, serve,
};

/// Document 01's whole case: the weight -54, a body of no bytes, and half of a length.
const FRAMES: &[u8] = &[0, 10, 1, 1, 0xc0, 0x4b, 0, 0, 0, 0, 0, 0, 0, 0, 0];
const ANSWERS: [&[u8]; 3] = [
    &[0, 10, 1, 0, 0xbf, 0xf0, 0, 0, 0, 0, 0, 0],
    &[0, 2, 1, 1],
    &[0, 2, 1, 8],
];

/// A stream with every refusal and lengths from 0 to 65,535, and the answers to it.
const RECORDED: &[u8] = include_bytes!("../../../crates/replay/stdin");
const RECORDED_ANSWERS: &[u8] = include_bytes!("../../../crates/replay/stdout");

const FILL: u8 = 0xee;

fn counts(accepted: u64, refused: u64, total: u64) -> Counts {
    Counts {
        accepted,
        refused,
        total,
    }
}

/// The fresh state but for its counts.
fn fresh_with(counts: Counts) -> State {
    State {
        counts,
        ..State::fresh()
    }
}

/// The state behind so many frames.
fn after(accepted: u64, refused: u64) -> State {
    fresh_with(counts(accepted, refused, accepted + refused))
}

#[test]
fn frame_by_frame() -> Result<(), Refusal> {
    let mut state = State::fresh();
    let mut buffer = [FILL; ANSWER_ROOM];
    let mut left = FRAMES;
    for (answer, used, refused) in [(ANSWERS[0], 12, 0), (ANSWERS[1], 2, 1)] {
        let taken = state.take(left, &mut buffer)?;
        assert_eq!(taken.used, used);
        assert_eq!(taken.answer.unwrap().bytes(), answer);
        assert_eq!(state, after(1, refused));
        left = &left[used..];
    }
    let taken = state.take(left, &mut buffer)?;
    assert_eq!((taken.used, taken.answer), (1, None));
    assert_eq!(state.frame.count, 1);
    assert_eq!(state.close(&mut buffer)?.unwrap().bytes(), ANSWERS[2]);
    assert_eq!(state, after(1, 1));
    assert_eq!(state.close(&mut buffer)?, None);
    assert_eq!(state, after(1, 1));
    assert!(buffer[12..].iter().all(|byte| *byte == FILL));
    Ok(())
}

#[test]
fn a_whole_piece() -> Result<(), Refusal> {
    let mut state = State::fresh();
    let mut buffer = [FILL; 2 * ANSWER_ROOM];
    let handed = state.hand_on(FRAMES, &mut buffer)?;
    assert_eq!(handed.used, FRAMES.len());
    assert_eq!(handed.answers.bytes(), ANSWERS[..2].concat());
    assert!(
        handed
            .answers
            .map(|answer| answer.bytes())
            .eq(ANSWERS[..2].iter().copied())
    );
    assert_eq!(state.frame.count, 1);
    assert!(buffer[16..].iter().all(|byte| *byte == FILL));
    Ok(())
}

/// Without room for another answer the rest of the piece is left.
#[test]
fn a_piece_in_part() -> Result<(), Refusal> {
    let mut buffer = [FILL; ANSWER_ROOM];
    let handed = State::fresh().hand_on(FRAMES, &mut buffer)?;
    assert_eq!((handed.used, handed.answers.count()), (12, 1));
    Ok(())
}

/// All that a stream answers to pieces, and at its end. Its counts are those of the answers but the last.
fn answers<'a>(pieces: impl IntoIterator<Item = &'a [u8]>) -> Vec<u8> {
    let mut stream = Stream::new();
    let mut answers = Vec::new();
    let (mut accepted, mut refused) = (0, 0);
    for piece in pieces {
        for answer in stream.feed(piece) {
            answers.extend_from_slice(answer.bytes());
            match answer.refusal() {
                None => accepted += 1,
                Some(_) => refused += 1,
            }
        }
    }
    if let Some(answer) = stream.close() {
        answers.extend_from_slice(answer.bytes());
    }
    assert_eq!(stream.state(), after(accepted, refused));
    answers
}

/// A frame with results, one of each refusal of a frame, a report, and an unfinished frame.
fn short_stream() -> Vec<u8> {
    let mut bytes = FRAMES[..14].to_vec();
    bytes.extend([0, 2, 2, 1, 0, 2, 1, 0xff, 0, 3, 1, 2, 0, 0, 3, 1, 3, 4]);
    bytes.extend([0, 11, 1, 5, 2, 0, 0, 0, 0, 0, 0, 0, 0]);
    bytes.extend([0, 11, 1, 5, 1, 0, 0, 0, 0, 0, 0, 0, 0]);
    bytes.extend([2, 3]);
    bytes.extend([0; LONGEST_BODY + 1]);
    bytes.extend(REPORT);
    bytes.extend(&FRAMES[..11]);
    bytes
}

#[test]
fn every_cut() {
    let bytes = short_stream();
    let whole = answers([&bytes[..]]);
    let refusals = [1, 3, 4, 5, 11, 14, 15, 2].map(|number| [0, 2, 1, number]);
    let report = report_answer(counts(1, 8, 9));
    assert_eq!(
        whole,
        [ANSWERS[0], refusals.as_flattened(), &report, ANSWERS[2]].concat()
    );
    for cut in 0..=bytes.len() {
        let (front, end) = bytes.split_at(cut);
        assert_eq!(answers([front, end]), whole, "{cut}");
    }
    for size in 1..40 {
        assert_eq!(answers(bytes.chunks(size)), whole, "{size}");
    }
}

/// The length bytes and the body so far stand at their places, and all others hold 0.
#[test]
fn what_a_state_holds() {
    let mut frame = vec![1, 2, 1, 1];
    frame.extend((0..256).map(|i| (i % 251) as u8));
    for count in 0..frame.len() {
        let mut stream = Stream::new();
        assert_eq!(stream.feed(&frame[..count]).count(), 0);
        let mut body = [0; LONGEST_BODY];
        let filled = count.saturating_sub(2);
        body[..filled].copy_from_slice(&frame[count - filled..count]);
        let byte = |place: usize| if place < count { frame[place] } else { 0 };
        let (hi, lo) = (byte(0), byte(1));
        let expected = PartialFrame {
            count,
            hi,
            lo,
            body,
        };
        assert_eq!(stream.state().frame, expected, "{count}");
    }
}

#[test]
fn the_recorded_stream() {
    for size in [1, 7, 512, 65536, RECORDED.len()] {
        assert!(answers(RECORDED.chunks(size)) == RECORDED_ANSWERS, "{size}");
    }
}

#[test]
fn results_of_kinds_1_and_2() -> Result<(), Refusal> {
    let weights = [2.0, -1.0, 0.0, f64::NEG_INFINITY];
    let mut stream = Stream::new();
    let answer = stream.feed(&frame(1, &weights)).next().unwrap();
    assert!(answer.results()?.eq(weights.map(weigher::score)));
    assert_eq!(answer.results()?.len(), weights.len());
    let answer = stream.feed(&frame(2, &[2.0, 3.0, 1.0])).next().unwrap();
    assert!(answer.results()?.eq([7.0]));
    Ok(())
}

fn frame(kind: u8, items: &[f64]) -> Vec<u8> {
    frame_of(kind, &bytes_of(items))
}

fn bytes_of(items: &[f64]) -> Vec<u8> {
    items.iter().flat_map(|x| x.to_be_bytes()).collect()
}

fn frame_of(kind: u8, payload: &[u8]) -> Vec<u8> {
    let length = u16::try_from(2 + payload.len()).unwrap().to_be_bytes();
    [&length[..], &[1, kind], payload].concat()
}

/// A frame of kind 3.
fn directed(direction: u8, rest: &[u8]) -> Vec<u8> {
    frame_of(3, &[&[direction], rest].concat())
}

/// A sum between two floats, one beyond the finite ones, a product that vanishes, and an exact zero sum of unlike signs.
const TRIPLES: [[f64; 3]; 4] = [
    [-0.1, 0.1, -1.0],
    [f64::MAX, -2.0, 0.0],
    [f64::MIN_POSITIVE, f64::MIN_POSITIVE, 0.0],
    [1.0, 1.0, -1.0],
];

#[test]
fn results_of_kind_3() -> Result<(), Refusal> {
    let (high, low) = (0xbff028f5c28f5c28, 0xbff028f5c28f5c29);
    let (largest, infinity) = (0xffefffffffffffff, 0xfff0000000000000);
    for (direction, expected) in [
        (0, [low, infinity, 0, 0]),
        (1, [high, largest, 0, 0]),
        (2, [high, largest, 1, 0]),
        (3, [low, infinity, 0, 1 << 63]),
    ] {
        let mut stream = Stream::new();
        let bytes = directed(direction, &bytes_of(TRIPLES.as_flattened()));
        let answer = stream.feed(&bytes).next().unwrap();
        assert_eq!(answer.refusal(), None, "{direction}");
        assert!(answer.patterns()?.eq(expected), "{direction}");
        let sums = TRIPLES.map(|[a, b, c]| {
            let direction = Direction::from_byte(direction).unwrap();
            fused_in(direction, a, b, c)
        });
        assert!(answer.results()?.eq(sums), "{direction}");
        assert_eq!(answer.bytes().len(), 4 + 8 * TRIPLES.len());
    }
    Ok(())
}

/// Kind 3 to nearest has the answer of kind 2, up to the 21 triples that a body has room for.
#[test]
fn kind_3_to_nearest_is_kind_2() {
    for n in 1..=21 {
        let items = bytes_of(TRIPLES.repeat(6)[..n].as_flattened());
        let both = [directed(0, &items), frame_of(2, &items)];
        let [three, two] = both.map(|bytes| answers([&bytes[..]]));
        assert_eq!(three, two, "{n}");
        assert_eq!(three.len(), 4 + 8 * n);
    }
}

/// The frame is refused at its last byte, and leaves the fresh state but for the counts.
fn check_refused(frame: &[u8], refusal: Refusal) -> Result<(), Refusal> {
    let mut state = State::fresh();
    let mut buffer = [FILL; ANSWER_ROOM];
    let (last, front) = frame.split_last().unwrap();
    assert_eq!(state.take(front, &mut buffer)?.answer, None);
    let answer = state.take(&[*last], &mut buffer)?.answer.unwrap();
    assert_eq!(answer.refusal(), Some(refusal), "{frame:?}");
    assert_eq!(answer.results().err(), Some(refusal));
    assert_eq!(answer.bytes(), [0, 2, 1, refusal.number()]);
    assert_eq!(answer.report(), None);
    assert_eq!(state, after(0, 1));
    Ok(())
}

/// 11 comes before 5, and whatever stands behind the byte; an empty payload has no direction byte.
#[test]
fn refusals_of_kind_3() -> Result<(), Refusal> {
    for direction in 4..=u8::MAX {
        for n in [0, 3, 23, 24, 48, 511] {
            check_refused(&directed(direction, &vec![0; n]), Refusal::BadDirection)?;
        }
    }
    check_refused(&frame_of(3, &[]), Refusal::BadPayload)?;
    for direction in 0..=3 {
        for n in (0..=511).filter(|n| n % 24 != 0 || *n == 0) {
            check_refused(&directed(direction, &vec![0; n]), Refusal::BadPayload)?;
        }
    }
    Ok(())
}

/// 2, 3 and 4 come before 11, and kinds 1 and 2 have no direction byte.
#[test]
fn refusals_around_a_direction() -> Result<(), Refusal> {
    check_refused(&directed(4, &[0; 512]), Refusal::LongBody)?;
    check_refused(&[0, 3, 2, 3, 4], Refusal::BadVersion)?;
    check_refused(&[0, 3, 1, 0xff, 4], Refusal::BadKind)?;
    check_refused(&[0, 3, 1, 0, 4], Refusal::BadKind)?;
    check_refused(&[0, 3, 1, 1, 4], Refusal::BadPayload)?;
    check_refused(&[0, 3, 1, 2, 4], Refusal::BadPayload)
}

/// The answer to a report.
fn report_answer(counts: Counts) -> Vec<u8> {
    let numbers = [counts.accepted, counts.refused, counts.total];
    let bytes = numbers.map(u64::to_be_bytes);
    [&[0, 26, 1, 0], bytes.as_flattened()].concat()
}

/// The stream's next answer is a report with these counts.
fn check_report(stream: &mut Stream, accepted: u64, refused: u64) {
    let expected = counts(accepted, refused, accepted + refused);
    assert_eq!(stream.counts(), expected);
    let answer = stream.feed(&REPORT).next().unwrap();
    assert_eq!(answer.bytes(), report_answer(expected));
    assert_eq!(answer.report(), Some(expected));
    assert_eq!(answer.refusal(), None);
}

#[test]
fn a_report_counts_what_was_before_it() {
    let mut stream = Stream::new();
    check_report(&mut stream, 0, 0);
    check_report(&mut stream, 1, 0);
    stream.feed(FRAMES);
    let unfinished = stream.close().map(|answer| answer.refusal());
    assert_eq!(unfinished, Some(Some(Refusal::Unfinished)));
    check_report(&mut stream, 3, 1);
    assert_eq!(stream.close(), None);
    stream.feed(&frame_of(4, &[0])); // refused
    check_report(&mut stream, 4, 2);
}

#[test]
fn every_refusal_of_a_frame_is_counted() {
    let mut stream = Stream::new();
    stream.feed(&short_stream());
    stream.close();
    check_report(&mut stream, 2, 8);
}

#[test]
fn refusals_of_kind_4() -> Result<(), Refusal> {
    for n in 1..=512 {
        check_refused(&frame_of(4, &vec![0; n]), Refusal::BadPayload)?;
    }
    check_refused(&frame_of(4, &[0; 513]), Refusal::LongBody)?;
    check_refused(&[0, 2, 2, 4], Refusal::BadVersion)
}

/// An answer does not say which kind it is for.
#[test]
fn three_results_are_read_as_a_report() {
    let mut stream = Stream::new();
    for n in (1..=64).filter(|n| *n != 3) {
        let answer = stream.feed(&frame(1, &vec![1.0; n])).next().unwrap();
        assert_eq!(answer.report(), None, "{n}");
    }
    let answer = stream.feed(&frame(1, &[1.0, 2.0, 3.0])).next().unwrap();
    let [one, three, seven] = [1.0, 3.0, 7.0].map(f64::to_bits);
    assert_eq!(answer.report(), Some(counts(one, three, seven)));
}

/// The answers to reports are 7 times as long as their frames. Before them comes the end of a frame with the longest answer.
#[test]
fn room_for_reports() -> Result<(), Refusal> {
    let longest = frame(1, &[0.5; 64]);
    let (front, end) = longest.split_at(longest.len() - 1);
    let piece = [end, &REPORT.repeat(1000)].concat();
    let mut stream = Stream::new();
    stream.feed(front);
    let mut state = stream.state();
    let answers = stream.feed(&piece);
    assert_eq!(answers.bytes().len(), ANSWER_ROOM + 28_000);
    for (i, answer) in (0..).zip(answers.clone().skip(1)) {
        assert_eq!(answer.report(), Some(counts(1 + i, 0, 1 + i)));
    }
    let mut buffer = vec![FILL; 7 * piece.len() + 2 * ANSWER_ROOM];
    let handed = state.hand_on(&piece, &mut buffer)?;
    assert_eq!(handed.used, piece.len());
    assert!(handed.answers.bytes() == answers.bytes());
    assert_eq!(state, after(1001, 0));
    Ok(())
}

const MOST: u64 = u64::MAX;
const HALF: u64 = 1 << 63;

/// The counts before a frame, and behind one that is accepted or refused.
#[rustfmt::skip]
const STEPS: [[[u64; 3]; 3]; 13] = [
    [[0, 0, 0], [1, 0, 1], [0, 1, 1]],
    [[3, 4, 7], [4, 4, 8], [3, 5, 8]],
    [
        [0x0123456789abcdef, 0x1021324354657687, 0x114477aade114476],
        [0x0123456789abcdf0, 0x1021324354657687, 0x114477aade114477],
        [0x0123456789abcdef, 0x1021324354657688, 0x114477aade114477],
    ],
    // The total reaches its end.
    [[MOST - 1, 0, MOST - 1], [MOST, 0, MOST], [MOST - 1, 1, MOST]],
    [[0, MOST - 1, MOST - 1], [1, MOST - 1, MOST], [0, MOST, MOST]],
    [[HALF - 1, HALF - 1, MOST - 1], [HALF, HALF - 1, MOST], [HALF - 1, HALF, MOST]],
    // It has stopped, and the other two go on.
    [[HALF, HALF - 1, MOST], [HALF + 1, HALF - 1, MOST], [HALF, HALF, MOST]],
    [[HALF, HALF, MOST], [HALF + 1, HALF, MOST], [HALF, HALF + 1, MOST]],
    [[MOST - 1, 1, MOST], [MOST, 1, MOST], [MOST - 1, 2, MOST]],
    [[MOST - 1, MOST - 1, MOST], [MOST, MOST - 1, MOST], [MOST - 1, MOST, MOST]],
    // Others have stopped too.
    [[MOST, 0, MOST], [MOST, 0, MOST], [MOST, 1, MOST]],
    [[0, MOST, MOST], [1, MOST, MOST], [0, MOST, MOST]],
    [[MOST, MOST, MOST], [MOST, MOST, MOST], [MOST, MOST, MOST]],
];

/// take and hand_on of a whole frame.
fn check_step(before: Counts, frame: &[u8], answer: &[u8], behind: Counts) -> Result<(), Refusal> {
    let mut buffer = [FILL; ANSWER_ROOM];
    let mut state = fresh_with(before);
    let taken = state.take(frame, &mut buffer)?;
    assert_eq!(taken.used, frame.len());
    assert_eq!(taken.answer.unwrap().bytes(), answer);
    assert_eq!(state, fresh_with(behind));
    let mut state = fresh_with(before);
    let handed = state.hand_on(frame, &mut buffer)?;
    assert_eq!(handed.used, frame.len());
    assert_eq!(handed.answers.bytes(), answer);
    assert_eq!(state, fresh_with(behind));
    Ok(())
}

#[test]
fn counts_stop_at_their_end() -> Result<(), Refusal> {
    for step in STEPS {
        let [before, accepted, refused] = step.map(|[a, r, t]| counts(a, r, t));
        check_step(before, &FRAMES[..12], ANSWERS[0], accepted)?;
        check_step(before, &REPORT, &report_answer(before), accepted)?;
        check_step(before, &FRAMES[12..14], ANSWERS[1], refused)?;
        check_step(before, &[0, 3, 1, 4, 0], &[0, 2, 1, 5], refused)?;
        for (form, number) in [(2, 14), (1, 15)] {
            let sheet = [0, 11, 1, 5, form, 0, 0, 0, 0, 0, 0, 0, 0];
            check_step(before, &sheet, &[0, 2, 1, number], refused)?;
        }
    }
    Ok(())
}

/// The part of a frame, the close there and a refused call change no number.
#[test]
fn counts_that_are_kept() -> Result<(), Refusal> {
    let mut buffer = [FILL; ANSWER_ROOM];
    for step in STEPS {
        let [before, accepted, _] = step.map(|[a, r, t]| counts(a, r, t));
        for cut in 0..12 {
            let mut state = fresh_with(before);
            assert_eq!(state.take(&FRAMES[..cut], &mut buffer)?.answer, None);
            assert_eq!((state.frame.count, state.counts), (cut, before));
            all_refused(state, ANSWER_ROOM - 1, Refusal::SmallBuffer);
            let mut closed = state;
            let answer = closed.close(&mut buffer)?;
            assert_eq!(answer.is_some(), cut > 0);
            assert_eq!(closed, fresh_with(before));
            state.take(&FRAMES[cut..12], &mut buffer)?;
            assert_eq!(state, fresh_with(accepted));
        }
    }
    Ok(())
}

/// From two below the end on, in one piece.
#[test]
fn a_piece_that_stops_the_counts() -> Result<(), Refusal> {
    let mut state = fresh_with(counts(MOST - 2, 0, MOST - 2));
    let mut buffer = [FILL; 4 * ANSWER_ROOM];
    let piece = [&REPORT[..], &REPORT, &[0, 0], &REPORT, &REPORT].concat();
    let answers = state.hand_on(&piece, &mut buffer)?.answers;
    let end = counts(MOST, 1, MOST);
    let expected = [
        Some(counts(MOST - 2, 0, MOST - 2)),
        Some(counts(MOST - 1, 0, MOST - 1)),
        None,
        Some(end),
        Some(end),
    ];
    assert!(answers.map(|answer| answer.report()).eq(expected));
    assert_eq!(state, fresh_with(end));
    Ok(())
}

/// One off, 0, wrapped, and stopped too early.
const WRONG: [[u64; 3]; 18] = [
    [0, 0, 1],
    [0, 0, MOST],
    [1, 0, 0],
    [0, 1, 0],
    [3, 4, 0],
    [3, 4, 6],
    [3, 4, 8],
    [MOST - 1, 0, MOST],
    [MOST, 0, 0],
    [MOST, 0, MOST - 1],
    [0, MOST, MOST - 1],
    [MOST, 1, 0],
    [MOST, MOST, MOST - 1],
    [MOST, MOST, 0],
    [HALF, HALF, 0],
    [HALF, HALF, MOST - 1],
    [HALF, HALF - 1, MOST - 1],
    [HALF - 1, HALF - 1, MOST],
];

#[test]
fn wrong_totals() {
    for [accepted, refused, total] in WRONG {
        for cut in 0..12 {
            let mut stream = Stream::new();
            stream.feed(&FRAMES[..cut]);
            let state = State {
                counts: counts(accepted, refused, total),
                ..stream.state()
            };
            all_refused(state, ANSWER_ROOM, Refusal::BadState);
            all_refused(state, ANSWER_ROOM - 1, Refusal::SmallBuffer);
        }
    }
}

/// A right total does not make up for a frame that no bytes leave.
#[test]
fn wrong_frames_with_right_totals() {
    for [[accepted, refused, total], ..] in STEPS {
        for mut state in bad_states() {
            state.counts = counts(accepted, refused, total);
            all_refused(state, ANSWER_ROOM, Refusal::BadState);
        }
    }
}

#[test]
fn refusals_and_their_numbers() {
    for number in 0..=u8::MAX {
        let refusal = Refusal::from_number(number);
        assert_eq!(refusal.is_some(), (1..=15).contains(&number), "{number}");
        assert!(refusal.is_none_or(|refusal| refusal.number() == number));
    }
}

#[test]
fn results_of_a_refused_frame() {
    let mut stream = Stream::new();
    let answer = stream.feed(&frame(0xff, &[])).next().unwrap();
    assert_eq!(answer.refusal(), Some(Refusal::BadKind));
    assert_eq!(answer.results().err(), Some(Refusal::BadKind));
    assert_eq!(answer.patterns().err(), Some(Refusal::BadKind));
}

/// States that no bytes leave: all ones, a body before its length, a length byte before its time, and a whole frame.
fn bad_states() -> [State; 4] {
    let mut bad = [State::fresh(); 4];
    bad[0].frame = PartialFrame {
        count: usize::MAX,
        hi: 0xff,
        lo: 0xff,
        body: [0xff; LONGEST_BODY],
    };
    bad[1].frame.body[LONGEST_BODY - 1] = 1;
    bad[2].frame.hi = 1;
    bad[3].frame.count = 2;
    bad
}

/// Every call with this state and buffer is refused, and changes neither.
fn all_refused(state: State, room: usize, refusal: Refusal) {
    let mut after = state;
    let mut buffer = vec![FILL; room];
    assert_eq!(after.take(FRAMES, &mut buffer).err(), Some(refusal));
    assert_eq!(after.hand_on(FRAMES, &mut buffer).err(), Some(refusal));
    assert_eq!(after.close(&mut buffer).err(), Some(refusal));
    assert_eq!(after, state);
    assert!(buffer.iter().all(|byte| *byte == FILL));
}

#[test]
fn refused_calls() {
    for room in [0, 1, ANSWER_ROOM - 1] {
        all_refused(State::fresh(), room, Refusal::SmallBuffer);
        for state in bad_states() {
            all_refused(state, room, Refusal::SmallBuffer);
        }
    }
    for room in [ANSWER_ROOM, 600] {
        for state in bad_states() {
            all_refused(state, room, Refusal::BadState);
        }
    }
}

/// The same call can be made again with a good buffer.
#[test]
fn a_refused_call_loses_nothing() -> Result<(), Refusal> {
    let mut state = State::default();
    let mut buffer = [FILL; ANSWER_ROOM];
    state.take(&FRAMES[..7], &mut buffer)?;
    assert!(state.take(&FRAMES[7..], &mut []).is_err());
    let taken = state.take(&FRAMES[7..], &mut buffer)?;
    assert_eq!(taken.answer.unwrap().bytes(), ANSWERS[0]);
    Ok(())
}

#[test]
fn the_place_of_a_payload() {
    for n in 0..=FRAMES.len() {
        let body = &FRAMES[..n];
        let part = payload(body);
        assert_eq!(part.len(), n.saturating_sub(2));
        assert_eq!(part.as_ptr_range().end, body.as_ptr_range().end);
    }
}

fn check_screening(weights: &[f64], expected: Screening) {
    assert_eq!(screening(&frame(1, weights)[4..]), expected);
}

#[test]
fn screening_finds_each_place() {
    let mut weights = [0.5; 64];
    check_screening(&weights, Screening::Clean);
    for place in 0..weights.len() {
        weights[place] = f64::INFINITY;
        check_screening(&weights, Screening::Clean);
        for nan in [0x7ff0000000000001, 0xffffffffffffffff] {
            weights[place] = f64::from_bits(nan);
            check_screening(&weights, Screening::Missing(place));
        }
        weights[place] = 0.5;
    }
}

#[test]
fn screening_finds_the_first_of_several() {
    let mut weights = [0.5; 64];
    weights[63] = f64::NAN;
    for place in 0..63 {
        weights[place] = -f64::NAN;
        check_screening(&weights, Screening::Missing(place));
        weights[place] = 0.5;
    }
    for place in (0..63).rev() {
        weights[place] = f64::NAN;
        check_screening(&weights, Screening::Missing(place));
    }
}

#[test]
fn screening_refuses_what_is_no_weights() {
    for n in (0..64).filter(|n| n % 8 != 0 || *n == 0) {
        let payload = vec![0xff; n];
        assert_eq!(
            screening(&payload),
            Screening::Refused(Refusal::BadPayload),
            "{n}"
        );
    }
}

/// Gives a stream in pieces of some sizes, with an interruption before each; then its end, or an error.
struct Pieces<'a> {
    left: &'a [u8],
    sizes: std::iter::Cycle<std::slice::Iter<'a, usize>>,
    interrupted: bool,
    fails: bool,
}

fn pieces<'a>(left: &'a [u8], sizes: &'a [usize]) -> Pieces<'a> {
    Pieces {
        left,
        sizes: sizes.iter().cycle(),
        interrupted: false,
        fails: false,
    }
}

impl Read for Pieces<'_> {
    fn read(&mut self, buffer: &mut [u8]) -> io::Result<usize> {
        self.interrupted = !self.interrupted;
        if self.interrupted {
            return Err(io::ErrorKind::Interrupted.into());
        }
        if self.left.is_empty() && self.fails {
            return Err(io::ErrorKind::ConnectionReset.into());
        }
        let n = self
            .left
            .len()
            .min(*self.sizes.next().unwrap())
            .min(buffer.len());
        let (piece, left) = self.left.split_at(n);
        buffer[..n].copy_from_slice(piece);
        self.left = left;
        Ok(n)
    }
}

#[test]
fn serve_answers_a_stream() -> io::Result<()> {
    for sizes in [&[1, 2, 3, 500][..], &[65536], &[9, 100_000]] {
        let mut written = Vec::new();
        serve(pieces(RECORDED, sizes), &mut written)?;
        assert!(written == RECORDED_ANSWERS, "{sizes:?}");
    }
    Ok(())
}

#[test]
fn serve_of_nothing() -> io::Result<()> {
    let mut written = Vec::new();
    serve(io::empty(), &mut written)?;
    assert!(written.is_empty());
    Ok(())
}

/// A read that fails is no end: the frames before it are answered, and the unfinished one is not.
#[test]
fn serve_returns_the_error_of_a_read() {
    let mut written = Vec::new();
    let reader = Pieces {
        fails: true,
        ..pieces(FRAMES, &[4])
    };
    let error = serve(reader, &mut written).unwrap_err();
    assert_eq!(error.kind(), io::ErrorKind::ConnectionReset);
    assert_eq!(written, ANSWERS[..2].concat());
}

/// Takes so many bytes, and then fails.
struct Full(usize);

impl Write for Full {
    fn write(&mut self, bytes: &[u8]) -> io::Result<usize> {
        if self.0 == 0 {
            return Err(io::ErrorKind::StorageFull.into());
        }
        let n = bytes.len().min(self.0);
        self.0 -= n;
        Ok(n)
    }

    fn flush(&mut self) -> io::Result<()> {
        Ok(())
    }
}

#[test]
fn serve_returns_the_error_of_a_write() {
    for room in 0..20 {
        let error = serve(FRAMES, Full(room)).unwrap_err();
        assert_eq!(error.kind(), io::ErrorKind::StorageFull, "{room}");
    }
    assert!(serve(FRAMES, Full(20)).is_ok());
}
