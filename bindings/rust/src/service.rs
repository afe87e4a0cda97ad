use crate::{Answer, Answers, Refusal, ffi};

/// The longest body that is answered, and that a state keeps.
pub const LONGEST_BODY: usize = 514;

/// The bytes of a buffer that every answer fits into.
pub const ANSWER_ROOM: usize = 516;

/// The frame of kind 4, which asks for a report: how many frames were accepted and refused. [`Answer::report`] reads its answer.
///
/// ```
/// use weigher::{REPORT, Stream};
/// let mut stream = Stream::new();
/// stream.feed(&[0, 0]); // a body of no bytes, which is refused
/// let answer = stream.feed(&REPORT).next().expect("a whole frame has an answer");
/// let counts = answer.report().expect("the answer to a report");
/// assert_eq!((counts.accepted, counts.refused, counts.total), (0, 1, 1));
/// assert_eq!(stream.counts().accepted, 1); // the report itself
/// ```
///
/// A frame of kind 4 with a payload is refused by [`Refusal::BadPayload`].
pub const REPORT: [u8; 4] = [0, 2, 1, 4];

/// What has come of the present frame.
#[derive(Clone, Copy, Debug, PartialEq, Eq, Hash)]
#[repr(C)]
pub struct PartialFrame {
    /// The bytes that have come, length bytes among them.
    pub count: usize,
    /// The first length byte, or 0.
    pub hi: u8,
    /// The second length byte, or 0.
    pub lo: u8,
    /// The body so far. Places that are not filled hold 0; a body of under 2 or over [`LONGEST_BODY`] bytes fills none.
    pub body: [u8; LONGEST_BODY],
}

/// The frames that ended since [`State::fresh`], each number stopped at `u64::MAX`.
///
/// Close keeps them, and its answer [`Refusal::Unfinished`] is not counted; calls that are refused leave them as they are. A state whose
/// total is not the sum of the other two, stopped at `u64::MAX`, is refused by [`Refusal::BadState`]; apart from that the numbers decide
/// nothing.
///
/// In the answer to a [`REPORT`] they are those of the frames that ended before it. It does not count itself; later ones count it as
/// accepted.
#[derive(Clone, Copy, Debug, PartialEq, Eq, Hash)]
#[repr(C)]
pub struct Counts {
    /// Frames that were answered and not refused.
    pub accepted: u64,
    /// Frames that were refused by 1 to 5, 11, 14 or 15.
    pub refused: u64,
    /// Both.
    pub total: u64,
}

/// All that the service knows of a stream between calls.
///
/// It is a plain value, to be copied, stored or sent at will. Any value may be handed to a call: one that no bytes leave is refused by
/// [`Refusal::BadState`]. The calls lend the buffers out and allocate nothing; [`Stream`](crate::Stream) does without a buffer of the
/// caller's.
///
/// ```
/// use weigher::{ANSWER_ROOM, Refusal, State};
/// let mut state = State::fresh();
/// let mut buffer = [0; ANSWER_ROOM];
///
/// // A frame's first five bytes, and then the rest of it and one byte more.
/// let taken = state.take(&[0, 10, 1, 1, 0xc0], &mut buffer)?;
/// assert_eq!((taken.used, taken.answer), (5, None));
/// let taken = state.take(&[0x4b, 0, 0, 0, 0, 0, 0, 0], &mut buffer)?;
/// assert_eq!(taken.used, 7);
/// assert_eq!(taken.answer.unwrap().patterns()?.next(), Some(0xbff0000000000000));
/// assert_eq!(state.frame, State::fresh().frame);
/// assert_eq!(state.counts.accepted, 1);
///
/// // The byte that was left, and the end of the stream.
/// state.take(&[0], &mut buffer)?;
/// let answer = state.close(&mut buffer)?.unwrap();
/// assert_eq!(answer.refusal(), Some(Refusal::Unfinished));
/// assert_eq!(answer.bytes(), [0, 2, 1, 8]);
/// assert_eq!((state.counts.accepted, state.counts.refused), (1, 0));
/// # Ok::<(), Refusal>(())
/// ```
#[derive(Clone, Copy, Debug, PartialEq, Eq, Hash)]
#[repr(C)]
pub struct State {
    pub frame: PartialFrame,
    pub counts: Counts,
}

/// What [`State::take`] did.
#[derive(Clone, Copy, Debug, PartialEq, Eq)]
pub struct Taken<'a> {
    /// The bytes of the piece that were used.
    pub used: usize,
    /// The answer to the frame that ended, at the buffer's front.
    pub answer: Option<Answer<'a>>,
}

/// What [`State::hand_on`] did.
#[derive(Clone, Debug)]
pub struct HandedOn<'a> {
    /// The bytes of the piece that were used.
    pub used: usize,
    /// The answers to the frames that ended, at the buffer's front.
    pub answers: Answers<'a>,
}

/// The refusals of a call are 6 and 7; those of a frame stand in its answer.
fn call_refused(number: u8) -> Result<(), Refusal> {
    match Refusal::from_number(number) {
        Some(refusal @ (Refusal::SmallBuffer | Refusal::BadState)) => Err(refusal),
        _ => Ok(()),
    }
}

/// The answer at a buffer's front, where there is one.
fn answer(buffer: &[u8], len: usize) -> Option<Answer<'_>> {
    (len > 0).then(|| Answer::new(&buffer[..len]))
}

/// A call that is refused, by [`Refusal::SmallBuffer`] or else [`Refusal::BadState`], changes neither the state nor the buffer. Behind the
/// answers the buffer always keeps its content.
impl State {
    /// The state before a stream's first byte, with all counts 0. Each whole frame leaves it too, but for the counts.
    pub fn fresh() -> State {
        ffi::weigher_fresh()
    }

    /// Uses the piece up to the end of the first frame that ends in it, or all of it, and answers the frame that ended.
    pub fn take<'a>(&mut self, piece: &[u8], buffer: &'a mut [u8]) -> Result<Taken<'a>, Refusal> {
        // SAFETY: both pointers and lengths are those of slices, which don't overlap.
        let taken = unsafe {
            ffi::weigher_take(
                *self,
                piece.as_ptr(),
                piece.len(),
                buffer.as_mut_ptr(),
                buffer.len(),
            )
        };
        *self = taken.state;
        call_refused(taken.refusal)?;
        Ok(Taken {
            used: taken.used,
            answer: answer(buffer, taken.len),
        })
    }

    /// Ends the stream: an unfinished frame is answered by [`Refusal::Unfinished`], and the state is fresh but for the counts.
    pub fn close<'a>(&mut self, buffer: &'a mut [u8]) -> Result<Option<Answer<'a>>, Refusal> {
        // SAFETY: pointer and length are those of a slice.
        let closed = unsafe { ffi::weigher_close(*self, buffer.as_mut_ptr(), buffer.len()) };
        *self = closed.state;
        call_refused(closed.refusal)?;
        Ok(answer(buffer, closed.len))
    }

    /// [`State::take`] on the piece's unused end, again and again, until the piece is used up or the buffer has under [`ANSWER_ROOM`] bytes
    /// left. So a piece that has a byte is used in part at least. A buffer of `7 * piece.len() + 2 * ANSWER_ROOM` bytes has room for the
    /// answers to the whole piece: that to a [`REPORT`] has 7 times the bytes of its frame.
    ///
    /// ```
    /// use weigher::{ANSWER_ROOM, Refusal, State};
    /// let mut buffer = [0; 2 * ANSWER_ROOM];
    /// let handed = State::fresh().hand_on(&[0, 0, 0, 2, 1, 0xff], &mut buffer)?;
    /// let refusals: Vec<_> = handed.answers.filter_map(|answer| answer.refusal()).collect();
    /// assert_eq!(handed.used, 6);
    /// assert_eq!(refusals, [Refusal::ShortBody, Refusal::BadKind]);
    /// # Ok::<(), Refusal>(())
    /// ```
    pub fn hand_on<'a>(
        &mut self,
        piece: &[u8],
        buffer: &'a mut [u8],
    ) -> Result<HandedOn<'a>, Refusal> {
        // SAFETY: both pointers and lengths are those of slices, which don't overlap.
        let handed = unsafe {
            ffi::weigher_hand_on(
                *self,
                piece.as_ptr(),
                piece.len(),
                buffer.as_mut_ptr(),
                buffer.len(),
            )
        };
        *self = handed.state;
        call_refused(handed.refusal)?;
        Ok(HandedOn {
            used: handed.used,
            answers: Answers::new(&buffer[..handed.len]),
        })
    }
}

impl Default for State {
    fn default() -> State {
        State::fresh()
    }
}
