use crate::{ANSWER_ROOM, Answer, Answers, Counts, State};
use std::io::{self, ErrorKind, Read, Write};

/// A stream that is being answered: it takes pieces of any size and gives the answers to the frames that end in each.
///
/// ```
/// use weigher::Stream;
/// let mut stream = Stream::new();
/// for piece in [[0, 10, 1, 1, 0xc0, 0x4b], [0, 0, 0, 0, 0, 0], [0, 0, 0, 2, 9, 1]] {
///     for answer in stream.feed(&piece) {
///         match answer.results() {
///             Ok(results) => assert!(results.eq([-1.0])),
///             Err(refusal) => println!("refused: {refusal}"), // by 1, and then by 3
///         }
///     }
/// }
/// assert_eq!(stream.close(), None); // no frame is unfinished
/// ```
#[derive(Clone, Debug, Default)]
pub struct Stream {
    state: State,
    buffer: Vec<u8>,
}

impl Stream {
    pub fn new() -> Stream {
        Stream::default()
    }

    /// Takes the whole piece. Seven times its length and a little more is kept for answers.
    pub fn feed(&mut self, piece: &[u8]) -> Answers<'_> {
        let room = 7 * piece.len() + 2 * ANSWER_ROOM;
        let handed = self.state.hand_on(piece, space(&mut self.buffer, room));
        handed
            .expect("the buffer is large and the state good")
            .answers
    }

    /// Ends the stream. There is an answer where a frame was unfinished, and the next byte is the first of a new stream. The counts go on.
    pub fn close(&mut self) -> Option<Answer<'_>> {
        let closed = self.state.close(space(&mut self.buffer, ANSWER_ROOM));
        closed.expect("the buffer is large and the state good")
    }

    /// What has come of the present frame, and the counts.
    pub fn state(&self) -> State {
        self.state
    }

    /// The frames that ended, of all streams since [`Stream::new`].
    ///
    /// ```
    /// use weigher::{Counts, Stream};
    /// let mut stream = Stream::new();
    /// stream.feed(&[0, 10, 1, 1, 0xc0, 0x4b, 0, 0, 0, 0, 0, 0, 0, 0, 0]); // the weight -54, a body of no bytes, and half of a length
    /// stream.close();
    /// assert_eq!(stream.counts(), Counts { accepted: 1, refused: 1, total: 2 });
    /// ```
    pub fn counts(&self) -> Counts {
        self.state.counts
    }
}

/// A buffer of so many bytes at least.
fn space(buffer: &mut Vec<u8>, room: usize) -> &mut [u8] {
    if buffer.len() < room {
        buffer.resize(room, 0);
    }
    buffer
}

/// The bytes of one read.
const PIECE: usize = 65536;

/// Answers a stream to its end, as the program weigher does. The answers to all frames that have ended are written and flushed before each
/// next read. A read that fails is no end of the stream: its error is returned, and an unfinished frame is not answered.
///
/// ```
/// let frames = [0, 10, 1, 1, 0xc0, 0x4b, 0, 0, 0, 0, 0, 0, 0, 0, 0];
/// let mut answers = Vec::new();
/// weigher::serve(&frames[..], &mut answers)?;
/// assert_eq!(answers, [0, 10, 1, 0, 0xbf, 0xf0, 0, 0, 0, 0, 0, 0, 0, 2, 1, 1, 0, 2, 1, 8]);
/// # Ok::<(), std::io::Error>(())
/// ```
pub fn serve(mut reader: impl Read, mut writer: impl Write) -> io::Result<()> {
    let mut stream = Stream::new();
    let mut piece = vec![0; PIECE];
    loop {
        let n = match reader.read(&mut piece) {
            Ok(0) => break,
            Ok(n) => n,
            Err(error) if error.kind() == ErrorKind::Interrupted => continue,
            Err(error) => return Err(error),
        };
        writer.write_all(stream.feed(&piece[..n]).bytes())?;
        writer.flush()?;
    }
    if let Some(answer) = stream.close() {
        writer.write_all(answer.bytes())?;
        writer.flush()?;
    }
    Ok(())
}
