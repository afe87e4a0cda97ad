use crate::{Counts, Refusal};
use std::iter::FusedIterator;

/// The answer to a frame, or to an unfinished one at a stream's end: a result for each item, a report's counts, or a refusal.
///
/// ```
/// let mut stream = weigher::Stream::new();
/// let frame = [0, 10, 1, 1, 0xc0, 0x4b, 0, 0, 0, 0, 0, 0]; // the weight -54
/// let answer = stream.feed(&frame).next().expect("a whole frame has an answer");
/// let scores: Vec<f64> = answer.results()?.collect();
/// assert_eq!(scores, [-1.0]);
/// # Ok::<(), weigher::Refusal>(())
/// ```
#[derive(Clone, Copy, Debug, PartialEq, Eq)]
pub struct Answer<'a> {
    bytes: &'a [u8],
}

/// The bytes before the results: the length, the version and the code.
const HEAD: usize = 4;

impl<'a> Answer<'a> {
    /// One whole answer of the service.
    pub(crate) fn new(bytes: &'a [u8]) -> Answer<'a> {
        Answer { bytes }
    }

    /// The answer as it is sent, length bytes and all.
    pub fn bytes(self) -> &'a [u8] {
        self.bytes
    }

    /// Why there are no results.
    pub fn refusal(self) -> Option<Refusal> {
        Refusal::from_number(self.bytes[HEAD - 1])
    }

    /// The results in the items' order: scores for kind 1, a × b + c for kinds 2 and 3, and for kind 5 the score of each line of the
    /// household sheet. The numbers of a report are no floats: [`Answer::report`] has them.
    pub fn results(self) -> Result<impl ExactSizeIterator<Item = f64> + Clone, Refusal> {
        Ok(self.patterns()?.map(f64::from_bits))
    }

    /// The results as patterns.
    pub fn patterns(self) -> Result<impl ExactSizeIterator<Item = u64> + Clone, Refusal> {
        match self.refusal() {
            Some(refusal) => Err(refusal),
            None => Ok(self.bytes[HEAD..].chunks_exact(8).map(pattern)),
        }
    }

    /// The counts in the answer to a [`REPORT`](crate::REPORT). An answer does not say which kind its frame had: the answer to three
    /// weights, three triples or three lines is read as counts too. None where it has not three results.
    pub fn report(self) -> Option<Counts> {
        let mut numbers = self.patterns().ok()?;
        if numbers.len() != 3 {
            return None;
        }
        Some(Counts {
            accepted: numbers.next()?,
            refused: numbers.next()?,
            total: numbers.next()?,
        })
    }
}

fn pattern(bytes: &[u8]) -> u64 {
    u64::from_be_bytes(bytes.try_into().expect("8 bytes"))
}

/// The answers to a piece, in the order of the frames that ended in it.
#[derive(Clone, Debug)]
pub struct Answers<'a> {
    bytes: &'a [u8],
}

impl<'a> Answers<'a> {
    /// Whole answers of the service.
    pub(crate) fn new(bytes: &'a [u8]) -> Answers<'a> {
        Answers { bytes }
    }

    /// The answers that are left, one after another, as they are sent.
    pub fn bytes(&self) -> &'a [u8] {
        self.bytes
    }
}

impl<'a> Iterator for Answers<'a> {
    type Item = Answer<'a>;

    fn next(&mut self) -> Option<Answer<'a>> {
        let (length, _) = self.bytes.split_first_chunk()?;
        let end = 2 + usize::from(u16::from_be_bytes(*length));
        let (answer, rest) = self.bytes.split_at(end);
        self.bytes = rest;
        Some(Answer::new(answer))
    }
}

impl FusedIterator for Answers<'_> {}
