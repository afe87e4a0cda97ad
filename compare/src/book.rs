//! The plain book of document 01, call by call, and the state for the bytes in it and its counts, written from document 01 and request A.6
//! alone. Its answers are those of service.rs.

use ffi::{PartialFrame, State};

use crate::counts::TrueCounts;
use crate::service::{self, LONGEST_BODY, Operations};

/// The least answer buffer.
pub const ANSWER_ROOM: usize = 516;

/// The longest frame: its length bytes and the longest body that they announce.
const LONGEST_FRAME: usize = 2 + 65_535;

#[derive(Clone, Copy, PartialEq, Eq)]
pub enum Kind {
    Take,
    Close,
    HandOn,
}

/// A call without its state. Close has an empty piece.
pub struct Call {
    pub kind: Kind,
    pub piece: Vec<u8>,
    pub buffer: Vec<u8>,
}

/// All that a call returns, and the answer buffer after it. Close uses 0 bytes.
pub struct Reply {
    pub state: State,
    pub used: usize,
    pub len: usize,
    pub number: u8,
    pub buffer: Vec<u8>,
}

/// The service in document 01's words: the state that it was left in, and a book that leaves that state, where one does.
pub struct Service<'a> {
    state: State,
    pub book: Option<Book>,
    operations: &'a Operations,
}

impl<'a> Service<'a> {
    /// Where the state shows a count at its end, the book has counted so much further.
    pub fn new(state: State, further: u128, operations: &'a Operations) -> Self {
        Service {
            state,
            book: Book::of(&state, further),
            operations,
        }
    }

    /// The bytes of the present frame; none where the state is bad.
    pub fn held(&self) -> &[u8] {
        self.book.as_ref().map_or(&[], |book| &book.held)
    }

    /// Refusal 6, then refusal 7, with state and buffer untouched, or else what the book gives.
    pub fn call(&mut self, call: &Call) -> Reply {
        if call.buffer.len() < ANSWER_ROOM {
            return self.untouched(6, call);
        }
        let Some(book) = &mut self.book else {
            return self.untouched(7, call);
        };
        let entry = match call.kind {
            Kind::Take => book.take(&call.piece, self.operations),
            Kind::Close => book.close(),
            Kind::HandOn => book.hand_on(&call.piece, call.buffer.len(), self.operations),
        };
        self.state = book.state();
        let mut buffer = call.buffer.clone();
        buffer[..entry.answer.len()].copy_from_slice(&entry.answer);
        Reply {
            state: self.state,
            used: entry.used,
            len: entry.answer.len(),
            number: entry.number,
            buffer,
        }
    }

    fn untouched(&self, number: u8, call: &Call) -> Reply {
        Reply {
            state: self.state,
            used: 0,
            len: 0,
            number,
            buffer: call.buffer.clone(),
        }
    }
}

/// The bytes of the present frame that have come, and the counts of the book's own answers, without those of close.
pub struct Book {
    held: Vec<u8>,
    counts: TrueCounts,
}

/// What the book gives for a call that neither 6 nor 7 refuses.
#[derive(Default)]
struct Entry {
    used: usize,
    answer: Vec<u8>,
    number: u8,
}

impl Book {
    /// A book that has answered nothing.
    pub fn holding(held: &[u8]) -> Self {
        Book {
            held: held.to_vec(),
            counts: TrueCounts::default(),
        }
    }

    /// A book that leaves a state, with the bytes and the counts that the state shows. There is none where the bytes are a whole frame or
    /// leave another state, nor where the counts have another total. For the bytes of a body that is not kept, zeros stand.
    fn of(state: &State, further: u128) -> Option<Book> {
        let frame = &state.frame;
        let mut held = vec![frame.hi, frame.lo];
        held.extend(frame.body);
        held.resize(frame.count.min(LONGEST_FRAME), 0);
        let counts = TrueCounts::of(&state.counts, further);
        let book = Book { held, counts };
        (!book.is_whole() && book.state() == *state).then_some(book)
    }

    /// How many bytes the present frame lacks, or its length bytes where they have not come.
    pub fn missing(&self) -> usize {
        match self.held[..] {
            [hi, lo, ..] => 2 + usize::from(u16::from_be_bytes([hi, lo])) - self.held.len(),
            _ => 2 - self.held.len(),
        }
    }

    fn is_whole(&self) -> bool {
        service::first_frame(&self.held).is_some()
    }

    /// How many bytes have come, the length bytes and, where L is 2 to 514, the body bytes so far; 0 in all other places of the frame. Then
    /// the counts, stopped.
    pub fn state(&self) -> State {
        let mut body = [0; LONGEST_BODY];
        if let [hi, lo, so_far @ ..] = &self.held[..]
            && (2..=LONGEST_BODY).contains(&usize::from(u16::from_be_bytes([*hi, *lo])))
        {
            body[..so_far.len()].copy_from_slice(so_far);
        }
        State {
            frame: PartialFrame {
                count: self.held.len(),
                hi: self.held.first().copied().unwrap_or(0),
                lo: self.held.get(1).copied().unwrap_or(0),
                body,
            },
            counts: self.counts.shown(),
        }
    }

    /// Bytes are moved from the piece's front, one by one, until the book holds a whole frame or the piece is used up. A whole frame is
    /// answered and counted, and the book's bytes are emptied.
    fn take(&mut self, piece: &[u8], operations: &Operations) -> Entry {
        let mut entry = Entry::default();
        for byte in piece {
            self.held.push(*byte);
            entry.used += 1;
            if let Some((body, _)) = service::first_frame(&self.held) {
                entry.number =
                    service::answer(body, operations, &mut self.counts, &mut entry.answer);
                self.held.clear();
                break;
            }
        }
        entry
    }

    /// It keeps the counts, and is not counted.
    fn close(&mut self) -> Entry {
        let mut entry = Entry::default();
        if !self.held.is_empty() {
            entry.number = 8;
            service::write_refusal(8, &mut entry.answer);
            self.held.clear();
        }
        entry
    }

    /// Take repeated on the piece's unused end, each time with what is left of the buffer, until nothing is left of the piece or there
    /// is no room for one more answer. The numbers of the single takes are in their answers alone.
    fn hand_on(&mut self, piece: &[u8], room: usize, operations: &Operations) -> Entry {
        let mut all = Entry::default();
        while all.used < piece.len() && ANSWER_ROOM <= room - all.answer.len() {
            let entry = self.take(&piece[all.used..], operations);
            all.used += entry.used;
            all.answer.extend(entry.answer);
        }
        all
    }
}
