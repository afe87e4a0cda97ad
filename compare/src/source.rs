//! The calls of a list: pieces that are cut from a source of bytes, in order, and answer buffers.

use crate::book::{ANSWER_ROOM, Call, Kind, Reply};
use crate::frames;
use crate::random::Random;

/// The longest piece and buffer, and the longest of a hand_on that may write many answers.
const LONGEST: usize = 600;
const MANY: usize = 4000;

pub struct Source {
    waiting: Vec<u8>,
    next: fn(&mut Random) -> Vec<u8>,
}

impl Source {
    /// The rest of a frame, and then frames; in a third of the lists random bytes, zeros, short lengths or reports alone.
    pub fn new(rest: Vec<u8>, random: &mut Random) -> Self {
        Source {
            waiting: rest,
            next: match random.below(12) {
                0 => |random| random.word().to_be_bytes().to_vec(),
                1 => |_| vec![0; 8],
                2 => |random| vec![0, random.below(4) as u8],
                3 => frames::report,
                _ => frames::any,
            },
        }
    }

    /// A call, where so many bytes are missing of the present frame.
    pub fn call(&mut self, missing: usize, random: &mut Random) -> Call {
        let (kind, longest) = match random.below(16) {
            0 | 1 => (Kind::Close, LONGEST),
            2..9 => (Kind::Take, LONGEST),
            9..13 => (Kind::HandOn, LONGEST),
            _ => (Kind::HandOn, MANY),
        };
        let piece = match (kind, random.below(6)) {
            (Kind::Close, _) => 0,
            (_, 0) => random.pick(&[0, 1, 2, 3, LONGEST]),
            (_, 1) => (missing + random.below(3) as usize).saturating_sub(1),
            _ => up_to(longest, random),
        };
        let buffer = match random.below(12) {
            0 => up_to(LONGEST, random),
            1 => ANSWER_ROOM - 1,
            2 | 3 => ANSWER_ROOM,
            4 | 5 => ANSWER_ROOM + 1,
            _ => ANSWER_ROOM + up_to(longest - ANSWER_ROOM, random),
        };
        Call {
            kind,
            piece: self.front(piece.min(longest), random),
            buffer: (0..buffer).map(|_| random.word() as u8).collect(),
        }
    }

    fn front(&mut self, length: usize, random: &mut Random) -> Vec<u8> {
        while self.waiting.len() < length {
            self.waiting.extend((self.next)(random));
        }
        self.waiting[..length].to_vec()
    }

    /// The unused end of a piece stays for the next ones. A close in a frame ends it.
    pub fn move_on(&mut self, call: &Call, reply: &Reply) {
        if call.kind == Kind::Close && reply.number == 8 {
            self.waiting.clear();
        }
        self.waiting.drain(..reply.used);
    }
}

fn up_to(most: usize, random: &mut Random) -> usize {
    random.below(most as u64 + 1) as usize
}
