//! The counts of request A.6, written from that request and A.8 alone: the true ones, which do not stop, and how they are shown.

use ffi::Counts;

/// The frames that ended since the service was fresh.
#[derive(Clone, Copy, Default)]
pub struct TrueCounts {
    accepted: u128,
    refused: u128,
}

impl TrueCounts {
    /// Counts that are shown so. A number at its end stands for every count from there on: it has gone so much further.
    pub fn of(shown: &Counts, further: u128) -> Self {
        let count = |number: u64| match number {
            u64::MAX => u128::from(number) + further,
            _ => u128::from(number),
        };
        TrueCounts {
            accepted: count(shown.accepted),
            refused: count(shown.refused),
        }
    }

    /// Counts a frame by the number that its answer has.
    pub fn count(&mut self, number: u8) {
        match number {
            0 => self.accepted += 1,
            1..=5 | 11 | 14 | 15 => self.refused += 1,
            _ => unreachable!("no frame is refused by {number}"),
        }
    }

    /// What the state and a report show: each of the three stops at 2^64-1, and the total is that of the true counts.
    pub fn shown(&self) -> Counts {
        Counts {
            accepted: stopped(self.accepted),
            refused: stopped(self.refused),
            total: stopped(self.accepted + self.refused),
        }
    }
}

fn stopped(count: u128) -> u64 {
    u64::try_from(count).unwrap_or(u64::MAX)
}
