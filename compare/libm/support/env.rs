//! Stands in for support/env.rs: as much as hex_float.rs uses.

#[allow(dead_code)] // hex_float.rs names all and makes some
#[derive(Clone, Copy)]
pub enum Round {
    Nearest,
    Negative,
    Zero,
    Positive,
}

/// A set of flags.
#[derive(Clone, Copy, PartialEq, Eq)]
pub struct Status(u8);

impl Status {
    pub const OK: Self = Status(0);
    pub const INEXACT: Self = Status(1);
    pub const UNDERFLOW: Self = Status(2);
    pub const OVERFLOW: Self = Status(4);

    pub const fn with(self, other: Self) -> Self {
        Status(self.0 | other.0)
    }

    pub const fn inexact(self) -> bool {
        self.0 & Self::INEXACT.0 != 0
    }

    pub const fn underflow(self) -> bool {
        self.0 & Self::UNDERFLOW.0 != 0
    }

    pub const fn overflow(self) -> bool {
        self.0 & Self::OVERFLOW.0 != 0
    }
}
