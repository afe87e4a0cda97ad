//! One call of an operation, answered by the weigher and by what it is compared with.

use std::fmt;

use ffi::Direction;

use crate::values::UNTOUCHED;
use crate::{machine, rust};

/// An operation with its operands. Floats are bit patterns.
#[derive(Clone, Copy)]
pub enum Case {
    Fused(u64, u64, u64),
    FusedIn(Direction, u64, u64, u64),
    FastFused(u64, u64, u64),
    Round(u64),
    Floor(u64),
    Scale(u64, i32),
    Score(u64),
}

impl Case {
    pub fn fused((a, b, c): (u64, u64, u64)) -> Case {
        Case::Fused(a, b, c)
    }

    pub fn fast_fused((a, b, c): (u64, u64, u64)) -> Case {
        Case::FastFused(a, b, c)
    }

    /// The weigher's answer, or `UNTOUCHED` where it refuses the direction.
    pub fn weigher(self) -> u64 {
        match self {
            Case::Fused(a, b, c) => ffi::weigher_fused(a, b, c),
            Case::FusedIn(direction, a, b, c) => {
                let mut result = UNTOUCHED;
                match ffi::fused_in(direction as u8, a, b, c, &mut result) {
                    0 => result,
                    _ => UNTOUCHED,
                }
            }
            Case::FastFused(a, b, c) => ffi::fast_fused(a, b, c),
            Case::Round(x) => ffi::weigher_round(x),
            Case::Floor(x) => ffi::weigher_floor(x),
            Case::Scale(x, n) => ffi::weigher_scale(x, n),
            Case::Score(x) => ffi::weigher_score(x),
        }
    }

    /// The machine's answer, its NaNs by nan.rs, or the Rust exp2m1's.
    pub fn reference(self) -> u64 {
        match self {
            Case::Fused(a, b, c) | Case::FastFused(a, b, c) => machine::fused(a, b, c),
            Case::FusedIn(direction, a, b, c) => machine::fused_in(direction, a, b, c),
            Case::Round(x) => machine::round(x),
            Case::Floor(x) => machine::floor(x),
            Case::Scale(x, n) => machine::scale(x, n),
            Case::Score(x) => rust::score(x),
        }
    }
}

/// The name of fused in a direction.
pub fn name_in(direction: Direction) -> &'static str {
    match direction {
        Direction::Nearest => "fused_nearest",
        Direction::TowardZero => "fused_toward_zero",
        Direction::Up => "fused_up",
        Direction::Down => "fused_down",
    }
}

/// The case as a vector has it, without the answer. n is in two's complement.
impl fmt::Display for Case {
    fn fmt(&self, f: &mut fmt::Formatter) -> fmt::Result {
        match self {
            Case::Fused(a, b, c) => write!(f, "fused {a:016x} {b:016x} {c:016x}"),
            Case::FusedIn(direction, a, b, c) => {
                let name = name_in(*direction);
                write!(f, "{name} {a:016x} {b:016x} {c:016x}")
            }
            Case::FastFused(a, b, c) => write!(f, "fast_fused {a:016x} {b:016x} {c:016x}"),
            Case::Round(x) => write!(f, "round {x:016x}"),
            Case::Floor(x) => write!(f, "floor {x:016x}"),
            Case::Scale(x, n) => write!(f, "scale {x:016x} {n:08x}"),
            Case::Score(x) => write!(f, "score {x:016x}"),
        }
    }
}
