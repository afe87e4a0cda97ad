//! Stands in for support/int_traits.rs: as much as exp2m1.rs, float_traits.rs and hex_float.rs use.

use std::fmt;
use std::ops::{Add, BitAnd, BitOr, Not, Shl, Shr, Sub};

use super::DisplayHex;
use crate::calls::{Call, keep};

pub trait MinInt: Copy + PartialEq {
    type OtherSign: MinInt;
    type Unsigned: MinInt;
    const ZERO: Self;
    const ONE: Self;
}

pub trait Int:
    MinInt
    + DisplayHex
    + fmt::LowerHex
    + Add<Output = Self>
    + Sub<Output = Self>
    + Not<Output = Self>
    + BitAnd<Output = Self>
    + BitOr<Output = Self>
    + Shl<u32, Output = Self>
    + Shr<u32, Output = Self>
    + CastFrom<u32>
    + CastInto<u32>
{
    fn signed(self) -> <Self::Unsigned as MinInt>::OtherSign;
    fn unsigned(self) -> Self::Unsigned;
}

pub trait DInt {
    type H;
}

pub trait CastFrom<T> {
    fn cast_from(x: T) -> Self;
}

pub trait CastInto<T> {
    fn cast(self) -> T;
}

impl<T, U: CastInto<T>> CastFrom<U> for T {
    fn cast_from(x: U) -> T {
        x.cast()
    }
}

macro_rules! int {
    ($int:ident, $other:ident, $unsigned:ident, $signed:ident) => {
        impl MinInt for $int {
            type OtherSign = $other;
            type Unsigned = $unsigned;
            const ZERO: Self = 0;
            const ONE: Self = 1;
        }

        impl Int for $int {
            fn signed(self) -> $signed {
                self as $signed
            }

            fn unsigned(self) -> $unsigned {
                keep(Call::Unsigned);
                self as $unsigned
            }
        }
    };
}

int!(i32, u32, u32, i32);
int!(u32, i32, u32, i32);
int!(i64, u64, u64, i64);
int!(u64, i64, u64, i64);

macro_rules! cast {
    ($($from:ident => $to:ident),*) => {
        $(
            impl CastInto<$to> for $from {
                fn cast(self) -> $to {
                    self as $to
                }
            }
        )*
    };
}

cast!(u32 => i32, u32 => i64, u32 => u32, u32 => u64);
cast!(i32 => u32, i64 => u32, u64 => u32);
cast!(i64 => usize, u64 => f64, f64 => i32, f64 => i64);
