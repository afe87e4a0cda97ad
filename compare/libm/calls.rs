//! The calls of the stand-ins, which the crates `recorded`, `bent` and `counted` keep.

pub enum Call {
    Fma(f64, f64, f64),
    Floor,
    RoundEven,
    ColdPath,
    Unsigned,
}

#[cfg(any(fma = "recorded", fma = "bent"))]
thread_local! {
    /// The operands of each call of fma so far.
    pub static OPERANDS: std::cell::RefCell<Vec<(f64, f64, f64)>> = const { std::cell::RefCell::new(Vec::new()) };
}

#[cfg(any(fma = "recorded", fma = "bent"))]
pub fn keep(call: Call) {
    if let Call::Fma(x, y, z) = call {
        OPERANDS.with_borrow_mut(|operands| operands.push((x, y, z)));
    }
}

/// How often each has been called.
#[cfg(fma = "counted")]
#[derive(Clone, Copy, Default)]
pub struct Counts {
    pub fma: u8,
    pub floor: u8,
    pub roundeven: u8,
    pub cold_path: u8,
    pub unsigned: u8,
}

#[cfg(fma = "counted")]
thread_local! {
    pub static COUNTS: std::cell::Cell<Counts> = const { std::cell::Cell::new(Counts { fma: 0, floor: 0, roundeven: 0, cold_path: 0, unsigned: 0 }) };
}

#[cfg(fma = "counted")]
pub fn keep(call: Call) {
    let mut counts = COUNTS.get();
    match call {
        Call::Fma(..) => counts.fma += 1,
        Call::Floor => counts.floor += 1,
        Call::RoundEven => counts.roundeven += 1,
        Call::ColdPath => counts.cold_path += 1,
        Call::Unsigned => counts.unsigned += 1,
    }
    COUNTS.set(counts);
}

#[cfg(not(any(fma = "recorded", fma = "bent", fma = "counted")))]
pub fn keep(_: Call) {}

#[cfg(fma = "bent")]
thread_local! {
    /// The array and the number of the coefficient that is zero.
    pub static ZERO: std::cell::Cell<(&'static str, usize)> = const { std::cell::Cell::new(("", 0)) };
}

/// A coefficient as exp2m1.rs reads it, or zero.
#[cfg(fma = "bent")]
pub fn bent(array: &'static str, number: usize, coefficient: f64) -> f64 {
    if ZERO.get() == (array, number) {
        0.0
    } else {
        coefficient
    }
}
