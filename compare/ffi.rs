//! The functions of C: those of include/weigher.h, the fma that the score calls, the machine's fma in each direction, ldexp, ldexpf,
//! strtod and %a, and musl's fma where it is linked.
//!
//! Nothing checks these declarations against the C side. Those that take and return plain numbers are safe to call; those that are lent
//! bytes or entries, as a pointer and a length or with a 0 behind them, have a function over slices or strings here.

use std::ffi::{CStr, c_char, c_int};
use std::ptr;

/// The longest body that a state holds.
pub const BODY_PLACES: usize = 514;

#[repr(C)]
#[derive(Clone, Copy, PartialEq, Eq)]
pub struct PartialFrame {
    pub count: usize,
    pub hi: u8,
    pub lo: u8,
    pub body: [u8; BODY_PLACES],
}

#[repr(C)]
#[derive(Clone, Copy, PartialEq, Eq)]
pub struct Counts {
    pub accepted: u64,
    pub refused: u64,
    pub total: u64,
}

#[repr(C)]
#[derive(Clone, Copy, PartialEq, Eq)]
pub struct State {
    pub frame: PartialFrame,
    pub counts: Counts,
}

#[repr(C)]
pub struct Taken {
    pub state: State,
    pub used: usize,
    pub len: usize,
    pub refusal: u8,
}

#[repr(C)]
pub struct Closed {
    pub state: State,
    pub len: usize,
    pub refusal: u8,
}

#[repr(C)]
pub struct HandedOn {
    pub state: State,
    pub used: usize,
    pub len: usize,
    pub refusal: u8,
}

/// The tag 0 comes with the refusal's number, 1 with 0, and 2 with a place.
#[repr(C)]
pub struct Screened {
    pub tag: u8,
    pub number: usize,
}

/// An entry of a lent list.
#[repr(C)]
#[derive(Clone, Copy)]
pub struct Entry {
    pub x: f64,
    pub hi: f64,
    pub lo: f64,
}

/// The directions of request A.3, in the order of their bytes.
#[repr(u8)]
#[derive(Clone, Copy, PartialEq, Eq)]
pub enum Direction {
    Nearest,
    TowardZero,
    Up,
    Down,
}

impl Direction {
    pub const ALL: [Direction; 4] = [
        Direction::Nearest,
        Direction::TowardZero,
        Direction::Up,
        Direction::Down,
    ];

    /// The direction of a byte up to 3.
    pub fn of(byte: u8) -> Option<Direction> {
        Direction::ALL.get(usize::from(byte)).copied()
    }
}

#[link(name = "weigher", kind = "static")]
unsafe extern "C" {
    pub safe fn weigher_fused(a: u64, b: u64, c: u64) -> u64;
    fn weigher_fused_in(direction: u8, a: u64, b: u64, c: u64, result: *mut u64) -> u8;
    pub safe fn weigher_round(x: u64) -> u64;
    pub safe fn weigher_floor(x: u64) -> u64;
    pub safe fn weigher_scale(x: u64, n: i32) -> u64;
    pub safe fn weigher_score(x: u64) -> u64;
    fn weigher_score_with(list: *const Entry, list_length: usize, x: u64, score: *mut u64) -> u8;
    pub safe fn weigher_fresh() -> State;
    fn weigher_take(
        state: State,
        piece: *const u8,
        piece_length: usize,
        answer: *mut u8,
        answer_length: usize,
    ) -> Taken;
    fn weigher_close(state: State, answer: *mut u8, answer_length: usize) -> Closed;
    fn weigher_hand_on(
        state: State,
        piece: *const u8,
        piece_length: usize,
        answers: *mut u8,
        answers_length: usize,
    ) -> HandedOn;
    fn weigher_payload(body: *const u8, length: usize) -> usize;
    fn weigher_screening(payload: *const u8, length: usize) -> Screened;
    fn weigher_constant(text: *const u8, length: usize, result: *mut u64) -> u8;
}

pub fn take(state: State, piece: &[u8], answer: &mut [u8]) -> Taken {
    // SAFETY: the bytes of the slices, here and below, are lent for the call, and the answer's to this call alone.
    unsafe {
        weigher_take(
            state,
            piece.as_ptr(),
            piece.len(),
            answer.as_mut_ptr(),
            answer.len(),
        )
    }
}

pub fn close(state: State, answer: &mut [u8]) -> Closed {
    // SAFETY: as in take.
    unsafe { weigher_close(state, answer.as_mut_ptr(), answer.len()) }
}

pub fn hand_on(state: State, piece: &[u8], answers: &mut [u8]) -> HandedOn {
    // SAFETY: as in take.
    unsafe {
        weigher_hand_on(
            state,
            piece.as_ptr(),
            piece.len(),
            answers.as_mut_ptr(),
            answers.len(),
        )
    }
}

/// Where the payload of a body starts.
pub fn payload(body: &[u8]) -> usize {
    // SAFETY: as in take.
    unsafe { weigher_payload(body.as_ptr(), body.len()) }
}

pub fn screening(payload: &[u8]) -> Screened {
    // SAFETY: as in take.
    unsafe { weigher_screening(payload.as_ptr(), payload.len()) }
}

/// The refusal's number, or 0 and the result is written.
pub fn constant(text: &[u8], result: &mut u64) -> u8 {
    // SAFETY: as in take; the result too is lent to this call alone.
    unsafe { weigher_constant(text.as_ptr(), text.len(), result) }
}

/// The refusal's number, or 0 and the result is written.
pub fn fused_in(direction: u8, a: u64, b: u64, c: u64, result: &mut u64) -> u8 {
    // SAFETY: the result is lent to this call alone.
    unsafe { weigher_fused_in(direction, a, b, c, result) }
}

/// The refusal's number, or 0 and the score is written.
pub fn score_with(list: &[Entry], x: u64, score: &mut u64) -> u8 {
    // SAFETY: as in take; the score too is lent to this call alone.
    unsafe { weigher_score_with(list.as_ptr(), list.len(), x, score) }
}

#[link(name = "fast_fused_c", kind = "static")]
unsafe extern "C" {
    pub safe fn fast_fused(a: u64, b: u64, c: u64) -> u64;
}

#[link(name = "directed", kind = "static")]
unsafe extern "C" {
    fn directed_fmas(
        direction: Direction,
        operands: *const [f64; 3],
        results: *mut f64,
        count: usize,
    );
}

/// Writes the machine's fma of each three operands in a direction.
pub fn fmas_in(direction: Direction, operands: &[[f64; 3]], results: &mut [f64]) {
    let count = operands.len().min(results.len());
    // SAFETY: both slices have so many places, and directed.c knows every direction.
    unsafe { directed_fmas(direction, operands.as_ptr(), results.as_mut_ptr(), count) };
}

#[link(name = "m")]
unsafe extern "C" {
    pub safe fn ldexp(x: f64, n: i32) -> f64;
    pub safe fn ldexpf(x: f32, n: i32) -> f32;
}

#[link(name = "c")]
unsafe extern "C" {
    fn strtod(text: *const c_char, end: *mut *mut c_char) -> f64;
    fn snprintf(buffer: *mut c_char, size: usize, format: *const c_char, ...) -> c_int;
}

/// The float that C reads from the text's front, and how many bytes it takes for it.
pub fn read_float(text: &CStr) -> (f64, usize) {
    let mut end = ptr::null_mut();
    // SAFETY: strtod reads up to the 0, and sets the end to a place of the text.
    let float = unsafe { strtod(text.as_ptr(), &mut end) };
    (float, end.addr() - text.as_ptr().addr())
}

/// The float as C writes it by %a.
pub fn written_float(x: f64) -> String {
    let mut buffer = [0; 32];
    // SAFETY: snprintf writes as many bytes as it is told at most, the last of them a 0.
    unsafe { snprintf(buffer.as_mut_ptr().cast(), buffer.len(), c"%a".as_ptr(), x) };
    let text = CStr::from_bytes_until_nul(&buffer).expect("a 0 at the end");
    text.to_str().expect("ASCII").to_string()
}

#[cfg(musl_fma)]
#[link(name = "musl_fma", kind = "static")]
unsafe extern "C" {
    pub safe fn musl_fma(x: f64, y: f64, z: f64) -> f64;
}
