//! The functions and structs of include/weigher.h. Only the tests hold these declarations to the archive.

use crate::{Entry, State};
use std::mem::{offset_of, size_of};

#[repr(C)]
pub struct Taken {
    pub state: State,
    pub used: usize,
    pub len: usize,
    pub refusal: u8,
}

#[repr(C)]
pub struct Closed {
    pub state: State,
    pub len: usize,
    pub refusal: u8,
}

#[repr(C)]
pub struct HandedOn {
    pub state: State,
    pub used: usize,
    pub len: usize,
    pub refusal: u8,
}

#[repr(C)]
pub struct Screened {
    pub tag: u8,
    pub number: usize,
}

/// The tags of `Screened`.
pub const REFUSED: u8 = 0;
pub const CLEAN: u8 = 1;
pub const MISSING: u8 = 2;

// As tests/c/service.c has it for C.
const _: () = assert!(size_of::<State>() == 552 && offset_of!(State, counts) == 528);
const _: () = assert!(size_of::<Taken>() == 576 && offset_of!(Taken, refusal) == 568);
const _: () = assert!(size_of::<Closed>() == 568 && offset_of!(Closed, refusal) == 560);
const _: () = assert!(size_of::<HandedOn>() == 576 && offset_of!(HandedOn, refusal) == 568);
const _: () = assert!(size_of::<Screened>() == 16 && offset_of!(Screened, number) == 8);
const _: () = assert!(size_of::<Entry>() == 24 && offset_of!(Entry, lo) == 16);

// Those that take no pointer ask nothing of their arguments. For the others a pointer and the length behind it are a slice's, and a result
// is a place that may be written.
unsafe extern "C" {
    pub safe fn weigher_fresh() -> State;
    pub fn weigher_take(
        state: State,
        piece: *const u8,
        piece_len: usize,
        answer: *mut u8,
        answer_len: usize,
    ) -> Taken;
    pub fn weigher_close(state: State, answer: *mut u8, answer_len: usize) -> Closed;
    pub fn weigher_hand_on(
        state: State,
        piece: *const u8,
        piece_len: usize,
        answers: *mut u8,
        answers_len: usize,
    ) -> HandedOn;
    pub fn weigher_payload(body: *const u8, body_len: usize) -> usize;
    pub fn weigher_screening(payload: *const u8, payload_len: usize) -> Screened;

    pub safe fn weigher_score(x: u64) -> u64;
    pub fn weigher_score_with(list: *const Entry, list_len: usize, x: u64, score: *mut u64) -> u8;
    pub safe fn weigher_fused(a: u64, b: u64, c: u64) -> u64;
    pub fn weigher_fused_in(direction: u8, a: u64, b: u64, c: u64, result: *mut u64) -> u8;
    pub safe fn weigher_round(x: u64) -> u64;
    pub safe fn weigher_floor(x: u64) -> u64;
    pub safe fn weigher_scale(x: u64, n: i32) -> u64;

    pub fn weigher_constant(text: *const u8, text_len: usize, result: *mut u64) -> u8;
}
