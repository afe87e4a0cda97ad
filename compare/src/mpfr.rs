//! 2^x - 1 rounded correctly, by MPFR.
//!
//! Nothing checks these declarations against mpfr.h.

use std::ffi::{c_int, c_long, c_ulong};
use std::mem::MaybeUninit;

use crate::case::Case;
use crate::random::Random;
use crate::{nan, run, score};

/// MPFR's mpfr_t on a 64-bit Linux.
#[repr(C)]
struct Number {
    precision: c_long,
    sign: c_int,
    exponent: c_long,
    limbs: *mut c_ulong,
}

const NEAREST: c_int = 0;

/// Weights of each range for which the fast phase does not decide.
const UNDECIDED: u64 = 20;

#[link(name = "mpfr")]
unsafe extern "C" {
    safe fn mpfr_set_emin(exponent: c_long) -> c_int;
    safe fn mpfr_set_emax(exponent: c_long) -> c_int;
    fn mpfr_init2(x: *mut Number, precision: c_long);
    fn mpfr_clear(x: *mut Number);
    fn mpfr_set_d(x: *mut Number, value: f64, rounding: c_int) -> c_int;
    fn mpfr_exp2m1(result: *mut Number, x: *const Number, rounding: c_int) -> c_int;
    fn mpfr_subnormalize(x: *mut Number, ternary: c_int, rounding: c_int) -> c_int;
    fn mpfr_get_d(x: *const Number, rounding: c_int) -> f64;
}

/// Runs the edges and so many thousand random weights; false where the two differ in any.
pub fn compare(thousands: u64) -> bool {
    // The exponents of binary64, with a significand from 0.5 to 1.
    mpfr_set_emin(-1073);
    mpfr_set_emax(1024);
    let mut random = Random::new(5);
    let mut edges = score::edges(1);
    edges.extend(score::undecided(&mut random, UNDECIDED));
    let others = (0..thousands * 1000).map(|_| score::weight(&mut random));
    let weights = edges.into_iter().chain(others);
    let answers = weights.map(|x| (Case::Score(x), exp2m1(x)));
    run::compare_answers("score beside MPFR", answers)
}

fn exp2m1(x: u64) -> u64 {
    let mut number = MaybeUninit::uninit();
    let number = number.as_mut_ptr();
    // SAFETY: mpfr_init2 makes the number, the others only use it, and mpfr_clear ends it.
    let result = unsafe {
        mpfr_init2(number, 53);
        mpfr_set_d(number, f64::from_bits(x), NEAREST);
        let ternary = mpfr_exp2m1(number, number, NEAREST);
        mpfr_subnormalize(number, ternary, NEAREST);
        let result = mpfr_get_d(number, NEAREST);
        mpfr_clear(number);
        result
    };
    nan::pattern(&[x], result)
}
