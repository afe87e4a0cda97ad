/// The entries of the longest list that is good.
pub const LONGEST_LIST: usize = 256;

/// An exception of a caller's own, for [`score_with`](crate::score_with): the weight x, whose score is hi + lo, rounded.
#[derive(Clone, Copy, Debug, PartialEq)]
#[repr(C)]
pub struct Entry {
    pub x: f64,
    pub hi: f64,
    pub lo: f64,
}
