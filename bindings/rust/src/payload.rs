use crate::{Refusal, ffi};

/// The payload of a body: from its third byte to its end. That of a body under 2 bytes is the body's own empty end.
///
/// ```
/// assert_eq!(weigher::payload(&[1, 1, 0x40, 0x10]), [0x40, 0x10]);
/// assert_eq!(weigher::payload(&[1]), []);
/// ```
pub fn payload(body: &[u8]) -> &[u8] {
    // SAFETY: pointer and length are those of a slice.
    let start = unsafe { ffi::weigher_payload(body.as_ptr(), body.len()) };
    &body[start..]
}

/// What [`screening`] found.
#[derive(Clone, Copy, Debug, PartialEq, Eq, Hash)]
pub enum Screening {
    /// The payload is empty or is no whole weights: [`Refusal::BadPayload`].
    Refused(Refusal),
    /// No weight is a NaN.
    Clean,
    /// The place of the first weight that is a NaN, counted in weights from 0.
    Missing(usize),
}

/// Looks through a payload of kind 1 for the first weight that is a NaN, before it is sent.
///
/// ```
/// use weigher::{Refusal, Screening, screening};
/// let payload: Vec<u8> = [1.0, f64::NAN, f64::NAN].into_iter().flat_map(f64::to_be_bytes).collect();
/// assert_eq!(screening(&payload), Screening::Missing(1));
/// assert_eq!(screening(&payload[..8]), Screening::Clean);
/// assert_eq!(screening(&payload[..9]), Screening::Refused(Refusal::BadPayload));
/// ```
pub fn screening(payload: &[u8]) -> Screening {
    // SAFETY: pointer and length are those of a slice.
    let screened = unsafe { ffi::weigher_screening(payload.as_ptr(), payload.len()) };
    match screened.tag {
        ffi::REFUSED => Screening::Refused(
            Refusal::from_number(screened.number as u8).expect("a refusal's number"),
        ),
        ffi::CLEAN => Screening::Clean,
        ffi::MISSING => Screening::Missing(screened.number),
        tag => unreachable!("no tag: {tag}"),
    }
}
