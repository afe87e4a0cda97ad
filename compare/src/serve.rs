//! The service of service.rs as a program on standard input and output, with one write after each read.

use std::fs::File;
use std::io::{self, Read, Write};
use std::os::fd::AsFd;

use crate::case::Case;
use crate::counts::TrueCounts;
use crate::service::{self, Operations};

/// The weigher's own operations.
pub const WEIGHER: Operations = Operations {
    score: |x| ffi::weigher_score(x),
    fused: |a, b, c| ffi::weigher_fused(a, b, c),
    fused_in: |direction, a, b, c| Case::FusedIn(direction, a, b, c).weigher(),
};

/// Bytes of one read.
const READ: usize = 65_536;

pub fn serve(operations: &Operations) -> io::Result<()> {
    let mut input = File::from(io::stdin().as_fd().try_clone_to_owned()?);
    let mut output = File::from(io::stdout().as_fd().try_clone_to_owned()?);
    let mut piece = vec![0; READ];
    let mut unfinished = Vec::new();
    let mut counts = TrueCounts::default();
    let mut answers = Vec::new();
    loop {
        let count = input.read(&mut piece)?;
        if count == 0 {
            service::answer_end(&unfinished, &mut answers);
            return output.write_all(&answers);
        }
        unfinished.extend_from_slice(&piece[..count]);
        let left = service::answer_frames(&unfinished, operations, &mut counts, &mut answers).len();
        unfinished.drain(..unfinished.len() - left);
        output.write_all(&answers)?;
        answers.clear();
    }
}
