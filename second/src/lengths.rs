//! How long a body's lines are, so that it can be counted how often a case tries 02's rule (T-06).

use crate::body::line_lengths;
use crate::frame::{Refusal, LONGEST_LINE};

/// What is counted, in the order of `tried`.
pub const TRIED: [&str; 7] = [
    "accepted, a line of 80 bytes",
    "accepted, a line of 80 bytes and CR LF",
    "refused 16, a line of 81 bytes",
    "refused 16, a line of 81 bytes with a CR that ends nothing",
    "refused 16, on a line of blanks or a comment",
    "refused 16, at the body's last line, which no LF ends",
    "refused, and a line over 80 bytes stands later",
];

/// Which of the things that are counted hold for a body and its answer.
pub fn tried<T>(body: &[u8], answer: &Result<T, Refusal>) -> [bool; 7] {
    let lines = line_lengths(body);
    let accepted = answer.is_ok();
    let fault = answer.as_ref().err();
    let long = fault.filter(|fault| fault.number == 16);
    let first = lines.iter().find(|line| long.is_some_and(|fault| fault.place == line.start as u64));
    let full = |ended_by_both: bool| lines.iter().any(|l| l.length == LONGEST_LINE && (!ended_by_both || l.has_cr_lf));
    let by_one = first.is_some_and(|line| line.length == LONGEST_LINE + 1);
    let later = fault.is_some_and(|fault| {
        fault.number != 16 && lines.iter().any(|l| l.length > LONGEST_LINE && l.start as u64 > fault.place)
    });
    [
        accepted && full(false),
        accepted && full(true),
        by_one,
        by_one && first.is_some_and(|line| line.ends_in_cr),
        first.is_some_and(|line| line.is_passed_over),
        first.is_some_and(|line| !line.has_line_feed),
        later,
    ]
}
