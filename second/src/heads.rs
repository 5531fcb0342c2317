//! What decides on the heads of a body, so that it can be counted how often a case tries 02's rule (T-03).

use crate::body::{judged_body, Blanks};
use crate::frame::{Frame, Head};

/// What is counted, in the order of `tried`.
pub const TRIED: [&str; 5] = [
    "accepted, a head by its unit alone",
    "accepted, a head at half a unit, by its unit alone",
    "refused 6, at most a thousandth beyond half a unit",
    "refused 6, N = 1, within half a unit of F",
    "a head after the last point, by its unit alone",
];

/// Whether a head passes for an index by its unit alone.
fn by_unit(frame: &Frame, head: Head, i: u64) -> bool {
    frame.points > 1 && frame.within_unit(head, i) && !frame.within_spacing(head, i)
}

/// Whether a head is at half a unit exactly.
fn at_half(frame: &Frame, head: Head, i: u64) -> bool {
    2 * frame.off(head, i) == head.unit * frame.steps()
}

/// Whether a head is beyond half a unit by at most a thousandth.
fn little_beyond(frame: &Frame, head: Head, i: u64) -> bool {
    let beyond = 2 * frame.off(head, i) - head.unit * frame.steps();
    0 < beyond && beyond <= 2 * frame.steps()
}

/// Which of the things that are counted hold for a body.
pub fn tried(frame: &Frame, body: &[u8], room: usize) -> [bool; 5] {
    let (answer, heads) = judged_body(frame, body, room, Blanks::Spaces);
    let accepted = answer.is_ok();
    let any = |holds: &dyn Fn(Head, u64) -> bool| heads.iter().any(|(head, i)| holds(*head, *i));
    let failed = heads.last().filter(|_| answer.is_err_and(|fault| fault.number == 6));
    let near = |head: &Head| 2 * (head.thousandths - i128::from(frame.first)).abs() <= head.unit;
    [
        accepted && any(&|head, i| by_unit(frame, head, i)),
        accepted && any(&|head, i| by_unit(frame, head, i) && at_half(frame, head, i)),
        frame.points > 1 && failed.is_some_and(|(head, i)| little_beyond(frame, *head, *i)),
        frame.points == 1 && failed.is_some_and(|(head, _)| near(head)),
        any(&|head, i| i == frame.points && by_unit(frame, head, i)),
    ]
}
