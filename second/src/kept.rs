//! What stands before the place of a refusal, completed to a table: all of it can stay, but in two cases.

use crate::body::{standing, Begun, Standing};
use crate::frame::{Frame, Refusal, LONGEST_LINE, MISSING};
use crate::text::{head, squeezed};

/// What of a refused body can stay.
#[derive(Clone, Copy, Debug, PartialEq, Eq)]
pub enum Stays {
    /// All before the place.
    All,
    /// All before the place's line: N points are given and no check is due, but the line has a head.
    BeforeFull,
    /// The same: a check is due, and the head leaves fewer bytes of the line than the last ordinate needs.
    BeforeNarrow,
}

/// A table that begins with what stays of a refused body.
#[derive(Debug)]
pub struct Completed {
    pub stays: Stays,
    /// How many bytes of the body stay.
    pub kept: usize,
    pub text: Vec<u8>,
    pub ordinates: Vec<i32>,
}

/// What can stay, where a text is cut off that is refused there.
fn stays(frame: &Frame, cut: &Standing) -> Stays {
    let full = cut.given.len() as u64 == frame.points;
    match cut.begun {
        Begun::Head if cut.check_due && cut.line_length + last(cut).len() > LONGEST_LINE => Stays::BeforeNarrow,
        Begun::Head if !cut.check_due && full => Stays::BeforeFull,
        _ => Stays::All,
    }
}

/// The last ordinate as it is checked.
fn last(cut: &Standing) -> Vec<u8> {
    squeezed(*cut.given.last().expect("a check is due after a point"))
}

/// The text that is cut off, its line closed, and lines for the check that is due then and for the points that are left.
fn completion(frame: &Frame, cut: Standing, text: &mut Vec<u8>) -> Vec<i32> {
    let checked = last;
    let mut check_due = cut.check_due;
    match cut.begun {
        Begun::Nothing => {}
        Begun::Values { in_difference } => check_due = in_difference,
        Begun::Head if check_due => {
            text.extend(checked(&cut));
            check_due = false;
        }
        Begun::Head => text.push(b'?'),
    }
    if !matches!(text.last(), None | Some(b'\n')) {
        text.push(b'\n');
    }
    if check_due {
        text.extend([head(frame, cut.given.len() - 1), checked(&cut), b"\n".to_vec()].concat());
    }
    let mut given = cut.given;
    if cut.begun == Begun::Head && !cut.check_due {
        given.push(MISSING);
    }
    for index in given.len()..frame.points as usize {
        text.extend([head(frame, index), b"?\n".to_vec()].concat());
        given.push(MISSING);
    }
    given
}

/// Completes a body that is refused so in a frame that keeps its limits. Fails if there is a fault before the place.
pub fn completed(frame: &Frame, body: &[u8], fault: Refusal) -> Result<Completed, Refusal> {
    let cut = standing(frame, &body[..fault.place as usize])?;
    let stays = stays(frame, &cut);
    let kept = if stays == Stays::All { fault.place as usize } else { cut.line_start };
    let mut text = body[..kept].to_vec();
    let ordinates = completion(frame, standing(frame, &text)?, &mut text);
    Ok(Completed { stays, kept, text, ordinates })
}
