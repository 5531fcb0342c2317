//! The text of a table in DIFDUP form: groups of tokens, and check lines (01, The written text).

use crate::frame::{Frame, MISSING};
use crate::text::{head, pseudo, squeezed, LINE_END, LONGEST_LINE};

/// The form of the last token of a line.
#[derive(Clone, Copy, PartialEq, Eq)]
enum Form {
    Squeezed,
    Missing,
    Difference,
}

/// A group: its bytes, the points it stands for, its form.
struct Group {
    bytes: Vec<u8>,
    points: usize,
    form: Form,
}

/// A difference in DIF form.
fn difference(step: i64) -> Vec<u8> {
    pseudo(step, [b"%JKLMNOPQR", b"_jklmnopqr"])
}

/// A DUP for this count, or nothing for a token that stands once.
fn duplicate(count: usize) -> Vec<u8> {
    if count < 2 {
        return Vec::new();
    }
    pseudo(count as i64, [b"_STUVWXYZs", b"__________"])
}

/// The difference from the point before this one to this one; none if either is missing.
fn step_to(ordinates: &[i32], index: usize) -> Option<i64> {
    let (before, here) = (ordinates[index - 1], ordinates[index]);
    (before != MISSING && here != MISSING).then(|| i64::from(here) - i64::from(before))
}

/// The group that starts at a point, if the last form on its line is `last` (none at the line's start).
fn group(ordinates: &[i32], next: usize, last: Option<Form>) -> Group {
    if ordinates[next] == MISSING {
        let points = ordinates[next..].iter().take_while(|y| **y == MISSING).count();
        return Group { bytes: [b"?".to_vec(), duplicate(points)].concat(), points, form: Form::Missing };
    }
    if last.is_none() || last == Some(Form::Missing) {
        return Group { bytes: squeezed(ordinates[next]), points: 1, form: Form::Squeezed };
    }
    let step = step_to(ordinates, next);
    let points = (next..ordinates.len()).take_while(|k| step_to(ordinates, *k) == step).count();
    let token = difference(step.expect("neither point is missing"));
    Group { bytes: [token, duplicate(points)].concat(), points, form: Form::Difference }
}

/// A line: its bytes, the next point after it, the form it ended in.
struct Line {
    bytes: Vec<u8>,
    next: usize,
    form: Option<Form>,
}

/// The line that starts at the next point, or the check line for the point before it, filled with groups.
fn line(frame: &Frame, ordinates: &[i32], next: usize, check: bool) -> Line {
    let mut line = if check {
        let bytes = [head(frame, next - 1), squeezed(ordinates[next - 1])].concat();
        Line { bytes, next, form: Some(Form::Squeezed) }
    } else {
        Line { bytes: head(frame, next), next, form: None }
    };
    while line.next < ordinates.len() {
        let group = group(ordinates, line.next, line.form);
        if line.bytes.len() + group.bytes.len() > LONGEST_LINE {
            break;
        }
        line.bytes.extend(group.bytes);
        line.next += group.points;
        line.form = Some(group.form);
    }
    line
}

/// The text of a table whose frame was judged already.
pub fn text(frame: &Frame, ordinates: &[i32]) -> Vec<u8> {
    let mut text = Vec::new();
    let mut next = 0;
    let mut check = false;
    while next < ordinates.len() || check {
        let line = line(frame, ordinates, next, check);
        text.extend(line.bytes);
        text.extend(LINE_END);
        next = line.next;
        check = line.form == Some(Form::Difference);
    }
    text
}
