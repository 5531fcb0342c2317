//! The text of a table in AFFN, PAC or SQZ form: each value in full, no DUP and no check lines (02, T-02).

use crate::frame::{Frame, MISSING};
use crate::text::{head, squeezed, LINE_END, LONGEST_LINE};

/// How an ordinate is spelled on a line, with what separates it from what stands before it.
pub type Spell = fn(i32) -> Vec<u8>;

/// An ordinate in decimal, a missing one as `?`.
fn decimal(ordinate: i32) -> String {
    if ordinate == MISSING {
        "?".into()
    } else {
        ordinate.to_string()
    }
}

/// AFFN: one space before every value.
pub fn affn(ordinate: i32) -> Vec<u8> {
    format!(" {}", decimal(ordinate)).into_bytes()
}

/// PAC: a space before a value that is not negative, nothing before a minus or `?`.
pub fn pac(ordinate: i32) -> Vec<u8> {
    let word = decimal(ordinate);
    let parted = word.starts_with('-') || word == "?";
    if parted { word } else { format!(" {word}") }.into_bytes()
}

/// SQZ: no separators.
pub fn sqz(ordinate: i32) -> Vec<u8> {
    if ordinate == MISSING {
        b"?".to_vec()
    } else {
        squeezed(ordinate)
    }
}

/// The text of a table whose frame was judged already: on each line as many values as fit.
pub fn text(frame: &Frame, ordinates: &[i32], spell: Spell) -> Vec<u8> {
    let mut text = Vec::new();
    let mut line = Vec::new();
    for (index, y) in ordinates.iter().enumerate() {
        let value = spell(*y);
        if line.len() + value.len() > LONGEST_LINE {
            text.extend(line.drain(..));
            text.extend(LINE_END);
        }
        if line.is_empty() {
            line = head(frame, index);
        }
        line.extend(value);
    }
    text.extend(line);
    text.extend(LINE_END);
    text
}
