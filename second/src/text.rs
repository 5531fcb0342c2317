//! Writing a table body: the four forms, heads, and the writer's refusals (01, The written text; 02, T-02).

use crate::frame::{nearest, refusal, Frame, Refusal};
use crate::{difdup, plain};

/// Most bytes of a line before its line end.
pub const LONGEST_LINE: usize = 80;

/// What ends a written line: CR LF.
pub const LINE_END: &[u8] = b"\r\n";

/// The forms in which a table is written.
#[derive(Clone, Copy, Debug, PartialEq, Eq)]
pub enum TextForm {
    Difdup,
    Affn,
    Pac,
    Sqz,
}

/// The forms in the order of their numbers (include/lastarunc.h).
pub const FORMS: [TextForm; 4] = [TextForm::Difdup, TextForm::Affn, TextForm::Pac, TextForm::Sqz];

impl TextForm {
    /// The form with this number, if one has it.
    pub fn numbered(number: u32) -> Option<TextForm> {
        FORMS.get(number as usize).copied()
    }

    /// The form with this name, in small letters.
    pub fn named(name: &str) -> Option<TextForm> {
        FORMS.into_iter().find(|form| form.name() == name)
    }

    /// Its name.
    pub fn name(self) -> &'static str {
        ["difdup", "affn", "pac", "sqz"][self as usize]
    }

    /// How each ordinate is spelled; none in DIFDUP form, where that rests on those before it.
    pub fn spell(self) -> Option<plain::Spell> {
        match self {
            TextForm::Difdup => None,
            TextForm::Affn => Some(plain::affn),
            TextForm::Pac => Some(plain::pac),
            TextForm::Sqz => Some(plain::sqz),
        }
    }
}

/// A number with its first digit replaced by a pseudo-digit from the row for its sign.
pub fn pseudo(number: i64, rows: [&[u8; 10]; 2]) -> Vec<u8> {
    let mut digits = number.unsigned_abs().to_string().into_bytes();
    let row = if number < 0 { rows[1] } else { rows[0] };
    digits[0] = row[usize::from(digits[0] - b'0')];
    digits
}

/// An ordinate in SQZ form.
pub fn squeezed(ordinate: i32) -> Vec<u8> {
    pseudo(i64::from(ordinate), [b"@ABCDEFGHI", b"_abcdefghi"])
}

/// The head for a point: the exact abscissa rounded to the nearest thousandth.
pub fn head(frame: &Frame, index: usize) -> Vec<u8> {
    let first = i128::from(frame.first);
    if frame.points == 1 {
        return thousandths(first);
    }
    thousandths(nearest(first * frame.steps() + index as i128 * frame.span(), frame.steps()))
}

/// A number of thousandths in its shortest decimal spelling.
fn thousandths(number: i128) -> Vec<u8> {
    let sign = if number < 0 { "-" } else { "" };
    let (whole, part) = (number.abs() / 1000, number.abs() % 1000);
    let long = format!("{sign}{whole}.{part:03}");
    long.trim_end_matches('0').trim_end_matches('.').as_bytes().to_vec()
}

/// Writes a table in a form, or refuses with 1, 2, 15 in this order (02, T-03); `room` is the number of lent bytes.
pub fn write_body(form: TextForm, frame: &Frame, ordinates: &[i32], room: usize) -> Result<Vec<u8>, Refusal> {
    let points = frame.points;
    if !frame.in_limits() {
        return Err(refusal(1, 0));
    }
    if (ordinates.len() as u64) < points {
        return Err(refusal(2, 0));
    }
    let given = &ordinates[..points as usize];
    let text = match form.spell() {
        None => difdup::text(frame, given),
        Some(spell) => plain::text(frame, given, spell),
    };
    if text.len() > room {
        return Err(refusal(15, 0));
    }
    Ok(text)
}
