//! What a file to be written tries, so that it can be counted how often the cases have it (02, T-04).

use crate::file_text::{Given, LARGEST_EXPONENT, LONGEST_TITLE};
use crate::frame::{Frame, MISSING};
use crate::stream::WrittenFileCase;

/// What is counted, in the order of `tried`.
pub const TRIED: [&str; 15] = [
    "written, room for exactly the file",
    "written, more room",
    "refused 15, one byte too few",
    "written, a title of 72 bytes",
    "written, a title with `##` or `=`",
    "written, a title with `$`",
    "refused 37, a title wrong by its 73 bytes alone",
    "refused 37, a title wrong by `$$` alone",
    "refused 37, a title wrong by bytes alone, one of them 31 or 127",
    "written, an exponent of 99 or -99",
    "written, a mantissa of nine digits",
    "written, F at half a thousandth",
    "written, FIRSTY at half an ordinate",
    "written, the first ordinate missing",
    "written, closer than a thousandth",
];

/// What is wrong with a title: its length, a byte, `$$`.
fn title_faults(title: &[u8]) -> [bool; 3] {
    let byte = title.iter().any(|byte| !(32..=126).contains(byte));
    [title.len() > LONGEST_TITLE, byte, title.windows(2).any(|pair| pair == b"$$")]
}

/// Whether a quotient is at half a unit exactly: twice it is an odd whole number.
fn at_half(above: Given, below: Given) -> bool {
    let shift = above.exponent - below.exponent;
    if shift.abs() > 20 {
        return false;
    }
    let power = 10i128.pow(shift.unsigned_abs() as u32);
    let (up, down) = if shift < 0 { (1, power) } else { (power, 1) };
    let (up, down) = (2 * i128::from(above.mantissa) * up, i128::from(below.mantissa) * down);
    up % down == 0 && up / down % 2 != 0
}

/// A decimal times a thousand.
fn thousandths(given: Given) -> Given {
    Given { exponent: given.exponent + 3, ..given }
}

/// Which of the things that are counted hold for a case.
pub fn tried(case: &WrittenFileCase) -> [bool; TRIED.len()] {
    let (title, room) = (&case.title, case.room as usize);
    let answer = case.answer();
    let length = case.answer_in(usize::MAX).map_or(0, |written| written.text.len());
    let written = |holds: bool| answer.is_ok() && holds;
    let faults = title_faults(title);
    let scales = case.scales.list();
    let first = case.ordinates.first();
    let close = |frame: Frame| frame.span().abs() < frame.steps();
    [
        written(room == length),
        written(room > length),
        length > 0 && room + 1 == length,
        written(title.len() == LONGEST_TITLE),
        written(title.contains(&b'=') || title.windows(2).any(|pair| pair == b"##")),
        written(title.contains(&b'$')),
        faults == [true, false, false] && title.len() == LONGEST_TITLE + 1,
        faults == [false, false, true],
        faults == [false, true, false] && title.iter().any(|byte| [31, 127].contains(byte)),
        written(scales.iter().any(|given| given.exponent.unsigned_abs() == LARGEST_EXPONENT as u64)),
        written(scales.iter().any(|given| given.mantissa.unsigned_abs() >= 100_000_000)),
        answer.is_ok() && at_half(thousandths(case.scales.first_x), case.scales.x_factor),
        written(first != Some(&MISSING)) && at_half(case.scales.first_y, case.scales.y_factor),
        written(first == Some(&MISSING)),
        answer.as_ref().is_ok_and(|written| close(written.frame)),
    ]
}
