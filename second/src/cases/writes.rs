//! Random tables to be written, in the four forms (02, T-02).

use super::{large_cases, tables};
use crate::frame::{Frame, MISSING};
use crate::random::Random;
use crate::stream::WriteCase;
use crate::text::{head, write_body, TextForm, LONGEST_LINE};

/// Numbers that are no form's: the next ones, and those that would be a form's if cut to fewer bits or taken as signed.
const NO_FORMS: &[u32] = &[4, 5, 6, 7, 8, 255, 256, 257, 65_536, 65_539, 1 << 30, 1 << 31, (1 << 31) + 2, u32::MAX];

/// One writer's case.
pub fn write_case(random: &mut Random, index: usize, writes: usize) -> WriteCase {
    let large = index + large_cases(writes) >= writes;
    let points = if large { random.pick(&[65_536, 65_535, 10_000, 40_000]) } else { tables::points_to_write(random) };
    let mut frame = match random.below(12) {
        0..=2 => tables::tight_frame(random, points),
        3 => Frame { first: 0, last: 1000 * (points as i64 - 1), points: points as u64 },
        _ => tables::frame(random, points),
    };
    let form = if random.once_in(200) { random.pick(NO_FORMS) } else { random.below(4) as u32 };
    let mut ordinates = ordinates(random, form, &frame, large);
    match random.below(30) {
        0 => frame = tables::odd_frame(random),
        1 => drop(ordinates.pop()),
        2 => ordinates.truncate(random.below(points)),
        3..=6 => ordinates.extend(tables::ordinates(random, 3)),
        _ => {}
    }
    let room = text_room(random, form, &frame, &ordinates);
    WriteCase { form, frame, ordinates, room }
}

/// As many ordinates as the frame has points; in forms with each value in full, often such that fill lines.
fn ordinates(random: &mut Random, form: u32, frame: &Frame, large: bool) -> Vec<i32> {
    let points = frame.points as usize;
    if large && random.once_in(2) {
        return tables::long_runs(random, points);
    }
    match TextForm::numbered(form).and_then(TextForm::spell) {
        Some(spell) if random.once_in(3) => full_lines(random, frame, |y| spell(y).len()),
        _ => tables::ordinates(random, points),
    }
}

/// Ordinates in lines of exactly 80 bytes, or of fewer where the next value would make 81; `width` is that of a value.
fn full_lines(random: &mut Random, frame: &Frame, width: impl Fn(i32) -> usize) -> Vec<i32> {
    let most = random.pick(&[1, 2, 3, 10, 10]);
    let mut list = Vec::new();
    let mut line = head(frame, 0).len();
    while list.len() < frame.points as usize {
        let left = LONGEST_LINE - line;
        let last = left + random.below(2);
        let fills = |y: &i32| left > 24 || width(*y) == last;
        let drawn = (0..40).map(|_| of_digits(random, most)).find(fills);
        let next = drawn.unwrap_or_else(|| of_digits(random, most));
        if width(next) > left {
            line = head(frame, list.len()).len();
        }
        line += width(next);
        list.push(next);
    }
    list
}

/// An ordinate of some number of digits up to so many, of either sign, or missing.
fn of_digits(random: &mut Random, most: i64) -> i32 {
    if random.once_in(12) {
        return MISSING;
    }
    let digits = random.between(1, most) as u32;
    let (low, high) = (10_i64.pow(digits - 1), (10_i64.pow(digits) - 1).min(i64::from(i32::MAX)));
    let size = random.between(if digits == 1 { 0 } else { low }, high) as i32;
    random.pick(&[size, size, -size])
}

/// Bytes lent to the writer: exact, one too few, none, few, or more. A form that is none gets room as DIFDUP does.
fn text_room(random: &mut Random, form: u32, frame: &Frame, ordinates: &[i32]) -> u32 {
    let form = TextForm::numbered(form).unwrap_or(TextForm::Difdup);
    let text = write_body(form, frame, ordinates, usize::MAX);
    let length = text.map_or(0, |text| text.len()) as u32;
    match random.below(10) {
        0 => length.saturating_sub(1),
        1 => random.pick(&[0, 1, length / 2]),
        2..=4 => length + 1 + random.below(40) as u32,
        5 => length + 1_000,
        _ => length,
    }
}
