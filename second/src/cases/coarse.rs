//! Tables whose heads are rounded to few places, for spacings below, near and above the unit (02, T-03).

use super::spell::{self, Style};
use super::tables;
use crate::frame::{Frame, Head, LARGEST_ABSCISSA, UNITS};
use crate::random::Random;
use crate::stream::BodyCase;

/// A table with heads rounded to some number of places; in every third the farther neighbour is taken now and then, and
/// in every tenth a line follows the last point.
pub fn body_case(random: &mut Random) -> BodyCase {
    let points = tables::points(random).min(300);
    let places = random.below(4);
    let frame = frame(random, points, UNITS[places] as i64);
    let style = Style {
        places: Some(places),
        half_heads: random.pick(&[4, spell::NEVER, spell::NEVER]),
        new_line: random.pick(&[2, 3, 10]),
        slips: spell::NEVER,
        ..spell::style(random)
    };
    let ordinates = tables::ordinates(random, points);
    let mut body = spell::body(random, &style, &frame, &ordinates);
    if random.once_in(10) {
        body.push(b'\n');
        body.extend(spell::head(random, &style, &frame, points));
        body.extend(random.pick(&[&b"A"[..], b"A", b""]));
    }
    BodyCase { frame, body, room: frame.points as u32 }
}

/// A frame for heads of this unit: its abscissas are often at half a unit, or so little beside it that the span's
/// thousandths decide.
pub fn frame(random: &mut Random, points: usize, unit: i64) -> Frame {
    let steps = points as i64 - 1;
    let halves = random.between(-40, 40) * unit / 2;
    let first = match random.below(4) {
        0 | 1 => halves,
        2 => halves + random.between(-1, 1),
        _ => random.between(-4_000_000, 4_000_000),
    };
    let span = match random.below(6) {
        0 => steps * unit * random.between(1, 3) / 2,
        1 => steps * unit * random.between(1, 3) / 2 + random.between(-1, 1),
        2 => steps * unit / random.between(2, 12) + random.between(-1, 1),
        3 => steps * unit + random.between(-2, 2),
        4 => steps * unit * random.between(2, 9) / 2 + random.between(-steps, steps),
        _ => random.between(1, steps.max(1) * unit),
    };
    let span = if points == 1 { 0 } else { span.max(1) };
    let last = if random.once_in(3) { first - span } else { first + span };
    Frame { first, last, points: points as u64 }
}

/// The head for an index rounded to this unit, at a half either way; seldom the farther neighbour, or for N = 1 a
/// rounded F, which fails unless another rule lets it pass. None if it is right only in full or too long.
pub fn head(random: &mut Random, style: &Style, frame: &Frame, index: usize, unit: i128) -> Option<i128> {
    let farther = random.once_in(style.half_heads);
    if frame.points == 1 && !farther {
        return None;
    }
    let steps = frame.steps().max(1);
    let abscissa = i128::from(frame.first) * steps + index as i128 * frame.span();
    let below = abscissa.div_euclid(unit * steps) * unit;
    let off = |thousandths| frame.off(Head { thousandths, unit }, index as u64);
    let (low, high) = (off(below), off(below + unit));
    let upper = if low == high { random.once_in(2) } else { (low > high) != farther };
    let head = if upper { below + unit } else { below };
    (head.abs() <= LARGEST_ABSCISSA).then_some(head)
}
