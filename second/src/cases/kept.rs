//! Bodies that are refused with 3 to 13 or 16, in frames that keep their limits, to be completed.

use super::{body_case, tables};
use crate::body::{line_ends, read_body, standing, LineEnd};
use crate::frame::{Frame, LONGEST_LINE};
use crate::random::Random;
use crate::stream::BodyCase;
use crate::text::{head, write_body, TextForm};

/// Most points of such a frame: a completion may have a line for each.
const MOST_POINTS: u64 = 1_000;

/// A refused body of the generator, or now and then one with a check line that has little room.
pub fn refused_body(random: &mut Random) -> BodyCase {
    loop {
        let case = if random.once_in(8) { narrow_check(random) } else { body_case(random, 0, usize::MAX) };
        let Frame { first, last, points } = case.frame;
        let answer = read_body(first, last, points, &case.body, points as usize);
        if points <= MOST_POINTS && answer.is_err_and(|fault| fault.number >= 3) {
            return BodyCase { room: points as u32, ..case };
        }
    }
}

/// The writer's text as far as a line in DIF form; then a head among blanks that leave 1 to 12 bytes of the line, and a
/// token of one byte.
fn narrow_check(random: &mut Random) -> BodyCase {
    let points = 2 + random.below(40);
    let frame = tables::frame(random, points);
    let ordinates = tables::ordinates(random, points);
    let mut body = write_body(TextForm::Difdup, &frame, &ordinates, usize::MAX).expect("the frame keeps its limits");
    let ends = line_ends(&body);
    let in_difference: Vec<usize> = (0..ends.len()).filter(|line| ends[*line] == LineEnd::Difference).collect();
    if !in_difference.is_empty() {
        let line = in_difference[random.below(in_difference.len())];
        let length = body.split_inclusive(|byte| *byte == b'\n').take(line + 1).map(<[u8]>::len).sum();
        body.truncate(length);
        let given = standing(&frame, &body).expect("a written text has no fault").given.len();
        let head = head(&frame, given - 1);
        let blanks = LONGEST_LINE - head.len() - 1 - random.below(12);
        let before = random.below(blanks + 1);
        body.extend([vec![b' '; before], head, vec![b' '; blanks - before], vec![random.pick(b"?!@AaJS1")]].concat());
    }
    BodyCase { frame, body, room: points as u32 }
}
