//! Bodies and files from before T-13, with tabs in them, to be converted (02, T-13).

use super::{damage, files, room, spell, tables};
use crate::random::Random;
use crate::stream::{BodyCase, FileCase};

/// A body with tabs, often damaged.
pub fn old_body_case(random: &mut Random) -> BodyCase {
    let points = tables::points(random);
    let frame = tables::frame(random, points);
    let ordinates = tables::ordinates(random, points);
    let style = spell::Style { tabs: 2, ..spell::style(random) };
    let mut body = spell::body(random, &style, &frame, &ordinates);
    match random.below(4) {
        0 => damage::damage(random, &mut body),
        1 => tabbed(random, &mut body),
        2 if random.once_in(4) => body = damage::soup(random),
        _ => {}
    }
    BodyCase { frame, body, room: room(random, frame.points) }
}

/// A file with tabs in its header and in its body.
pub fn old_file_case(random: &mut Random) -> FileCase {
    let mut case = files::file_case(random, 0, usize::MAX);
    for byte in case.file.iter_mut().filter(|byte| **byte == b' ') {
        *byte = random.pick(b" \t");
    }
    if random.once_in(3) {
        tabbed(random, &mut case.file);
    }
    case
}

/// Puts a few tabs anywhere.
fn tabbed(random: &mut Random, bytes: &mut Vec<u8>) {
    for _ in 0..1 + random.below(3) {
        bytes.insert(random.below(bytes.len() + 1), b'\t');
    }
}
