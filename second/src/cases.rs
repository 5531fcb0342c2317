//! The seeded generator of cases: bodies, tables to be written, files and records, files to be written.

pub mod coarse;
pub mod compound;
pub mod damage;
pub mod files;
pub mod kept;
pub mod old;
pub mod profile;
pub mod spell;
pub mod spools;
pub mod tables;
pub mod writes;
pub mod written_files;

use crate::body::read_body;
use crate::frame::{Frame, LONGEST, LONGEST_LINE};
use crate::random::Random;
use crate::stream::{
    put_block_record_case, put_body_case, put_compound_case, put_damage_case, put_file_case, put_kept_case,
    put_old_body_case, put_old_file_case, put_profile_case, put_record_case, put_spool_case, put_write_case,
    put_written_file_case, BodyCase,
};
use crate::text::{write_body, TextForm, FORMS};
use std::io::{self, Write};

/// Writes as many cases of each kind as are asked for: bodies, tables to be written, files, files to be written,
/// compound files, files with a page, spools, bodies to be damaged, old bodies and old files, refused bodies to be
/// completed. A file case is often followed by a record case, that of a compound file by one of a block's record.
pub fn write_cases(out: &mut impl Write, seed: u64, counts: [usize; 10]) -> io::Result<()> {
    let [bodies, writes, files, written, compound, profiles, spools, damaged, old, kept] = counts;
    let random = &mut Random::new(seed);
    for index in 0..bodies {
        put_body_case(out, &body_case(random, index, bodies))?;
    }
    for index in 0..writes {
        put_write_case(out, &writes::write_case(random, index, writes))?;
    }
    for index in 0..files {
        let case = files::file_case(random, index, files);
        put_file_case(out, &case)?;
        if case.file.len() < 100_000 && random.once_in(2) {
            put_record_case(out, &files::record_case(random, case.file))?;
        }
    }
    for index in 0..written {
        put_written_file_case(out, &written_files::written_file_case(random, index, written))?;
    }
    for index in 0..compound {
        let case = compound::compound_case(random, index, compound);
        put_compound_case(out, &case)?;
        if random.once_in(2) {
            put_block_record_case(out, &compound::block_record_case(random, case))?;
        }
    }
    for index in 0..profiles {
        put_profile_case(out, &profile::profile_case(random, index, profiles))?;
    }
    for index in 0..spools {
        put_spool_case(out, &spools::spool_case(random, index, spools))?;
    }
    for index in 0..damaged {
        put_damage_case(out, &accepted_body(random, index))?;
    }
    for _ in 0..old {
        put_old_body_case(out, &old::old_body_case(random))?;
        put_old_file_case(out, &old::old_file_case(random))?;
    }
    for _ in 0..kept {
        put_kept_case(out, &kept::refused_body(random))?;
    }
    Ok(())
}

/// How many of so many cases are large ones: a few, at the end.
pub fn large_cases(cases: usize) -> usize {
    (cases / 500).min(12)
}

/// One body case.
pub fn body_case(random: &mut Random, index: usize, bodies: usize) -> BodyCase {
    if index + large_cases(bodies) >= bodies {
        return large_body_case(random, index % 12);
    }
    if random.once_in(4_000) {
        return long_run_case(random);
    }
    match random.below(24) {
        0..=6 => right_body_case(random),
        7..=13 => damaged_body_case(random),
        14..=18 => soup_case(random),
        19 => odd_frame_case(random),
        _ => coarse::body_case(random),
    }
}

/// Room for so many points: mostly enough.
fn room(random: &mut Random, points: u64) -> u32 {
    let points = points.min(70_000) as u32;
    match random.below(60) {
        0 => points.saturating_sub(1),
        1 => random.below(points as usize + 1) as u32,
        2 => 0,
        3..=6 => points + 1 + random.below(9) as u32,
        _ => points,
    }
}

/// A right spelling of a random table, and the table.
pub fn right_body(random: &mut Random, points: usize) -> (Frame, Vec<i32>, Vec<u8>) {
    let frame = tables::frame(random, points);
    let ordinates = tables::ordinates(random, points);
    let style = spell::style(random);
    let body = spell::body(random, &style, &frame, &ordinates);
    (frame, ordinates, body)
}

/// An accepted body of at most 40 points: in turn as the writer spells it in the four forms, and spelled at random.
pub fn accepted_body(random: &mut Random, index: usize) -> BodyCase {
    let points = 1 + random.below(40);
    let (frame, ordinates, spelled) = right_body(random, points);
    let body = match FORMS.get(index % (FORMS.len() + 1)) {
        Some(form) => write_body(*form, &frame, &ordinates, usize::MAX).expect("the frame keeps its limits"),
        None => spelled,
    };
    if read_body(frame.first, frame.last, frame.points, &body, points).is_err() {
        return accepted_body(random, index);
    }
    BodyCase { frame, body, room: points as u32 }
}

/// A right spelling, now and then with one point too many or too few in the frame.
fn right_body_case(random: &mut Random) -> BodyCase {
    let points = tables::points(random);
    let (mut frame, _, body) = right_body(random, points);
    if random.once_in(12) {
        frame.points = (frame.points as i64 + random.between(-1, 1)) as u64;
    }
    BodyCase { frame, body, room: room(random, frame.points) }
}

/// A right spelling of a long table with very long runs, and so with DUPs of five digits.
fn long_run_case(random: &mut Random) -> BodyCase {
    let points = 10_000 + random.below(55_537);
    let frame = tables::frame(random, points);
    let ordinates = tables::long_runs(random, points);
    let style = spell::Style { duplicates: 1, new_line: 1_000, ..spell::style(random) };
    let body = spell::body(random, &style, &frame, &ordinates);
    BodyCase { frame, body, room: frame.points as u32 }
}

/// A damaged spelling, or the damaged text of the writer.
fn damaged_body_case(random: &mut Random) -> BodyCase {
    let points = tables::points(random);
    let (frame, ordinates, spelled) = right_body(random, points);
    let written = write_body(TextForm::Difdup, &frame, &ordinates, usize::MAX);
    let mut body = if random.once_in(5) { written.unwrap_or(spelled) } else { spelled };
    damage::damage(random, &mut body);
    BodyCase { frame, body, room: room(random, frame.points) }
}

/// A soup of tokens in a small frame.
fn soup_case(random: &mut Random) -> BodyCase {
    let points = 1 + random.below(7) as u64;
    let last = if points == 1 { 0 } else { 1000 * (points as i64 - 1) };
    let body = damage::soup(random);
    BodyCase { frame: Frame { first: 0, last, points }, body, room: room(random, points) }
}

/// A frame that is often outside its limits, with a small body.
fn odd_frame_case(random: &mut Random) -> BodyCase {
    let frame = tables::odd_frame(random);
    let body = damage::soup(random);
    BodyCase { frame, body, room: room(random, frame.points) }
}

/// A body of about the greatest length, or with the greatest number of points, or with one part that is very long.
fn large_body_case(random: &mut Random, kind: usize) -> BodyCase {
    let points = [65_536, 65_536, 65_536, 20_000, 300, 65_536, 4, 65_536, 65_536, 65_536, 300, 4][kind];
    let (frame, _, mut body) = right_body(random, points);
    let rows = Frame { first: 0, last: 1000 * (points as i64 - 1), points: points as u64 };
    match kind {
        0 => pad(random, &mut body, LONGEST),
        1 => pad(random, &mut body, LONGEST + 1),
        3 => damage::damage(random, &mut body),
        4 => drop(body.splice(0..0, lines_of(b"$$", b'$', LONGEST - body.len()))),
        10 => body
            .splice(0..0, [b"$$".to_vec(), vec![b'$'; LONGEST - 3 - body.len()], b"\n".to_vec()].concat())
            .for_each(drop),
        _ => {}
    }
    let (frame, body) = match kind {
        2 => extremes(),
        5 => (rows, b"0AX5536".to_vec()),
        6 => (rows, [b"0A\n".to_vec(), lines_of(b"", b'\t', LONGEST - 7), b"1BCD".to_vec()].concat()),
        7 => (rows, [b"0".to_vec(), vec![b'A'; LONGEST - 1]].concat()),
        8 | 9 => (rows, one_a_line(random, points, kind == 9)),
        11 => (rows, [b"0 ".to_vec(), vec![b'1'; LONGEST - 2]].concat()),
        _ => (frame, body),
    };
    BodyCase { frame, body, room: frame.points as u32 }
}

/// The longest text that the writer makes, about: alternating extremes between the farthest abscissas.
fn extremes() -> (Frame, Vec<u8>) {
    let frame = Frame { first: -9_999_999_999, last: 9_999_999_999, points: 65_536 };
    let list: Vec<i32> = (0..65_536).map(|k| if k % 2 == 0 { i32::MAX } else { -i32::MAX }).collect();
    let text = write_body(TextForm::Difdup, &frame, &list, usize::MAX);
    (frame, text.unwrap_or_default())
}

/// One point a line with whole heads, as long as a body may be; perhaps damaged.
fn one_a_line(random: &mut Random, points: usize, damaged: bool) -> Vec<u8> {
    let mut body: Vec<u8> = (0..points).flat_map(|k| format!("{k} {}\r\n", k % 1000).into_bytes()).collect();
    if damaged {
        let mut tail = body.split_off(body.len() - 100);
        damage::damage(random, &mut tail);
        body.extend(tail);
    }
    pad(random, &mut body, LONGEST);
    body
}

/// Lines that are passed over, so many bytes in all: each starts with a mark, goes on with a filler up to 80 bytes, and
/// ends with LF; the last may be shorter.
fn lines_of(mark: &[u8], filler: u8, length: usize) -> Vec<u8> {
    let mut lines = Vec::new();
    while length - lines.len() > mark.len() {
        let line = (length - lines.len() - 1).min(LONGEST_LINE);
        lines.extend(mark);
        lines.extend(vec![filler; line - mark.len()]);
        lines.push(b'\n');
    }
    lines.resize(length, b'\n');
    lines
}

/// Makes bytes exactly so long, or cuts them off: with empty lines, lines of blanks or comments of 80 bytes each, or one
/// line of blanks, which is longer.
pub fn pad(random: &mut Random, bytes: &mut Vec<u8>, wanted: usize) {
    bytes.truncate(wanted);
    let missing = wanted - bytes.len();
    match random.below(6) {
        0 => bytes.resize(wanted, b' '),
        1 => bytes.resize(wanted, b'\n'),
        kind if missing > 0 => {
            let mark: &[u8] = if kind % 2 == 0 { b"$$" } else { b"" };
            bytes.push(b'\n');
            bytes.extend(lines_of(mark, if kind % 2 == 0 { b'c' } else { b' ' }, missing - 1));
        }
        _ => {}
    }
}
