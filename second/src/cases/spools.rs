//! Random spools for the night's report (02, T-11).

use super::{compound, files, tables};
use crate::frame::{LARGEST_ORDINATE, MISSING};
use crate::night::{LENGTH_BYTES, MARK, MOST_FILES};
use crate::random::Random;
use crate::stream::SpoolCase;

/// A file's record: the mark, the length, the file.
pub fn record(file: &[u8]) -> Vec<u8> {
    let length = (file.len() as u32).to_be_bytes();
    [&MARK[..], &length[4 - LENGTH_BYTES..], file].concat()
}

/// A file of a zero and one ordinate so often that there are so many points.
pub fn steady(points: usize, ordinate: i32) -> Vec<u8> {
    let last = usize::from(points > 1);
    let body = match points {
        1 => "0".into(),
        2 => format!("0 {ordinate}"),
        _ => format!("0 {ordinate}{}", duplicated(points - 1)),
    };
    format!(
        "##TITLE=\n##XFACTOR=1\n##YFACTOR=1\n##FIRSTX=0\n##LASTX={last}\n##NPOINTS={points}\n##FIRSTY=0\n\
         ##XYDATA=(X++(Y..Y))\n0 {body}\n##END=\n"
    )
    .into_bytes()
}

/// A DUP for so many times.
fn duplicated(times: usize) -> String {
    let digits = times.to_string();
    let letter = b"STUVWXYZs"[usize::from(digits.as_bytes()[0] - b'1')] as char;
    format!("{letter}{}", &digits[1..])
}

/// One spool case: a few files; or, near the end, as many as a spool may have, and sums near the limits.
pub fn spool_case(random: &mut Random, index: usize, cases: usize) -> SpoolCase {
    let from_end = cases - 1 - index;
    if from_end < 8 && cases > 100 {
        return full_case(random, from_end);
    }
    let count = random.pick(&[0, 1, 1, 2, 3, 4, 6]);
    let mut spool: Vec<u8> = (0..count).flat_map(|_| record(&random_file(random))).collect();
    slip(random, &mut spool);
    SpoolCase { spool, room: random.pick(&[4, 16, 64, 64, 1_000]) }
}

/// A file of a spool: right, with faults, a compound one, a few bytes, none, or one with the largest ordinates.
fn random_file(random: &mut Random) -> Vec<u8> {
    let points = 1 + random.below(12);
    match random.below(12) {
        0..=4 => files::file(random, points, false).0,
        5 | 6 => files::file_case(random, 0, usize::MAX).file,
        7 => compound::compound_case(random, 0, usize::MAX).file,
        8 => random.pick(&[&b""[..], b"##END=", b"JD", b"\x4a\x44\0\0\0"]).to_vec(),
        9 => steady(points, random.pick(&[LARGEST_ORDINATE, -LARGEST_ORDINATE, 0, 1, -1]) as i32),
        _ => {
            let ordinate = tables::ordinates(random, 1)[0];
            steady(1 + random.below(3), if ordinate == MISSING { 0 } else { ordinate })
        }
    }
}

/// Puts something wrong into one spool of three: a mark, a length, an end.
fn slip(random: &mut Random, spool: &mut Vec<u8>) {
    match random.below(21) {
        0 => spool.truncate(random.below(spool.len() + 1)),
        1 => spool.extend(random.pick(&[&b"\x4a"[..], b"\x4a\x44", b"\x4a\x44\0\0", b"JD\0\0\x01", b"\n", b"DJ\0\0\0"])),
        2 => spool.extend(random.pick(&[&b"JD\0\x01\0"[..], b"JD\xff\xff\xff##TITLE", b"jd\0\0\0", b"JD\0\0\0"])),
        3 if !spool.is_empty() => spool[1] = random.byte(),
        4 if !spool.is_empty() => spool[0] = random.byte(),
        5 if !spool.is_empty() => spool[2 + random.below(LENGTH_BYTES)] = random.byte(),
        6 if !spool.is_empty() => {
            let at = random.below(spool.len());
            spool[at] = random.byte();
        }
        _ => {}
    }
}

/// As many files as a spool may have, or one more; sums as large as they get; a file with a length of three bytes.
fn full_case(random: &mut Random, which: usize) -> SpoolCase {
    let most = LARGEST_ORDINATE as i32;
    let repeated = |file: &[u8], times: usize| record(file).repeat(times);
    let (spool, room) = match which {
        0 => (repeated(&steady(65_536, most), MOST_FILES), 65_536),
        1 => (repeated(&steady(65_536, -most), 40), 65_536),
        2 => (repeated(&steady(2, 1), MOST_FILES), 4),
        3 => (repeated(&steady(2, -1), MOST_FILES + 1), 4),
        4 => ([repeated(b"", MOST_FILES), vec![random.byte()]].concat(), 4),
        5 => ([repeated(b"", MOST_FILES - 1), b"JD\0\0".to_vec()].concat(), 4),
        6 => ([steady(9, most), vec![b'x'; 70_000]].map(|file| record(&file)).concat(), 16),
        _ => ([vec![b'#'; 1_048_577], steady(2, 7)].map(|file| record(&file)).concat(), 16),
    };
    SpoolCase { spool, room }
}
