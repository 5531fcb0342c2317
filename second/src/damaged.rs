//! Every single-byte damage of an accepted body: each byte exchanged for each of the 255 others (02, T-12).

use crate::body::{line_ends, read_body, LineEnd};
use crate::frame::{Frame, Refusal};

/// Answers to damaged bodies, counted.
#[derive(Clone, Copy, Debug, Default, PartialEq, Eq)]
pub struct Outcomes {
    /// Refused with 10: a check value that differs.
    pub unequal: u64,
    /// Refused with any other number.
    pub otherwise: u64,
    /// Read as the list that was there before.
    pub same: u64,
    /// Read as another list.
    pub other: u64,
}

impl Outcomes {
    /// Counts one answer.
    fn count(&mut self, answer: &Result<Vec<i32>, Refusal>, ordinates: &[i32]) {
        match answer {
            Err(fault) if fault.number == 10 => self.unequal += 1,
            Err(_) => self.otherwise += 1,
            Ok(list) if list == ordinates => self.same += 1,
            Ok(_) => self.other += 1,
        }
    }

    /// The counts of both.
    pub fn with(self, more: Outcomes) -> Outcomes {
        Outcomes {
            unequal: self.unequal + more.unequal,
            otherwise: self.otherwise + more.otherwise,
            same: self.same + more.same,
            other: self.other + more.other,
        }
    }
}

/// What became of all damaged bodies, by how the line of the byte ends (`LineEnd` as a number), and a digest of the
/// answers in the order of places and bytes.
pub struct Damaged {
    pub by_line: [Outcomes; 3],
    pub digest: u64,
}

/// FNV-1a, a number at a time.
pub fn mixed(digest: u64, number: u64) -> u64 {
    (digest ^ number).wrapping_mul(0x0100_0000_01b3)
}

/// The digest with an answer mixed in: the number and the place, or 0 and the ordinates.
fn told(digest: u64, answer: &Result<Vec<i32>, Refusal>) -> u64 {
    match answer {
        Err(fault) => mixed(mixed(digest, u64::from(fault.number)), fault.place),
        Ok(list) => list.iter().fold(mixed(digest, 0), |digest, y| mixed(digest, *y as u32 as u64)),
    }
}

/// Reads all damaged bodies of one that is accepted with these ordinates.
pub fn damaged(frame: &Frame, body: &[u8], ordinates: &[i32]) -> Damaged {
    let ends: Vec<LineEnd> = line_ends(body);
    let mut found = Damaged { by_line: [Outcomes::default(); 3], digest: 0xcbf2_9ce4_8422_2325 };
    let mut bytes = body.to_vec();
    for (at, right) in body.iter().enumerate() {
        let line = body[..at].iter().filter(|byte| **byte == b'\n').count();
        for byte in (0..=255).filter(|byte| byte != right) {
            bytes[at] = byte;
            let answer = read_body(frame.first, frame.last, frame.points, &bytes, ordinates.len());
            found.digest = told(found.digest, &answer);
            found.by_line[ends[line] as usize].count(&answer, ordinates);
        }
        bytes[at] = *right;
    }
    found
}
