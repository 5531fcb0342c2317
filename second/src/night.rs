//! The night's report: the files of a spool, what each holds, and the totals (02, T-11).

use crate::file::read_file;
use crate::frame::{refusal, Refusal, MISSING};

/// What stands before each file, and the bytes of its length, high byte first.
pub const MARK: [u8; 2] = [0x4A, 0x44];
pub const LENGTH_BYTES: usize = 3;

/// Most files of a spool.
pub const MOST_FILES: usize = 1_000;

/// What an accepted file holds. Lowest and highest are none if all its ordinates are missing, the faintest also if the
/// others are zero.
#[derive(Clone, Copy, Debug, PartialEq, Eq)]
pub struct Account {
    pub points: u64,
    pub missing: u64,
    pub lowest: Option<i64>,
    pub highest: Option<i64>,
    pub sum: i64,
    pub faintest: Option<i64>,
}

/// One file of the spool: where its record begins, its bytes, and its account with the ordinates, or the refusal.
pub struct Report<'a> {
    pub at: usize,
    pub file: &'a [u8],
    pub outcome: Result<(Account, Vec<i32>), Refusal>,
}

/// Counts and the sum over accepted files.
#[derive(Clone, Copy, Debug, Default, PartialEq, Eq)]
pub struct Totals {
    pub files: u64,
    pub points: u64,
    pub missing: u64,
    pub sum: i64,
}

/// A whole night: the reports, how the spool ended, and the totals of what was reported.
pub struct Night<'a> {
    pub reports: Vec<Report<'a>>,
    pub ended: Result<(), Refusal>,
    pub totals: Totals,
}

/// What a list of ordinates holds.
pub fn account(ordinates: &[i32]) -> Account {
    let given: Vec<i64> = ordinates.iter().filter(|y| **y != MISSING).map(|y| i64::from(*y)).collect();
    Account {
        points: ordinates.len() as u64,
        missing: (ordinates.len() - given.len()) as u64,
        lowest: given.iter().copied().min(),
        highest: given.iter().copied().max(),
        sum: given.iter().sum(),
        faintest: given.iter().map(|y| y.abs()).filter(|size| *size > 0).min(),
    }
}

/// The file whose record begins at a place, after so many others; or the refusal, at that place.
fn file_at(spool: &[u8], at: usize, before: usize) -> Result<&[u8], Refusal> {
    let left = &spool[at..];
    let head = MARK.len() + LENGTH_BYTES;
    if before == MOST_FILES {
        return Err(refusal(36, at));
    }
    if left.len() < head {
        return Err(refusal(35, at));
    }
    if left[..2] != MARK {
        return Err(refusal(34, at));
    }
    let length = left[2..head].iter().fold(0, |length, byte| 256 * length + usize::from(*byte));
    left.get(head..head + length).ok_or(refusal(35, at))
}

/// The report of a spool, each file read with so much room.
pub fn report(spool: &[u8], room: usize) -> Night<'_> {
    let mut night = Night { reports: Vec::new(), ended: Ok(()), totals: Totals::default() };
    let mut at = 0;
    while at < spool.len() {
        let file = match file_at(spool, at, night.reports.len()) {
            Err(fault) => {
                night.ended = Err(fault);
                break;
            }
            Ok(file) => file,
        };
        let outcome = read_file(file, room).map(|table| (account(&table.ordinates), table.ordinates));
        night.reports.push(Report { at, file, outcome });
        at += MARK.len() + LENGTH_BYTES + file.len();
    }
    let accepted = || night.reports.iter().filter_map(|report| report.outcome.as_ref().ok()).map(|(account, _)| account);
    night.totals = Totals {
        files: accepted().count() as u64,
        points: accepted().map(|account| account.points).sum(),
        missing: accepted().map(|account| account.missing).sum(),
        sum: accepted().map(|account| account.sum).sum(),
    };
    night
}
