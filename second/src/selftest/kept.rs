//! What stands before the place of a refusal, completed: tables written by hand, and which cases the generator makes.

use super::{Report, X};
use crate::body::read_body;
use crate::cases::kept::refused_body;
use crate::frame::Frame;
use crate::kept::{completed, Stays};
use crate::random::Random;
use std::collections::BTreeSet;

/// The frame of the rows.
const FRAME: Frame = Frame { first: 0, last: 3000, points: 4 };

/// Refused bodies, `/` for LF and `_` for 77 spaces; what stays, the completed table and its ordinates.
#[allow(clippy::type_complexity)]
const ROWS: &[(&str, (u32, u64), Stays, &str, [i32; 4])] = &[
    ("", (12, 0), Stays::All, "0?/1?/2?/3?/", [X, X, X, X]),
    ("0", (7, 0), Stays::All, "0?/1?/2?/3?/", [X, X, X, X]),
    (" 5A", (6, 1), Stays::All, " /0?/1?/2?/3?/", [X, X, X, X]),
    ("0@5", (5, 1), Stays::All, "0?/1?/2?/3?/", [X, X, X, X]),
    (" 0 !", (3, 3), Stays::All, " 0 ?/1?/2?/3?/", [X, X, X, X]),
    ("0A!", (3, 2), Stays::All, "0A/1?/2?/3?/", [1, X, X, X]),
    ("0A?J1", (8, 3), Stays::All, "0A?/2?/3?/", [1, X, X, X]),
    ("0A $$c", (12, 6), Stays::All, "0A $$c/1?/2?/3?/", [1, X, X, X]),
    ("0A/ _ _", (16, 3), Stays::All, "0A/1?/2?/3?/", [1, X, X, X]),
    ("0A0J/1A2", (10, 6), Stays::All, "0A0J/1A1/2?/3?/", [10, 11, X, X]),
    ("0A0J!", (3, 4), Stays::All, "0A0J/1A1/2?/3?/", [10, 11, X, X]),
    ("0E0%U", (13, 5), Stays::All, "0E0%U/3E0/", [50, 50, 50, 50]),
    ("0E0W", (11, 3), Stays::All, "0E0/1?/2?/3?/", [50, X, X, X]),
    ("0E0V/9", (6, 5), Stays::All, "0E0V/", [50, 50, 50, 50]),
    ("0E0V/4A", (11, 6), Stays::BeforeFull, "0E0V/", [50, 50, 50, 50]),
    ("0E0V/ 4 !", (3, 8), Stays::BeforeFull, "0E0V/", [50, 50, 50, 50]),
    ("0A0J/1_A", (10, 83), Stays::All, "0A0J/1_A1/2?/3?/", [10, 11, X, X]),
    ("0A0J/1_ A", (10, 84), Stays::BeforeNarrow, "0A0J/1A1/2?/3?/", [10, 11, X, X]),
];

/// The text of a row.
fn text(row: &str) -> Vec<u8> {
    row.replace('/', "\n").replace('_', &" ".repeat(77)).into_bytes()
}

/// The rows.
fn check_rows(report: &mut Report) {
    for (row, (number, place), stays, table, ordinates) in ROWS {
        let body = text(row);
        let fault = read_body(FRAME.first, FRAME.last, FRAME.points, &body, 4).expect_err("the body is refused");
        report.compare(row, (fault.number, fault.place), (*number, *place));
        let made = completed(&FRAME, &body, fault).expect("no fault stands before the place");
        report.compare(row, (made.stays, made.text, made.ordinates), (*stays, text(table), ordinates.to_vec()));
    }
}

/// Each number, and each of the two cases where not all before the place stays, is among some refused bodies.
fn check_generator(report: &mut Report) {
    let random = &mut Random::new(27);
    let mut numbers = BTreeSet::new();
    let mut seen = [0; 3];
    for _ in 0..2_000 {
        let case = refused_body(random);
        let Frame { first, last, points } = case.frame;
        let fault = read_body(first, last, points, &case.body, points as usize).expect_err("the body is refused");
        let made = completed(&case.frame, &case.body, fault).expect("no fault stands before the place");
        let read = read_body(first, last, points, &made.text, points as usize);
        report.compare("a completed body", read, Ok(made.ordinates));
        numbers.insert(fault.number);
        seen[made.stays as usize] += 1;
    }
    report.compare("refused with", numbers, (3..=13).chain([16]).collect());
    report.compare("each case some ten times", seen.iter().all(|times| *times >= 10), true);
}

/// All of them.
pub fn check(report: &mut Report) {
    check_rows(report);
    check_generator(report);
}
