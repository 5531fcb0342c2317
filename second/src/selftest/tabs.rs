//! Tabs are refused in bodies, and the converter, by hand from 02, T-13.

use super::{file_with, plain, Report, X};
use crate::body::{read_body, read_body_before};
use crate::file::{read_file, read_file_before};
use crate::tabs::{converted, converted_file};

/// Bodies in the frame F = 0, L = 3000, N = 4 with tabs, `/` for LF and `~` for CR: the answer now, and that of before.
#[allow(clippy::type_complexity)]
const ROWS: &[(&str, Result<&[i32], (u32, usize)>, Result<&[i32], (u32, usize)>)] = &[
    ("0\t", Err((3, 1)), Err((7, 0))),
    ("\t0 1 1 1 1", Err((3, 0)), Ok(&[1, 1, 1, 1])),
    ("0\t1 1 1 1", Err((3, 1)), Ok(&[1, 1, 1, 1])),
    ("0AA\tAA", Err((3, 3)), Ok(&[1, 1, 1, 1])),
    ("0AAAA\t", Err((3, 5)), Ok(&[1, 1, 1, 1])),
    ("0AAAA\t$$ c", Err((3, 5)), Ok(&[1, 1, 1, 1])),
    ("0AAAA$$\tc", Ok(&[1, 1, 1, 1]), Ok(&[1, 1, 1, 1])),
    ("0AAAA $$\t~\t/", Ok(&[1, 1, 1, 1]), Ok(&[1, 1, 1, 1])),
    ("0AAAA$$c/\t", Err((3, 9)), Ok(&[1, 1, 1, 1])),
    ("0A?/\t/2?A", Err((3, 4)), Ok(&[1, X, X, 1])),
    ("0A?/\t$$/2?A", Err((3, 4)), Ok(&[1, X, X, 1])),
    ("0AA$\tAA", Err((3, 3)), Err((3, 3))),
    ("5\tA", Err((6, 0)), Err((6, 0))),
    ("0A0J\t/1A2", Err((3, 4)), Err((10, 7))),
];

/// What the converter makes of bodies.
const CONVERTED: &[(&str, &str)] = &[
    ("", ""),
    ("\t", " "),
    ("0\tA\t/\tB", "0 A /\u{20}B"),
    ("0A$$\t/\tB", "0A$$\t/ B"),
    ("0A$\t$\t", "0A$ $ "),
    ("0A$$$\t~/\t", "0A$$$\t~/ "),
    ("$$\t$$\t", "$$\t$$\t"),
];

/// The text of a row.
fn text(row: &str) -> Vec<u8> {
    row.replace('/', "\n").replace('~', "\r").into_bytes()
}

/// Bodies, now and before; the converted body is read now as the body was before.
fn check_bodies(report: &mut Report) {
    for (row, now, before) in ROWS {
        let body = text(row);
        report.compare(row, plain(read_body(0, 3000, 4, &body, 4)), now.map(|list| list.to_vec()));
        report.compare(row, plain(read_body_before(0, 3000, 4, &body, 4)), before.map(|list| list.to_vec()));
        report.compare(row, plain(read_body(0, 3000, 4, &converted(&body), 4)), before.map(|list| list.to_vec()));
    }
    for (row, expected) in CONVERTED {
        report.compare(row, converted(&text(row)), text(expected));
    }
}

/// Files: a tab in a header stays, one in the body is replaced; a file without a body to be found stays as it is.
fn check_files(report: &mut Report) {
    let old = file_with("XYDATA", "\t(X++(Y..Y))\t\n0@Jj%\t$$\t\n3@\n\t");
    let new = file_with("XYDATA", "\t(X++(Y..Y))\t\n0@Jj% $$\t\n3@\n ");
    report.compare("a file", converted_file(&old), new.clone());
    report.compare("refused now", read_file(&old, 4).err().map(|fault| fault.number), Some(3));
    report.compare("read as before", read_file(&new, 4).ok(), read_file_before(&old, 4).ok());
    report.compare("accepted before", read_file_before(&old, 4).is_ok(), true);
    let unlisted = file_with("XYDATA", "(XY..XY)\n0\tA\n");
    report.compare("no list", converted_file(&unlisted), unlisted.clone());
    let header = file_with("XFACTOR", "\t1\t\n");
    report.compare("a tab in a header", converted_file(&header), header.clone());
    report.compare("is read", read_file(&header, 4).is_ok(), true);
}

/// All of them.
pub fn check(report: &mut Report) {
    check_bodies(report);
    check_files(report);
}
