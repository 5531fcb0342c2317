//! Lines of 80 bytes and of 81, by hand from 02, T-06.

use super::{bytes_of, file_with, place, plain, Answer, Report};
use crate::body::read_body;
use crate::cases::body_case;
use crate::file::read_file;
use crate::lengths::{tried, TRIED};
use crate::random::Random;

/// The answers to bodies in the frame F = 0, L = 3000, N = 4, `/` standing for LF and `~` for CR.
fn read(report: &mut Report, rows: &[(String, Answer)]) {
    for (row, expected) in rows {
        let found = read_body(0, 3000, 4, &bytes_of(row), 4);
        report.compare(row, plain(found), expected.clone());
    }
}

/// So many blanks.
fn blanks(count: usize) -> String {
    " ".repeat(count)
}

/// Lines of 80 and of 81 bytes with LF, CR LF and the body's end, of values, of blanks and of comments.
fn check_ends(report: &mut Report) {
    let four = || Ok(vec![1; 4]);
    for end in ["/", "~/", ""] {
        let line = |length: usize| format!("0AAAA{}{end}", blanks(length - 5));
        read(report, &[(line(80), four()), (line(81), Err((16, 0)))]);
        let comment = |length: usize| format!("0AAAA$${}{end}", "c".repeat(length - 7));
        read(report, &[(comment(80), four()), (comment(81), Err((16, 0)))]);
        let blank = |length: usize| format!("0AAAA/{}{end}", blanks(length));
        read(report, &[(blank(80), four()), (blank(81), Err((16, 6)))]);
        let passed = |length: usize| format!("$${}{end}", "$".repeat(length - 2));
        read(report, &[(format!("/{}", passed(81)), Err((16, 1))), (passed(500), Err((16, 0)))]);
    }
    // The values themselves: a DUP of 75 bytes would be misspelled, so blanks stand between.
    let digits = |zeros: usize| format!("0 {}1{}2AA", "0".repeat(9), blanks(zeros));
    read(report, &[(digits(65), four_of(1, 2)), (digits(66), Err((16, 0)))]);
}

/// Two ordinates of their own and then two of 1.
fn four_of(first: i32, second: i32) -> Answer {
    Ok(vec![first, second, 1, 1])
}

/// A CR that ends nothing is one of the 80: at the body's end, before another CR, in a comment.
fn check_returns(report: &mut Report) {
    let four = || Ok(vec![1; 4]);
    let comment = |length: usize| format!("0AAAA$${}", "c".repeat(length - 7));
    let rows = [
        (format!("{}~", comment(79)), four()),
        (format!("{}~", comment(80)), Err((16, 0))),
        (format!("{}~/", comment(80)), four()),
        (format!("{}~~/", comment(79)), four()),
        (format!("{}~~/", comment(80)), Err((16, 0))),
        (format!("{}~c/", comment(78)), four()),
        (format!("{}~c/", comment(79)), Err((16, 0))),
        (format!("0AAAA{}~", blanks(74)), Err((3, 79))),
        (format!("0AAAA{}~", blanks(75)), Err((16, 0))),
    ];
    read(report, &rows);
}

/// 16 comes before everything else on its line, and after everything on the lines before it.
fn check_order(report: &mut Report) {
    let long = |start: &str| format!("{start}{}", blanks(81 - start.len()));
    let rows = [
        (long("0A!"), Err((16, 0))),
        (long("!"), Err((16, 0))),
        (long("9A"), Err((16, 0))),
        (long("0"), Err((16, 0))),
        (long("0A%"), Err((16, 0))),
        (format!("0AAAA/{}", long("4A")), Err((16, 6))),
        (format!("0AAAA/{}", long("")), Err((16, 6))),
        (format!("0A0J/{}", long("1A2")), Err((16, 5))),
        (format!("0A!/{}", long("")), Err((3, 2))),
        (format!("9A/{}", long("")), Err((6, 0))),
        (format!("0A/2B/{}", long("")), Err((6, 3))),
        (format!("0A/{}/!", long("1B")), Err((16, 3))),
        (format!("{}/{}", long("$$"), long("$$")), Err((16, 0))),
        (format!("0A%/{}", long("$$")), Err((16, 4))),
    ];
    read(report, &rows);
    let body = bytes_of(&long("0AAAA"));
    report.compare("1 before 16", plain(read_body(0, 0, 4, &body, 4)), Err((1, 0)));
    report.compare("2 before 16", plain(read_body(0, 3000, 4, &body, 3)), Err((2, 0)));
}

/// In a file: blanks before the next `##` are a line of the body; lines of other records have no length.
fn check_files(report: &mut Report) {
    let file = |count| file_with("XYDATA", &format!("(X++(Y..Y))\n0@Jj%\n3@\n{}", blanks(count)));
    let points = |file: &[u8]| plain(read_file(file, 4)).map(|table| table.points);
    report.compare("80 blanks before ##", points(&file(80)), Ok(4));
    report.compare("81 blanks before ##", points(&file(81)), Err((16, place(&file(81), "3@\n") + 3)));
    let file = file_with("XYDATA", &format!("(X++(Y..Y)){}\n0@Jj%\n3@\n", blanks(90)));
    report.compare("the list's line", points(&file), Ok(4));
    let file = file_with("YFACTOR", &format!("0.1$${}\n", "c".repeat(99)));
    report.compare("another record", points(&file), Ok(4));
    let file = file_with("FIRSTY", &format!("7\n##XYDATA=(X++(Y..Y))\n0@Jj%{}\n3@\n##NONE=\n", blanks(76)));
    let file = drop_record(&file, "##XYDATA=", 2);
    report.compare("16 before 29", plain(read_file(&file, 4)), Err((16, place(&file, "0@Jj%"))));
}

/// A file without the record whose label stands in it for the k-th time, up to the next `##`.
fn drop_record(file: &[u8], label: &str, k: usize) -> Vec<u8> {
    let starts: Vec<usize> = (0..file.len()).filter(|at| file[*at..].starts_with(label.as_bytes())).collect();
    let from = starts[k - 1];
    let to = from + 2 + place(&file[from + 2..], "##");
    [&file[..from], &file[to..]].concat()
}

/// The generator's bodies try the rule often enough.
fn check_tried(report: &mut Report) {
    let random = &mut Random::new(5);
    let mut times = [0; TRIED.len()];
    for _ in 0..20_000 {
        let case = body_case(random, 0, usize::MAX);
        let (first, last) = (case.frame.first, case.frame.last);
        let answer = read_body(first, last, case.frame.points, &case.body, case.room as usize);
        for (times, holds) in times.iter_mut().zip(tried(&case.body, &answer)) {
            *times += usize::from(holds);
        }
    }
    for ((what, times), least) in TRIED.iter().zip(times).zip([1_000, 500, 300, 10, 100, 30, 100]) {
        report.compare(&format!("{what}: {times}"), times >= least, true);
    }
}

/// All of them.
pub fn check(report: &mut Report) {
    check_ends(report);
    check_returns(report);
    check_order(report);
    check_files(report);
    check_tried(report);
}
