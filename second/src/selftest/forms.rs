//! Texts in AFFN, PAC and SQZ form, written by hand from 02, T-02.

use super::{plain, Report, SAMPLE, X};
use crate::body::read_body;
use crate::frame::Frame;
use crate::text::{write_body, TextForm, FORMS};

/// The forms with each value in full.
const FULL: [TextForm; 3] = [TextForm::Affn, TextForm::Pac, TextForm::Sqz];

/// The largest ordinates of both signs and the widest frame: the longest head and values.
const FAR: i64 = 9_999_999_999;
const HIGH: i32 = i32::MAX;
const LOW: i32 = -i32::MAX;

/// A frame of so many points from F to L.
fn frame(first: i64, last: i64, points: usize) -> Frame {
    Frame { first, last, points: points as u64 }
}

/// A frame of so many points, 1 apart from 0 on.
fn rows(points: usize) -> Frame {
    frame(0, 1000 * (points as i64 - 1), points)
}

/// Compares the text of a table, with `/` for CR LF, and what is read from it.
pub fn written(report: &mut Report, form: TextForm, frame: Frame, list: &[i32], expected: &str) {
    let text = write_body(form, &frame, list, expected.len() + expected.matches('/').count());
    let text = text.map(|text| String::from_utf8(text).unwrap());
    report.compare(expected, plain(text), Ok(expected.replace('/', "\r\n")));
    let body = expected.replace('/', "\r\n").into_bytes();
    let found = read_body(frame.first, frame.last, frame.points, &body, list.len());
    report.compare(expected, plain(found), Ok(list.to_vec()));
}

/// One table in the three forms.
fn in_full(report: &mut Report, frame: Frame, list: &[i32], expected: [&str; 3]) {
    for (form, text) in FULL.into_iter().zip(expected) {
        written(report, form, frame, list, text);
    }
}

/// Small tables: signs, zeros, missing ordinates, heads.
fn check_small(report: &mut Report) {
    in_full(report, rows(4), &[5, -5, X, 0], ["0 5 -5 ? 0/", "0 5-5? 0/", "0Ee?@/"]);
    in_full(report, rows(6), &[5, -5, X, 0, X, -1], ["0 5 -5 ? 0 ? -1/", "0 5-5? 0?-1/", "0Ee?@?a/"]);
    in_full(report, rows(4), &[0, 1, 0, 0], ["0 0 1 0 0/", "0 0 1 0 0/", "0@A@@/"]);
    in_full(report, rows(4), &[50; 4], ["0 50 50 50 50/", "0 50 50 50 50/", "0E0E0E0E0/"]);
    in_full(report, rows(4), &[X; 4], ["0 ? ? ? ?/", "0????/", "0????/"]);
    in_full(report, frame(5000, 5000, 1), &[433], ["5 433/", "5 433/", "5D33/"]);
    in_full(report, frame(-1, -1, 1), &[-20], ["-0.001 -20/", "-0.001-20/", "-0.001b0/"]);
    in_full(report, frame(-1500, -1500, 1), &[X], ["-1.5 ?/", "-1.5?/", "-1.5?/"]);
    in_full(report, frame(3000, 0, 4), &[10, 9, X, X], ["3 10 9 ? ?/", "3 10 9??/", "3A0I??/"]);
    let largest = ["0 2147483647 -2147483647/", "0 2147483647-2147483647/", "0B147483647b147483647/"];
    in_full(report, rows(2), &[HIGH, LOW], largest);
    let largest = ["0 -2147483647 2147483647/", "0-2147483647 2147483647/", "0b147483647B147483647/"];
    in_full(report, rows(2), &[LOW, HIGH], largest);
}

/// 001's sample of 53 points; line breaks and heads are those of the rules.
fn check_sample(report: &mut Report) {
    let affn = "4 0 0 0 0 2 4 4 4 7 5 4 4 5 5 7 10 11 11 6 5 7 6 9 9 7 10 10 9 10 11 12 15 16 16\
        /38 14 17 38 38 35 38 42 47 54 59 66 75 78 88 96 104 110 121 128/";
    // The head, 23 values of one digit, 26 of two and 104 are 79 bytes.
    let sqz = "4@@@@BDDDGEDDEEGA0A1A1FEGFIIGA0A0IA0A1A2A5A6A6A4A7C8C8C5C8D2D7E4E9F6G5G8H8I6A04\
        /54A10A21A28/";
    in_full(report, frame(4000, 56_000, 53), &SAMPLE, [affn, affn, sqz]);
}

/// Lines of exactly 80 bytes, and lines where the next value would make 81; the longest lines of the longest values.
fn check_full_lines(report: &mut Report) {
    let one = |token: &str, times: usize| token.repeat(times);
    // After a head of one byte, 39 values of 2 bytes leave 1 byte, which none takes; 79 of 1 byte end at 80.
    let ones = |points: usize| vec![1; points];
    let affn = format!("0{}/39 1/", one(" 1", 39));
    written(report, TextForm::Affn, rows(40), &ones(40), &affn);
    written(report, TextForm::Pac, rows(40), &ones(40), &affn);
    written(report, TextForm::Sqz, rows(79), &ones(79), &format!("0{}/", one("A", 79)));
    written(report, TextForm::Sqz, rows(80), &ones(80), &format!("0{}/79A/", one("A", 79)));
    // 38 values of 2 bytes leave 3: one of 3 bytes ends the line at 80, one of 4 would at 81.
    for (last, spelled) in [(12, " 12"), (-1, " -1")] {
        let list = [ones(38), vec![last, 7]].concat();
        written(report, TextForm::Affn, rows(40), &list, &format!("0{}{spelled}/39 7/", one(" 1", 38)));
    }
    for (last, spelled) in [(123, " 123"), (-12, " -12")] {
        let list = [ones(38), vec![last, 7]].concat();
        written(report, TextForm::Affn, rows(40), &list, &format!("0{}/38{spelled} 7/", one(" 1", 38)));
    }
    for (last, spelled) in [(12, " 12"), (-12, "-12")] {
        let list = [ones(38), vec![last, 7]].concat();
        written(report, TextForm::Pac, rows(40), &list, &format!("0{}{spelled}/39 7/", one(" 1", 38)));
    }
    for (last, spelled) in [(123, " 123"), (-123, "-123")] {
        let list = [ones(38), vec![last, 7]].concat();
        written(report, TextForm::Pac, rows(40), &list, &format!("0{}/38{spelled} 7/", one(" 1", 38)));
    }
    // In SQZ 77 values leave 2.
    for (last, expected) in [(-12, format!("0{}a2/78G/", one("A", 77))), (123, format!("0{}/77A23G/", one("A", 77)))] {
        let list = [ones(77), vec![last, 7]].concat();
        written(report, TextForm::Sqz, rows(79), &list, &expected);
    }
}

/// A missing ordinate last and first on a line, at 80 bytes and where it would make 81.
fn check_missing(report: &mut Report) {
    let list = |ones: usize, more: &[i32]| [vec![1; ones], more.to_vec()].concat();
    let row = |token: &str, times: usize| token.repeat(times);
    written(report, TextForm::Affn, rows(40), &list(38, &[X, X]), &format!("0{} ?/39 ?/", row(" 1", 38)));
    written(report, TextForm::Affn, rows(41), &list(39, &[X, -1]), &format!("0{}/39 ? -1/", row(" 1", 39)));
    written(report, TextForm::Pac, rows(41), &list(38, &[12, X, 1]), &format!("0{} 12/39? 1/", row(" 1", 38)));
    written(report, TextForm::Pac, rows(42), &list(39, &[X, X, 1]), &format!("0{}?/40? 1/", row(" 1", 39)));
    written(report, TextForm::Pac, rows(42), &list(38, &[X, X, X, 1]), &format!("0{}???/41 1/", row(" 1", 38)));
    written(report, TextForm::Sqz, rows(80), &list(78, &[X, X]), &format!("0{}?/79?/", row("A", 78)));
    written(report, TextForm::Sqz, rows(80), &list(79, &[X]), &format!("0{}/79?/", row("A", 79)));
}

/// The longest heads with the longest values.
fn check_longest(report: &mut Report) {
    let list = [LOW; 12];
    let affn = "9999999.999 -2147483647 -2147483647 -2147483647 -2147483647 -2147483647\
        /909090.909 -2147483647 -2147483647 -2147483647 -2147483647 -2147483647\
        /-8181818.181 -2147483647 -2147483647/";
    let pac = "9999999.999-2147483647-2147483647-2147483647-2147483647-2147483647-2147483647\
        /-909090.909-2147483647-2147483647-2147483647-2147483647-2147483647-2147483647/";
    let sqz = "9999999.999b147483647b147483647b147483647b147483647b147483647b147483647\
        /-909090.909b147483647b147483647b147483647b147483647b147483647b147483647/";
    in_full(report, frame(FAR, -FAR, 12), &list, [affn, pac, sqz]);
}

/// Heads that are rounded: points 1.5 thousandths apart, halves to the larger.
fn check_heads(report: &mut Report) {
    // Six AFFN values are 70 bytes, a seventh would make 81. Point 7 stands at 20.5 thousandths, or at -20.5.
    let list = [HIGH; 15];
    let (six, three) = (" 2147483647".repeat(6), " 2147483647".repeat(3));
    for form in [TextForm::Affn, TextForm::Pac] {
        written(report, form, frame(10, 31, 15), &list, &format!("0.01{six}/0.019{six}/0.028{three}/"));
        written(report, form, frame(-10, -31, 15), &list, &format!("-0.01{six}/-0.019{six}/-0.028{three}/"));
    }
    let (seven, one) = ("B147483647".repeat(7), "B147483647");
    written(report, TextForm::Sqz, frame(10, 31, 15), &list, &format!("0.01{seven}/0.021{seven}/0.031{one}/"));
    written(report, TextForm::Sqz, frame(-10, -31, 15), &list, &format!("-0.01{seven}/-0.02{seven}/-0.031{one}/"));
}

/// Refusals 1, 2 and 15 in each form, each before those after it; DIFDUP's are the same.
fn check_refusals(report: &mut Report) {
    for (form, length) in FORMS.into_iter().zip([11, 11, 11, 7]) {
        let mut refused = |what: &str, frame: Frame, given: usize, room: usize, number: u32| {
            let list = &[0, 1, 0, 0, 0][..given];
            report.compare(what, plain(write_body(form, &frame, list, room)), Err((number, 0)));
        };
        refused("1: no point", frame(0, 0, 0), 4, 99, 1);
        refused("1: F = L", frame(0, 0, 4), 3, 0, 1);
        refused("1: F not L", frame(0, 1, 1), 0, 0, 1);
        refused("1: L too far", frame(0, FAR + 1, 4), 3, 0, 1);
        refused("1: F too far", frame(i64::MIN, 0, 4), 3, 0, 1);
        refused("1: too many points", frame(0, FAR, 65_537), 4, 99, 1);
        refused("2", frame(0, 2, 4), 3, 0, 2);
        refused("2: none", frame(0, 3000, 4), 0, 99, 2);
        refused("15, closer than a thousandth", frame(0, -2, 4), 4, 0, 15);
        refused("15: none", frame(0, 3000, 4), 4, 0, 15);
        refused("15: one less", frame(0, 3000, 4), 5, length - 1, 15);
        let exact = write_body(form, &rows(4), &[0, 1, 0, 0, 9], length);
        report.compare("exact", plain(exact).map(|text| text.len()), Ok(length));
        let close = write_body(form, &frame(0, -2, 4), &[X; 4], 99);
        report.compare("no 14", plain(close).map(|text| text.len()), Ok([5, 11, 7, 7][form as usize]));
    }
}

/// Numbers and names of the forms.
fn check_names(report: &mut Report) {
    for (number, name) in ["difdup", "affn", "pac", "sqz"].into_iter().enumerate() {
        report.compare(name, TextForm::numbered(number as u32), TextForm::named(name));
        report.compare(name, TextForm::named(name).map(TextForm::name), Some(name));
    }
    for number in [4, 256, 1 << 31, u32::MAX] {
        report.compare("no form", TextForm::numbered(number), None);
    }
}

/// All of them.
pub fn check(report: &mut Report) {
    check_small(report);
    check_sample(report);
    check_full_lines(report);
    check_missing(report);
    check_longest(report);
    check_heads(report);
    check_refusals(report);
    check_names(report);
}
