//! Heads coarser than the spacing, and tables closer than a thousandth, by hand from 02, T-03.

use super::{bytes_of, forms, plain, Answer, Report};
use crate::body::read_body;
use crate::cases::body_case;
use crate::frame::Frame;
use crate::heads::{tried, TRIED};
use crate::random::Random;
use crate::text::{TextForm, FORMS};

/// Four points, read as 1 to 4.
fn four() -> Answer {
    Ok(vec![1, 2, 3, 4])
}

/// Compares the answers to bodies in the frame F, L, N, with `/` for LF.
fn read(report: &mut Report, (first, last, points): (i64, i64, u64), rows: &[(&str, Answer)]) {
    for (row, expected) in rows {
        let found = read_body(first, last, points, &bytes_of(row), points as usize);
        report.compare(&format!("{first} {last} {points}: {row}"), plain(found), expected.clone());
    }
}

/// Whole numbers: at half a unit on both sides, just beyond, and `0.` against `0.0`.
fn check_whole(report: &mut Report) {
    // Points at 0, 0.25, 0.5 and 0.75.
    let rows = [
        ("0A/0B/0C/1D", four()),
        ("0A/0B/1C/1D", four()),
        ("0A/0.B/0.C/1.D", four()),
        ("+0000000.A/-0B/-0.C/+1.D", four()),
        ("0A/0B/0C/0D", Err((6, 9))),
        ("0A/1B", Err((6, 3))),
        ("0A/0.0B", Err((6, 3))),
        ("0A/0B/0.0C", Err((6, 6))),
        ("0A/0B/0.5C/0.000D", Err((6, 11))),
    ];
    read(report, (0, 750, 4), &rows);
    // Point 1 at 0.5, at 0.501, and a third of a thousandth on either side of 0.5.
    read(report, (0, 1500, 4), &[("0A/0B/1C/1D", four()), ("0A/1B/1C/2D", four()), ("0A/2B", Err((6, 3)))]);
    read(report, (0, 1503, 4), &[("0A/0B", Err((6, 3))), ("0A/1B/1C/2D", four()), ("0A/1B/1C/1D", Err((6, 9)))]);
    read(report, (0, 1501, 4), &[("0A/0B", Err((6, 3))), ("0A/1B/1C/2D", four())]);
    read(report, (0, 1499, 4), &[("0A/1B", Err((6, 3))), ("0A/0B/1C/1D", four())]);
    // A spacing of a unit, and points at half of it: as near to either neighbour as half a spacing, which is not less.
    let rows = [("0A/1B/2C/3D", four()), ("1A/2B/3C/4D", four()), ("0.0A", Err((6, 0))), ("1A/3B", Err((6, 3)))];
    read(report, (500, 3500, 4), &rows);
    // A spacing of 10 units: half a spacing decides as before.
    let rows = [("0A/6B/20C/25.001D", four()), ("0A/5B", Err((6, 3))), ("0A/15B", Err((6, 3)))];
    read(report, (0, 30_000, 4), &rows);
}

/// Tenths, hundredths and thousandths, each at half its unit and beyond.
fn check_places(report: &mut Report) {
    // Points at 0, 0.05, 0.1 and 0.15.
    let rows = [
        ("0.0A/0.0B/0.1C/0.1D", four()),
        ("0.0A/0.1B/0.1C/0.2D", four()),
        ("0A/0.B/0C/0.D", four()),
        ("0.0A/0.1B/0.0C", Err((6, 10))),
        ("0.0A/0.1B/0.1C/0.0D", Err((6, 15))),
        ("0.0A/0.00B", Err((6, 5))),
        ("0.0A/0.000B", Err((6, 5))),
    ];
    read(report, (0, 150, 4), &rows);
    // Points at 0, 0.005, 0.01 and 0.015.
    let rows = [
        ("0.00A/0.00B/0.01C/0.01D", four()),
        ("0.00A/0.01B/0.01C/0.02D", four()),
        ("0.00A/0.02B", Err((6, 6))),
        ("0.00A/0.000B", Err((6, 6))),
    ];
    read(report, (0, 15, 4), &rows);
    // Points at 0, 0.0005, 0.001, 0.0015 and 0.002.
    let rows = [
        ("0.000A/0.000B/0.001C/0.001D/0.002E", Ok(vec![1, 2, 3, 4, 5])),
        ("0.000A/0.001B/0.001C/0.002D/0.002E", Ok(vec![1, 2, 3, 4, 5])),
        ("0.000A/0.002B", Err((6, 7))),
        ("0.000A/0.000B/0.001C/0.000D", Err((6, 21))),
    ];
    read(report, (0, 2, 5), &rows);
}

/// Falling tables, negative heads, and the farthest abscissas.
fn check_signs(report: &mut Report) {
    // Points at -0.5, -1, -1.5 and -2.
    let rows = [
        ("-0A/-1B/-1C/-2D", four()),
        ("0A/-1B/-2C/-2D", four()),
        ("-1.A/-1.B/-1.C/-2.D", four()),
        ("1A", Err((6, 0))),
        ("-2A", Err((6, 0))),
        ("-0.5A/-1.5B", Err((6, 6))),
        ("-0.0A", Err((6, 0))),
    ];
    read(report, (-500, -2000, 4), &rows);
    let rows = [("-2A/-1B/-1C/-0D", four()), ("-2A/-2B/-1C/-1D", four()), ("-2A/-1B/-0C", Err((6, 8)))];
    read(report, (-2000, -500, 4), &rows);
    // A falling table just beyond: point 1 at -0.501.
    read(report, (0, -1503, 4), &[("0A/0B", Err((6, 3))), ("0A/-1B/-1C/-2D", four())]);
    let rows = [
        ("9999999A", Err((6, 0))),
        ("10000000A", Err((4, 0))),
        ("9999999.9A", Err((6, 0))),
        ("9999999.99A", Err((6, 0))),
        ("9999999.999A", Err((12, 12))),
        ("-9999999.999A", Err((6, 0))),
    ];
    read(report, (9_999_999_999, 9_999_999_998, 65_536), &rows);
    let rows = [("-9999999A", Err((12, 9))), ("-9999847.41A", Err((12, 12))), ("-9999847A", Err((6, 0)))];
    read(report, (-9_999_999_999, 9_999_999_999, 65_536), &rows);
}

/// N = 1, check lines, and heads after the last point.
fn check_index(report: &mut Report) {
    let one = || Ok(vec![1]);
    let rows = [("0A", Err((6, 0))), ("0.A", Err((6, 0))), ("0.4A", one()), ("+0.400A", one()), ("0.40A", one())];
    read(report, (400, 400, 1), &rows);
    read(report, (500, 500, 1), &[("0A", Err((6, 0))), ("1A", Err((6, 0))), ("0.50A/1A", Err((6, 6)))]);
    read(report, (0, 0, 1), &[("0.A", one()), ("-0A", one()), ("0.001A", Err((6, 0))), ("0A/0.A", Err((11, 5)))]);
    read(report, (-1, -1, 1), &[("-0A", Err((6, 0))), ("-0.00A", Err((6, 0))), ("-0.001A", one())]);
    // The head of a check line belongs to the last point: here to point 1, at 0.5, and to point 3, at 1.5.
    let ones = || Ok(vec![10, 11, 11, 11]);
    let rows = [("0A0J/0A1U", ones()), ("0A0J/1A1U", ones()), ("0A0J/2A1U", Err((6, 5))), ("0A0J/1A2", Err((10, 6)))];
    read(report, (0, 1500, 4), &rows);
    let same = || Ok(vec![50; 4]);
    let rows =
        [("0E0%U/1E0", same()), ("0E0%U/2.E0", same()), ("0E0%U/0E0", Err((6, 6))), ("0E0%U/2.0E0", Err((6, 6)))];
    read(report, (0, 1500, 4), &rows);
    // After the last point i = N, at 1.5 here.
    let rows = [
        ("0AAAA/1A", Err((11, 7))),
        ("0AAAA/2A", Err((11, 7))),
        ("0AAAA/2.", Err((7, 6))),
        ("0AAAA/3A", Err((6, 6))),
        ("0AAAA/0", Err((6, 6))),
        ("0AAAA/1.0A", Err((6, 6))),
        ("0E0%U/1E0/1A", Err((11, 11))),
        ("0E0%U/1E0/0A", Err((6, 10))),
    ];
    read(report, (0, 1125, 4), &rows);
}

/// The interferometer of 02: spacing 0.482, each head a whole number, three points a line.
fn check_interferometer(report: &mut Report) {
    let heads = [0, 1, 3, 4, 6, 7, 9, 10, 12, 13];
    let body = |heads: &[i32]| heads.iter().map(|head| format!("{head} 5 6 7\n")).collect::<String>().into_bytes();
    let read = |heads: &[i32]| plain(read_body(0, 29 * 482, 30, &body(heads), 30));
    report.compare("0.482", read(&heads), Ok([5, 6, 7].repeat(10)));
    // Line four: point 9 at 4.338. Lines are 8 bytes.
    let off = |k: usize, head: i32| {
        let mut heads = heads;
        heads[k] = head;
        read(&heads)
    };
    report.compare("0.482, 5 for 4.338", off(3, 5), Err((6, 24)));
    report.compare("0.482, 3 for 4.338", off(3, 3), Err((6, 24)));
    report.compare("0.482, 2 for 1.446", off(1, 2), Err((6, 8)));
}

/// Tables with |L-F| below N-1, which 14 refused: the heads of neighbours are the same.
fn check_close(report: &mut Report) {
    let frame = |last: i64| Frame { first: 0, last, points: 15 };
    let high = [i32::MAX; 15];
    for form in [TextForm::Affn, TextForm::Pac] {
        let values = |times: usize| " 2147483647".repeat(times);
        let rising = format!("0{}/0.001{}/0.001{}/", values(7), values(6), values(2));
        forms::written(report, form, frame(1), &high, &rising);
        let falling = format!("0{}/0{}/-0.001{}/", values(7), values(7), values(1));
        forms::written(report, form, frame(-1), &high, &falling);
    }
    let seven = "B147483647".repeat(7);
    forms::written(report, TextForm::Sqz, frame(1), &high, &format!("0{seven}/0.001{seven}/0.001B147483647/"));
    forms::written(report, TextForm::Sqz, frame(-1), &high, &format!("0{seven}/0{seven}/-0.001B147483647/"));
    // Points 6 and 12, on check lines, are at 0.43 and 0.86 thousandths.
    let turns: Vec<i32> = (0..15).map(|k| if k % 2 == 0 { i32::MAX } else { -i32::MAX }).collect();
    let (first, pair) = ("B147483647", "m294967294M294967294");
    let line = format!("0{first}{}/", pair.repeat(3));
    let rising = format!("{line}{line}0.001{first}{pair}/0.001{first}/");
    forms::written(report, TextForm::Difdup, frame(1), &turns, &rising);
    for form in FORMS {
        let text = ["0A%T/0.001A/", "0 1 1 1/", "0 1 1 1/", "0AAA/"][form as usize];
        forms::written(report, form, Frame { first: 0, last: 1, points: 3 }, &[1; 3], text);
    }
}

/// The generator's bodies try the rule often enough.
fn check_tried(report: &mut Report) {
    let random = &mut Random::new(3);
    let mut times = [0; TRIED.len()];
    for _ in 0..20_000 {
        let case = body_case(random, 0, usize::MAX);
        for (times, holds) in times.iter_mut().zip(tried(&case.frame, &case.body, case.room as usize)) {
            *times += usize::from(holds);
        }
    }
    for ((what, times), least) in TRIED.iter().zip(times).zip([800, 300, 100, 15, 50]) {
        report.compare(&format!("{what}: {times}"), times >= least, true);
    }
}

/// All of them.
pub fn check(report: &mut Report) {
    check_whole(report);
    check_places(report);
    check_signs(report);
    check_index(report);
    check_interferometer(report);
    check_close(report);
    check_tried(report);
}
