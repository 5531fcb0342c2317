//! Files written by us, by hand from 02, T-04; each is also read back.

use super::{plain, Report, X};
use crate::cases::written_files::written_file_case;
use crate::file::read_file;
use crate::file_text::{Given, Scales};
use crate::file_tried::{tried, TRIED};
use crate::random::Random;
use crate::stream::WrittenFileCase;
use crate::text::LONGEST_LINE;

/// The lines of the file of 0 1 0 0 with YFACTOR 0.1: 19, 17, 17, 16, 15, 13, 16, 22, 7, 4 and 8 bytes with CR LF.
/// Labels in 02's order, each decimal a mantissa, `E`, a sign and two digits; then 01's body and END.
const ONE_COUNT: [&str; 11] = [
    "##TITLE=one count",
    "##XFACTOR=1E+00",
    "##YFACTOR=1E-01",
    "##FIRSTX=0E+00",
    "##LASTX=3E+00",
    "##NPOINTS=4",
    "##FIRSTY=0E+00",
    "##XYDATA=(X++(Y..Y))",
    "0@Jj%",
    "3@",
    "##END=",
];

/// Its length.
const LENGTH: u32 = 154;

/// The places of the five decimals among its lines, in the order of `Scales`.
const DECIMALS: [usize; 5] = [1, 2, 3, 4, 6];

/// A decimal of the caller.
fn given(mantissa: i64, exponent: i64) -> Given {
    Given { mantissa, exponent }
}

/// What the caller gives for that file, with exactly its room.
fn one_count() -> WrittenFileCase {
    let scales = Scales::of([given(1, 0), given(1, -1), given(0, 0), given(3, 0), given(0, 0)]);
    WrittenFileCase { title: b"one count".to_vec(), points: 4, scales, ordinates: vec![0, 1, 0, 0], room: LENGTH }
}

/// The same with other decimals, given by their places in `Scales`, and with room for any of them.
fn scaled(changes: &[(usize, Given)]) -> WrittenFileCase {
    let mut list = one_count().scales.list();
    changes.iter().for_each(|(at, decimal)| list[*at] = *decimal);
    WrittenFileCase { scales: Scales::of(list), room: 999, ..one_count() }
}

/// The text of that file with some of its lines replaced.
fn lines_with(changes: &[(usize, &str)]) -> String {
    let mut lines = ONE_COUNT;
    changes.iter().for_each(|(at, line)| lines[*at] = line);
    lines.iter().map(|line| format!("{line}\r\n")).collect()
}

/// Compares an answer; a text that is written is read back as N, F, L and the ordinates, and has no line over 80 bytes.
fn compare(report: &mut Report, what: &str, case: &WrittenFileCase, expected: Result<String, u32>) {
    let answer = case.answer();
    if let Ok(written) = &answer {
        report.compare(what, plain(read_file(&written.text, case.points as usize)), Ok(case.table(written)));
        let long = written.text.split(|byte| *byte == b'\n').any(|line| line.len() > LONGEST_LINE + 1);
        report.compare(what, long, false);
    }
    let text = answer.map(|written| String::from_utf8(written.text).expect("a title of ASCII"));
    report.compare(what, plain(text), expected.map_err(|number| (number, 0)));
}

/// The file itself, byte for byte, with as much room as it takes, with more, and with less; ordinates past N.
fn check_one_count(report: &mut Report) {
    let text = b"##TITLE=one count\r\n##XFACTOR=1E+00\r\n##YFACTOR=1E-01\r\n##FIRSTX=0E+00\r\n##LASTX=3E+00\r\n\
        ##NPOINTS=4\r\n##FIRSTY=0E+00\r\n##XYDATA=(X++(Y..Y))\r\n0@Jj%\r\n3@\r\n##END=\r\n";
    let written = one_count().answer().map(|written| (written.text, written.frame.first, written.frame.last));
    report.compare("one count", plain(written), Ok((text.to_vec(), 0, 3000)));
    report.compare("its length", text.len(), LENGTH as usize);
    for (room, expected) in [(LENGTH, Ok(lines_with(&[]))), (LENGTH + 1, Ok(lines_with(&[]))), (LENGTH - 1, Err(15))] {
        compare(report, "room", &WrittenFileCase { room, ..one_count() }, expected);
    }
    compare(report, "no room", &WrittenFileCase { room: 0, ..one_count() }, Err(15));
    let more = WrittenFileCase { ordinates: vec![0, 1, 0, 0, 9, X], ..one_count() };
    compare(report, "more ordinates than N", &more, Ok(lines_with(&[])));
}

/// Titles that are written and titles that are not.
fn check_titles(report: &mut Report) {
    let x = |count: usize| "x".repeat(count);
    let right = ["", " ", " a ", "~", "$", "$ $", "$=$", "##", "##END=", " ##TITLE=x", "=", "a=b", "(X++(Y..Y))", "0A"];
    let long = [x(72), x(71) + "$", x(70) + "##", " ".repeat(72)];
    for title in right.iter().map(|title| title.to_string()).chain(long) {
        let case = WrittenFileCase { title: title.clone().into_bytes(), room: 999, ..one_count() };
        compare(report, &title, &case, Ok(lines_with(&[(0, &format!("##TITLE={title}"))])));
    }
    let wrong = ["$$", "a$$", "$$b", "a $$ b", "$$$", "\x1f", "\x7f", "\t", "a\r", "a\nb", "\0", "\u{a0}"];
    for title in wrong.iter().map(|title| title.to_string()).chain([x(73), x(145), " ".repeat(73), x(70) + "$$"]) {
        let case = WrittenFileCase { title: title.clone().into_bytes(), room: 999, ..one_count() };
        compare(report, &title, &case, Err(37));
    }
    for byte in 0..=255 {
        let case = WrittenFileCase { title: vec![byte], room: 999, ..one_count() };
        report.compare("a byte", case.answer().is_ok(), (32..=126).contains(&byte));
    }
}

/// Decimals as given, spelled one way; the table is still that of F = 0, L = 3000.
fn check_spellings(report: &mut Report) {
    let rows = [
        (0, given(10, -1), "##XFACTOR=10E-01"),
        (0, given(100_000_000, -8), "##XFACTOR=100000000E-08"),
        (1, given(100, -3), "##YFACTOR=100E-03"),
        (1, given(999_999_999, 99), "##YFACTOR=999999999E+99"),
        (1, given(1, -99), "##YFACTOR=1E-99"),
        (2, given(0, 7), "##FIRSTX=0E+07"),
        (2, given(0, -7), "##FIRSTX=0E-07"),
        (2, given(0, 99), "##FIRSTX=0E+99"),
        (2, given(1, -99), "##FIRSTX=1E-99"),
        (2, given(-1, -99), "##FIRSTX=-1E-99"),
        (2, given(-5, -4), "##FIRSTX=-5E-04"),
        (3, given(3000, -3), "##LASTX=3000E-03"),
        (3, given(299_999_999, -8), "##LASTX=299999999E-08"),
        (4, given(0, -99), "##FIRSTY=0E-99"),
        (4, given(-5, -2), "##FIRSTY=-5E-02"),
        (4, given(499_999_999, -10), "##FIRSTY=499999999E-10"),
    ];
    for (at, decimal, line) in rows {
        compare(report, line, &scaled(&[(at, decimal)]), Ok(lines_with(&[(DECIMALS[at], line)])));
    }
    for (exponent, word) in [(99, "E+99"), (-99, "E-99"), (12, "E+12"), (-1, "E-01"), (0, "E+00")] {
        let case = scaled(&[(0, given(1, exponent)), (2, given(0, exponent)), (3, given(3, exponent))]);
        let (factor, first, last) = (format!("1{word}"), format!("0{word}"), format!("3{word}"));
        let lines = [format!("##XFACTOR={factor}"), format!("##FIRSTX={first}"), format!("##LASTX={last}")];
        compare(report, word, &case, Ok(lines_with(&[(1, &lines[0]), (3, &lines[1]), (4, &lines[2])])));
    }
}

/// Other frames: below zero and falling, F rounded with halves to the larger, the farthest of nine digits, N = 1.
fn check_frames(report: &mut Report) {
    let falling = scaled(&[(2, given(-15, -1)), (3, given(-3, 0))]);
    let changes = [(3, "##FIRSTX=-15E-01"), (4, "##LASTX=-3E+00"), (8, "-1.5@Jj%"), (9, "-3@")];
    compare(report, "falling", &falling, Ok(lines_with(&changes)));
    let half = scaled(&[(0, given(2, 0)), (2, given(1, -3)), (3, given(-3, -3))]);
    let changes =
        [(1, "##XFACTOR=2E+00"), (3, "##FIRSTX=1E-03"), (4, "##LASTX=-3E-03"), (8, "0.001@Jj%"), (9, "-0.001@")];
    compare(report, "F = 0.5, L = -1.5 thousandths", &half, Ok(lines_with(&changes)));
    let far = scaled(&[(2, given(-999_999_999, -2)), (3, given(999_999_999, -2))]);
    let changes =
        [(3, "##FIRSTX=-999999999E-02"), (4, "##LASTX=999999999E-02"), (8, "-9999999.99@Jj%"), (9, "9999999.99@")];
    compare(report, "far", &far, Ok(lines_with(&changes)));
    let five = given(5, 0);
    let one = WrittenFileCase { points: 1, ordinates: vec![-2_147_483_647], ..scaled(&[(2, five), (3, five)]) };
    let y = [given(3, 0), given(-644_245_094, 1)];
    let one = WrittenFileCase { scales: Scales { y_factor: y[0], first_y: y[1], ..one.scales }, ..one };
    let lines = ["##TITLE=one count", "##XFACTOR=1E+00", "##YFACTOR=3E+00", "##FIRSTX=5E+00", "##LASTX=5E+00"];
    let rest = ["##NPOINTS=1", "##FIRSTY=-644245094E+01", "##XYDATA=(X++(Y..Y))", "5b147483647", "##END=", ""];
    compare(report, "N = 1", &one, Ok([&lines[..], &rest[..]].concat().join("\r\n")));
    let apart = WrittenFileCase { scales: Scales { last_x: given(5001, -3), ..one.scales }, ..one };
    compare(report, "N = 1, F not L", &apart, Err(1));
}

/// 26 for each of the five decimals, at the limits and beyond, and for factors that do not exceed zero.
fn check_decimals(report: &mut Report) {
    let wrong = [1_000_000_000, -1_000_000_000, 1 << 32, (1 << 32) + 1, i64::MAX, i64::MIN, i64::MIN + 1];
    let powers = [100, -100, 256, -256, 1 << 32, i64::MAX, i64::MIN, i64::MIN + 1];
    for at in 0..5 {
        for decimal in wrong.map(|mantissa| given(mantissa, 0)).into_iter().chain(powers.map(|power| given(1, power))) {
            compare(report, &format!("{at} {decimal:?}"), &scaled(&[(at, decimal)]), Err(26));
        }
        compare(report, "zero, exponent 100", &scaled(&[(at, given(0, 100))]), Err(26));
    }
    for (at, mantissa) in [(0, 0), (0, -1), (1, 0), (1, -1), (1, -999_999_999)] {
        compare(report, "factor", &scaled(&[(at, given(mantissa, 0))]), Err(26));
    }
    // Nine digits and an exponent of 99 are no 26: the quotients decide.
    compare(report, "99", &scaled(&[(2, given(999_999_999, 99))]), Err(28));
    compare(report, "-99", &scaled(&[(3, given(-999_999_999, -99))]), Err(1));
    compare(report, "99 in FIRSTY", &scaled(&[(4, given(1, 99))]), Err(29));
}

/// 28, 1, 2 and 29, each at its edge.
fn check_refusals(report: &mut Report) {
    for (at, decimal) in [(2, given(1, 7)), (3, given(1, 7)), (2, given(-1, 7)), (3, given(-10, 6)), (3, given(1, 99))]
    {
        compare(report, "28", &scaled(&[(at, decimal)]), Err(28));
    }
    compare(report, "28, factor", &scaled(&[(0, given(1, -99)), (2, given(1, 99))]), Err(28));
    compare(report, "F = L", &scaled(&[(3, given(0, 0))]), Err(1));
    compare(report, "F = L, rounded", &scaled(&[(2, given(29_999, -4)), (3, given(30_004, -4))]), Err(1));
    for points in [0, 65_537, 1 << 32, (1 << 32) + 4, u64::MAX] {
        compare(report, "N", &WrittenFileCase { points, ..one_count() }, Err(1));
    }
    for (points, count) in [(5, 4), (4, 3), (4, 0), (65_536, 65_535)] {
        compare(report, "2", &WrittenFileCase { points, ordinates: vec![0; count], ..one_count() }, Err(2));
    }
    for first_y in [given(5, -2), given(-51, -3), given(1, -1), given(-1, 0), given(999_999_999, 99)] {
        compare(report, "29", &scaled(&[(4, first_y)]), Err(29));
    }
    for first_y in [given(0, 0), given(-999_999_999, 99), given(7, -99)] {
        let case = WrittenFileCase { ordinates: vec![X, 1, 0, 0], ..scaled(&[(4, first_y)]) };
        let sign = if first_y.exponent < 0 { '-' } else { '+' };
        let line = format!("##FIRSTY={}E{sign}{:02}", first_y.mantissa, first_y.exponent.abs());
        compare(report, "first missing", &case, Ok(lines_with(&[(6, &line), (8, "0?Aj%")])));
    }
    let case = WrittenFileCase { ordinates: vec![X, 1, 0, 0], ..scaled(&[(4, given(1_000_000_000, 0))]) };
    compare(report, "first missing, 26", &case, Err(26));
}

/// Puts the fault with this number into what the caller gives; each leaves the others as they are.
fn with_fault(case: WrittenFileCase, number: u32) -> WrittenFileCase {
    let scales = case.scales;
    match number {
        37 => WrittenFileCase { title: b"$$".to_vec(), ..case },
        26 => WrittenFileCase { scales: Scales { y_factor: given(0, 0), ..scales }, ..case },
        28 => WrittenFileCase { scales: Scales { last_x: given(1, 7), ..scales }, ..case },
        1 => WrittenFileCase { points: 65_537, ..case },
        2 => WrittenFileCase { ordinates: vec![0, 1, 0], ..case },
        29 => WrittenFileCase { scales: Scales { first_y: given(1, 0), ..scales }, ..case },
        _ => WrittenFileCase { room: LENGTH - 1, ..case },
    }
}

/// The order of the refusals: of any of the seven faults at once the first in it is answered.
fn check_order(report: &mut Report) {
    let order = [37, 26, 28, 1, 2, 29, 15];
    for set in 0..1 << order.len() {
        let faults: Vec<u32> = (0..order.len()).filter(|k| set >> k & 1 == 1).map(|k| order[k]).collect();
        let case = faults.iter().fold(one_count(), |case, number| with_fault(case, *number));
        let expected = faults.first().map_or(Ok(lines_with(&[])), |number| Err(*number));
        compare(report, &format!("{faults:?}"), &case, expected);
    }
}

/// Random files: those written are read back, and 15 bytes for each point and 297 more hold them (44 of a body's text,
/// as include/lastarunc.h has it, and 253 of the longest records).
fn check_random(report: &mut Report, random: &mut Random) {
    for _ in 0..20_000 {
        let case = written_file_case(random, 0, usize::MAX);
        let text = case.answer().map(|written| String::from_utf8(written.text).expect("a title of ASCII"));
        if let Ok(text) = &text {
            report.compare("15 N + 297", text.len() <= 15 * case.points as usize + 297, true);
        }
        compare(report, &format!("{case:?}"), &case, text.map_err(|fault| fault.number));
    }
}

/// Of 20,000 random files each answer has 500 or more, and each thing that is counted 50.
fn check_often(report: &mut Report) {
    let random = &mut Random::new(8);
    let order = [0, 37, 26, 28, 1, 2, 29, 15];
    let (mut answers, mut things) = ([0; 8], [0; TRIED.len()]);
    for _ in 0..20_000 {
        let case = written_file_case(random, 0, usize::MAX);
        let number = case.answer().map_or_else(|fault| fault.number, |_| 0);
        answers[order.iter().position(|known| *known == number).expect("a number of 02")] += 1;
        things.iter_mut().zip(tried(&case)).for_each(|(times, holds)| *times += usize::from(holds));
    }
    report.compare(&format!("answers: {answers:?}"), answers.iter().all(|times| *times >= 500), true);
    report.compare(&format!("tried: {things:?}"), things.iter().all(|times| *times >= 50), true);
}

/// All of these.
pub fn check(report: &mut Report, random: &mut Random) {
    check_one_count(report);
    check_titles(report);
    check_spellings(report);
    check_frames(report);
    check_decimals(report);
    check_refusals(report);
    check_order(report);
    check_random(report, random);
    check_often(report);
}
