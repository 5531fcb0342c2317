//! Whether F, L and FIRSTY's quotient are exact, by hand from 02, T-08.

use super::{file_with, Report};
use crate::file::{is_exact, quotient, read_file, Decimal, Exact};
use crate::random::Random;

/// A decimal.
fn decimal(mantissa: i128, exponent: i32) -> Decimal {
    Decimal { mantissa, exponent }
}

/// Dividend, divisor, places after the point, and whether the quotient is exact.
fn check_quotients(report: &mut Report) {
    let rows = [
        ((1, -3), (3, 0), 3, false),
        ((1, -3), (1, 0), 3, true),
        ((1, -99), (1, 99), 3, false),
        ((0, -99), (1, 99), 3, true),
        ((0, 99), (7, -99), 0, true),
        ((1, 99), (1, -99), 3, true),
        ((5, -4), (1, 0), 3, false),
        ((-15, -4), (1, 0), 3, false),
        ((5, -4), (5, -1), 3, true),
        ((500_000_000, -9), (1, 0), 0, false),
        ((500_000_000, -8), (1, 0), 0, true),
        ((100_000_000, -8), (1, 0), 0, true),
        ((100_000_000, -9), (1, 0), 0, false),
        ((100_000_000, -11), (1, 0), 3, true),
        ((999_999_999, 0), (999_999_999, 0), 0, true),
        ((999_999_999, 0), (333_333_333, 0), 0, true),
        ((1, 20), (3, 0), 0, false),
        ((1, 20), (524_288, 0), 0, true),
        ((1, 18), (524_288, 0), 0, false),
        ((-7, 0), (2, 0), 0, false),
        ((-8, 0), (2, 0), 0, true),
    ];
    for ((a, m), (b, n), places, exact) in rows {
        let found = is_exact(decimal(a, m), decimal(b, n), places);
        report.compare(&format!("{a}E{m} / {b}E{n}, {places} places"), found, exact);
    }
}

/// The three of a file.
fn exact_in(name: &str, text: &str) -> Option<Exact> {
    read_file(&file_with(name, text), 4).ok().map(|table| table.exact)
}

/// Files: one quotient of three is rounded, or none; FIRSTY that is not compared is exact.
fn check_files(report: &mut Report) {
    let three = |first, last, first_y| Some(Exact { first, last, first_y });
    report.compare("FIRSTX", exact_in("FIRSTX", "0.0004\n"), three(false, true, true));
    report.compare("LASTX", exact_in("LASTX", "3.0004\n"), three(true, false, true));
    report.compare("FIRSTY", exact_in("FIRSTY", "0.01\n"), three(true, true, false));
    report.compare("FIRSTY, half", exact_in("FIRSTY", "-0.05\n"), three(true, true, false));
    report.compare("XFACTOR", exact_in("XFACTOR", "0.9999999\n"), three(true, false, true));
    report.compare("YFACTOR", exact_in("YFACTOR", "7E+99\n"), three(true, true, true));
    let missing = "(X++(Y..Y))\n0?AAA\n##FIRSTY=0.01\n##NOTE=\n";
    let file = String::from_utf8(file_with("XYDATA", missing)).expect("ASCII").replacen("##FIRSTY=0\n", "", 1);
    let found = read_file(file.as_bytes(), 4).ok().map(|table| table.exact);
    report.compare("FIRSTY, missing", found, three(true, true, true));
}

/// Where a quotient is exact, it times the divisor is the dividend; where it is not, it is not.
fn check_products(report: &mut Report, random: &mut Random) {
    for _ in 0..20_000 {
        let number = |random: &mut Random| {
            let digits = 1 + random.below(9) as u32;
            i128::from(random.between(1, 10_i64.pow(digits) - 1))
        };
        let (above, below) = (decimal(number(random), random.between(-6, 6) as i32), decimal(number(random), 0));
        let places = random.pick(&[0, 3]);
        let Some(found) = quotient(above, below, places) else { continue };
        let scale = |n: i128, power: i32| n * 10i128.pow((power + 9) as u32);
        let product = scale(found * below.mantissa, 0);
        let dividend = scale(above.mantissa, above.exponent + places);
        report.compare(&format!("{above:?} {below:?}"), is_exact(above, below, places), product == dividend);
    }
}

/// All of them.
pub fn check(report: &mut Report) {
    check_quotients(report);
    check_files(report);
    check_products(report, &mut Random::new(13));
}
