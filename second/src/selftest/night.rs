//! The night's report, by hand from 02, T-11.

use super::Report;
use crate::cases::spools::{record, steady};
use crate::frame::MISSING;
use crate::night::{account, report, Account, Totals};

/// What ordinates hold: points, missing, lowest, highest, sum, faintest.
fn check_accounts(report: &mut Report) {
    let most = 2_147_483_647;
    let rows: [(&[i32], (u64, Option<i64>, Option<i64>, i64, Option<i64>)); 7] = [
        (&[0, 1, -2, 3], (0, Some(-2), Some(3), 2, Some(1))),
        (&[MISSING, -5, MISSING], (2, Some(-5), Some(-5), -5, Some(5))),
        (&[0, 0, MISSING], (1, Some(0), Some(0), 0, None)),
        (&[MISSING, MISSING], (2, None, None, 0, None)),
        (&[most, most], (0, Some(most.into()), Some(most.into()), 4_294_967_294, Some(most.into()))),
        (&[-most, MISSING, -1], (1, Some(-2_147_483_647), Some(-1), -2_147_483_648, Some(1))),
        (&[7], (0, Some(7), Some(7), 7, Some(7))),
    ];
    for (ordinates, (missing, lowest, highest, sum, faintest)) in rows {
        let expected = Account { points: ordinates.len() as u64, missing, lowest, highest, sum, faintest };
        report.compare(&format!("account of {ordinates:?}"), account(ordinates), expected);
    }
}

/// How a spool ends, after so many files.
fn check_ends(report_to: &mut Report) {
    let one = record(&steady(2, 5));
    let rows: [(Vec<u8>, usize, Option<(u32, u64)>); 14] = [
        (b"".to_vec(), 0, None),
        (one.clone(), 1, None),
        (record(b""), 1, None),
        (b"JD\0\0".to_vec(), 0, Some((35, 0))),
        (b"J".to_vec(), 0, Some((35, 0))),
        (b"XXXX".to_vec(), 0, Some((35, 0))),
        (b"DJ\0\0\0".to_vec(), 0, Some((34, 0))),
        (b"JX\xff\xff\xff".to_vec(), 0, Some((34, 0))),
        (b"JD\0\0\x01".to_vec(), 0, Some((35, 0))),
        (b"JD\x01\0\0##TITLE=".to_vec(), 0, Some((35, 0))),
        ([&one[..], b"JD\0\0\x02x"].concat(), 1, Some((35, one.len() as u64))),
        (record(b"x").repeat(1_000), 1_000, None),
        (record(b"x").repeat(1_001), 1_000, Some((36, 6_000))),
        ([record(b"x").repeat(1_000), b"?".to_vec()].concat(), 1_000, Some((36, 6_000))),
    ];
    for (spool, files, ended) in rows {
        let night = report(&spool, 16);
        let name = format!("spool of {} bytes", spool.len());
        report_to.compare(&name, night.reports.len(), files);
        report_to.compare(&name, night.ended.err().map(|fault| (fault.number, fault.place)), ended);
    }
}

/// Totals are over accepted files, and stand after a refusal of the spool too; the length's high byte is first.
fn check_totals(report_to: &mut Report) {
    let files = [steady(2, 5), b"no file".to_vec(), steady(65_536, -2_147_483_647), steady(9, 1)];
    let spool: Vec<u8> = files.iter().flat_map(|file| record(file)).chain(*b"JD").collect();
    let night = report(&spool, 65_536);
    let sum = 5 - 65_535 * 2_147_483_647 + 8;
    report_to.compare("totals", night.totals, Totals { files: 3, points: 65_547, missing: 0, sum });
    report_to.compare("its end", night.ended.err().map(|fault| fault.number), Some(35));
    let second = night.reports[1].outcome.as_ref().err().map(|fault| (fault.number, fault.place));
    report_to.compare("a refused file", second, Some((21, 0)));
    let small = report(&spool, 9);
    report_to.compare("small room", small.totals, Totals { files: 2, points: 11, missing: 0, sum: 13 });
    let long = [&b"JD\0\x01\x02"[..], &[b'x'; 258], &record(&steady(2, 3))].concat();
    report_to.compare("high byte first", report(&long, 4).totals.sum, 3);
}

/// All of them.
pub fn check(report: &mut Report) {
    check_accounts(report);
    check_ends(report);
    check_totals(report);
}
