//! The ion mobility profile, by hand from 02, T-09, and the tables of 001.

use super::{file_with, Report};
use crate::file::read_file;
use crate::profile::{read_profile, WANTED};

/// Right texts of the fifteen, in 001's order.
const TEXTS: [&str; 15] = [
    "5.01",
    "ION MOBILITY SPECTRUM",
    "XYDATA",
    "ISAS Dortmund",
    "PUBLIC DOMAIN",
    "101.3",
    "air",
    "nitrogen",
    "+300, +300",
    "POSITIVE",
    "BR",
    "25",
    "300",
    "MILLISECONDS",
    "NANOAMPERES",
];

/// The records from, to, with one text changed.
fn rows(from: usize, to: usize, change: usize, text: &str) -> String {
    let row = |k: usize| format!("##{}={}\n", WANTED[k].label, if k == change { text } else { TEXTS[k] });
    (from..to).map(row).collect()
}

/// 01's file with these records before END.
fn file(records: &str) -> String {
    String::from_utf8(file_with("", "")).expect("ASCII").replace("##END", &format!("{records}##END"))
}

/// The answer: accepted, or on the page or not, number and place.
fn answer(file: &str, page: &str) -> Result<(), (bool, u32, usize)> {
    let read = read_profile(file.as_bytes(), page.as_bytes(), 4);
    read.map(|_| ()).map_err(|refused| (refused.on_page, refused.fault.number, refused.fault.place as usize))
}

/// The place of a piece of text.
fn place(text: &str, piece: &str) -> usize {
    text.find(piece).expect("the piece is there")
}

/// All in the file, all on the page, some in each; one absent.
fn check_places(report: &mut Report) {
    for split in 0..=15 {
        let file = file(&rows(0, split, 99, ""));
        let page = rows(split, 15, 99, "");
        report.compare(&format!("{split} in the file"), answer(&file, &page), Ok(()));
        if split < 15 {
            let end = place(&file, "##END");
            report.compare(&format!("{split}, no page"), answer(&file, ""), Err((false, 30, end)));
        }
    }
    let whole = file(&rows(0, 15, 99, ""));
    report.compare("a page is not looked at", answer(&whole, "##XUNITS=x\n##no equals"), Ok(()));
    let shown = read_profile(whole.as_bytes(), b"##OWNER=page\n", 4).expect("it is right").1;
    let owner = &shown[4];
    report.compare("shown in the file", &whole[owner.from..owner.to], "PUBLIC DOMAIN\n");
    let lacks = file(&rows(0, 4, 99, "")).replace("##END", &format!("{}##END", rows(5, 15, 99, "")));
    let page = "$$ site\n##TITLE=x\n##o-wner= first \n$$ more\n##faulty\nnot shown\n##OWNER=second\n";
    let shown = read_profile(lacks.as_bytes(), page.as_bytes(), 4).expect("it is right").1;
    report.compare("on the page", shown[4].on_page, true);
    report.compare("ended by a faulty label", &page[shown[4].from..shown[4].to], " first \n$$ more\n");
    report.compare("at the page's start", answer(&lacks, "##OWNER="), Ok(()));
    report.compare("not first on its line", answer(&lacks, "x##OWNER="), Err((false, 30, place(&lacks, "##END"))));
    report.compare("END on a page", answer(&lacks, "##END=\n##OWNER=x"), Ok(()));
    report.compare("empty in the file counts", answer(&file(&rows(0, 15, 4, "")), "##OWNER=x"), Ok(()));
}

/// Each listed word is right, also with blanks, line ends and comments around it; what it is not by one byte is 31.
fn check_words(report: &mut Report) {
    for (k, wanted) in WANTED.iter().enumerate() {
        for word in wanted.words {
            for right in
                [format!(" {word} $$ c"), format!("$$ c\n\t{word}"), format!("{word}$$"), format!("\r\n{word}\r\n ")]
            {
                report.compare(&right, answer(&file(&rows(0, 15, k, &right)), ""), Ok(()));
                let page = rows(k, k + 1, k, &right);
                let rest = rows(0, k, 99, "") + &rows(k + 1, 15, 99, "");
                report.compare(&right, answer(&file(&rest), &page), Ok(()));
            }
            let wrong = [
                format!("{word}X"),
                word[1..].into(),
                word.to_lowercase(),
                format!("{word} {word}"),
                format!("{word}\r"),
            ];
            for text in wrong.iter().filter(|text| !wanted.words.contains(&text.as_str()) && *text != word) {
                let whole = file(&rows(0, 15, k, text));
                let at = place(&whole, &format!("##{}=", wanted.label)) + wanted.label.len() + 3;
                // A CR before LF is part of the line end, and dropped.
                let expected = if text.ends_with('\r') { Ok(()) } else { Err((false, 31, at)) };
                report.compare(text, answer(&whole, ""), expected);
            }
        }
    }
}

/// Places of 31, in the file and on the page, at the word or the record's end; 30 before 31; both after 29.
fn check_order(report: &mut Report) {
    let whole = file(&rows(0, 15, 9, " $$ POSITIVE\n both $$ c"));
    report.compare("at the word", answer(&whole, ""), Err((false, 31, place(&whole, "both"))));
    let none = file(&rows(0, 15, 9, "$$ POSITIVE\n \t"));
    report.compare("record end", answer(&none, ""), Err((false, 31, place(&none, "##.IONIZATION"))));
    let lacks = file(&(rows(0, 9, 99, "") + &rows(10, 15, 99, "")));
    report.compare("page's end", answer(&lacks, "##.ION POLARITY=$$"), Err((true, 31, 18)));
    report.compare("on the page", answer(&lacks, "\n##.ION POLARITY=\n none"), Err((true, 31, 19)));
    let both = file(&rows(0, 14, 0, "4.24"));
    report.compare("30 before 31", answer(&both, ""), Err((false, 30, place(&both, "##END"))));
    let two = file(&rows(0, 15, 0, "4.24")).replace("NANOAMPERES", "VOLTS");
    report.compare("001's order", answer(&two, ""), Err((false, 31, place(&two, "4.24"))));
    let late = file("").replace("##FIRSTY=0", "##FIRSTY=7");
    report.compare("29 first", answer(&late, ""), Err((false, 29, place(&late, "##FIRSTY=") + 9)));
    let plain = read_file(late.as_bytes(), 4).err().map(|fault| fault.number);
    report.compare("as the plain reader", plain, Some(29));
}

/// All of them.
pub fn check(report: &mut Report) {
    check_places(report);
    check_words(report);
    check_order(report);
}
