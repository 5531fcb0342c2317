//! Compound files, by hand from 02, T-07, and 000, section 3; and data blocks cut out at random.

use super::{plain, Report};
use crate::cases::compound::compound_case;
use crate::compound::{survey, Survey};
use crate::file::{read_file, FileTable, RecordText};
use crate::frame::Refusal;
use crate::random::Random;

/// A data block with this title: the table of 01's sample without its first lines.
fn data(title: &str) -> String {
    let numbers = "##XFACTOR=1\n##YFACTOR=0.1\n##FIRSTX=0\n##LASTX=3\n##NPOINTS=4\n##FIRSTY=0\n";
    format!("##TITLE={title}\n{numbers}##XYDATA=(X++(Y..Y))\n0@Jj%\n3@\n##END=\n")
}

/// A LINK block with these records after DATA TYPE, and these blocks.
fn link(records: &str, blocks: &str) -> String {
    format!("##TITLE=link\n##DATA TYPE=LINK\n{records}{blocks}##END=\n")
}

/// What a survey found: how many blocks of a compound file, 1 of a simple one, or the refusal.
fn found(file: &str) -> Result<(bool, usize), (u32, usize)> {
    let answer = survey(file.as_bytes()).map(|found| (found.is_compound(), found.blocks()));
    plain(answer)
}

/// The place of a piece of text, from the end.
fn last(file: &str, piece: &str) -> usize {
    file.rfind(piece).expect("the piece is there")
}

/// So many LINK blocks one in the other, and a data block in the innermost.
fn nested(depth: usize) -> String {
    let mut file = data("inner");
    for level in (0..depth).rev() {
        file = link(if level == 0 { "##BLOCKS=1\n" } else { "" }, &file);
    }
    file
}

/// Counts, depths, and where BLOCKS stands.
fn check_counts(report: &mut Report) {
    let two = data("a") + &data("b");
    let rows = [
        (data("alone"), Ok((false, 1))),
        (link("##BLOCKS=2\n", &two), Ok((true, 2))),
        (link("", &format!("{}##BLOCKS=2\n{}", data("a"), data("b"))), Ok((true, 2))),
        (link("", &format!("{two}##BLOCKS= 002 $$ two\n")), Ok((true, 2))),
        (link("##BLOCKS=0\n", ""), Ok((true, 0))),
        (link("##BLOCKS=3\n", &(link("##BLOCKS=9\n", &two) + &data("c"))), Ok((true, 3))),
        (link("##BLOCKS=0\n", &link("", "")), Ok((true, 0))),
        (nested(7), Ok((true, 1))),
    ];
    for (file, expected) in rows {
        report.compare(&file, found(&file), expected);
    }
    let deep = nested(8);
    report.compare("depth nine", found(&deep), Err((24, last(&deep, "##TITLE=inner"))));
}

/// LINK: how it is said, and what a TITLE meets where it is not.
fn check_links(report: &mut Report) {
    let inner = data("inner");
    let file = |text: &str| format!("##TITLE=x\n##BLOCKS=1\n##data_type={text}\n{inner}##END=\n");
    for text in ["LINK", " LINK \t", "LINK$$", "\r\n$$ c\r\nLINK $$ LINK\r\n \r", "$$\n\n\tLINK"] {
        report.compare(text, found(&file(text)), Ok((true, 1)));
    }
    for text in ["link", "LINKS", "LINK LINK", "LINK\nLINK", "", "$$LINK", "LI$$NK", "LINK\r ", "$LINK"] {
        let file = file(text);
        report.compare(text, found(&file), Err((24, last(&file, "##TITLE=inner"))));
    }
    let late = format!("##TITLE=x\n##BLOCKS=1\n{inner}##DATA TYPE=LINK\n##END=\n");
    report.compare("said late", found(&late), Err((24, last(&late, "##TITLE=inner"))));
    let in_data = link("##BLOCKS=1\n", &inner.replace("##END", "##TITLE=again\n##END"));
    report.compare("in a data block", found(&in_data), Err((24, last(&in_data, "##TITLE=again"))));
}

/// Labels are compared within their own block; 20, 22 and 23 in compound files.
fn check_labels(report: &mut Report) {
    let inner = data("inner");
    let twice = link("##BLOCKS=1\n##OWNER=a\n", &format!("{inner}##owner=b\n"));
    report.compare("twice in a block", found(&twice), Err((23, last(&twice, "##owner"))));
    let apart = link("##BLOCKS=1\n##XFACTOR=9\n", &format!("{inner}##NPOINTS=7\n"));
    report.compare("in two blocks", found(&apart), Ok((true, 1)));
    let empty = link("##BLOCKS=1\n##=\n##=\n", &inner);
    report.compare("empty names", found(&empty), Ok((true, 1)));
    let again = link("##BLOCKS=1\n", &inner).replace("##END=\n##END=\n", "##END=\n##DATA TYPE=LINK\n##END=\n");
    report.compare("LINK twice", found(&again), Err((23, last(&again, "##DATA TYPE"))));
    let open = link("##BLOCKS=1\n", &inner.replace("##END=\n", ""));
    report.compare("no END", found(&open), Err((22, open.len())));
    let bare = link("##BLOCKS=1\n", &format!("{inner}##NONE\n"));
    report.compare("no =", found(&bare), Err((20, last(&bare, "##NONE"))));
    let after = link("##BLOCKS=1\n", &inner) + "##NONE\n##TITLE=";
    report.compare("after END", found(&after), Ok((true, 1)));
}

/// 33 at the later label, and after 23 at the same one; 25 and 32.
fn check_refusals(report: &mut Report) {
    let inner = data("inner");
    let after = link("##BLOCKS=1\n##XYDATA=\n", &inner);
    report.compare("33 at XYDATA", found(&after), Err((33, after.find("##XYDATA").unwrap())));
    let before = format!("##TITLE=x\n##XYDATA=(X++(Y..Y))\n##A=\n##DATA TYPE=LINK\n{inner}##END=\n");
    report.compare("33 at DATA TYPE", found(&before), Err((33, last(&before, "##DATA TYPE"))));
    let simple = "##TITLE=x\n##XYDATA=\n##DATA TYPE=LINKS\n##END=\n";
    report.compare("no LINK", found(simple), Ok((false, 1)));
    let both = format!("##TITLE=x\n##DATA TYPE=\n##XYDATA=\n##DATA TYPE=LINK\n{inner}##END=\n");
    report.compare("23 before 33", found(&both), Err((23, last(&both, "##DATA TYPE"))));
    let absent = link("", &inner);
    report.compare("25", found(&absent), Err((25, last(&absent, "##END"))));
    let inside = link("", &inner.replace("##END", "##BLOCKS=1\n##END"));
    report.compare("25, in an inner block", found(&inside), Err((25, last(&inside, "##END"))));
    for text in [" 2", " +1", " 1.", " $$1", " 1 1", " 0000000000001", " one"] {
        let file = link(&format!("##BLOCKS={text}\n"), &inner);
        report.compare(text, found(&file), Err((32, file.find("##BLOCKS=").unwrap() + 10)));
    }
    let none = link("##BLOCKS= \n", &inner);
    report.compare("32, no number", found(&none), Err((32, none.find("##TITLE=inner").unwrap())));
}

/// Answers in place: their places, lines and columns, and the texts of records.
fn check_answers(report: &mut Report) {
    let file =
        link("##BLOCKS=3\n", &(data("a") + &data("b").replace("0@Jj%", "0@J!%") + &data("c").replace("=4", "=0")));
    let bytes = file.as_bytes();
    let blocks = survey(bytes).ok().expect("it is not refused");
    let answer = |k: usize| blocks.read(bytes, k, 4).map(|answer| plain(answer.map(|table| table.ordinates)));
    report.compare("accepted", answer(0), Some(Ok(vec![0, 1, 0, 0])));
    report.compare("3 in place", answer(1), Some(Err((3, last(&file, "!%")))));
    report.compare("1 at 0", answer(2), Some(Err((1, 0))));
    report.compare("no block", answer(3), None);
    let told = blocks.read(bytes, 1, 4).and_then(Result::err).map(|fault: Refusal| fault.told(bytes).line);
    report.compare("line", told, Some(23));
    let title = |k: usize| blocks.record(bytes, k, b"title");
    let at = file.find("##TITLE=b").unwrap() as u64 + 8;
    report.compare("title", title(1), Some(RecordText::Part(at, at + 2)));
    report.compare("absent", blocks.record(bytes, 1, b"BLOCKS"), Some(RecordText::Absent));
    report.compare("none", title(3), None);
    let absent = link("##BLOCKS=1\n", &data("a").replace("##NPOINTS=4\n", ""));
    let fault = survey(absent.as_bytes()).ok().and_then(|found| found.read(absent.as_bytes(), 0, 4));
    let end = absent.find("##END").unwrap();
    report.compare("25 in a block", fault.map(|answer| plain(answer.map(|t| t.points))), Some(Err((25, end))));
}

/// What a block's answer is when it is read by itself, its place shifted (1 and 2 at 0).
fn shifted(answer: Result<FileTable, Refusal>, from: usize) -> Result<FileTable, Refusal> {
    answer
        .map_err(|fault| if fault.number <= 2 { fault } else { Refusal { place: fault.place + from as u64, ..fault } })
}

/// Random compound files: a data block cut out reads as it does in place, blocks rise, and a file that is one data block
/// keeps its old answers.
fn check_cuts(report: &mut Report) {
    let random = &mut Random::new(11);
    let (mut cut, mut accepted) = (0, 0);
    for _ in 0..6_000 {
        let case = compound_case(random, 0, usize::MAX);
        let (file, room) = (&case.file, case.room as usize);
        let name = format!("{}", file.escape_ascii());
        match survey(file) {
            Ok(blocks @ Survey::Compound(_)) => {
                let mut before = 0;
                for k in 0..blocks.blocks() {
                    let (from, to) = blocks.extent(k).expect("the block is there");
                    let found = blocks.read(file, k, room).expect("the block is there");
                    report.compare(&name, from >= before, true);
                    report.compare(&name, &shifted(read_file(&file[from..to], room), from), &found);
                    before = to;
                    cut += 1;
                    accepted += usize::from(found.is_ok());
                }
            }
            Ok(one) => report.compare(&name, one.read(file, 0, room), Some(read_file(file, room))),
            Err(_) => {}
        }
    }
    report.compare(&format!("{cut} cut, {accepted} accepted"), cut > 3_000 && accepted > 2_000, true);
}

/// All of them.
pub fn check(report: &mut Report) {
    check_counts(report);
    check_links(report);
    check_labels(report);
    check_refusals(report);
    check_answers(report);
    check_cuts(report);
}
