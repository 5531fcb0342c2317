//! The ion mobility profile: fifteen records that 001 requires, from a file or from a site's page (02, T-09).

use crate::body::content;
use crate::file::{all_labels, is_blank, normalised, read_file, records, FileTable, Record, Records};
use crate::frame::{refusal, Refusal};

/// A record that the profile wants: its label, and the words that it may be, if 001 lists some.
pub struct Wanted {
    pub label: &'static str,
    pub words: &'static [&'static str],
}

/// The fifteen, in the order of 001's tables (3.1.2 to 3.1.6, 3.2.2 to 3.2.9, 3.3.1).
pub const WANTED: [Wanted; 15] = [
    Wanted { label: "JCAMP-DX", words: &["5.01"] },
    Wanted { label: "DATA TYPE", words: &["ION MOBILITY SPECTRUM"] },
    Wanted { label: "DATA CLASS", words: &["XYDATA"] },
    Wanted { label: "ORIGIN", words: &[] },
    Wanted { label: "OWNER", words: &[] },
    Wanted { label: ".IMS PRESSURE", words: &[] },
    Wanted { label: ".CARRIER GAS", words: &[] },
    Wanted { label: ".DRIFT GAS", words: &[] },
    Wanted { label: ".ELECTRIC FIELD", words: &[] },
    Wanted { label: ".ION POLARITY", words: &["POSITIVE", "NEGATIVE"] },
    Wanted { label: ".IONIZATION MODE", words: &["UV", "BR", "AL", "PD", "CD", "ESI", "LI", "LD", "SI", "SY"] },
    Wanted { label: ".IMS TEMPERATURE", words: &[] },
    Wanted { label: ".SHUTTER OPENING TIME", words: &[] },
    Wanted { label: "XUNITS", words: &["SECONDS", "MILLISECONDS", "MICROSECONDS", "NANOSECONDS"] },
    Wanted { label: "YUNITS", words: &["MICROAMPERES", "NANOAMPERES", "PICOAMPERES"] },
];

/// A refusal, and whether its place, line and column count in the page.
#[derive(Clone, Copy, Debug, PartialEq, Eq)]
pub struct ProfileRefusal {
    pub on_page: bool,
    pub fault: Refusal,
}

/// Where the text of a record is shown: on the page or in the file, from and to.
#[derive(Clone, Copy, Debug, PartialEq, Eq)]
pub struct Shown {
    pub on_page: bool,
    pub from: usize,
    pub to: usize,
}

/// The records of a site's page. Faulty labels are none, but end the text before them.
fn page_records(page: &[u8]) -> Records {
    let labels = all_labels(page);
    let ends = labels.iter().skip(1).map(|next| next.hashes).chain([page.len()]);
    let right = labels.iter().zip(ends).filter(|(label, _)| !label.is_faulty());
    Records { all: right.map(|(label, to)| label.record(to)).collect(), end: page.len() }
}

/// Where a word starts in a text, and the text from there on without what is dropped after it: blanks, line ends and
/// comments. None if there is no word.
fn word_in(text: &[u8]) -> Option<(usize, Vec<u8>)> {
    let lines: Vec<&[u8]> = text.split(|byte| *byte == b'\n').collect();
    let mut start = 0;
    let mut found: Option<(usize, Vec<u8>)> = None;
    for (k, line) in lines.iter().enumerate() {
        let said = content(line, k + 1 < lines.len());
        let first = said.iter().position(|byte| !is_blank(*byte));
        let last = said.iter().rposition(|byte| !is_blank(*byte));
        if let (Some(first), Some(last)) = (first, last) {
            let words = &said[first..=last];
            match &mut found {
                None => found = Some((start + first, words.to_vec())),
                Some((_, before)) => before.extend([b"\n", words].concat()),
            }
        }
        start += line.len() + 1;
    }
    found
}

/// Whether a text is one of the words, byte for byte; if not, where the word stands that it is, or the text's end.
fn judged(text: &[u8], words: &[&str]) -> Result<(), usize> {
    match word_in(text) {
        Some((_, word)) if words.iter().any(|listed| listed.as_bytes() == word) => Ok(()),
        Some((at, _)) => Err(at),
        None => Err(text.len()),
    }
}

/// Reads a file with the profile: as the plain reader does; then 30, then 31, each in 001's order of labels.
pub fn read_profile(file: &[u8], page: &[u8], room: usize) -> Result<(FileTable, Vec<Shown>), ProfileRefusal> {
    let in_file = |fault| ProfileRefusal { on_page: false, fault };
    let table = read_file(file, room).map_err(in_file)?;
    let own = records(file).map_err(in_file)?;
    let pages = page_records(page);
    let mut shown = Vec::new();
    for wanted in &WANTED {
        let name = normalised(wanted.label.as_bytes());
        let place = |record: &Record, on_page| Shown { on_page, from: record.from(), to: record.to() };
        let here = own.named(&name).map(|record| place(record, false));
        let there = pages.named(&name).map(|record| place(record, true));
        shown.push(here.or(there).ok_or(in_file(refusal(30, own.end)))?);
    }
    for (wanted, part) in WANTED.iter().zip(&shown).filter(|(wanted, _)| !wanted.words.is_empty()) {
        let text = if part.on_page { page } else { file };
        if let Err(at) = judged(&text[part.from..part.to], wanted.words) {
            return Err(ProfileRefusal { on_page: part.on_page, fault: refusal(31, part.from + at) });
        }
    }
    Ok((table, shown))
}
