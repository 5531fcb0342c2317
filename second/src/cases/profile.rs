//! Random files with a site's page beside them, for the ion mobility profile (02, T-09).

use super::files::{self, around, free_text, spelled_name};
use super::spell::{self, passed_over, Style};
use super::{damage, large_cases};
use crate::file::all_labels;
use crate::profile::{Wanted, WANTED};
use crate::random::Random;
use crate::stream::ProfileCase;

/// One profile case: a file, mostly right, and a page; the fifteen records stand in the one, the other, both or none.
pub fn profile_case(random: &mut Random, index: usize, cases: usize) -> ProfileCase {
    let style = spell::style(random);
    let points = if index + large_cases(cases) >= cases { 2_000 } else { 1 + random.below(6) };
    let faults = random.once_in(12);
    let (mut file, _) = files::file(random, points, faults);
    let mut page = Vec::new();
    if random.once_in(3) {
        passed_over(random, &style, &mut page);
        page.extend(random.pick(&[&b""[..], b"words\n", b"##\n", b"##no equals\n", b" ##TITLE=page\n"]));
    }
    let (absent, damaged) = (random.once_in(6), random.once_in(3));
    let slip = random.below(WANTED.len());
    for (k, wanted) in WANTED.iter().enumerate() {
        let wrong = damaged && k == slip;
        let right = record(random, &style, wanted, wrong);
        match random.below(if absent && k == slip { 24 } else { 12 }) {
            0..=5 => insert(random, &mut file, right),
            6..=9 => page.extend(right),
            10 | 11 => {
                insert(random, &mut file, right);
                let odd = random.once_in(2);
                page.extend(record(random, &style, wanted, odd));
            }
            _ => {}
        }
        page.extend(between(random, wanted));
    }
    if random.once_in(30) {
        damage::damage(random, &mut page);
    }
    ProfileCase { file, page, room: points as u32 + random.below(2) as u32 }
}

/// What may stand on a page beside the records that are wanted: others, faulty labels, the same again.
fn between(random: &mut Random, wanted: &Wanted) -> Vec<u8> {
    if random.below(8) != 0 {
        return Vec::new();
    }
    let again = format!("##{}=again\n", wanted.label).into_bytes();
    random
        .pick(&[&b"##NOTE=x\n"[..], b"##END=\n", b" ##faulty\n", b"##TITLE=y\n", b"##=\n", b"##XYDATA=\n", &again])
        .to_vec()
}

/// The text of a record: a listed word with blanks, line ends and comments around it, or any text; if it is to be wrong,
/// a word with a byte more, less or other, or none.
fn random_word(random: &mut Random, style: &Style, wanted: &Wanted, wrong: bool) -> Vec<u8> {
    if wanted.words.is_empty() {
        return if random.once_in(6) { b"\n".to_vec() } else { free_text(random, style) };
    }
    let mut word = random.pick(wanted.words).as_bytes().to_vec();
    if wrong {
        let at = random.below(word.len());
        match random.below(8) {
            0 => word.push(random.pick(b"xS .$\r1")),
            1 => drop(word.remove(at)),
            2 => word[at] = random.byte(),
            3 => word.make_ascii_lowercase(),
            4 => word.clear(),
            5 => word = [&word[..], b" ", &word].concat(),
            6 => word.insert(at, random.pick(b" $\t-")),
            _ => word = [&word[..], b"\n", &word].concat(),
        }
    }
    around(random, style, &word)
}

/// A record on lines of its own; its word may be wrong.
fn record(random: &mut Random, style: &Style, wanted: &Wanted, wrong: bool) -> Vec<u8> {
    let name = spelled_name(random, wanted.label.as_bytes());
    [b"##".to_vec(), name, b"=".to_vec(), random_word(random, style, wanted, wrong)].concat()
}

/// Puts a record before one of the file's labels, not before TITLE; one that the file has already stays as it is.
fn insert(random: &mut Random, file: &mut Vec<u8>, record: Vec<u8>) {
    let new = all_labels(&record);
    let labels = all_labels(file);
    if labels.len() < 2 || labels.iter().any(|label| label.name == new[0].name) && random.below(40) != 0 {
        return;
    }
    let label = &labels[1 + random.below(labels.len() - 1)];
    drop(file.splice(label.hashes..label.hashes, record));
}
