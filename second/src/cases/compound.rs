//! Random compound files: blocks within blocks, right and wrong (02, T-07).

use super::files::{self, around, free_text, spelled_name, UNKNOWN};
use super::spell::{self, blanks, line_end, passed_over, Style};
use super::{damage, large_cases};
use crate::compound::{survey, Survey};
use crate::random::Random;
use crate::stream::{BlockRecordCase, CompoundCase};

/// Something that one file does wrong, or that looks wrong; most files do nothing of it.
#[derive(Clone, Copy, PartialEq, Eq)]
enum Slip {
    Nothing,
    LinkLate,
    LinkTwice,
    LinkMisspelled,
    LinkUnsaid,
    BlocksWrong,
    BlocksMisspelled,
    BlocksAbsent,
    LabelTwice,
    TableBefore,
    TableAfter,
    EndAbsent,
    EndTwice,
    NoEquals,
    Damaged,
    CutOff,
}

/// All of them.
const SLIPS: [Slip; 15] = [
    Slip::LinkLate,
    Slip::LinkTwice,
    Slip::LinkMisspelled,
    Slip::LinkUnsaid,
    Slip::BlocksWrong,
    Slip::BlocksMisspelled,
    Slip::BlocksAbsent,
    Slip::LabelTwice,
    Slip::TableBefore,
    Slip::TableAfter,
    Slip::EndAbsent,
    Slip::EndTwice,
    Slip::NoEquals,
    Slip::Damaged,
    Slip::CutOff,
];

/// Texts of DATA TYPE that say LINK, and some that do not.
const LINKS: &[&[u8]] = &[b"LINK", b"LINK$$", b"LINK $$ c", b"$$ c\nLINK", b"\n \n\tLINK\t\n$$ LINK", b"LINK"];
const NO_LINKS: &[&[u8]] = &[
    b"link",
    b"LINKS",
    b"LIN",
    b"LINK LINK",
    b"LINK\nLINK",
    b"",
    b"$$LINK",
    b"LI$$NK",
    b"LINK\r",
    b"$LINK",
    b"\"LINK\"",
];

/// Texts of BLOCKS that are misspelled, whatever the count.
const NO_COUNTS: &[&[u8]] =
    &[b"", b"+1", b"1.", b"one", b"$$1", b"1 1", b"0000000000001", b"1234567890", b"1E+00", b"-0"];

/// What one file is made by: how it is spelled, how deep it goes, and what is wrong in one of its LINK blocks.
struct Plan {
    style: Style,
    deepest: usize,
    slip: Slip,
    slip_depth: usize,
}

/// A block's bytes, and how many data blocks are in it.
struct Block {
    bytes: Vec<u8>,
    data: usize,
}

/// One compound file case; some are simple files.
pub fn compound_case(random: &mut Random, index: usize, cases: usize) -> CompoundCase {
    let room = if random.once_in(10) { random.below(6) } else { 8 + random.below(3) } as u32;
    if index + large_cases(cases) >= cases {
        return CompoundCase { file: many_blocks(random, index % 3), room: 4 };
    }
    if random.once_in(8) {
        return CompoundCase { file: files::file_case(random, 0, usize::MAX).file, room };
    }
    let plan = plan(random);
    let mut file = Vec::new();
    passed_over(random, &plan.style, &mut file);
    file.extend(link_block(random, &plan, 1).bytes);
    match plan.slip {
        Slip::Damaged => damage::damage(random, &mut file),
        Slip::CutOff => file.truncate(random.below(file.len())),
        _ => {}
    }
    if random.once_in(5) {
        file.extend(random.pick(&[&b"##TITLE=after\n"[..], b"##END=\n", b"##no equals", b"\n\n", b"0A"]));
    }
    CompoundCase { file, room }
}

/// A question for a record of one of the file's blocks, or of one that is not there.
pub fn block_record_case(random: &mut Random, case: CompoundCase) -> BlockRecordCase {
    let name = files::record_case(random, Vec::new()).name;
    let blocks = survey(&case.file).map_or(1, |found| found.blocks());
    BlockRecordCase { block: random.below(blocks + 2) as u64, name, file: case.file }
}

/// A random plan.
fn plan(random: &mut Random) -> Plan {
    let deepest = random.pick(&[1, 2, 2, 2, 3, 3, 4, 5, 7, 8, 8, 9]);
    let slip = if random.below(5) < 2 { random.pick(&SLIPS) } else { Slip::Nothing };
    Plan { style: spell::style(random), deepest, slip, slip_depth: 1 + random.below(deepest.min(2)) }
}

/// A data block: a random file's, cut out where that can be done.
fn data_block(random: &mut Random, faults: bool) -> Block {
    let points = 1 + random.below(8);
    let (file, _) = files::file(random, points, faults);
    let bytes = match survey(&file) {
        Ok(Survey::One(from, to)) => file[from..to].to_vec(),
        _ => file,
    };
    Block { bytes, data: 1 }
}

/// A record on lines of its own.
fn record(random: &mut Random, style: &Style, name: &[u8], text: &[u8]) -> Vec<u8> {
    let mut record = Vec::new();
    blanks(random, style, &mut record);
    record.extend(b"##");
    record.extend(spelled_name(random, name));
    record.push(b'=');
    record.extend(around(random, style, text));
    record
}

/// The blocks within a LINK block at this depth: data blocks, and deeper ones until the plan's depth is reached.
fn inner_blocks(random: &mut Random, plan: &Plan, depth: usize) -> Vec<Block> {
    let mut blocks = Vec::new();
    if depth + 1 < plan.deepest {
        blocks.push(link_block(random, plan, depth + 1));
    }
    let more = if depth < plan.deepest { random.pick(&[0, 1, 1, 2, 3]) } else { 0 };
    for _ in 0..more {
        let faults = random.once_in(4);
        blocks.push(data_block(random, faults));
    }
    if depth + 1 == plan.deepest && blocks.is_empty() {
        blocks.push(data_block(random, false));
    }
    random.shuffle(&mut blocks);
    blocks
}

/// What one LINK block does wrong.
fn slip_here(plan: &Plan, depth: usize) -> Slip {
    if depth == plan.slip_depth {
        plan.slip
    } else {
        Slip::Nothing
    }
}

/// A LINK block at this depth, with its own records among its inner blocks.
fn link_block(random: &mut Random, plan: &Plan, depth: usize) -> Block {
    let slip = slip_here(plan, depth);
    let style = &plan.style;
    let blocks = inner_blocks(random, plan, depth);
    let data: usize = blocks.iter().map(|block| block.data).sum();
    let mut pieces: Vec<Vec<u8>> = blocks.into_iter().map(|block| block.bytes).collect();
    let mut head = heading(random, style, slip);
    if let Some(count) = blocks_record(random, style, slip, depth, data) {
        let at = random.below(pieces.len() + 1);
        if random.once_in(2) {
            head.push(count)
        } else {
            pieces.insert(at, count)
        }
    }
    if slip == Slip::TableAfter {
        pieces.insert(random.below(pieces.len() + 1), record(random, style, b"XYDATA", b"(X++(Y..Y))\n0A\n"));
    }
    if slip == Slip::LinkLate {
        let at = 1 + random.below(pieces.len().max(1));
        pieces.insert(at.min(pieces.len()), record(random, style, b"DATA TYPE", b"LINK"));
    }
    let mut bytes = record(random, style, b"TITLE", format!("depth {depth}").as_bytes());
    bytes.extend(head.concat());
    bytes.extend(pieces.concat());
    bytes.extend(ending(random, style, slip));
    Block { bytes, data }
}

/// The records of a LINK block before its inner blocks, but for BLOCKS and TITLE.
fn heading(random: &mut Random, style: &Style, slip: Slip) -> Vec<Vec<u8>> {
    let mut head = Vec::new();
    for _ in 0..random.pick(&[0, 1, 2]) {
        let name = random.pick(UNKNOWN);
        if name != b"DATA TYPE" && !head.iter().any(|(other, _)| *other == name) {
            let text = free_text(random, style);
            head.push((name, text));
        }
    }
    let mut records: Vec<Vec<u8>> =
        head.into_iter().map(|(name, text)| [b"##".to_vec(), name.to_vec(), b"=".to_vec(), text].concat()).collect();
    let words = if slip == Slip::LinkMisspelled { NO_LINKS } else { LINKS };
    let said = !matches!(slip, Slip::LinkLate | Slip::LinkUnsaid);
    for _ in 0..usize::from(said) + usize::from(slip == Slip::LinkTwice) {
        let word = random.pick(words);
        records.push(record(random, style, b"DATA TYPE", word));
    }
    if slip == Slip::TableBefore {
        records.push(record(random, style, b"XYDATA", b"(X++(Y..Y))\n0A\n"));
    }
    random.shuffle(&mut records);
    if slip == Slip::LabelTwice {
        let twice = record(random, style, b"OWNER NAME", b"me");
        records.extend([twice.clone(), twice]);
    }
    if slip == Slip::NoEquals {
        records.push(b"##NOTHING\n".to_vec());
    }
    records
}

/// BLOCKS: in the outermost block the count, unless that is to be wrong; in others now and then any number.
fn blocks_record(random: &mut Random, style: &Style, slip: Slip, depth: usize, data: usize) -> Option<Vec<u8>> {
    let zeros = if random.once_in(6) { "000" } else { "" };
    let right = format!("{zeros}{data}").into_bytes();
    let text = match slip {
        Slip::BlocksAbsent => return None,
        Slip::BlocksWrong => (data + random.pick(&[1, 2, 1_000_000])).to_string().into_bytes(),
        Slip::BlocksMisspelled => random.pick(NO_COUNTS).to_vec(),
        _ if depth == 1 => right,
        _ if random.once_in(2) => return None,
        _ => random.pick(&[&right[..], b"7", b"none", b""]).to_vec(),
    };
    Some(record(random, style, b"BLOCKS", &text))
}

/// END, unless it is to be absent, or there twice.
fn ending(random: &mut Random, style: &Style, slip: Slip) -> Vec<u8> {
    let mut bytes = Vec::new();
    let times = match slip {
        Slip::EndAbsent => 0,
        Slip::EndTwice => 2,
        _ => 1,
    };
    for _ in 0..times {
        blanks(random, style, &mut bytes);
        bytes.extend(b"##END=");
        bytes.extend(random.pick(&[&b""[..], b" $$ c", b" = ##"]));
        line_end(random, style, &mut bytes);
    }
    bytes
}

/// Very many blocks in one, or very many labels in one, or both nested as deep as can be.
fn many_blocks(random: &mut Random, kind: usize) -> Vec<u8> {
    let table =
        "##XFACTOR=1\n##YFACTOR=1\n##FIRSTX=0\n##LASTX=3\n##NPOINTS=4\n##FIRSTY=1\n##XYDATA=(X++(Y..Y))\n0A%?B\n";
    let block = |k: usize| format!("##TITLE={k}\n{table}##END=\n");
    let labels = |count: usize| (0..count).map(|k| format!("##RECORD {k}=\n")).collect::<String>();
    let depth = if kind == 2 { 8 } else { 2 };
    let mut count = 0;
    let mut inner = String::new();
    for level in (1..depth).rev() {
        let here = if kind == 1 { 3 } else { 200 + random.below(200) };
        count += here;
        let blocks: String = (0..here).map(block).collect();
        let own = labels(if kind == 0 { 5 } else { 300 });
        let said = if level == 1 { format!("##BLOCKS={count}\n") } else { String::new() };
        inner = format!("##TITLE={level}\n##DATA TYPE=LINK\n{own}{said}{inner}{blocks}##END=\n");
    }
    inner.into_bytes()
}
