//! Compound files: blocks within blocks (02, T-07; 000, section 3).

use crate::file::{
    all_labels, normalised, read_file, read_records, record_text, title_fault, FileTable, Label, Record, RecordText,
    Records,
};
use crate::frame::{refusal, Refusal, LONGEST};
use std::collections::HashSet;

/// How deep blocks may stand, the outermost being depth one.
const DEEPEST: usize = 8;

/// A block that is open: the place of its TITLE, its own records and names so far, whether it has said LINK, whether it
/// has a table.
struct Open {
    title: usize,
    records: Vec<Record>,
    names: HashSet<Vec<u8>>,
    is_link: bool,
    has_table: bool,
}

/// A data block: its records, and what is cut out of the file to make a file of it, from TITLE's `##` to END's line end.
pub struct DataBlock {
    pub records: Records,
    pub from: usize,
    pub to: usize,
}

/// What a file is.
pub enum Survey {
    /// One data block, from and to.
    One(usize, usize),
    /// A compound file with these data blocks, in the order of the file.
    Compound(Vec<DataBlock>),
}

/// How far the walk over the labels has come: the open blocks, outermost first, and the data blocks that are closed.
struct Walk<'a> {
    file: &'a [u8],
    open: Vec<Open>,
    closed: Vec<DataBlock>,
}

/// A block that opens at this TITLE, whose text ends at a place.
fn opened(title: &Label, to: usize) -> Open {
    let records = vec![title.record(to)];
    Open { title: title.hashes, records, names: HashSet::new(), is_link: false, has_table: false }
}

impl Walk<'_> {
    /// Takes one label, whose text ends at a place. Gives the outermost block once it is closed.
    fn label(&mut self, label: &Label, to: usize) -> Result<Option<Open>, Refusal> {
        if label.is_faulty() {
            return Err(refusal(20, label.hashes));
        }
        match &label.name[..] {
            b"END" => return Ok(self.end(label)),
            b"TITLE" => self.title(label, to)?,
            _ => self.own(label, to)?,
        }
        Ok(None)
    }

    /// A TITLE opens a block in one that has said it is LINK, down to the greatest depth (24).
    fn title(&mut self, label: &Label, to: usize) -> Result<(), Refusal> {
        let allowed = self.open.len() < DEEPEST && self.open.last().is_none_or(|block| block.is_link);
        if !allowed {
            return Err(refusal(24, label.hashes));
        }
        self.open.push(opened(label, to));
        Ok(())
    }

    /// A label of the innermost open block: 23, then 33.
    fn own(&mut self, label: &Label, to: usize) -> Result<(), Refusal> {
        let block = self.open.last_mut().expect("TITLE is first");
        if !label.name.is_empty() && !block.names.insert(label.name.clone()) {
            return Err(refusal(23, label.hashes));
        }
        let record = label.record(to);
        block.has_table |= label.name == b"XYDATA";
        block.is_link |= label.name == b"DATATYPE" && record.word(self.file) == Some(b"LINK");
        block.records.push(record);
        if block.has_table && block.is_link {
            return Err(refusal(33, label.hashes));
        }
        Ok(())
    }

    /// END closes the innermost open block; a data block within another is kept.
    fn end(&mut self, label: &Label) -> Option<Open> {
        let block = self.open.pop().expect("TITLE is first");
        if self.open.is_empty() {
            return Some(block);
        }
        if !block.is_link {
            let records = Records { all: block.records, end: label.hashes };
            self.closed.push(DataBlock { records, from: block.title, to: label.next_line() });
        }
        None
    }
}

/// What a file is: 19; 21; then 20, 22, 23, 24, 33 in one walk; of a compound file 25 and 32.
pub fn survey(file: &[u8]) -> Result<Survey, Refusal> {
    if file.len() > LONGEST {
        return Err(refusal(19, 0));
    }
    if let Some(fault) = title_fault(file) {
        return Err(fault);
    }
    let labels = all_labels(file);
    let mut walk = Walk { file, open: Vec::new(), closed: Vec::new() };
    for (k, label) in labels.iter().enumerate() {
        let to = labels.get(k + 1).map_or(file.len(), |next| next.hashes);
        if let Some(outermost) = walk.label(label, to)? {
            return whole(file, outermost, label, walk.closed);
        }
    }
    Err(refusal(22, file.len()))
}

/// What a file is whose outermost block closed at this END.
fn whole(file: &[u8], outermost: Open, end: &Label, blocks: Vec<DataBlock>) -> Result<Survey, Refusal> {
    if !outermost.is_link {
        return Ok(Survey::One(outermost.title, end.next_line()));
    }
    let records = Records { all: outermost.records, end: end.hashes };
    let said = records.named(b"BLOCKS").ok_or(refusal(25, end.hashes))?;
    if said.count(file) == Some(blocks.len() as u64) {
        Ok(Survey::Compound(blocks))
    } else {
        Err(said.refused(32, file))
    }
}

impl Survey {
    /// Whether the file is a compound one.
    pub fn is_compound(&self) -> bool {
        matches!(self, Survey::Compound(_))
    }

    /// How many data blocks there are.
    pub fn blocks(&self) -> usize {
        match self {
            Survey::One(..) => 1,
            Survey::Compound(blocks) => blocks.len(),
        }
    }

    /// What is cut out for data block k: from and to.
    pub fn extent(&self, k: usize) -> Option<(usize, usize)> {
        match self {
            Survey::One(from, to) => (k == 0).then_some((*from, *to)),
            Survey::Compound(blocks) => blocks.get(k).map(|block| (block.from, block.to)),
        }
    }

    /// The answer to data block k, if there is one, with the whole room.
    pub fn read(&self, file: &[u8], k: usize, room: usize) -> Option<Result<FileTable, Refusal>> {
        match self {
            Survey::One(..) => (k == 0).then(|| read_file(file, room)),
            Survey::Compound(blocks) => blocks.get(k).map(|block| read_records(file, &block.records, room)),
        }
    }

    /// The text of a record of data block k, if there is one.
    pub fn record(&self, file: &[u8], k: usize, name: &[u8]) -> Option<RecordText> {
        match self {
            Survey::One(..) => (k == 0).then(|| record_text(file, name)),
            Survey::Compound(blocks) => blocks
                .get(k)
                .map(|block| block.records.named(&normalised(name)).map_or(RecordText::Absent, Record::part)),
        }
    }
}
