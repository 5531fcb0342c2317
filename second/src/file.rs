//! Reading a file: its lines, its labels, its numbers, its table (01, The file).

use crate::body::{content, read_body, read_body_before};
use crate::frame::{nearest, refusal, Refusal, LARGEST_ABSCISSA, LONGEST, MISSING};
use std::collections::HashSet;

/// Most bytes of a name after blanks, `-`, `/` and `_` are dropped.
const LONGEST_NAME: usize = 40;

/// The variable list that XYDATA must have.
const VARIABLE_LIST: &[u8] = b"(X++(Y..Y))";

/// A table read from a file.
#[derive(Clone, Debug, PartialEq, Eq)]
pub struct FileTable {
    pub points: u64,
    pub first: i64,
    pub last: i64,
    pub exact: Exact,
    pub ordinates: Vec<i32>,
}

/// Whether F, L and FIRSTY's quotient are exact, or were rounded; FIRSTY's counts as exact if it is not compared
/// (02, T-08).
#[derive(Clone, Copy, Debug, Default, PartialEq, Eq)]
pub struct Exact {
    pub first: bool,
    pub last: bool,
    pub first_y: bool,
}

/// The answer to a question for the text of a record.
#[derive(Clone, Copy, Debug, PartialEq, Eq)]
pub enum RecordText {
    /// The part of the file from, to.
    Part(u64, u64),
    /// No record before END has this name.
    Absent,
    /// The labels are refused (19 to 24).
    Refused(Refusal),
}

/// A line of the file without its LF or CR LF: where it starts, where it ends, and where the next line starts.
#[derive(Clone, Copy)]
pub struct Line {
    start: usize,
    end: usize,
    next: usize,
}

/// A label: the place of its `##`, its normalised name, the place of its `=` and its line.
pub struct Label {
    pub hashes: usize,
    pub name: Vec<u8>,
    pub equals: Option<usize>,
    line: Line,
}

impl Label {
    /// Whether the label has no `=` or its name is too long (20).
    pub fn is_faulty(&self) -> bool {
        self.equals.is_none() || self.name.len() > LONGEST_NAME
    }

    /// Where the line after the label's starts.
    pub fn next_line(&self) -> usize {
        self.line.next
    }

    /// The record of this label, which is not faulty; its text ends at a place.
    pub fn record(&self, to: usize) -> Record {
        let from = self.equals.expect("20 was not given") + 1;
        Record { name: self.name.clone(), from, to, line: self.line }
    }
}

/// A record before END: its name, its text and the line that its label is on.
pub struct Record {
    name: Vec<u8>,
    from: usize,
    to: usize,
    line: Line,
}

/// All records of a block before its END, and the place of END's `##`.
pub struct Records {
    pub all: Vec<Record>,
    pub end: usize,
}

/// The lines of a file.
fn lines(file: &[u8]) -> Vec<Line> {
    let mut start = 0;
    let mut found = Vec::new();
    for piece in file.split(|byte| *byte == b'\n') {
        let stop = start + piece.len();
        let crlf = stop < file.len() && piece.last() == Some(&b'\r');
        let end = if crlf { stop - 1 } else { stop };
        found.push(Line { start, end, next: (stop + 1).min(file.len()) });
        start = stop + 1;
    }
    found
}

/// The place of a line's first byte that is no blank, or its end.
fn first_non_blank(file: &[u8], line: &Line) -> usize {
    (line.start..line.end).find(|at| !is_blank(file[*at])).unwrap_or(line.end)
}

/// Whether a byte is a blank of a header: space or tab.
pub fn is_blank(byte: u8) -> bool {
    byte == b' ' || byte == b'\t'
}

/// A name as it is compared: upper case, without blanks, `-`, `/`, `_`.
pub fn normalised(name: &[u8]) -> Vec<u8> {
    let kept = name.iter().filter(|byte| !is_blank(**byte) && !b"-/_".contains(byte));
    kept.map(|byte| byte.to_ascii_uppercase()).collect()
}

/// The label on a line, if its first bytes, blanks aside, are `##`.
fn label(file: &[u8], line: Line) -> Option<Label> {
    let hashes = first_non_blank(file, &line);
    if !file[hashes..line.end].starts_with(b"##") {
        return None;
    }
    let equals = (hashes + 2..line.end).find(|at| file[*at] == b'=');
    let name = normalised(&file[hashes + 2..equals.unwrap_or(line.end)]);
    Some(Label { hashes, name, equals, line })
}

/// All labels of a file, faulty ones and those after END too.
pub fn all_labels(file: &[u8]) -> Vec<Label> {
    lines(file).into_iter().filter_map(|line| label(file, line)).collect()
}

/// The fault of a file that does not begin with TITLE (21).
pub fn title_fault(file: &[u8]) -> Option<Refusal> {
    for line in lines(file) {
        let at = first_non_blank(file, &line);
        let rest = &file[at..line.end];
        if rest.is_empty() || rest.starts_with(b"$$") {
            continue;
        }
        let is_title = label(file, line).is_some_and(|l| l.equals.is_some() && l.name == b"TITLE");
        return if is_title { None } else { Some(refusal(21, at)) };
    }
    Some(refusal(21, file.len()))
}

/// The labels of a file up to and with END, which is the last: 20, 22, 23, 24 in one walk.
fn labels(file: &[u8]) -> Result<Vec<Label>, Refusal> {
    let mut before: HashSet<Vec<u8>> = HashSet::new();
    let mut found: Vec<Label> = Vec::new();
    for label in all_labels(file) {
        let twice = !before.insert(label.name.clone());
        let is_title = label.name == b"TITLE";
        if label.is_faulty() {
            return Err(refusal(20, label.hashes));
        }
        if twice && !is_title && !label.name.is_empty() {
            return Err(refusal(23, label.hashes));
        }
        if twice && is_title {
            return Err(refusal(24, label.hashes));
        }
        let is_end = label.name == b"END";
        found.push(label);
        if is_end {
            return Ok(found);
        }
    }
    Err(refusal(22, file.len()))
}

/// The records of a file: 19; 21; then 20, 22, 23, 24.
pub fn records(file: &[u8]) -> Result<Records, Refusal> {
    if file.len() > LONGEST {
        return Err(refusal(19, 0));
    }
    if let Some(fault) = title_fault(file) {
        return Err(fault);
    }
    let labels = labels(file)?;
    let end = labels.last().expect("END is there").hashes;
    let all = labels.windows(2).map(|pair| pair[0].record(pair[1].hashes)).collect();
    Ok(Records { all, end })
}

impl Records {
    /// The first record with this normalised name.
    pub fn named(&self, name: &[u8]) -> Option<&Record> {
        self.all.iter().find(|record| record.name == name)
    }

    /// The record with this name, which 25 asks for.
    fn needed(&self, name: &[u8]) -> Result<&Record, Refusal> {
        self.named(name).ok_or(refusal(25, self.end))
    }
}

impl Record {
    /// The place of 26 to 29: the first byte after `=` that is neither blank nor line end, or the record's end.
    fn place(&self, file: &[u8]) -> usize {
        let ends_line = |at: usize| file[at] == b'\n' || (file[at] == b'\r' && file.get(at + 1) == Some(&b'\n'));
        (self.from..self.to).find(|at| !is_blank(file[*at]) && !ends_line(*at)).unwrap_or(self.to)
    }

    /// Where the text begins.
    pub fn from(&self) -> usize {
        self.from
    }

    /// Where the text ends.
    pub fn to(&self) -> usize {
        self.to
    }

    /// The text, from and to.
    pub fn part(&self) -> RecordText {
        RecordText::Part(self.from as u64, self.to as u64)
    }

    /// The word that the text is, blanks, line ends and comments around it dropped; none if there are more, or none.
    pub fn word<'a>(&self, file: &'a [u8]) -> Option<&'a [u8]> {
        single_word(&file[self.from..self.to])
    }

    /// The number that the text spells in digits alone, as NPOINTS is spelled.
    pub fn count(&self, file: &[u8]) -> Option<u64> {
        self.word(file).and_then(digits).map(|n| n as u64)
    }

    /// A refusal at the place of 26 to 29.
    pub fn refused(&self, number: u32, file: &[u8]) -> Refusal {
        refusal(number, self.place(file))
    }
}

/// A decimal number: mantissa times a power of ten.
#[derive(Clone, Copy, Debug, PartialEq, Eq)]
pub struct Decimal {
    pub mantissa: i128,
    pub exponent: i32,
}

/// What is left of a record's text when comments, line ends and the blanks around are dropped, if it is on one line.
fn single_word(text: &[u8]) -> Option<&[u8]> {
    let pieces: Vec<&[u8]> = text.split(|byte| *byte == b'\n').collect();
    let mut words = Vec::new();
    for (k, piece) in pieces.iter().enumerate() {
        let word = trimmed(content(piece, k + 1 < pieces.len()));
        if !word.is_empty() {
            words.push(word);
        }
    }
    if words.len() == 1 {
        Some(words[0])
    } else {
        None
    }
}

/// Bytes without the blanks around them.
fn trimmed(bytes: &[u8]) -> &[u8] {
    let Some(from) = bytes.iter().position(|b| !is_blank(*b)) else { return b"" };
    let to = bytes.iter().rposition(|b| !is_blank(*b)).expect("one is there") + 1;
    &bytes[from..to]
}

/// The number that 1 to 12 digits spell, at most 9 of them from the first non-zero on.
fn digits(bytes: &[u8]) -> Option<i128> {
    if bytes.is_empty() || bytes.len() > 12 || !bytes.iter().all(u8::is_ascii_digit) {
        return None;
    }
    let number: i128 = std::str::from_utf8(bytes).ok()?.parse().ok()?;
    if number <= 999_999_999 {
        Some(number)
    } else {
        None
    }
}

/// The exponent after `E`: a sign and two or three digits with value at most 99.
fn exponent(bytes: &[u8]) -> Option<i32> {
    let (sign, digits) = bytes.split_first()?;
    if digits.len() < 2 || digits.len() > 3 || !digits.iter().all(u8::is_ascii_digit) {
        return None;
    }
    let size: i32 = std::str::from_utf8(digits).ok()?.parse().ok()?;
    match sign {
        b'+' if size <= 99 => Some(size),
        b'-' if size <= 99 => Some(-size),
        _ => None,
    }
}

/// The number that a word spells (01, The file, Numbers).
fn decimal(word: &[u8]) -> Option<Decimal> {
    let (sign, unsigned) = match word.split_first()? {
        (b'+', rest) => (1, rest),
        (b'-', rest) => (-1, rest),
        _ => (1, word),
    };
    let (mantissa, power) = match unsigned.iter().position(|b| *b == b'E') {
        Some(at) => (&unsigned[..at], exponent(&unsigned[at + 1..])?),
        None => (unsigned, 0),
    };
    let (whole, part) = match mantissa.iter().position(|b| *b == b'.') {
        Some(at) => (&mantissa[..at], &mantissa[at + 1..]),
        None => (mantissa, &mantissa[mantissa.len()..]),
    };
    let number = digits(&[whole, part].concat())?;
    Some(Decimal { mantissa: sign * number, exponent: power - part.len() as i32 })
}

/// A quotient times 10 to the `places`, rounded to a whole number, halves to the larger; none if its magnitude is
/// 10 to the 17 or more, which is beyond every limit. The divisor exceeds zero.
pub fn quotient(above: Decimal, below: Decimal, places: i32) -> Option<i128> {
    let shift = above.exponent + places - below.exponent;
    // Mantissas are below 10 to the 9: with a shift of 26 or more a quotient that is not 0 is 10 to the 17 or more,
    // and with -26 or less it is nearer to 0 than to any other whole number.
    if above.mantissa == 0 || shift <= -26 {
        return Some(0);
    }
    if shift >= 26 {
        return None;
    }
    let power = 10i128.pow(shift.unsigned_abs());
    Some(if shift >= 0 {
        nearest(above.mantissa * power, below.mantissa)
    } else {
        nearest(above.mantissa, below.mantissa * power)
    })
}

/// Whether such a quotient is a whole number, so that nothing is rounded. The divisor exceeds zero.
pub fn is_exact(above: Decimal, below: Decimal, places: i32) -> bool {
    let shift = above.exponent + places - below.exponent;
    if shift >= 0 {
        // The dividend is a multiple of the divisor if its remainder, shifted a place at a time, comes to 0.
        return (0..shift).fold(above.mantissa % below.mantissa, |rest, _| rest * 10 % below.mantissa) == 0;
    }
    // A mantissa below 10 to the 9 that is not 0 has at most eight zeros at its end.
    above.mantissa == 0 || (shift > -9 && above.mantissa % (below.mantissa * 10i128.pow(shift.unsigned_abs())) == 0)
}

/// The numbers of a file, in the order in which 26 judges them.
struct Numbers {
    x_factor: Decimal,
    y_factor: Decimal,
    first_x: Decimal,
    last_x: Decimal,
    points: u64,
    first_y: Decimal,
}

/// A record's number, or 26.
fn number(file: &[u8], record: &Record) -> Result<Decimal, Refusal> {
    record.word(file).and_then(decimal).ok_or(record.refused(26, file))
}

/// A record's number that must exceed zero, or 26.
fn factor(file: &[u8], record: &Record) -> Result<Decimal, Refusal> {
    let number = number(file, record)?;
    if number.mantissa > 0 {
        Ok(number)
    } else {
        Err(record.refused(26, file))
    }
}

/// A record's number that is digits only, or 26.
fn count(file: &[u8], record: &Record) -> Result<u64, Refusal> {
    record.count(file).ok_or(record.refused(26, file))
}

/// The seven records that a file must have.
struct Needed<'a> {
    x_factor: &'a Record,
    y_factor: &'a Record,
    first_x: &'a Record,
    last_x: &'a Record,
    points: &'a Record,
    first_y: &'a Record,
    table: &'a Record,
}

impl<'a> Needed<'a> {
    /// The seven records, or 25.
    fn of(records: &'a Records) -> Result<Needed<'a>, Refusal> {
        Ok(Needed {
            x_factor: records.needed(b"XFACTOR")?,
            y_factor: records.needed(b"YFACTOR")?,
            first_x: records.needed(b"FIRSTX")?,
            last_x: records.needed(b"LASTX")?,
            points: records.needed(b"NPOINTS")?,
            first_y: records.needed(b"FIRSTY")?,
            table: records.needed(b"XYDATA")?,
        })
    }

    /// The six numbers, or 26.
    fn numbers(&self, file: &[u8]) -> Result<Numbers, Refusal> {
        Ok(Numbers {
            x_factor: factor(file, self.x_factor)?,
            y_factor: factor(file, self.y_factor)?,
            first_x: number(file, self.first_x)?,
            last_x: number(file, self.last_x)?,
            points: count(file, self.points)?,
            first_y: number(file, self.first_y)?,
        })
    }

    /// Where the body starts: the line after the variable list, or 27.
    fn body_start(&self, file: &[u8]) -> Result<usize, Refusal> {
        let rest = &file[self.table.from..self.table.line.end];
        let list: Vec<u8> = rest.iter().copied().filter(|byte| !is_blank(*byte)).collect();
        if list == VARIABLE_LIST {
            Ok(self.table.line.next)
        } else {
            Err(self.table.refused(27, file))
        }
    }
}

/// An abscissa in thousandths from its record's number, or 28.
fn abscissa(file: &[u8], record: &Record, above: Decimal, factor: Decimal) -> Result<i64, Refusal> {
    match quotient(above, factor, 3) {
        Some(x) if x.abs() <= LARGEST_ABSCISSA => Ok(x as i64),
        _ => Err(record.refused(28, file)),
    }
}

/// A refusal of the body with its place counted in the file; those of 1 and 2 stay 0.
fn in_file(fault: Refusal, start: usize) -> Refusal {
    if fault.number <= 2 {
        fault
    } else {
        Refusal { place: fault.place + start as u64, ..fault }
    }
}

/// A reader of bodies.
type BodyReader = fn(i64, i64, u64, &[u8], usize) -> Result<Vec<i32>, Refusal>;

/// Reads a file, or refuses with 19 to 29, 1 to 13 and 16 in 01's order; `room` is the length of the ordinate slice.
pub fn read_file(file: &[u8], room: usize) -> Result<FileTable, Refusal> {
    read_records(file, &records(file)?, room)
}

/// The same as it was before T-13, with tabs for blanks in the body.
pub fn read_file_before(file: &[u8], room: usize) -> Result<FileTable, Refusal> {
    read_by(read_body_before, file, &records(file)?, room)
}

/// Reads the table of one block from its records: 25 on.
pub fn read_records(file: &[u8], records: &Records, room: usize) -> Result<FileTable, Refusal> {
    read_by(read_body, file, records, room)
}

/// Where the body of a file's table stands, if its labels are right, no record is absent and the list is there.
pub fn body_extent(file: &[u8]) -> Option<(usize, usize)> {
    let records = records(file).ok()?;
    let needed = Needed::of(&records).ok()?;
    Some((needed.body_start(file).ok()?, needed.table.to))
}

/// Reads the table of one block from its records, its body by this reader.
fn read_by(reader: BodyReader, file: &[u8], records: &Records, room: usize) -> Result<FileTable, Refusal> {
    let needed = Needed::of(records)?;
    let numbers = needed.numbers(file)?;
    let start = needed.body_start(file)?;
    let first = abscissa(file, needed.first_x, numbers.first_x, numbers.x_factor)?;
    let last = abscissa(file, needed.last_x, numbers.last_x, numbers.x_factor)?;
    let body = &file[start..needed.table.to];
    let ordinates = reader(first, last, numbers.points, body, room).map_err(|fault| in_file(fault, start))?;
    let expected = quotient(numbers.first_y, numbers.y_factor, 0);
    if ordinates[0] != MISSING && expected != Some(i128::from(ordinates[0])) {
        return Err(needed.first_y.refused(29, file));
    }
    let exact = Exact {
        first: is_exact(numbers.first_x, numbers.x_factor, 3),
        last: is_exact(numbers.last_x, numbers.x_factor, 3),
        first_y: ordinates[0] == MISSING || is_exact(numbers.first_y, numbers.y_factor, 0),
    };
    Ok(FileTable { points: numbers.points, first, last, exact, ordinates })
}

/// The text of the record with this name: the first one, for names that may stand more than once.
pub fn record_text(file: &[u8], name: &[u8]) -> RecordText {
    match records(file) {
        Err(fault) => RecordText::Refused(fault),
        Ok(records) => match records.named(&normalised(name)) {
            Some(record) => record.part(),
            None => RecordText::Absent,
        },
    }
}
