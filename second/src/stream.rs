//! The stream of cases with their answers: writing it, and counting what is in it. README.md gives the format.

use crate::body::{read_body, read_body_before};
use crate::compound::survey;
use crate::damaged::{damaged, Outcomes};
use crate::file::{body_extent, read_file, read_file_before, record_text, Exact, FileTable, RecordText};
use crate::file_text::{write_file, Given, Scales, WrittenFile};
use crate::file_tried;
use crate::frame::{Frame, Refusal};
use crate::heads::{tried, TRIED};
use crate::kept::completed;
use crate::lengths;
use crate::line::Told;
use crate::night::{report, Totals};
use crate::profile::{read_profile, WANTED};
use crate::tabs::{converted, converted_file};
use crate::text::{write_body, TextForm};
use std::collections::BTreeMap;
use std::io::{self, Read, Write};

/// A body to be read.
pub struct BodyCase {
    pub frame: Frame,
    pub body: Vec<u8>,
    pub room: u32,
}

/// A table to be written, in the form with this number, if one has it.
pub struct WriteCase {
    pub form: u32,
    pub frame: Frame,
    pub ordinates: Vec<i32>,
    pub room: u32,
}

impl WriteCase {
    /// The number, the place and the text of the answer, with so much room.
    fn answer(&self, room: usize) -> (u32, u64, Vec<u8>) {
        let Some(form) = TextForm::numbered(self.form) else {
            return (ABSENT, 0, Vec::new());
        };
        match write_body(form, &self.frame, &self.ordinates, room) {
            Ok(text) => (0, 0, text),
            Err(fault) => (fault.number, fault.place, Vec::new()),
        }
    }
}

/// A file to be read.
pub struct FileCase {
    pub file: Vec<u8>,
    pub room: u32,
}

/// A file to be written.
#[derive(Clone, Debug)]
pub struct WrittenFileCase {
    pub title: Vec<u8>,
    pub points: u64,
    pub scales: Scales<Given>,
    pub ordinates: Vec<i32>,
    pub room: u32,
}

impl WrittenFileCase {
    /// The answer, with so much room.
    pub fn answer_in(&self, room: usize) -> Result<WrittenFile, Refusal> {
        write_file(&self.title, self.points, &self.scales, &self.ordinates, room)
    }

    /// The answer.
    pub fn answer(&self) -> Result<WrittenFile, Refusal> {
        self.answer_in(self.room as usize)
    }

    /// What reading the written file must give: N, F, L and the ordinates (02, T-04).
    pub fn table(&self, written: &WrittenFile) -> FileTable {
        let Frame { first, last, points } = written.frame;
        let ordinates = self.ordinates[..points as usize].to_vec();
        FileTable { points, first, last, exact: written.exact, ordinates }
    }

    /// Fails if this reader does not read the written file back as that.
    fn read_back(&self, written: &WrittenFile) -> io::Result<()> {
        match read_file(&written.text, self.points as usize) {
            Ok(table) if table == self.table(written) => Ok(()),
            _ => Err(io::Error::other("a written file is not read back")),
        }
    }
}

/// A record to be shown.
pub struct RecordCase {
    pub file: Vec<u8>,
    pub name: Vec<u8>,
}

/// A file to be surveyed, and its data blocks to be read.
#[derive(Clone)]
pub struct CompoundCase {
    pub file: Vec<u8>,
    pub room: u32,
}

/// A file to be read with the profile, beside a site's page.
pub struct ProfileCase {
    pub file: Vec<u8>,
    pub page: Vec<u8>,
    pub room: u32,
}

/// A spool to be reported, each file read with so much room.
pub struct SpoolCase {
    pub spool: Vec<u8>,
    pub room: u32,
}

/// A record of a data block to be shown.
pub struct BlockRecordCase {
    pub file: Vec<u8>,
    pub block: u64,
    pub name: Vec<u8>,
}

/// The number for an absent record or block, and for a form that is none; no refusal has it.
const ABSENT: u32 = u32::MAX;

/// A 32-bit number, little endian.
fn put_u32(out: &mut impl Write, number: u32) -> io::Result<()> {
    out.write_all(&number.to_le_bytes())
}

/// A 64-bit number, little endian.
fn put_u64(out: &mut impl Write, number: u64) -> io::Result<()> {
    out.write_all(&number.to_le_bytes())
}

/// Bytes after their length.
fn put_bytes(out: &mut impl Write, bytes: &[u8]) -> io::Result<()> {
    put_u32(out, bytes.len() as u32)?;
    out.write_all(bytes)
}

/// Ordinates one after the other.
fn put_ordinates(out: &mut impl Write, ordinates: &[i32]) -> io::Result<()> {
    ordinates.iter().try_for_each(|y| out.write_all(&y.to_le_bytes()))
}

/// F, L and N.
fn put_frame(out: &mut impl Write, frame: &Frame) -> io::Result<()> {
    put_u64(out, frame.first as u64)?;
    put_u64(out, frame.last as u64)?;
    put_u64(out, frame.points)
}

/// The number, the place, the line and the column of an answer.
fn put_told(out: &mut impl Write, told: Told) -> io::Result<()> {
    put_u32(out, told.number)?;
    put_u64(out, told.place)?;
    put_u64(out, told.line)?;
    put_u64(out, told.column)
}

/// Writes a body case and its answer.
pub fn put_body_case(out: &mut impl Write, case: &BodyCase) -> io::Result<()> {
    out.write_all(b"B")?;
    put_frame(out, &case.frame)?;
    put_u32(out, case.room)?;
    put_bytes(out, &case.body)?;
    let Frame { first, last, points } = case.frame;
    put_body_answer(out, &case.body, read_body(first, last, points, &case.body, case.room as usize))
}

/// The answer to a body.
fn put_body_answer(out: &mut impl Write, body: &[u8], answer: Result<Vec<i32>, Refusal>) -> io::Result<()> {
    put_told(out, answer.as_ref().err().map_or(Told::default(), |fault| fault.told(body)))?;
    let ordinates = answer.unwrap_or_default();
    put_u64(out, ordinates.len() as u64)?;
    put_ordinates(out, &ordinates)
}

/// Writes a writer's case and its answer.
pub fn put_write_case(out: &mut impl Write, case: &WriteCase) -> io::Result<()> {
    out.write_all(b"W")?;
    put_frame(out, &case.frame)?;
    put_u32(out, case.form)?;
    put_u32(out, case.ordinates.len() as u32)?;
    put_ordinates(out, &case.ordinates)?;
    put_u32(out, case.room)?;
    let (number, place, text) = case.answer(case.room as usize);
    put_u32(out, number)?;
    put_u64(out, place)?;
    put_u64(out, text.len() as u64)?;
    out.write_all(&text)?;
    let (number, _, text) = case.answer(usize::MAX);
    put_length(out, number, text.len())
}

/// The length of a text, whatever room there is, or the refusal (02, T-10).
fn put_length(out: &mut impl Write, number: u32, length: usize) -> io::Result<()> {
    put_u32(out, number)?;
    put_u64(out, length as u64)
}

/// Writes a file case and its answer.
pub fn put_file_case(out: &mut impl Write, case: &FileCase) -> io::Result<()> {
    out.write_all(b"F")?;
    put_u32(out, case.room)?;
    put_bytes(out, &case.file)?;
    let answer = read_file(&case.file, case.room as usize);
    put_file_answer(out, &case.file, answer)
}

/// The answer to a file, or to a block of it.
fn put_file_answer(out: &mut impl Write, file: &[u8], answer: Result<FileTable, Refusal>) -> io::Result<()> {
    put_told(out, answer.as_ref().err().map_or(Told::default(), |fault| fault.told(file)))?;
    let Ok(table) = answer else {
        put_frame_of_file(out, 0, 0, 0)?;
        return put_exact(out, Exact::default());
    };
    put_frame_of_file(out, table.points, table.first, table.last)?;
    put_exact(out, table.exact)?;
    put_ordinates(out, &table.ordinates)
}

/// Whether F, L and FIRSTY's quotient are exact.
fn put_exact(out: &mut impl Write, exact: Exact) -> io::Result<()> {
    [exact.first, exact.last, exact.first_y].iter().try_for_each(|yes| put_u32(out, u32::from(*yes)))
}

/// N, F and L, in the order of a file's answer.
fn put_frame_of_file(out: &mut impl Write, points: u64, first: i64, last: i64) -> io::Result<()> {
    put_u64(out, points)?;
    put_u64(out, first as u64)?;
    put_u64(out, last as u64)
}

/// Writes a record case and its answer.
pub fn put_record_case(out: &mut impl Write, case: &RecordCase) -> io::Result<()> {
    out.write_all(b"R")?;
    put_bytes(out, &case.file)?;
    put_bytes(out, &case.name)?;
    put_record_answer(out, &case.file, record_text(&case.file, &case.name))
}

/// The answer to a question for a record.
fn put_record_answer(out: &mut impl Write, file: &[u8], answer: RecordText) -> io::Result<()> {
    let (told, from, to) = match answer {
        RecordText::Part(from, to) => (Told::default(), from, to),
        RecordText::Absent => (Told { number: ABSENT, ..Told::default() }, 0, 0),
        RecordText::Refused(fault) => (fault.told(file), 0, 0),
    };
    put_told(out, told)?;
    put_u64(out, from)?;
    put_u64(out, to)
}

/// Writes a case of a compound file: what it is, and then the place and the answer of each data block.
pub fn put_compound_case(out: &mut impl Write, case: &CompoundCase) -> io::Result<()> {
    out.write_all(b"C")?;
    put_u32(out, case.room)?;
    put_bytes(out, &case.file)?;
    let found = match survey(&case.file) {
        Err(fault) => {
            put_told(out, fault.told(&case.file))?;
            put_u32(out, 0)?;
            return put_u64(out, 0);
        }
        Ok(found) => found,
    };
    put_told(out, Told::default())?;
    put_u32(out, u32::from(found.is_compound()))?;
    put_u64(out, found.blocks() as u64)?;
    for k in 0..found.blocks() {
        let (from, to) = found.extent(k).expect("the block is there");
        put_u64(out, from as u64)?;
        put_u64(out, to as u64)?;
        let answer = found.read(&case.file, k, case.room as usize).expect("the block is there");
        put_file_answer(out, &case.file, answer)?;
    }
    Ok(())
}

/// Writes a case of a file with a page: the refusal, and whether it counts in the page; then N, F and L, what is exact,
/// where the fifteen texts stand, and the ordinates.
pub fn put_profile_case(out: &mut impl Write, case: &ProfileCase) -> io::Result<()> {
    out.write_all(b"P")?;
    put_u32(out, case.room)?;
    put_bytes(out, &case.file)?;
    put_bytes(out, &case.page)?;
    match read_profile(&case.file, &case.page, case.room as usize) {
        Err(refused) => {
            let text = if refused.on_page { &case.page } else { &case.file };
            put_told(out, refused.fault.told(text))?;
            put_u32(out, u32::from(refused.on_page))
        }
        Ok((table, shown)) => {
            put_told(out, Told::default())?;
            put_u32(out, 0)?;
            put_frame_of_file(out, table.points, table.first, table.last)?;
            put_exact(out, table.exact)?;
            for part in shown {
                put_u32(out, u32::from(part.on_page))?;
                put_u64(out, part.from as u64)?;
                put_u64(out, part.to as u64)?;
            }
            put_ordinates(out, &table.ordinates)
        }
    }
}

/// A number that may be none: 1 and the number, or 0 and 0.
fn put_level(out: &mut impl Write, level: Option<i64>) -> io::Result<()> {
    put_u32(out, u32::from(level.is_some()))?;
    put_u64(out, level.unwrap_or(0) as u64)
}

/// Ordinates by one number, FNV-1a over their bytes: a night has too many to write them all.
fn digest(ordinates: &[i32]) -> u64 {
    let bytes = ordinates.iter().flat_map(|y| y.to_le_bytes());
    bytes.fold(0xcbf2_9ce4_8422_2325, |mix, byte| (mix ^ u64::from(byte)).wrapping_mul(0x0100_0000_01b3))
}

/// Writes a case of a spool: the report of each file, the totals, and how the spool ended.
pub fn put_spool_case(out: &mut impl Write, case: &SpoolCase) -> io::Result<()> {
    out.write_all(b"N")?;
    put_u32(out, case.room)?;
    put_bytes(out, &case.spool)?;
    let night = report(&case.spool, case.room as usize);
    put_u32(out, night.reports.len() as u32)?;
    for report in &night.reports {
        put_u64(out, report.at as u64)?;
        match &report.outcome {
            Err(fault) => put_told(out, fault.told(report.file))?,
            Ok((account, ordinates)) => {
                put_told(out, Told::default())?;
                put_u64(out, account.points)?;
                put_u64(out, account.missing)?;
                put_level(out, account.lowest)?;
                put_level(out, account.highest)?;
                put_u64(out, account.sum as u64)?;
                put_level(out, account.faintest)?;
                put_u64(out, digest(ordinates))?;
            }
        }
    }
    let Totals { files, points, missing, sum } = night.totals;
    [files, points, missing, sum as u64].iter().try_for_each(|total| put_u64(out, *total))?;
    let ended = night.ended.err();
    put_u32(out, ended.map_or(0, |fault| fault.number))?;
    put_u64(out, ended.map_or(0, |fault| fault.place))
}

/// Writes a case of an accepted body, all single-byte damages of which are read: how many are refused, read as before,
/// read as another list, and a digest of all answers.
pub fn put_damage_case(out: &mut impl Write, case: &BodyCase) -> io::Result<()> {
    out.write_all(b"D")?;
    put_frame(out, &case.frame)?;
    put_bytes(out, &case.body)?;
    let Frame { first, last, points } = case.frame;
    let ordinates = read_body(first, last, points, &case.body, points as usize).map_err(|_| broken("not accepted"))?;
    let found = damaged(&case.frame, &case.body, &ordinates);
    let all = found.by_line.into_iter().fold(Outcomes::default(), Outcomes::with);
    [all.unequal + all.otherwise, all.same, all.other, found.digest].iter().try_for_each(|n| put_u64(out, *n))
}

/// Writes a case of a refused body: its refusal, and the table that begins with what stays of it. This reader reads that
/// table as it should before it goes into the stream.
pub fn put_kept_case(out: &mut impl Write, case: &BodyCase) -> io::Result<()> {
    out.write_all(b"A")?;
    put_frame(out, &case.frame)?;
    put_bytes(out, &case.body)?;
    let Frame { first, last, points } = case.frame;
    let read = |text: &[u8]| read_body(first, last, points, text, points as usize);
    let fault = read(&case.body).err().ok_or(broken("not refused"))?;
    let made = completed(&case.frame, &case.body, fault).map_err(|_| broken("a fault before the place"))?;
    if read(&made.text).ok().as_ref() != Some(&made.ordinates) {
        return Err(broken("what stands before the place is not completed"));
    }
    put_told(out, fault.told(&case.body))?;
    put_u32(out, made.stays as u32)?;
    put_u64(out, made.kept as u64)?;
    put_bytes(out, &made.text)?;
    put_ordinates(out, &made.ordinates)
}

/// Writes a case of an old body: what the converter makes of it, and how it was read before.
pub fn put_old_body_case(out: &mut impl Write, case: &BodyCase) -> io::Result<()> {
    out.write_all(b"T")?;
    put_frame(out, &case.frame)?;
    put_u32(out, case.room)?;
    put_bytes(out, &case.body)?;
    out.write_all(&converted(&case.body))?;
    let Frame { first, last, points } = case.frame;
    put_body_answer(out, &case.body, read_body_before(first, last, points, &case.body, case.room as usize))
}

/// Writes a case of an old file: what the converter makes of it, and how it was read before.
pub fn put_old_file_case(out: &mut impl Write, case: &FileCase) -> io::Result<()> {
    out.write_all(b"U")?;
    put_u32(out, case.room)?;
    put_bytes(out, &case.file)?;
    out.write_all(&converted_file(&case.file))?;
    put_u32(out, u32::from(body_extent(&case.file).is_some()))?;
    put_file_answer(out, &case.file, read_file_before(&case.file, case.room as usize))
}

/// An error of a stream that cannot be.
fn broken(what: &'static str) -> io::Error {
    io::Error::new(io::ErrorKind::InvalidData, what)
}

/// Writes a case of a data block's record and its answer; a block that is not there is absent too.
pub fn put_block_record_case(out: &mut impl Write, case: &BlockRecordCase) -> io::Result<()> {
    out.write_all(b"K")?;
    put_bytes(out, &case.file)?;
    put_u64(out, case.block)?;
    put_bytes(out, &case.name)?;
    let answer = match survey(&case.file) {
        Err(fault) => RecordText::Refused(fault),
        Ok(found) => found.record(&case.file, case.block as usize, &case.name).unwrap_or(RecordText::Absent),
    };
    put_record_answer(out, &case.file, answer)
}

/// Writes a case of a file to be written, and its answer.
pub fn put_written_file_case(out: &mut impl Write, case: &WrittenFileCase) -> io::Result<()> {
    out.write_all(b"V")?;
    put_bytes(out, &case.title)?;
    put_u64(out, case.points)?;
    for Given { mantissa, exponent } in case.scales.list() {
        put_u64(out, mantissa as u64)?;
        put_u64(out, exponent as u64)?;
    }
    put_u32(out, case.ordinates.len() as u32)?;
    put_ordinates(out, &case.ordinates)?;
    put_u32(out, case.room)?;
    let (number, place, frame, exact, text) = match case.answer() {
        Ok(written) => {
            case.read_back(&written)?;
            (0, 0, written.frame, written.exact, written.text)
        }
        Err(fault) => (fault.number, fault.place, Frame { first: 0, last: 0, points: 0 }, Exact::default(), Vec::new()),
    };
    put_u32(out, number)?;
    put_u64(out, place)?;
    put_u64(out, frame.first as u64)?;
    put_u64(out, frame.last as u64)?;
    put_exact(out, exact)?;
    put_u64(out, text.len() as u64)?;
    out.write_all(&text)?;
    match case.answer_in(usize::MAX) {
        Ok(written) => put_length(out, 0, written.text.len()),
        Err(fault) => put_length(out, fault.number, 0),
    }
}

/// A stream that is being read.
struct Stream<R: Read> {
    input: R,
    /// How many bodies tried each of `TRIED`.
    tried: [usize; TRIED.len()],
    /// How many bodies tried each of `lengths::TRIED`.
    tried_lines: [usize; lengths::TRIED.len()],
    /// How many tables with |L-F| below N-1 were written.
    close: usize,
    /// How many accepted files have F, L and FIRSTY's quotient exact, and not.
    exact: BTreeMap<[bool; 3], usize>,
    /// How many texts of accepted profiles stand in the file, and on the page.
    shown: [usize; 2],
    /// How many data blocks of compound files have each answer.
    blocks: BTreeMap<u32, usize>,
    /// How many files of spools have each answer.
    spooled: BTreeMap<u32, usize>,
    /// How many files to be written tried each of `file_tried::TRIED`.
    tried_files: [usize; file_tried::TRIED.len()],
}

impl<R: Read> Stream<R> {
    /// The next `count` bytes.
    fn bytes(&mut self, count: usize) -> io::Result<Vec<u8>> {
        let mut bytes = vec![0; count];
        self.input.read_exact(&mut bytes)?;
        Ok(bytes)
    }

    /// The next 32-bit number.
    fn u32(&mut self) -> io::Result<u32> {
        Ok(u32::from_le_bytes(self.bytes(4)?.try_into().expect("four bytes")))
    }

    /// The next 64-bit number.
    fn u64(&mut self) -> io::Result<u64> {
        Ok(u64::from_le_bytes(self.bytes(8)?.try_into().expect("eight bytes")))
    }

    /// Bytes after their length.
    fn counted(&mut self) -> io::Result<Vec<u8>> {
        let length = self.u32()? as usize;
        self.bytes(length)
    }

    /// F, L and N.
    fn frame(&mut self) -> io::Result<Frame> {
        Ok(Frame { first: self.u64()? as i64, last: self.u64()? as i64, points: self.u64()? })
    }

    /// The number of a reader's answer; its place, line and column are passed over.
    fn told(&mut self) -> io::Result<u32> {
        let number = self.u32()?;
        self.bytes(24)?;
        Ok(number)
    }

    /// Which of F, L and FIRSTY's quotient are exact.
    fn exact(&mut self) -> io::Result<[bool; 3]> {
        Ok([self.u32()? == 1, self.u32()? == 1, self.u32()? == 1])
    }

    /// The kind of the next case, or nothing at the end.
    fn kind(&mut self) -> io::Result<Option<u8>> {
        let mut one = [0];
        Ok(if self.input.read(&mut one)? == 1 { Some(one[0]) } else { None })
    }

    /// Reads the rest of a case: what it is, its number and the bytes of its body, text or file.
    fn case(&mut self, kind: u8) -> io::Result<(&'static str, u32, usize)> {
        let named = |name, (number, length)| (name, number, length);
        match kind {
            b'B' => Ok(named("B", self.body_case()?)),
            b'W' => self.write_case(),
            b'F' => Ok(named("F", self.file_case()?)),
            b'R' => Ok(named("R", self.record_case()?)),
            b'V' => Ok(named("V", self.written_file_case()?)),
            b'C' => self.compound_case(),
            b'K' => Ok(named("K", self.block_record_case()?)),
            b'P' => self.profile_case(),
            b'N' => Ok(named("N", self.spool_case()?)),
            b'D' => Ok(named("D", self.damage_case()?)),
            b'A' => self.kept_case(),
            b'T' => Ok(named("T", self.old_body_case()?)),
            b'U' => Ok(named("U", self.old_file_case()?)),
            _ => Err(broken("no such kind of case")),
        }
    }

    /// The rest of a body case.
    fn body_case(&mut self) -> io::Result<(u32, usize)> {
        let frame = self.frame()?;
        let room = self.u32()? as usize;
        let body = self.counted()?;
        let number = self.told()?;
        let count = self.u64()? as usize;
        self.bytes(4 * count)?;
        for (times, holds) in self.tried.iter_mut().zip(tried(&frame, &body, room)) {
            *times += usize::from(holds);
        }
        let answer = read_body(frame.first, frame.last, frame.points, &body, room);
        for (times, holds) in self.tried_lines.iter_mut().zip(lengths::tried(&body, &answer)) {
            *times += usize::from(holds);
        }
        Ok((number, body.len()))
    }

    /// The rest of a writer's case, which is told by its form.
    fn write_case(&mut self) -> io::Result<(&'static str, u32, usize)> {
        let frame = self.frame()?;
        let form = TextForm::numbered(self.u32()?);
        let count = self.u32()? as usize;
        self.bytes(4 * count + 4)?;
        let number = self.u32()?;
        self.u64()?;
        let length = self.u64()? as usize;
        self.bytes(length + 12)?;
        self.close += usize::from(number == 0 && frame.span().abs() < frame.steps());
        let names = ["W difdup", "W affn", "W pac", "W sqz"];
        Ok((form.map_or("W no form", |form| names[form as usize]), number, length))
    }

    /// The rest of a file case.
    fn file_case(&mut self) -> io::Result<(u32, usize)> {
        self.u32()?;
        let length = self.counted()?.len();
        let number = self.told()?;
        let points = self.u64()? as usize;
        self.bytes(16)?;
        let exact = self.exact()?;
        self.bytes(4 * points)?;
        if number == 0 {
            *self.exact.entry(exact).or_default() += 1;
        }
        Ok((number, length))
    }

    /// The rest of a record case; its number is 0 for a part, `ABSENT`, or that of the refusal.
    fn record_case(&mut self) -> io::Result<(u32, usize)> {
        let length = self.counted()?.len();
        self.counted()?;
        let number = self.told()?;
        self.bytes(16)?;
        Ok((number, length))
    }

    /// The rest of a case of a compound file, which is told by what it is; the answers of its blocks are counted apart.
    fn compound_case(&mut self) -> io::Result<(&'static str, u32, usize)> {
        self.u32()?;
        let file = self.counted()?;
        let number = self.told()?;
        let is_compound = self.u32()? == 1;
        let blocks = self.u64()?;
        for _ in 0..blocks {
            let (from, to) = (self.u64()? as usize, self.u64()? as usize);
            let answer = self.told()?;
            let points = self.u64()? as usize;
            self.bytes(16 + 12 + 4 * points)?;
            if is_compound {
                *self.blocks.entry(answer).or_default() += 1;
            }
            debug_assert!(from <= to && to <= file.len());
        }
        let name = match (number, is_compound) {
            (0, false) => "C one data block",
            (0, true) => "C compound",
            _ => "C refused",
        };
        Ok((name, number, file.len()))
    }

    /// The rest of a case of a spool; the answers of its files are counted apart.
    fn spool_case(&mut self) -> io::Result<(u32, usize)> {
        self.u32()?;
        let length = self.counted()?.len();
        for _ in 0..self.u32()? {
            self.u64()?;
            let answer = self.told()?;
            if answer == 0 {
                self.bytes(16 + 12 + 12 + 8 + 12 + 8)?;
            }
            *self.spooled.entry(answer).or_default() += 1;
        }
        self.bytes(32)?;
        let number = self.u32()?;
        self.u64()?;
        Ok((number, length))
    }

    /// The rest of a case of a refused body, which is told by what of it stays.
    fn kept_case(&mut self) -> io::Result<(&'static str, u32, usize)> {
        let points = self.frame()?.points as usize;
        self.counted()?;
        let number = self.told()?;
        let names = ["A all before the place", "A before the line, N points given", "A before the line, no room for a check"];
        let name = names.get(self.u32()? as usize).ok_or(broken("no such thing stays"))?;
        self.u64()?;
        let length = self.counted()?.len();
        self.bytes(4 * points)?;
        Ok((name, number, length))
    }

    /// The rest of a case of an old body.
    fn old_body_case(&mut self) -> io::Result<(u32, usize)> {
        self.frame()?;
        self.u32()?;
        let length = self.counted()?.len();
        self.bytes(length)?;
        let number = self.told()?;
        let count = self.u64()? as usize;
        self.bytes(4 * count)?;
        Ok((number, length))
    }

    /// The rest of a case of an old file.
    fn old_file_case(&mut self) -> io::Result<(u32, usize)> {
        self.u32()?;
        let length = self.counted()?.len();
        self.bytes(length + 4)?;
        let number = self.told()?;
        let points = self.u64()? as usize;
        self.bytes(16 + 12 + 4 * points)?;
        Ok((number, length))
    }

    /// The rest of a case of a body to be damaged.
    fn damage_case(&mut self) -> io::Result<(u32, usize)> {
        self.frame()?;
        let length = self.counted()?.len();
        self.bytes(32)?;
        Ok((0, length))
    }

    /// The rest of a case of a file with a page, which is told by the text that its refusal counts in.
    fn profile_case(&mut self) -> io::Result<(&'static str, u32, usize)> {
        self.u32()?;
        let file = self.counted()?;
        let page = self.counted()?;
        let number = self.told()?;
        let on_page = self.u32()? == 1;
        if number == 0 {
            let points = self.u64()? as usize;
            self.bytes(16 + 12)?;
            for _ in &WANTED {
                let there = self.u32()? == 1;
                self.bytes(16)?;
                self.shown[usize::from(there)] += 1;
            }
            self.bytes(4 * points)?;
        }
        Ok((if on_page { "P on the page" } else { "P" }, number, file.len() + page.len()))
    }

    /// The rest of a case of a block's record.
    fn block_record_case(&mut self) -> io::Result<(u32, usize)> {
        let length = self.counted()?.len();
        self.u64()?;
        self.counted()?;
        let number = self.told()?;
        self.bytes(16)?;
        Ok((number, length))
    }

    /// The rest of a case of a file to be written.
    fn written_file_case(&mut self) -> io::Result<(u32, usize)> {
        let title = self.counted()?;
        let points = self.u64()?;
        let mut scales = [Given { mantissa: 0, exponent: 0 }; 5];
        for given in &mut scales {
            *given = Given { mantissa: self.u64()? as i64, exponent: self.u64()? as i64 };
        }
        let count = self.u32()? as usize;
        let bytes = self.bytes(4 * count)?;
        let ordinates = bytes.chunks(4).map(|y| i32::from_le_bytes(y.try_into().expect("four bytes"))).collect();
        let room = self.u32()?;
        let number = self.u32()?;
        self.bytes(24 + 12)?;
        let length = self.u64()? as usize;
        self.bytes(length + 12)?;
        let case = WrittenFileCase { title, points, scales: Scales::of(scales), ordinates, room };
        for (times, holds) in self.tried_files.iter_mut().zip(file_tried::tried(&case)) {
            *times += usize::from(holds);
        }
        Ok((number, length))
    }
}

/// Counts the answers of a stream by kind of case, written ones by form too, and number, and what bodies' heads and
/// lines and files to be written tried, and prints them.
pub fn count(input: impl Read) -> io::Result<()> {
    let tried_files = [0; file_tried::TRIED.len()];
    let tried_lines = [0; lengths::TRIED.len()];
    let mut stream = Stream {
        input,
        tried: [0; TRIED.len()],
        tried_lines,
        close: 0,
        exact: BTreeMap::new(),
        shown: [0; 2],
        blocks: BTreeMap::new(),
        spooled: BTreeMap::new(),
        tried_files,
    };
    let mut counts: BTreeMap<(&str, u32), usize> = BTreeMap::new();
    let mut sizes: BTreeMap<&str, (usize, usize)> = BTreeMap::new();
    while let Some(kind) = stream.kind()? {
        let (name, number, length) = stream.case(kind)?;
        *counts.entry((name, number)).or_default() += 1;
        let (cases, bytes) = sizes.entry(name).or_default();
        *cases += 1;
        *bytes += length;
    }
    for (name, (cases, bytes)) in sizes {
        println!("{name} {cases} cases, {bytes} bytes of body, text or file");
        for ((_, number), times) in counts.range((name, 0)..=(name, u32::MAX)) {
            let answer = match *number {
                0 => "accepted".into(),
                ABSENT => if name == "R" || name == "K" { "absent" } else { "no form" }.into(),
                n => format!("refused {n}"),
            };
            println!("  {answer}: {times}");
        }
    }
    for (what, times) in TRIED.iter().zip(stream.tried) {
        println!("bodies, {what}: {times}");
    }
    for (what, times) in lengths::TRIED.iter().zip(stream.tried_lines) {
        println!("bodies, {what}: {times}");
    }
    for ([first, last, first_y], times) in &stream.exact {
        let word = |exact: &bool| if *exact { "exact" } else { "rounded" };
        println!("files accepted, F {}, L {}, FIRSTY {}: {times}", word(first), word(last), word(first_y));
    }
    println!("texts of profiles, in the file: {}, on the page: {}", stream.shown[0], stream.shown[1]);
    for (what, answers) in [("data blocks of compound files", &stream.blocks), ("files of spools", &stream.spooled)] {
        for (number, times) in answers {
            let answer = if *number == 0 { "accepted".into() } else { format!("refused {number}") };
            println!("{what}, {answer}: {times}");
        }
    }
    println!("tables with |L-F| below N-1, written: {}", stream.close);
    for (what, times) in file_tried::TRIED.iter().zip(stream.tried_files) {
        println!("files to write, {what}: {times}");
    }
    Ok(())
}
