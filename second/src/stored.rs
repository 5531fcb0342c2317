//! The stored cases of crates/replay: small cases in one file, their answers in another. README.md gives the format.

use crate::body::read_body;
use crate::cases::{body_case, files, writes::write_case, written_files::written_file_case};
use crate::file::read_file;
use crate::file_text::Given;
use crate::frame::{Frame, Refusal, MISSING};
use crate::random::Random;
use crate::stream::{BodyCase, FileCase, WriteCase, WrittenFileCase};
use crate::text::{write_body, TextForm, FORMS};
use std::io::{self, Write};

/// Most bytes of a body, a text or a file, and most ordinates lent and given, of a stored case; crates/replay has room
/// for them.
const MOST_BYTES: usize = 4_096;
const MOST_LENT: u32 = 1_024;
const MOST_GIVEN: usize = 256;

/// The two files that are being written.
pub struct Stored<C: Write, A: Write> {
    pub cases: C,
    pub answers: A,
}

impl<C: Write, A: Write> Stored<C, A> {
    /// Writes as many cases of each kind as are asked for (bodies, tables to write, files, files to write), none of
    /// them large; tables are written in each form in turn.
    pub fn write(&mut self, seed: u64, counts: [usize; 4]) -> io::Result<()> {
        let [bodies, writes, files, written] = counts;
        let random = &mut Random::new(seed);
        for _ in 0..bodies {
            let case = small(|| body_case(random, 0, usize::MAX), |case| case.body.len() <= MOST_BYTES);
            self.body(&case)?;
        }
        for index in 0..writes {
            let form = FORMS[index % FORMS.len()];
            let case = small(|| write_case(random, 0, usize::MAX), |case| fits(case) && case.form == form as u32);
            self.table(form, &case)?;
        }
        for _ in 0..files {
            let case = small(|| files::file_case(random, 0, usize::MAX), |case| case.file.len() <= MOST_BYTES);
            self.file(&case)?;
        }
        for _ in 0..written {
            let case = small(|| written_file_case(random, 0, usize::MAX), file_fits);
            self.written_file(&case)?;
        }
        self.cases.flush()?;
        self.answers.flush()
    }

    /// What stands before a case: its kind, F, L and N, the room and the count, in 64 bits each, big endian.
    fn put_header(&mut self, kind: u64, frame: &Frame, room: u32, count: usize) -> io::Result<()> {
        let numbers = [kind, frame.first as u64, frame.last as u64, frame.points, u64::from(room), count as u64];
        numbers.iter().try_for_each(|number| self.cases.write_all(&number.to_be_bytes()))
    }

    /// A body and its answer.
    fn body(&mut self, case: &BodyCase) -> io::Result<()> {
        let room = case.room.min(MOST_LENT);
        self.put_header(1, &case.frame, room, case.body.len())?;
        self.cases.write_all(&case.body)?;
        let Frame { first, last, points } = case.frame;
        match read_body(first, last, points, &case.body, room as usize) {
            Ok(ordinates) => writeln!(self.answers, "ok {points}{}", words(&ordinates)),
            Err(fault) => writeln!(self.answers, "{}", fault.told(&case.body)),
        }
    }

    /// A table to write and its answer; crates/replay reads each text back, and it is always the same table.
    fn table(&mut self, form: TextForm, case: &WriteCase) -> io::Result<()> {
        let kind = [2, 4, 5, 6][form as usize];
        self.put_header(kind, &case.frame, case.room, case.ordinates.len())?;
        self.put_ordinates(&case.ordinates)?;
        self.put_text(write_body(form, &case.frame, &case.ordinates, case.room as usize))
    }

    /// A file to write and its answer; crates/replay reads each back. N, room and count stand in the header.
    fn written_file(&mut self, case: &WrittenFileCase) -> io::Result<()> {
        let frame = Frame { first: 0, last: 0, points: case.points };
        self.put_header(7, &frame, case.room, case.ordinates.len())?;
        self.cases.write_all(&(case.title.len() as u64).to_be_bytes())?;
        self.cases.write_all(&case.title)?;
        for Given { mantissa, exponent } in case.scales.list() {
            self.cases.write_all(&mantissa.to_be_bytes())?;
            self.cases.write_all(&exponent.to_be_bytes())?;
        }
        self.put_ordinates(&case.ordinates)?;
        self.put_text(case.answer().map(|written| written.text))
    }

    /// Ordinates to be written, each plus 2^31 in 4 bytes, big endian.
    fn put_ordinates(&mut self, ordinates: &[i32]) -> io::Result<()> {
        let shifted = |y: &i32| (i64::from(*y) - i64::from(MISSING)) as u32;
        ordinates.iter().try_for_each(|y| self.cases.write_all(&shifted(y).to_be_bytes()))
    }

    /// The answer of a writer: the text after its length, or the refusal.
    fn put_text(&mut self, answer: Result<Vec<u8>, Refusal>) -> io::Result<()> {
        match answer {
            Ok(text) => {
                writeln!(self.answers, "ok {} same", text.len())?;
                self.answers.write_all(&text)?;
                writeln!(self.answers)
            }
            Err(fault) => writeln!(self.answers, "refused {} {}", fault.number, fault.place),
        }
    }

    /// A file and its answer.
    fn file(&mut self, case: &FileCase) -> io::Result<()> {
        let room = case.room.min(MOST_LENT);
        self.put_header(3, &Frame { first: 0, last: 0, points: 0 }, room, case.file.len())?;
        self.cases.write_all(&case.file)?;
        match read_file(&case.file, room as usize) {
            Ok(t) => writeln!(self.answers, "ok {} {} {}{}", t.points, t.first, t.last, words(&t.ordinates)),
            Err(fault) => writeln!(self.answers, "{}", fault.told(&case.file)),
        }
    }
}

/// The first case made that is small enough.
fn small<T>(mut make: impl FnMut() -> T, fits: impl Fn(&T) -> bool) -> T {
    loop {
        let case = make();
        if fits(&case) {
            return case;
        }
    }
}

/// Whether there is room for a table to write and for its text.
fn fits(case: &WriteCase) -> bool {
    case.ordinates.len() <= MOST_GIVEN && case.room as usize <= MOST_BYTES
}

/// Whether there is room for a file to write and for its text.
fn file_fits(case: &WrittenFileCase) -> bool {
    case.ordinates.len() <= MOST_GIVEN && case.room as usize <= MOST_BYTES
}

/// Ordinates with a blank before each, `?` for a missing one.
fn words(ordinates: &[i32]) -> String {
    ordinates.iter().map(|y| if *y == MISSING { " ?".into() } else { format!(" {y}") }).collect()
}
