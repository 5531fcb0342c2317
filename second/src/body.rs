//! Reading the body of a table: lines first, then tokens, then their meaning (01, Spelling of a body).

use crate::frame::{refusal, Frame, Head, Refusal, LARGEST_ORDINATE, LONGEST, LONGEST_LINE, MISSING, UNITS};

/// A line without its line end and without its comment, the place where it starts, and its length with the comment.
struct Line<'a> {
    start: usize,
    bytes: &'a [u8],
    length: usize,
}

/// What a token is. The last three stand for what is not spelled as it should be.
#[derive(Clone, Copy, Debug, PartialEq, Eq)]
enum Kind {
    /// A head.
    Head(Head),
    /// An AFFN, PAC or SQZ value.
    Actual(i128),
    /// A DIF value.
    Difference(i128),
    /// A DUP with its count.
    Duplicate(i128),
    /// `?`
    Missing,
    /// A byte that cannot stand there (3).
    BadByte,
    /// A first token that is no head (4).
    NoHead,
    /// A misspelled value (5).
    Misspelled,
}

/// A token and the place of its first byte.
#[derive(Clone, Copy, Debug)]
struct Token {
    place: usize,
    kind: Kind,
}

/// Which bytes are the blanks of a body.
#[derive(Clone, Copy, PartialEq, Eq)]
pub enum Blanks {
    /// A tab is refused (02, T-13).
    Spaces,
    /// As it was before.
    SpacesAndTabs,
}

impl Blanks {
    /// Whether a byte is one of them.
    fn have(self, byte: u8) -> bool {
        byte == b' ' || self == Blanks::SpacesAndTabs && byte == b'\t'
    }
}

/// The place where a line's comment starts, if it has one.
pub fn comment_start(line: &[u8]) -> Option<usize> {
    line.windows(2).position(|pair| pair == b"$$")
}

/// The lines of a body. Only LF, or CR directly before LF, or the end of the body ends a line.
fn lines(body: &[u8]) -> Vec<Line<'_>> {
    let mut start = 0;
    let mut found = Vec::new();
    for piece in body.split(|byte| *byte == b'\n') {
        let has_line_feed = start + piece.len() < body.len();
        let length = without_line_end(piece, has_line_feed).len();
        found.push(Line { start, bytes: content(piece, has_line_feed), length });
        start += piece.len() + 1;
    }
    found
}

/// What is left of a line when its comment, or else the CR of its CR LF, is taken away.
pub fn content(piece: &[u8], has_line_feed: bool) -> &[u8] {
    match comment_start(piece) {
        Some(at) => &piece[..at],
        None => without_line_end(piece, has_line_feed),
    }
}

/// What is left of a line when the CR of its CR LF is taken away; a comment stays.
fn without_line_end(piece: &[u8], has_line_feed: bool) -> &[u8] {
    match piece.split_last() {
        Some((b'\r', rest)) if has_line_feed => rest,
        _ => piece,
    }
}

/// Digits at the start of these bytes, as many as there are.
fn digit_run(bytes: &[u8]) -> &[u8] {
    let length = bytes.iter().position(|b| !b.is_ascii_digit()).unwrap_or(bytes.len());
    &bytes[..length]
}

/// The number that digits spell; at most 38 digits ever come here from a token of the right length.
fn number_of(digits: &[u8]) -> i128 {
    digits.iter().fold(0, |n, digit| 10 * n + i128::from(digit - b'0'))
}

/// The sign at the start of these bytes, if there is one: 1 or -1.
fn sign_of(bytes: &[u8]) -> Option<i128> {
    match bytes.first() {
        Some(b'+') => Some(1),
        Some(b'-') => Some(-1),
        _ => None,
    }
}

/// Whether a byte, outside comments and line ends, can never start a token: a point, a lone `$`, a CR without LF,
/// or a byte outside the alphabet.
fn cannot_stand(byte: u8) -> bool {
    !(byte.is_ascii_digit() || b"+-?".contains(&byte) || pseudo_digit(byte).is_some())
}

/// The forms that a pseudo-digit may open.
#[derive(Clone, Copy)]
enum Form {
    Squeezed,
    Difference,
    Duplicate,
}

/// The form, the sign and the digit of a pseudo-digit (001, Table 1).
fn pseudo_digit(byte: u8) -> Option<(Form, i128, i128)> {
    let rows: [(&[u8], Form, i128, i128); 5] = [
        (b"@ABCDEFGHI", Form::Squeezed, 1, 0),
        (b"abcdefghi", Form::Squeezed, -1, 1),
        (b"%JKLMNOPQR", Form::Difference, 1, 0),
        (b"jklmnopqr", Form::Difference, -1, 1),
        (b"STUVWXYZs", Form::Duplicate, 1, 1),
    ];
    for (row, form, sign, lowest) in rows {
        if let Some(at) = row.iter().position(|b| *b == byte) {
            return Some((form, sign, lowest + at as i128));
        }
    }
    None
}

/// The head at the start of these bytes and its length, or what is wrong with the first token.
fn head(bytes: &[u8]) -> (Kind, usize) {
    if cannot_stand(bytes[0]) {
        return (Kind::BadByte, 1);
    }
    let sign_length = if sign_of(bytes).is_some() { 1 } else { 0 };
    let whole = digit_run(&bytes[sign_length..]);
    if whole.is_empty() || whole.len() > 7 {
        return (Kind::NoHead, 1);
    }
    let mut length = sign_length + whole.len();
    let mut fraction: &[u8] = b"";
    if bytes.get(length) == Some(&b'.') {
        fraction = digit_run(&bytes[length + 1..]);
        length += 1 + fraction.len();
    }
    if fraction.len() > 3 {
        return (Kind::NoHead, 1);
    }
    let unit = UNITS[fraction.len()];
    let magnitude = number_of(whole) * 1000 + number_of(fraction) * unit;
    (Kind::Head(Head { thousandths: sign_of(bytes).unwrap_or(1) * magnitude, unit }), length)
}

/// A number of 1 to 10 digits with this sign, or a misspelled value; `before` counts a sign's byte.
fn affn(sign: i128, digits: &[u8], before: usize) -> (Kind, usize) {
    let right = !digits.is_empty() && digits.len() <= 10;
    let kind = if right { Kind::Actual(sign * number_of(digits)) } else { Kind::Misspelled };
    (kind, before + digits.len())
}

/// The value that a pseudo-digit opens, with the digits after it.
fn pseudo(form: Form, sign: i128, first: i128, digits: &[u8]) -> (Kind, usize) {
    let length = 1 + digits.len();
    let most = if matches!(form, Form::Duplicate) { 5 } else { 10 };
    if length > most || (first == 0 && length > 1) {
        return (Kind::Misspelled, length);
    }
    let mut number = first;
    for digit in digits {
        number = 10 * number + i128::from(digit - b'0');
    }
    let kind = match form {
        Form::Squeezed => Kind::Actual(sign * number),
        Form::Difference => Kind::Difference(sign * number),
        Form::Duplicate => Kind::Duplicate(number),
    };
    (kind, length)
}

/// The value at `at` in a line and its length, or what is wrong there.
fn value(line: &[u8], at: usize, blanks: Blanks) -> (Kind, usize) {
    let byte = line[at];
    let after = &line[at + 1..];
    if let Some(sign) = sign_of(&line[at..]) {
        return affn(sign, digit_run(after), 1);
    }
    if let Some((form, sign, first)) = pseudo_digit(byte) {
        return pseudo(form, sign, first, digit_run(after));
    }
    if byte == b'?' {
        return (Kind::Missing, 1);
    }
    if !byte.is_ascii_digit() {
        return (Kind::BadByte, 1);
    }
    if !blanks.have(line[at - 1]) {
        return (Kind::Misspelled, 1);
    }
    affn(1, digit_run(&line[at..]), 0)
}

/// The tokens of a line, none if the line is passed over. After one that is wrong no more are sought: all faults
/// of later tokens stand later.
fn tokens(line: &Line, blanks: Blanks) -> Vec<Token> {
    let mut found: Vec<Token> = Vec::new();
    let mut at = 0;
    while at < line.bytes.len() {
        if blanks.have(line.bytes[at]) {
            at += 1;
            continue;
        }
        let (kind, length) = if found.is_empty() { head(&line.bytes[at..]) } else { value(line.bytes, at, blanks) };
        found.push(Token { place: line.start + at, kind });
        if matches!(kind, Kind::BadByte | Kind::NoHead | Kind::Misspelled) {
            break;
        }
        at += length;
    }
    found
}

/// The form of the last value; a DUP has the form of what it repeats.
#[derive(Clone, Copy, PartialEq, Eq)]
enum LastForm {
    Actual,
    Missing,
    Difference(i128),
}

/// The last value of the line so far: its form and whether it was a DUP.
#[derive(Clone, Copy)]
struct Last {
    form: LastForm,
    was_duplicate: bool,
}

/// What a value stands for: `copies` points, each `step` more than the one before it, from the first one on.
struct Meaning {
    first: Option<i128>,
    step: i128,
    copies: i128,
    form: LastForm,
}

impl Meaning {
    /// Whether all ordinates that the value stands for are in range. They rise or fall steadily: the ends decide.
    fn in_range(&self) -> bool {
        let Some(first) = self.first else { return true };
        let last = first + (self.copies - 1) * self.step;
        first.abs() <= LARGEST_ORDINATE && last.abs() <= LARGEST_ORDINATE
    }
}

/// The table as far as it was read, and the heads that were judged, each with its index.
struct Reading {
    frame: Frame,
    blanks: Blanks,
    given: Vec<Option<i128>>,
    line_before_ended_in_difference: bool,
    heads: Vec<(Head, u64)>,
}

impl Reading {
    /// Nothing read yet.
    fn of(frame: &Frame, blanks: Blanks) -> Reading {
        Reading { frame: *frame, blanks, given: Vec::new(), line_before_ended_in_difference: false, heads: Vec::new() }
    }

    /// Reads all lines of a body that keeps its limits.
    fn body(&mut self, body: &[u8]) -> Result<Vec<i32>, Refusal> {
        self.lines(&lines(body))?;
        if (self.given.len() as u64) < self.frame.points {
            return Err(refusal(12, body.len()));
        }
        if self.line_before_ended_in_difference {
            return Err(refusal(13, body.len()));
        }
        Ok(self.list())
    }

    /// The points given so far.
    fn list(&self) -> Vec<i32> {
        self.given.iter().map(|y| y.map_or(MISSING, |y| y as i32)).collect()
    }

    /// Reads lines, the length of each first.
    fn lines(&mut self, lines: &[Line]) -> Result<(), Refusal> {
        for line in lines {
            if line.length > LONGEST_LINE {
                return Err(refusal(16, line.start));
            }
            let tokens = tokens(line, self.blanks);
            if !tokens.is_empty() {
                self.line(&tokens)?;
            }
        }
        Ok(())
    }

    /// Reads one line that is not passed over.
    fn line(&mut self, tokens: &[Token]) -> Result<(), Refusal> {
        let check = self.line_before_ended_in_difference;
        self.head(tokens, check)?;
        let mut last = None;
        for token in &tokens[1..] {
            last = Some(self.value(token, last, check)?);
        }
        self.line_before_ended_in_difference = matches!(last, Some(Last { form: LastForm::Difference(_), .. }));
        Ok(())
    }

    /// Judges the first token of a line: 3, 4, 6, 7.
    fn head(&mut self, tokens: &[Token], check: bool) -> Result<(), Refusal> {
        let next = self.given.len() as u64;
        let index = if check { next - 1 } else { next };
        if let Kind::Head(head) = tokens[0].kind {
            self.heads.push((head, index));
        }
        let fault = match tokens[0].kind {
            Kind::BadByte => Some(3),
            Kind::Head(head) if !self.frame.head_passes(head, index) => Some(6),
            Kind::Head(_) if tokens.len() == 1 => Some(7),
            Kind::Head(_) => None,
            _ => Some(4),
        };
        fault.map_or(Ok(()), |number| Err(refusal(number, tokens[0].place)))
    }

    /// Judges one value and takes its points in. The faults are sought in the order of their numbers.
    fn value(&mut self, token: &Token, last: Option<Last>, check: bool) -> Result<Last, Refusal> {
        let fault = |number| refusal(number, token.place);
        match token.kind {
            Kind::BadByte => return Err(fault(3)),
            Kind::Misspelled => return Err(fault(5)),
            _ => {}
        }
        let is_check_value = check && last.is_none();
        let meaning = self.meaning(token.kind, last).ok_or(fault(8))?;
        if !meaning.in_range() {
            return Err(fault(9));
        }
        if is_check_value && (meaning.first.is_none() || meaning.first != self.before()) {
            return Err(fault(10));
        }
        let points = if is_check_value { 0 } else { meaning.copies };
        if self.given.len() as i128 + points > self.frame.points as i128 {
            return Err(fault(11));
        }
        for k in 0..points {
            self.given.push(meaning.first.map(|first| first + k * meaning.step));
        }
        Ok(Last { form: meaning.form, was_duplicate: matches!(token.kind, Kind::Duplicate(_)) })
    }

    /// The ordinate before the next point; none if it is missing.
    fn before(&self) -> Option<i128> {
        self.given.last().copied().flatten()
    }

    /// What a value stands for, or nothing if a DIF or DUP is not allowed there or a count is below 2.
    fn meaning(&self, kind: Kind, last: Option<Last>) -> Option<Meaning> {
        match (kind, last) {
            (Kind::Actual(y), _) => Some(Meaning { first: Some(y), step: 0, copies: 1, form: LastForm::Actual }),
            (Kind::Missing, _) => Some(Meaning { first: None, step: 0, copies: 1, form: LastForm::Missing }),
            (Kind::Difference(d), Some(_)) => {
                let first = Some(self.before()? + d);
                Some(Meaning { first, step: 0, copies: 1, form: LastForm::Difference(d) })
            }
            (Kind::Duplicate(count), Some(last)) if count >= 2 && !last.was_duplicate => {
                let step = if let LastForm::Difference(d) = last.form { d } else { 0 };
                let first = self.before().map(|y| y + step);
                Some(Meaning { first, step, copies: count - 1, form: last.form })
            }
            _ => None,
        }
    }
}

/// Reads a table body into N ordinates, or refuses with 1 to 13 or 16; `room` is the length of the lent ordinate slice.
pub fn read_body(first: i64, last: i64, points: u64, body: &[u8], room: usize) -> Result<Vec<i32>, Refusal> {
    judged_body(&Frame { first, last, points }, body, room, Blanks::Spaces).0
}

/// The same as it was before T-13, with tabs for blanks.
pub fn read_body_before(first: i64, last: i64, points: u64, body: &[u8], room: usize) -> Result<Vec<i32>, Refusal> {
    judged_body(&Frame { first, last, points }, body, room, Blanks::SpacesAndTabs).0
}

/// What `read_body` answers, and the heads that it judged, each with its index, up to the first that failed.
pub fn judged_body(
    frame: &Frame,
    body: &[u8],
    room: usize,
    blanks: Blanks,
) -> (Result<Vec<i32>, Refusal>, Vec<(Head, u64)>) {
    if !frame.in_limits() || body.len() > LONGEST {
        return (Err(refusal(1, 0)), Vec::new());
    }
    if (room as u64) < frame.points {
        return (Err(refusal(2, 0)), Vec::new());
    }
    let mut reading = Reading::of(frame, blanks);
    let answer = reading.body(body);
    (answer, reading.heads)
}

/// What stands on the last line of a text that is cut off.
#[derive(Clone, Copy, Debug, PartialEq, Eq)]
pub enum Begun {
    /// Blanks, a comment, or nothing.
    Nothing,
    /// A head, with blanks around it.
    Head,
    /// A head and values, the last of them in DIF form or not.
    Values { in_difference: bool },
}

/// How far a table has come where its text is cut off.
pub struct Standing {
    /// The points given so far.
    pub given: Vec<i32>,
    /// Whether the last line is a check line.
    pub check_due: bool,
    /// Where the last line starts.
    pub line_start: usize,
    /// How many bytes it has.
    pub line_length: usize,
    /// What stands on it.
    pub begun: Begun,
}

impl Reading {
    /// Reads a text that is cut off between two tokens: its last line may go on, so a head without a value is no fault.
    fn cut_off(&mut self, text: &[u8]) -> Result<Standing, Refusal> {
        let mut lines = lines(text);
        let last = lines.pop().expect("every text has a line");
        self.lines(&lines)?;
        let check_due = self.line_before_ended_in_difference;
        let tokens = tokens(&last, self.blanks);
        if !tokens.is_empty() {
            self.line(&tokens).or_else(|fault| if fault.number == 7 { Ok(()) } else { Err(fault) })?;
        }
        let begun = match tokens.len() {
            0 => Begun::Nothing,
            1 => Begun::Head,
            _ => Begun::Values { in_difference: self.line_before_ended_in_difference },
        };
        Ok(Standing { given: self.list(), check_due, line_start: last.start, line_length: last.length, begun })
    }
}

/// How far a table has come at the end of a text that is cut off, or the fault that stands in it.
pub fn standing(frame: &Frame, text: &[u8]) -> Result<Standing, Refusal> {
    Reading::of(frame, Blanks::Spaces).cut_off(text)
}

/// A line as its length is judged, for counting: where it starts, its bytes, and how it ends.
pub struct LineLength {
    pub start: usize,
    pub length: usize,
    pub has_line_feed: bool,
    pub has_cr_lf: bool,
    pub ends_in_cr: bool,
    pub is_passed_over: bool,
}

/// The lines of a body with their lengths.
pub fn line_lengths(body: &[u8]) -> Vec<LineLength> {
    let of = |line: &Line| {
        let end = line.start + line.length;
        let rest = &body[end..];
        LineLength {
            start: line.start,
            length: line.length,
            has_line_feed: !rest.is_empty(),
            has_cr_lf: rest.starts_with(b"\r"),
            ends_in_cr: body[line.start..end].ends_with(b"\r"),
            is_passed_over: line.bytes.iter().all(|byte| *byte == b' '),
        }
    };
    lines(body).iter().map(of).collect()
}

/// How a line ends, for counting: passed over, in DIF form, or with another value.
#[derive(Clone, Copy, PartialEq, Eq)]
pub enum LineEnd {
    PassedOver,
    Difference,
    Other,
}

/// How each line of an accepted body ends; a DUP has the form of what it repeats.
pub fn line_ends(body: &[u8]) -> Vec<LineEnd> {
    let of = |line: &Line| match tokens(line, Blanks::Spaces).iter().rev().find(|token| !matches!(token.kind, Kind::Duplicate(_))) {
        None => LineEnd::PassedOver,
        Some(Token { kind: Kind::Difference(_), .. }) => LineEnd::Difference,
        Some(_) => LineEnd::Other,
    };
    lines(body).iter().map(of).collect()
}
