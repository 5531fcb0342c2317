//! Writing a file: the title, the numbers, the table in DIFDUP form (02, T-04).

use crate::file::{is_exact, quotient, Decimal, Exact};
use crate::frame::{refusal, Frame, Refusal, LARGEST_ABSCISSA, MISSING};
use crate::text::{write_body, TextForm, LINE_END};

/// Most bytes of a title; with its label it fills a line of 80.
pub const LONGEST_TITLE: usize = 72;

/// Largest magnitudes of a mantissa, which has at most 9 digits, and of an exponent.
pub const LARGEST_MANTISSA: i64 = 999_999_999;
pub const LARGEST_EXPONENT: i64 = 99;

/// A decimal as the caller gives it: mantissa times ten to the exponent, any 64-bit numbers.
#[derive(Clone, Copy, Debug, PartialEq, Eq)]
pub struct Given {
    pub mantissa: i64,
    pub exponent: i64,
}

impl Given {
    /// The decimal, if its mantissa and its exponent are small enough.
    pub fn decimal(self) -> Option<Decimal> {
        let mantissa = self.mantissa.unsigned_abs() <= LARGEST_MANTISSA as u64;
        let exponent = self.exponent.unsigned_abs() <= LARGEST_EXPONENT as u64;
        (mantissa && exponent).then(|| Decimal { mantissa: i128::from(self.mantissa), exponent: self.exponent as i32 })
    }
}

/// The five decimals of a file, in the order in which it has them.
#[derive(Clone, Copy, Debug, PartialEq, Eq)]
pub struct Scales<T> {
    pub x_factor: T,
    pub y_factor: T,
    pub first_x: T,
    pub last_x: T,
    pub first_y: T,
}

impl<T: Copy> Scales<T> {
    /// The five of a list.
    pub fn of([x_factor, y_factor, first_x, last_x, first_y]: [T; 5]) -> Scales<T> {
        Scales { x_factor, y_factor, first_x, last_x, first_y }
    }

    /// The list of the five.
    pub fn list(&self) -> [T; 5] {
        [self.x_factor, self.y_factor, self.first_x, self.last_x, self.first_y]
    }
}

impl Scales<Given> {
    /// The decimals, if each is one and both factors exceed zero.
    fn decimals(&self) -> Option<Scales<Decimal>> {
        let all: Option<Vec<Decimal>> = self.list().into_iter().map(Given::decimal).collect();
        let scales = Scales::of(all?.try_into().expect("five"));
        (scales.x_factor.mantissa > 0 && scales.y_factor.mantissa > 0).then_some(scales)
    }
}

/// A file that was written, the frame of its table, and whether F, L and FIRSTY's quotient are exact (02, T-08).
#[derive(Clone, Debug, PartialEq, Eq)]
pub struct WrittenFile {
    pub frame: Frame,
    pub exact: Exact,
    pub text: Vec<u8>,
}

/// Whether a title may be written: at most 72 bytes, each from 32 to 126, and no `$$`, which would start a comment.
fn title_allowed(title: &[u8]) -> bool {
    title.len() <= LONGEST_TITLE
        && title.iter().all(|byte| (32..=126).contains(byte))
        && !title.windows(2).any(|pair| pair == b"$$")
}

/// An abscissa in thousandths, or 28.
fn abscissa(above: Decimal, factor: Decimal) -> Result<i64, Refusal> {
    let within = quotient(above, factor, 3).filter(|x| x.abs() <= LARGEST_ABSCISSA);
    within.map(|x| x as i64).ok_or(refusal(28, 0))
}

/// A decimal in its one spelling: the mantissa, `E`, the exponent's sign, `+` for zero, and its two digits.
fn spelled(number: Decimal) -> String {
    let sign = if number.exponent < 0 { '-' } else { '+' };
    format!("{}E{sign}{:02}", number.mantissa, number.exponent.abs())
}

/// The records before the body, in 02's order, XYDATA's list the last.
fn records(title: &[u8], points: u64, scales: &Scales<Decimal>) -> [(&'static str, Vec<u8>); 8] {
    [
        ("TITLE", title.to_vec()),
        ("XFACTOR", spelled(scales.x_factor).into()),
        ("YFACTOR", spelled(scales.y_factor).into()),
        ("FIRSTX", spelled(scales.first_x).into()),
        ("LASTX", spelled(scales.last_x).into()),
        ("NPOINTS", points.to_string().into()),
        ("FIRSTY", spelled(scales.first_y).into()),
        ("XYDATA", b"(X++(Y..Y))".to_vec()),
    ]
}

/// A record: label, `=`, text, line end.
fn record(label: &str, text: &[u8]) -> Vec<u8> {
    [b"##", label.as_bytes(), b"=", text, LINE_END].concat()
}

/// Writes a file, or refuses with 37, 26, 28, 1, 2, 29, 15 in this order; `room` is the number of lent bytes.
pub fn write_file(
    title: &[u8],
    points: u64,
    scales: &Scales<Given>,
    ordinates: &[i32],
    room: usize,
) -> Result<WrittenFile, Refusal> {
    if !title_allowed(title) {
        return Err(refusal(37, 0));
    }
    let scales = scales.decimals().ok_or(refusal(26, 0))?;
    let first = abscissa(scales.first_x, scales.x_factor)?;
    let last = abscissa(scales.last_x, scales.x_factor)?;
    let frame = Frame { first, last, points };
    let body = write_body(TextForm::Difdup, &frame, ordinates, usize::MAX)?;
    let expected = quotient(scales.first_y, scales.y_factor, 0);
    if ordinates[0] != MISSING && expected != Some(i128::from(ordinates[0])) {
        return Err(refusal(29, 0));
    }
    let head = records(title, points, &scales).iter().flat_map(|(label, text)| record(label, text)).collect();
    let text: Vec<u8> = [head, body, record("END", b"")].concat();
    if text.len() > room {
        return Err(refusal(15, 0));
    }
    let exact = Exact {
        first: is_exact(scales.first_x, scales.x_factor, 3),
        last: is_exact(scales.last_x, scales.x_factor, 3),
        first_y: ordinates[0] == MISSING || is_exact(scales.first_y, scales.y_factor, 0),
    };
    Ok(WrittenFile { frame, exact, text })
}
