//! Random files: records in any order and spelling, numbers in all spellings, right and wrong.

use super::spell::{self, blanks, comment, line_end, passed_over, Style};
use super::{damage, large_cases, pad, tables};
use crate::file::{quotient, Decimal};
use crate::frame::{Frame, LARGEST_ORDINATE, LONGEST, LONGEST_LINE, MISSING};
use crate::random::Random;
use crate::stream::{FileCase, RecordCase};

/// A record to be written: its name, the text after `=` with the last line end, and how the name is followed.
struct Entry {
    name: Vec<u8>,
    text: Vec<u8>,
    equals: &'static [u8],
}

/// Names of records that the reader passes over.
pub const UNKNOWN: &[&[u8]] = &[
    b"JCAMP-DX",
    b"DATA TYPE",
    b"ORIGIN",
    b"OWNER",
    b"XUNITS",
    b"YUNITS",
    b"DELTAX",
    b"FIRST",
    b"X",
    b"XFACTORS",
    b"ENDE",
    b"",
    b"",
    b"MAXX",
    b"END X",
    b"TITLE2",
    b"$$",
    b"#",
    b"NPOINTS,",
    b"\xc4",
    b"XY DATUM",
    b"RESOLUTION",
    b"##",
    b"TI.TLE",
];

/// Wrong spellings of a number.
const WRONG_NUMBERS: &[&[u8]] = &[
    b".",
    b"",
    b"+",
    b"-",
    b"1E5",
    b"1E+5",
    b"1e+05",
    b"1E+100",
    b"1E+1000",
    b"1E-100",
    b"1234567890123",
    b"1.000000000",
    b"1 2",
    b"1,5",
    b"0x10",
    b"--1",
    b"1.2.3",
    b"1E",
    b"1E+",
    b"E+05",
    b"1E+05x",
    b"1\r",
    b"\r1",
    b"$5",
    b"1$",
    b"1 $ c",
    b"1\n2",
    b"NaN",
    b"1E+05.0",
    b"$$only",
    b"1E05",
    b"1 E+05",
    b"1E +05",
    b"+ 1",
    b"1234567890",
    b"0000000000001",
    b"1..",
    b"..5",
    b"1E+05E+05",
    b"1$$\n1",
    b"A",
    b"\xff",
    b"1\0",
    b"1=",
    b"1E+0A",
    b"1E+",
    b"1D+05",
    b"0.000000000001",
    b"000123456.7890",
    b"##1",
];

/// Numbers that are spelled right and lie at some edge.
const EDGE_NUMBERS: &[&[u8]] = &[
    b"0",
    b"-0",
    b"+1",
    b"1.",
    b".5",
    b"-.5",
    b"1E+005",
    b"1E+099",
    b"1E+99",
    b"1E-99",
    b"-1E+99",
    b"000000000001",
    b"0.0",
    b"1E+00",
    b"999999999",
    b"-999999999",
    b"9999999.99",
    b"1E+07",
    b"-1E+07",
    b"9.99999999E+06",
    b"1000000.00E+01",
    b".000000000001",
    b"0.0005",
    b"-0.0005",
    b"0.0015",
    b"-0.0015",
    b"0.00049999",
    b"10000000",
    b"9999999",
    b"1E-03",
    b"3",
    b"7",
    b"-7",
    b"0.001",
    b"123456789E-09",
    b"0.00000000001",
    b"1E-004",
    b"214748364",
    b"2147483.64E+03",
    b"2147483.65E+03",
    b"000000000000",
    b"5E-04",
];

/// Numbers of points that are wrong, or right in another spelling, or in their limits or not.
const EDGE_COUNTS: &[&[u8]] = &[
    b"+4",
    b"4.",
    b"4.0",
    b"-4",
    b"4E+00",
    b"0000000000004",
    b"1234567890",
    b"65537",
    b"0",
    b"000000000000",
    b"65536",
    b"000000065536",
    b"999999999",
    b"000999999999",
    b"1",
    b"",
    b"4 4",
    b"$$4",
    b"4\r",
    b"IV",
    b"2",
];

/// Variable lists that are wrong, or right with blanks.
const LISTS: &[&[u8]] = &[
    b"( X ++ ( Y .. Y ) )",
    b"\t(X++(Y..Y))\t ",
    b"(X + +(Y. .Y))",
    b"(X++(Y..Y)",
    b"(x++(y..y))",
    b"(X++(Y..Y)) $$ c",
    b"(XY..XY)",
    b"",
    b"$$ c",
    b"(X++(Y..Y))\r",
    b"\r(X++(Y..Y))",
    b"(X++(Y..Y)))",
    b"(X+ (Y..Y))",
    b"\n(X++(Y..Y))",
    b"(X++(Y...Y))",
    b"(X++\x0b(Y..Y))",
    b"(X++(Y..Y))0A",
];

/// One file case.
pub fn file_case(random: &mut Random, index: usize, files: usize) -> FileCase {
    if index + large_cases(files) >= files {
        return large_file_case(random, index % 12);
    }
    let points = if random.once_in(50) { 100 + random.below(900) } else { 1 + random.below(8) };
    let (mut file, points) = file(random, points, true);
    if random.once_in(6) {
        damage::damage(random, &mut file);
    }
    if random.once_in(400) {
        let wanted = 49_152 + random.below(3) - 1;
        pad(random, &mut file, wanted);
    }
    let room = match random.below(30) {
        0 => random.below(points + 1),
        1..=3 => 65_536,
        _ => points + random.below(3),
    };
    FileCase { file, room: room as u32 }
}

/// A file of about the greatest length, or with the greatest number of points.
fn large_file_case(random: &mut Random, kind: usize) -> FileCase {
    let points = [4, 20_000, 65_536, 4][kind % 4];
    let (mut file, _) = file(random, points, false);
    match kind {
        0 | 4 => pad(random, &mut file, LONGEST),
        3 | 6 | 7 | 9 => pad(random, &mut file, LONGEST + 1),
        8 => file = many_labels(random, file, false),
        11 => file = many_labels(random, file, true),
        _ => file.truncate(LONGEST),
    }
    FileCase { file, room: 65_536 }
}

/// A file after whose TITLE hundreds of other records follow, the last of them perhaps a second time.
fn many_labels(random: &mut Random, file: Vec<u8>, twice: bool) -> Vec<u8> {
    let count = 300 + random.below(1_200);
    let mut longer = b"##TITLE=many\n".to_vec();
    longer.extend((0..count).flat_map(|k| format!("##RECORD {k}= text {k}\n").into_bytes()));
    if twice {
        longer.extend(format!("##record_{}=\n", random.below(count)).bytes());
    }
    let rest = file.windows(3).position(|part| part == b"\n##").map_or(0, |at| at + 1);
    longer.extend(&file[rest..]);
    longer
}

/// A question for a record of a file: by one of its names, spelled anyhow, or by another name.
pub fn record_case(random: &mut Random, file: Vec<u8>) -> RecordCase {
    let needed: [&[u8]; 9] =
        [b"TITLE", b"XFACTOR", b"YFACTOR", b"FIRSTX", b"LASTX", b"NPOINTS", b"FIRSTY", b"XYDATA", b"END"];
    let name = match random.below(6) {
        0..=2 => random.pick(&needed).to_vec(),
        3 => random.pick(UNKNOWN).to_vec(),
        4 => random.pick(&LONG_NAMES).as_bytes().to_vec(),
        _ => random.pick(&[&b"A=B"[..], b"=", b"\n", b"\r", b"TITLE\r", b"  ", b"-/_", b"tit le", b"##TITLE"]).to_vec(),
    };
    RecordCase { file, name: spelled_name(random, &name) }
}

/// Names of 40, 40, 41 and 41 bytes.
const LONG_NAMES: [&str; 4] = [
    "ABCDEFGHIJKLMNOPQRSTUVWXYZ01234567890123",
    "0123456789012345678901234567890123456789",
    "ABCDEFGHIJKLMNOPQRSTUVWXYZ012345678901234",
    "01234567890123456789012345678901234567890",
];

/// The numbers of a file.
struct Numbers {
    x_factor: Decimal,
    first_x: Decimal,
    last_x: Decimal,
    y_factor: Decimal,
    first_y: Decimal,
}

/// A file for so many points, with faults if they are wanted, and its number of points.
pub fn file(random: &mut Random, points: usize, faults: bool) -> (Vec<u8>, usize) {
    let style = spell::style(random);
    let numbers = numbers(random, points, faults);
    let body = body(random, &style, &numbers, points, faults);
    let mut entries = entries(random, &style, &numbers, points, body);
    let title = Entry { name: b"TITLE".to_vec(), text: free_text(random, &style), equals: b"=" };
    let end = Entry { name: b"END".to_vec(), text: free_text(random, &style), equals: b"=" };
    random.shuffle(&mut entries);
    entries.insert(0, title);
    entries.push(end);
    let mut before = Vec::new();
    passed_over(random, &style, &mut before);
    if faults && random.below(5) < 2 {
        let count = if random.once_in(6) { 2 } else { 1 };
        (0..count).for_each(|_| fault(random, &style, &mut entries, &mut before));
    }
    for entry in &entries {
        write_entry(random, &style, entry, &mut before);
    }
    after_end(random, &mut before);
    (before, points)
}

/// Writes a record: blanks, `##`, its name in some spelling, `=`, its text.
fn write_entry(random: &mut Random, style: &Style, entry: &Entry, file: &mut Vec<u8>) {
    blanks(random, style, file);
    file.extend(b"##");
    file.extend(spelled_name(random, &entry.name));
    file.extend(entry.equals);
    file.extend(&entry.text);
}

/// A name in another case, with blanks, `-`, `/`, `_` put in, or as it is.
pub fn spelled_name(random: &mut Random, name: &[u8]) -> Vec<u8> {
    if random.once_in(2) {
        return name.to_vec();
    }
    let mut spelled = Vec::new();
    for byte in name {
        if random.once_in(6) {
            spelled.push(random.pick(b" -/_\t"));
        }
        spelled.push(if random.once_in(2) { byte.to_ascii_lowercase() } else { *byte });
    }
    if random.once_in(4) {
        spelled.extend(b"  ");
    }
    spelled
}

/// Text of a record that is not looked at, with its line ends.
pub fn free_text(random: &mut Random, style: &Style) -> Vec<u8> {
    let mut text = Vec::new();
    for _ in 0..1 + random.below(2) {
        let words: [&[u8]; 8] = [b"", b" one count", b" a = b", b" x ## y", b" $$ c", b"\xe4\xff", b"a\rb", b" 1 2 3"];
        text.extend(random.pick(&words));
        line_end(random, style, &mut text);
    }
    text
}

/// What stands after END's line: nothing, or bytes that nobody reads.
fn after_end(random: &mut Random, file: &mut Vec<u8>) {
    let tails: [&[u8]; 6] =
        [b"##TITLE=again\n##END=\n", b"##no equals\n", b"\xff\0\r", b"##XFACTOR=2\n", b"0A\n", b"\n\n"];
    match random.below(6) {
        0 => file.extend(random.pick(&tails)),
        1 => {
            while file.ends_with(b"\n") || file.ends_with(b"\r") {
                file.pop();
            }
        }
        _ => {}
    }
}

/// The seven needed records and some that are passed over; now and then 80 blanks or 81 stand after the table, before
/// the next `##` (02, T-06).
fn entries(random: &mut Random, style: &Style, numbers: &Numbers, points: usize, body: Vec<u8>) -> Vec<Entry> {
    let mut entries = Vec::new();
    let decimals = [
        (&b"XFACTOR"[..], numbers.x_factor),
        (b"YFACTOR", numbers.y_factor),
        (b"FIRSTX", numbers.first_x),
        (b"LASTX", numbers.last_x),
        (b"FIRSTY", numbers.first_y),
    ];
    for (name, decimal) in decimals {
        let word = spelled_decimal(random, decimal);
        entries.push(Entry { name: name.to_vec(), text: around(random, style, &word), equals: b"=" });
    }
    let zeros = if random.once_in(8) { "000000" } else { "" };
    let count = around(random, style, format!("{zeros}{points}").as_bytes());
    entries.push(Entry { name: b"NPOINTS".to_vec(), text: count, equals: b"=" });
    let mut text = table(random, style, b"(X++(Y..Y))", &body);
    if random.once_in(30) {
        text.extend(vec![b' '; LONGEST_LINE + random.below(2)]);
    }
    entries.push(Entry { name: b"XYDATA".to_vec(), text, equals: b"=" });
    let mut names: Vec<Vec<u8>> = Vec::new();
    for _ in 0..random.pick(&[0, 0, 1, 3]) {
        let name = if random.once_in(8) {
            LONG_NAMES[random.below(2)].as_bytes().to_vec()
        } else {
            random.pick(UNKNOWN).to_vec()
        };
        if name.is_empty() || !names.contains(&name) {
            names.push(name.clone());
            entries.push(Entry { name, text: free_text(random, style), equals: b"=" });
        }
    }
    entries
}

/// The text of XYDATA: the variable list and the body from the next line on.
fn table(random: &mut Random, style: &Style, list: &[u8], body: &[u8]) -> Vec<u8> {
    let mut text = Vec::new();
    blanks(random, style, &mut text);
    text.extend(list);
    blanks(random, style, &mut text);
    line_end(random, style, &mut text);
    text.extend(body);
    if !body.is_empty() && !body.ends_with(b"\n") {
        line_end(random, style, &mut text);
    }
    text
}

/// A word with blanks, line ends and comments around it, and a last line end.
pub fn around(random: &mut Random, style: &Style, word: &[u8]) -> Vec<u8> {
    let mut text = Vec::new();
    if random.once_in(12) {
        passed_over(random, style, &mut text);
        line_end(random, style, &mut text);
    }
    blanks(random, style, &mut text);
    text.extend(word);
    blanks(random, style, &mut text);
    if random.once_in(style.comments) {
        comment(random, &mut text);
    }
    line_end(random, style, &mut text);
    passed_over(random, style, &mut text);
    text
}

/// A decimal number spelled anyhow.
pub fn spelled_decimal(random: &mut Random, number: Decimal) -> Vec<u8> {
    let mut digits = number.mantissa.unsigned_abs().to_string().into_bytes();
    let mut power = number.exponent;
    let plain = (-11..=0).contains(&power) && random.below(4) != 0;
    let mut point = if plain { (-power) as usize } else { random.below(digits.len() + 1) };
    while power > 0 && digits.len() < 9 && number.mantissa != 0 && random.below(4) != 0 {
        digits.push(b'0');
        power -= 1;
        point = 0;
    }
    while digits.len() < point || (digits.len() < 12 && random.once_in(12)) {
        digits.insert(0, b'0');
    }
    power += point as i32;
    let at = digits.len() - point;
    if point > 0 || random.once_in(8) {
        digits.insert(at, b'.');
    }
    let mut spelled = if number.mantissa < 0 {
        b"-".to_vec()
    } else if random.once_in(8) {
        b"+".to_vec()
    } else {
        Vec::new()
    };
    spelled.extend(digits);
    spelled.extend(spelled_exponent(random, power));
    spelled
}

/// An exponent with two or three digits; none may stand for 0.
fn spelled_exponent(random: &mut Random, power: i32) -> Vec<u8> {
    if power == 0 && random.below(8) != 0 {
        return Vec::new();
    }
    let sign = if power < 0 || (power == 0 && random.once_in(2)) { '-' } else { '+' };
    let size = power.abs();
    if random.once_in(4) { format!("E{sign}{size:03}") } else { format!("E{sign}{size:02}") }.into_bytes()
}

/// A decimal of up to so many digits, times a power of ten up to so high or low.
pub fn random_decimal(random: &mut Random, most: i64, power: i64) -> Decimal {
    let mantissa = i128::from(random.between(-most, most));
    Decimal { mantissa, exponent: random.between(-power, power) as i32 }
}

/// A factor: mostly a simple one.
pub fn factor(random: &mut Random) -> Decimal {
    let simple = [(1, 0), (1, 0), (1, -1), (5, -1), (2, 0), (1, -3), (10, -1), (3, 0), (25, -2), (1, 2), (7, 0)];
    let (mantissa, exponent) = random.pick(&simple);
    if random.once_in(10) {
        let odd = random_decimal(random, 999_999_999, 8);
        return Decimal { mantissa: odd.mantissa.abs().max(1), ..odd };
    }
    Decimal { mantissa, exponent }
}

/// A whole number times a factor, if it can be spelled.
pub fn times(number: i128, factor: Decimal, places: i32) -> Option<Decimal> {
    let mut product = Decimal { mantissa: number * factor.mantissa, exponent: factor.exponent - places };
    while product.mantissa != 0 && product.mantissa % 10 == 0 && product.exponent < 0 {
        product = Decimal { mantissa: product.mantissa / 10, exponent: product.exponent + 1 };
    }
    (product.mantissa.abs() <= 999_999_999).then_some(product)
}

/// The numbers of a file for so many points.
fn numbers(random: &mut Random, points: usize, faults: bool) -> Numbers {
    let wild = faults && random.once_in(12);
    let (x_factor, y_factor) = (factor(random), factor(random));
    let frame = tables::frame(random, points);
    let small = Frame { first: 0, last: 1000 * (points as i64 - 1), points: points as u64 };
    let frame = if random.once_in(3) { frame } else { small };
    let x = |random: &mut Random, value: i64| match times(i128::from(value), x_factor, 3) {
        Some(product) if !wild => product,
        _ if wild => random_decimal(random, 999_999_999, 99),
        _ => Decimal { exponent: -4, ..random_decimal(random, 999_999_999, 0) },
    };
    let first_x = x(random, frame.first);
    let last_x = if points == 1 { first_x } else { x(random, frame.last) };
    let y = random.pick(&[0, 0, 1, -1, 50, 12345, -999, 2_147_483_647, -2_147_483_647]);
    let first_y = match times(y, y_factor, 0) {
        Some(product) if random.below(4) != 0 => product,
        _ => random_decimal(random, 99_999, 3),
    };
    Numbers { x_factor, first_x, last_x, y_factor, first_y }
}

/// The body for these numbers: spelled right if they make a frame; then sometimes damaged.
fn body(random: &mut Random, style: &Style, numbers: &Numbers, points: usize, faults: bool) -> Vec<u8> {
    let abscissa = |above| quotient(above, numbers.x_factor, 3).map_or(i64::MAX, |x| x as i64);
    let (first, last) = (abscissa(numbers.first_x), abscissa(numbers.last_x));
    let frame = Frame { first, last, points: points as u64 };
    if !frame.in_limits() {
        return damage::soup(random);
    }
    let mut ordinates = tables::ordinates(random, points);
    let y = quotient(numbers.first_y, numbers.y_factor, 0).filter(|y| y.abs() <= LARGEST_ORDINATE);
    if let Some(y) = y {
        let off = if faults && random.once_in(15) { random.pick(&[1, -1, 7]) } else { 0 };
        ordinates[0] = (y + off).clamp(-LARGEST_ORDINATE, LARGEST_ORDINATE) as i32;
    }
    if random.once_in(12) {
        ordinates[0] = MISSING;
    }
    let mut body = spell::body(random, style, &frame, &ordinates);
    if faults && random.once_in(6) {
        damage::damage(random, &mut body);
    }
    if faults && random.once_in(40) {
        body = damage::soup(random);
    }
    body
}

/// Puts one fault, or something that looks like one, into a file.
fn fault(random: &mut Random, style: &Style, entries: &mut Vec<Entry>, before: &mut Vec<u8>) {
    if entries.len() < 3 {
        return;
    }
    let at = 1 + random.below(entries.len() - 2);
    match random.below(16) {
        0 => drop(entries.remove(at)),
        1 | 2 => double(random, entries, at),
        3 => insert(random, style, entries, at, b"TITLE"),
        4 => entries[at].equals = b"",
        5 => insert(random, style, entries, at, LONG_NAMES[2 + at % 2].as_bytes()),
        6 => drop(entries.pop()),
        7 => before_title(random, entries, before),
        8..=10 => number_fault(random, style, entries),
        11 => list_fault(random, style, entries),
        12 => count_fault(random, style, entries),
        13 => edge_number(random, style, entries),
        14 => factor_fault(random, style, entries),
        _ => insert(random, style, entries, at, b"END"),
    }
}

/// Puts a record in a second time, with the same or with another text.
fn double(random: &mut Random, entries: &mut Vec<Entry>, at: usize) {
    let again = Entry { name: entries[at].name.clone(), text: entries[at].text.clone(), equals: b"=" };
    let to = 1 + random.below(entries.len());
    entries.insert(to.min(entries.len()), again);
}

/// Puts a record in.
fn insert(random: &mut Random, style: &Style, entries: &mut Vec<Entry>, at: usize, name: &[u8]) {
    let text = free_text(random, style);
    entries.insert(at, Entry { name: name.to_vec(), text, equals: b"=" });
}

/// Something before TITLE, or a TITLE that is none.
fn before_title(random: &mut Random, entries: &mut Vec<Entry>, before: &mut Vec<u8>) {
    let things: [&[u8]; 9] =
        [b"x", b"##=\n", b"##OWNER=me\n", b"\r", b"$", b" #", b"0A\n", b"  $$ \r\n \t\r\n", b"\x0c"];
    match random.below(8) {
        0 => drop(entries.remove(0)),
        1 => {
            entries[0] =
                Entry { name: b"TITLE".to_vec(), text: random.pick(&[&b"\n"[..], b"\r\n", b""]).to_vec(), equals: b"" }
        }
        2 => {
            entries.clear();
            before.extend(random.pick(&[&b""[..], b"\r", b" \t\r", b"$$\r", b"\n \r\n", b" $"]));
        }
        3 => entries[0].name = LONG_NAMES[2].as_bytes().to_vec(),
        _ => before.extend(random.pick(&things)),
    }
}

/// The entry with this name, if there is one.
fn named<'a>(entries: &'a mut [Entry], name: &[u8]) -> Option<&'a mut Entry> {
    entries.iter_mut().find(|entry| entry.name == name)
}

/// A number that the file must have.
fn number_name(random: &mut Random) -> &'static [u8] {
    random.pick(&[&b"XFACTOR"[..], b"YFACTOR", b"FIRSTX", b"LASTX", b"NPOINTS", b"FIRSTY"])
}

/// A wrong spelling of a number.
fn number_fault(random: &mut Random, style: &Style, entries: &mut [Entry]) {
    let name = number_name(random);
    if let Some(entry) = named(entries, name) {
        let word = random.pick(WRONG_NUMBERS);
        entry.text = around(random, style, word);
    }
}

/// A number at an edge in place of another.
fn edge_number(random: &mut Random, style: &Style, entries: &mut [Entry]) {
    let name = number_name(random);
    if let Some(entry) = named(entries, name) {
        let word = random.pick(EDGE_NUMBERS);
        entry.text = around(random, style, word);
    }
}

/// A factor that does not exceed zero, or an abscissa far out.
fn factor_fault(random: &mut Random, style: &Style, entries: &mut [Entry]) {
    let far: [&[u8]; 6] = [b"1E+07", b"-1E+99", b"10000000.0", b"1E+10", b"-123456789E+05", b"999999999E+90"];
    let none: [&[u8]; 5] = [b"0", b"-1", b"0.0", b"-0", b"0E+05"];
    let (names, words): ([&[u8]; 2], &[&[u8]]) =
        if random.once_in(3) { ([b"XFACTOR", b"YFACTOR"], &none) } else { ([b"FIRSTX", b"LASTX"], &far) };
    let name = random.pick(&names);
    if let Some(entry) = named(entries, name) {
        let word = random.pick(words);
        entry.text = around(random, style, word);
    }
}

/// Another number of points.
fn count_fault(random: &mut Random, style: &Style, entries: &mut [Entry]) {
    if let Some(entry) = named(entries, b"NPOINTS") {
        let word = random.pick(EDGE_COUNTS);
        entry.text = around(random, style, word);
    }
}

/// Another variable list.
fn list_fault(random: &mut Random, style: &Style, entries: &mut [Entry]) {
    if let Some(entry) = named(entries, b"XYDATA") {
        let body = entry.text.split(|byte| *byte == b'\n').skip(1).collect::<Vec<_>>().join(&b'\n');
        let list = random.pick(LISTS);
        entry.text = table(random, style, list, &body);
    }
}
