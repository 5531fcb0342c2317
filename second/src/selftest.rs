//! The samples of document 01 and the readings, with answers written by hand from the documents, and four random
//! comparisons: right spellings, written texts and written files read back, places found again by line and column.

mod compound;
mod exact;
mod forms;
mod heads;
mod kept;
mod lengths;
mod night;
mod profile;
mod tabs;
mod written_files;

use crate::body::read_body;
use crate::cases::{coarse, damage, spell, tables};
use crate::file::{read_file, record_text, Exact, FileTable, RecordText};
use crate::frame::{refusal, Frame, Refusal, MISSING, UNITS};
use crate::line::line_and_column;
use crate::random::Random;
use crate::text::{head, write_body, TextForm, FORMS};

/// What an answer of the reader should be.
type Answer = Result<Vec<i32>, (u32, usize)>;

/// A missing ordinate, for short.
const X: i32 = MISSING;

/// Bodies in the frame F = 0, L = 3000, N = 4, `/` standing for LF and `~` for CR, with their answers.
fn body_rows() -> Vec<(&'static str, Answer)> {
    let mut rows = bench_rows();
    rows.extend(reading_rows());
    rows
}

/// 01, Bench samples.
fn bench_rows() -> Vec<(&'static str, Answer)> {
    vec![
        ("0E0V", Ok(vec![50, 50, 50, 50])),
        ("0E0%U/3E0", Ok(vec![50, 50, 50, 50])),
        ("0E0%%%/3E0", Ok(vec![50, 50, 50, 50])),
        ("0E0%%", Err((12, 5))),
        ("0E0%U", Err((13, 5))),
        ("0E0W", Err((11, 3))),
        ("0A%?B", Ok(vec![1, 1, X, 2])),
        ("0A?J1", Err((8, 3))),
        ("0A0J/1A2", Err((10, 6))),
        ("0+1-1+1-1", Ok(vec![1, -1, 1, -1])),
        ("0@5", Err((5, 1))),
        ("0 12E3 1 1", Ok(vec![12, 53, 1, 1])),
        ("0A/1.5B", Err((6, 3))),
        ("0A/1.499B", Err((12, 9))),
        ("0A/1.499B/2C/3D", Ok(vec![1, 2, 3, 4])),
        ("0b147483648", Err((9, 1))),
        ("0b147483647", Err((12, 11))),
        ("", Err((12, 0))),
        ("0", Err((7, 0))),
        ("0AS", Err((8, 2))),
        ("0?5", Err((5, 2))),
        ("0@Jj%~/3@~/", Ok(vec![0, 1, 0, 0])),
    ]
}

/// Open points of 01, as docs/DECISIONS.md reads them: which fault is first.
fn reading_rows() -> Vec<(&'static str, Answer)> {
    vec![
        ("1..A", Err((6, 0))),
        ("0.0.A", Err((3, 3))),
        ("0.1234.A", Err((4, 0))),
        ("12345678!", Err((4, 0))),
        (".5A", Err((3, 0))),
        ("+.5A", Err((4, 0))),
        ("-x", Err((4, 0))),
        ("+$$", Err((4, 0))),
        ("0 1.5", Err((3, 3))),
        ("0 +!", Err((5, 2))),
        ("0+$$", Err((5, 1))),
        ("0@5!", Err((5, 1))),
        ("0%5", Err((5, 1))),
        ("0S00000", Err((5, 1))),
        ("0AAAAA!", Err((11, 5))),
        ("0$", Err((3, 1))),
        ("0~", Err((3, 1))),
        ("0AAAA~", Err((3, 5))),
        ("0AAAA$$~", Ok(vec![1, 1, 1, 1])),
        ("0??5", Err((5, 3))),
        ("0?TJ", Err((8, 3))),
        ("0A0J/1I999999999", Err((9, 6))),
        ("0A0J/2A2", Err((6, 5))),
        ("0A0J/2", Err((6, 5))),
        ("0A0J/1A1U", Ok(vec![10, 11, 11, 11])),
        ("0AAAA/4A", Err((11, 7))),
        ("0AAAA/3A", Err((6, 6))),
        ("0AAAA/4", Err((7, 6))),
        ("0E0%U/3E0/3E0", Err((6, 10))),
        ("0A0J//$$/1A2", Err((10, 10))),
        ("0E0%U/$$c/", Err((13, 10))),
        ("-0AAAA", Ok(vec![1, 1, 1, 1])),
        ("+0000000.000AAAA", Ok(vec![1, 1, 1, 1])),
        ("0 0000000001AAA", Ok(vec![1, 1, 1, 1])),
        ("0 00000000001AAA", Err((5, 2))),
        ("00000000A", Err((4, 0))),
    ]
}

/// The bytes that a row stands for.
fn bytes_of(row: &str) -> Vec<u8> {
    row.replace('/', "\n").replace('~', "\r").into_bytes()
}

/// An answer with its refusal as a pair.
fn plain<T>(answer: Result<T, Refusal>) -> Result<T, (u32, usize)> {
    answer.map_err(|fault| (fault.number, fault.place as usize))
}

/// Why a text is refused: number, place, line and column.
fn fault<T>(text: &[u8], answer: Result<T, Refusal>) -> Option<(u32, u64, u64, u64)> {
    answer.err().map(|fault| fault.told(text)).map(|told| (told.number, told.place, told.line, told.column))
}

/// Collects what went wrong.
struct Report {
    wrong: usize,
    done: usize,
}

impl Report {
    /// Notes one comparison.
    fn compare<T: PartialEq + std::fmt::Debug>(&mut self, what: &str, found: T, expected: T) {
        self.done += 1;
        if found != expected {
            self.wrong += 1;
            println!("{what}: found {found:?}, expected {expected:?}");
        }
    }
}

/// The body rows, and frames other than theirs.
fn check_bodies(report: &mut Report) {
    for (row, expected) in body_rows() {
        report.compare(row, plain(read_body(0, 3000, 4, &bytes_of(row), 4)), expected);
    }
    report.compare("N = 1", plain(read_body(0, 0, 1, b"0A\n0A", 1)), Err((11, 4)));
    report.compare("N = 1, 1.", plain(read_body(0, 0, 1, b"1A", 1)), Err((6, 0)));
    report.compare("N = 1, F not L", plain(read_body(0, 1, 1, b"0A", 1)), Err((1, 0)));
    report.compare("F = L", plain(read_body(0, 0, 2, b"0AA", 2)), Err((1, 0)));
    report.compare("N = 0", plain(read_body(0, 0, 0, b"0A", 2)), Err((1, 0)));
    report.compare("N = 65537", plain(read_body(0, 1, 65_537, b"", 0)), Err((1, 0)));
    report.compare("F too far", plain(read_body(10_000_000_000, 1, 2, b"", 2)), Err((1, 0)));
    report.compare("L too far", plain(read_body(0, i64::MIN, 2, b"", 2)), Err((1, 0)));
    report.compare("room", plain(read_body(0, 3000, 4, b"", 3)), Err((2, 0)));
    report.compare("longest", plain(read_body(0, 3000, 4, &vec![b'\n'; 1_048_576], 4)), Err((12, 1_048_576)));
    report.compare("too long", plain(read_body(0, 3000, 4, &vec![b' '; 1_048_577], 4)), Err((1, 0)));
    report.compare("9 past N", plain(read_body(0, 3000, 4, b"0A000000000Js", 4)), Err((11, 12)));
    report.compare("9 past N", plain(read_body(0, 3000, 4, b"0B147483640Js", 4)), Err((9, 12)));
}

/// The rows of 001's sample of 53 points.
const SAMPLE: [i32; 53] = [
    0, 0, 0, 0, 2, 4, 4, 4, 7, 5, 4, 4, 5, 5, 7, 10, 11, 11, 6, 5, 7, 6, 9, 9, 7, 10, 10, 9, 10, 11, 12, 15, 16, 16,
    14, 17, 38, 38, 35, 38, 42, 47, 54, 59, 66, 75, 78, 88, 96, 104, 110, 121, 128,
];

/// 001's sample as 01 corrects it, as 001 prints it, and as it is written.
fn check_sample(report: &mut Report) {
    let right = b"4@VKT%TLkj%J%KLJ%njKjL%kL%jJULJ%kLK1%lLMNPNPRLJ0QTOJ1P\n56A28\n";
    let printed = b"4@VKT%TLkj%J%KLJ%njKjL%kL%jJULJ%kLK1%ILMNPnPRLJ0QTOJ1P\n56A28\n";
    report.compare("53 points", plain(read_body(4000, 56_000, 53, right, 53)), Ok(SAMPLE.to_vec()));
    report.compare("001's print", plain(read_body(4000, 56_000, 53, printed, 53)), Err((10, printed.len() - 4)));
    let written = b"4@%UKT%TLkj%J%KLJ%njKjL%kL%jJULJ%kLK1%lLMNPNPRLJ0QTOJ1P\r\n56A28\r\n".to_vec();
    report.compare("53 written", plain(difdup(4000, 56_000, 53, &SAMPLE, 1000)), Ok(written));
}

/// A table written in DIFDUP form.
fn difdup(first: i64, last: i64, points: u64, ordinates: &[i32], room: usize) -> Result<Vec<u8>, Refusal> {
    write_body(TextForm::Difdup, &Frame { first, last, points }, ordinates, room)
}

/// Texts that 01 and the readings give, refusals of the writer, and lines that are full.
fn check_texts(report: &mut Report) {
    let mut written = |what: &str, frame: (i64, i64), list: &[i32], expected: &str| {
        let text = difdup(frame.0, frame.1, list.len() as u64, list, 100_000).map(|t| String::from_utf8(t).unwrap());
        report.compare(what, plain(text), Ok(expected.replace('/', "\r\n")));
    };
    written("one count", (0, 3000), &[0, 1, 0, 0], "0@Jj%/3@/");
    written("gap", (0, 3000), &[1, X, X, 2], "0A?TB/");
    written("zeros", (0, 3000), &[0, 0, 0, 0], "0@%U/3@/");
    written("all missing", (0, 3000), &[X, X, X, X], "0?V/");
    written("one point", (-1, -1), &[-20], "-0.001b0/");
    written("descending", (3000, 0), &[5, 6, 7, 8], "3EJU/0H/");
    written("extremes", (0, 3000), &[i32::MAX, -i32::MAX, X, X], "0B147483647m294967294?T/");
    let steps: Vec<i32> = (0..85).map(|k| (k / 2) % 2 * 5).collect();
    let line = |head: &str, first: &str, rest: String| format!("{head}{first}{rest}/");
    let tokens: String = (1..85).map(|k| ["%", "N", "%", "n"][(k - 1) % 4]).collect();
    let full = line("0", "@", tokens[..78].into()) + &line("78", "E", tokens[78..].into()) + "84@/";
    written("full line", (0, 84_000), &steps, &full);
    check_new_lines(report);
    check_heads(report);
    report.compare("no 14", plain(difdup(0, 2, 4, &[0; 4], 99)), Ok(b"0@%U\r\n0.002@\r\n".to_vec()));
    report.compare("thousandths", plain(difdup(0, 3, 4, &[0; 4], 99)), Ok(b"0@%U\r\n0.003@\r\n".to_vec()));
    report.compare("15", plain(difdup(0, 3000, 4, &[0, 1, 0, 0], 10)), Err((15, 0)));
    report.compare("exact", plain(difdup(0, 3000, 4, &[0, 1, 0, 0], 11)).map(|t| t.len()), Ok(11));
    report.compare("2", plain(difdup(0, 2, 4, &[0; 3], 0)), Err((2, 0)));
    report.compare("1", plain(difdup(0, 0, 4, &[0; 3], 0)), Err((1, 0)));
}

/// Heads of the middle one of three points: exact, rounded, halves to the larger.
fn check_heads(report: &mut Report) {
    let rows = [
        (-3, 0, "-0.001"),
        (-1, 0, "0"),
        (0, 1, "0.001"),
        (0, 3, "0.002"),
        (0, 2000, "1"),
        (2, 0, "0.001"),
        (0, -3, "-0.001"),
        (9_999_999_999, 9_999_999_998, "9999999.999"),
        (-9_999_999_999, -9_999_999_998, "-9999999.998"),
        (0, 200, "0.1"),
        (-20_000, -20_020, "-20.01"),
        (1_000_000, 1_000_002, "1000.001"),
        (-1, -2, "-0.001"),
        (-100, 100, "0"),
        (0, 2_000_000, "1000"),
    ];
    for (first, last, expected) in rows {
        let head = head(&Frame { first, last, points: 3 }, 1);
        report.compare("head", String::from_utf8(head).unwrap(), expected.to_string());
    }
}

/// Groups that do not fit after a DIF, after an SQZ and after a `?`.
fn check_new_lines(report: &mut Report) {
    let text = |list: &[i32]| {
        let last = 1000 * (list.len() as i64 - 1);
        String::from_utf8(difdup(0, last, list.len() as u64, list, 100_000).unwrap()).unwrap()
    };
    // 1, then 39 times missing and 0: `0A` and `?@` 39 times are 80 bytes; the two steps of 1 start at point 79.
    let mut list = vec![1];
    (0..39).for_each(|_| list.extend([X, 0]));
    list.extend([1, 2]);
    let expected = format!("0A{}\r\n79AJ\r\n80B\r\n", "?@".repeat(39));
    report.compare("after SQZ", text(&list), expected);
    // The same with missing ordinates after it: they start a line of their own with their own head.
    let length = list.len();
    list[length - 2..].fill(X);
    report.compare("after SQZ, missing", text(&list), format!("0A{}\r\n79?T\r\n", "?@".repeat(39)));
    // 78 single steps fill the first line; the group of missing ones does not fit and follows a check value.
    let mut list: Vec<i32> = (0..79).map(|k| k % 2).collect();
    list.extend([X, X, X]);
    let line = format!("0@{}", "Jj".repeat(39));
    report.compare("after DIF", text(&list), format!("{line}\r\n78@?U\r\n"));
}

/// The file of 01, with the record of this name replaced by this text and line end.
fn file_with(name: &str, text: &str) -> Vec<u8> {
    let records = [
        ("TITLE", "one count\n"),
        ("XFACTOR", "1\n"),
        ("YFACTOR", "0.1\n"),
        ("FIRSTX", "0\n"),
        ("LASTX", "3\n"),
        ("NPOINTS", "4\n"),
        ("FIRSTY", "0\n"),
        ("XYDATA", "(X++(Y..Y))\n0@Jj%\n3@\n"),
        ("END", "\n"),
    ];
    let row = |(label, old): &(&str, &str)| format!("##{label}={}", if *label == name { text } else { old });
    records.iter().map(row).collect::<String>().into_bytes()
}

/// The place of a piece of text in a file.
fn place(file: &[u8], piece: &str) -> usize {
    file.windows(piece.len()).position(|part| part == piece.as_bytes()).expect("the piece is there")
}

/// 01's file and its answer.
fn check_file_sample(report: &mut Report) {
    let exact = Exact { first: true, last: true, first_y: true };
    let table = FileTable { points: 4, first: 0, last: 3000, exact, ordinates: vec![0, 1, 0, 0] };
    let file = file_with("", "");
    report.compare("01's file", plain(read_file(&file, 4)), Ok(table));
    report.compare("room", plain(read_file(&file, 3)), Err((2, 0)));
    report.compare("TITLE", record_text(&file, b"ti-tle"), RecordText::Part(8, 18));
    report.compare("END", record_text(&file, b"END"), RecordText::Absent);
    report.compare("none", record_text(&file, b"OWNER"), RecordText::Absent);
    report.compare("refused", record_text(b"x", b"TITLE"), RecordText::Refused(refusal(21, 0)));
}

/// Spellings of numbers, right and wrong.
fn check_numbers(report: &mut Report) {
    let right = [
        "1.",
        "+1",
        "1E+00",
        "1E-000",
        "000000000001",
        " \t1 ",
        "\n\n1 $$ c",
        "$$ c\n1",
        ".1E+01",
        "1$$",
        "1\r",
        "1 $$\r",
    ];
    for word in right {
        let answer = read_file(&file_with("XFACTOR", &format!("{word}\n")), 4);
        report.compare(word, plain(answer.map(|t| (t.first, t.last))), Ok((0, 3000)));
    }
    let wrong = [
        ".",
        "1E5",
        "1E+5",
        "1e+05",
        "1E+100",
        "0000000000001",
        "1.000000000",
        "1 1",
        "1\n1",
        "1\r 1",
        "\r1",
        "0",
        "-1",
        "$1",
        "E+05",
        "1E+0005",
        "+",
        "1..",
        "$$ c",
    ];
    for word in wrong {
        let file = file_with("XFACTOR", &format!(" {word}\n"));
        report.compare(word, plain(read_file(&file, 4)), Err((26, place(&file, "##XFACTOR=") + 11)));
    }
}

/// Numbers that are absent, numbers of points, exponents of three digits.
fn check_counts(report: &mut Report) {
    let file = file_with("XFACTOR", " \n\r\n");
    report.compare("no number", plain(read_file(&file, 4)), Err((26, place(&file, "##YFACTOR"))));
    for word in ["+4", "4.", "4E+00", "1234567890", "0000000000004"] {
        let file = file_with("NPOINTS", &format!("{word}\n"));
        report.compare(word, plain(read_file(&file, 4)), Err((26, place(&file, "##NPOINTS=") + 10)));
    }
    for word in ["0", "65537", "999999999", "1"] {
        report.compare(word, plain(read_file(&file_with("NPOINTS", &format!("{word}\n")), 4)), Err((1, 0)));
    }
    let both = ["1E+005", "1E+099"];
    for word in both {
        let file = file_with("LASTX", &format!("{word}\n"));
        let beyond = place(&file, "##LASTX=") + 8;
        let expected = if word == "1E+099" { (28, beyond) } else { (6, place(&file, "\n3@") + 1) };
        report.compare(word, plain(read_file(&file, 4)), Err(expected));
    }
}

/// Quotients for F and for FIRSTY, with halves to the larger.
fn check_quotients(report: &mut Report) {
    let abscissas: [(&str, i64); 7] = [
        ("0.0005", 1),
        ("-0.0005", 0),
        ("-0.0015", -1),
        ("-0.0016", -2),
        ("0.00049", 0),
        ("1E-99", 0),
        ("9999999.99", 9_999_999_990),
    ];
    for (word, first) in abscissas {
        let x = format!("##TITLE=\n##XFACTOR=1\n##FIRSTX={word}\n##LASTX={word}\n");
        let text = format!("{x}##YFACTOR=2\n##NPOINTS=1\n##FIRSTY=-7\n##XYDATA=(X++(Y..Y))\n");
        let body = format!("{}.{:03}-3\n##END=", first / 1000, first.abs() % 1000);
        let sign = if (-999..0).contains(&first) { "-" } else { "" };
        let answer = read_file(format!("{text}{sign}{body}").as_bytes(), 1);
        report.compare(word, plain(answer.map(|t| (t.first, t.ordinates))), Ok((first, vec![-3])));
    }
    for word in ["1E+07", "-1E+07"] {
        let file = file_with("FIRSTX", &format!("\n {word}\n"));
        report.compare(word, plain(read_file(&file, 4)), Err((28, place(&file, word))));
    }
    for word in ["0.1", "-0.1", "1E+99", "-1E+20", "0.05"] {
        let file = file_with("FIRSTY", &format!(" {word}\n"));
        report.compare(word, plain(read_file(&file, 4)), Err((29, place(&file, "##FIRSTY=") + 10)));
    }
    for word in ["-0.05", "0.0499", "1E-99", "0E+99"] {
        let file = file_with("FIRSTY", &format!(" {word}\n"));
        report.compare(word, plain(read_file(&file, 4)).map(|t| t.points), Ok(4));
    }
    let file = file_with("XYDATA", "(X++(Y..Y))\n0?%\n");
    report.compare("first missing, 8", plain(read_file(&file, 4)), Err((8, place(&file, "%"))));
    let file = file_with("XYDATA", "(X++(Y..Y))\n0?AAA\n");
    report.compare("first missing", plain(read_file(&file, 4)).map(|t| t.points), Ok(4));
}

/// Labels and the order of their faults.
fn check_labels(report: &mut Report) {
    let long = "N".repeat(41);
    let rows: Vec<(String, u32, usize)> = vec![
        ("".into(), 21, 0),
        ("\n $$ c\r\n\t".into(), 21, 9),
        (" x##TITLE=\n##END=".into(), 21, 1),
        ("\r##TITLE=\n##END=".into(), 21, 0),
        ("##TITLE\n##END=".into(), 21, 0),
        ("##=\n##TITLE=\n##END=".into(), 21, 0),
        (format!("##{long}=\n##END="), 21, 0),
        (format!("##TITLE=\n ##{long}=\n##END="), 20, 10),
        (format!("##TITLE=\n##{}\t-_/ =\n##END=", &long[1..]), 25, 58),
        ("##TITLE=\n##X\n##END=".into(), 20, 9),
        ("##TITLE=\n##END".into(), 20, 9),
        ("##TITLE=\n##EN".into(), 20, 9),
        ("##TITLE=".into(), 22, 8),
        ("##TITLE=\n##=\n##=\n##END=".into(), 25, 17),
        ("##TITLE=\n##a b=\n##A_B=\n##END=".into(), 23, 16),
        ("##TITLE=\n##T-I TLE=\n##END=".into(), 24, 9),
        ("##TITLE=\n##A=\n##A=\n##X".into(), 23, 14),
        ("##TITLE=\n##A=\n##X\n##A=\n".into(), 20, 14),
        ("##TITLE=\n##END=\n##END\n##TITLE=".into(), 25, 9),
        ("##TITLE=\n##A\r=\n##A=\n##END=".into(), 25, 20),
        ("##TITLE=\n##A$$=\n##a$$=\n##END=".into(), 23, 16),
        ("##TITLE=\n$$##A=\n##A=\nx ##A=\n##END=".into(), 25, 28),
        ("##TITLE=\r##TITLE=\n##END=".into(), 25, 18),
    ];
    for (file, number, place) in rows {
        report.compare(&file, plain(read_file(file.as_bytes(), 9).map(|_| ())), Err((number, place)));
    }
    report.compare("19", plain(read_file(&vec![b'x'; 1_048_577], 9).map(|_| ())), Err((19, 0)));
    report.compare("not 19", plain(read_file(&vec![b' '; 1_048_576], 9).map(|_| ())), Err((21, 1_048_576)));
}

/// Variable lists and places of the body's faults in a file.
fn check_tables(report: &mut Report) {
    for list in [" ( X + + (Y. .Y) ) ", "(X++(Y..Y))\r"] {
        let file = file_with("XYDATA", &format!("{list}\n0@Jj%\n3@\n"));
        report.compare(list, plain(read_file(&file, 4)).map(|t| t.points), Ok(4));
    }
    for list in ["(X++(Y..Y)) $$ c", "(X++(Y..Y)", "(x++(y..y))", "(X++(Y..Y))\r "] {
        let file = file_with("XYDATA", &format!(" {list}\n0@Jj%\n3@\n"));
        report.compare(list, plain(read_file(&file, 4)), Err((27, place(&file, "##XYDATA=") + 10)));
    }
    let file = file_with("XYDATA", "\n\r\n (X++(Y..Y))\n0@Jj%\n3@\n");
    report.compare("list on a later line", plain(read_file(&file, 4)), Err((27, place(&file, "(X++"))));
    let file = file_with("XYDATA", " \n");
    report.compare("no list", plain(read_file(&file, 4)), Err((27, place(&file, "##END"))));
    let file = file_with("XYDATA", "(X++(Y..Y))\n0@Jj\n  ");
    report.compare("13 at the next ##", plain(read_file(&file, 4)), Err((12, place(&file, "##END"))));
    let file = file_with("XYDATA", "(X++(Y..Y))\n0@Jj%\n  ");
    report.compare("12 at the next ##", plain(read_file(&file, 4)), Err((13, place(&file, "##END"))));
    let file = file_with("XYDATA", "(X++(Y..Y))\n0@J#%\n");
    report.compare("3 in the file", plain(read_file(&file, 4)), Err((3, place(&file, "#%"))));
}

/// Bodies as in `body_rows`, with number, place, line and column (02, T-01).
const LINE_ROWS: [(&str, (u32, u64, u64, u64)); 18] = [
    // On the first line, and on later ones.
    ("!", (3, 0, 1, 1)),
    ("0A?J1", (8, 3, 1, 4)),
    ("0A0J/1A2", (10, 6, 2, 2)),
    ("//0!", (3, 3, 3, 2)),
    // After CR LF, which is one line end; at a lone CR, which is none.
    ("0A~/1B!", (3, 6, 2, 3)),
    ("~/~/0A0J~/~/1A2", (10, 13, 5, 2)),
    ("0A~1B", (3, 2, 1, 3)),
    // A lone CR in a comment ends no line: it is one more byte of it.
    ("0A$$~c/1B!", (3, 9, 2, 3)),
    ("$$~~/0A$$~c", (12, 11, 2, 7)),
    // At the end of the text, without LF and after it.
    ("", (12, 0, 1, 1)),
    ("0A", (12, 2, 1, 3)),
    ("0A/", (12, 3, 2, 1)),
    ("0A~/", (12, 4, 2, 1)),
    ("0A//", (12, 4, 3, 1)),
    ("0E0%U~/ $$", (13, 10, 2, 4)),
    // A tab is one byte, and so one column, in a comment too; a letter outside ASCII is two here.
    ("0  A\t!", (3, 4, 1, 5)),
    ("0A$$\t\tc/!", (3, 8, 2, 1)),
    ("0A$$\u{fc}", (12, 6, 1, 7)),
];

/// Lines and columns of faults in bodies and files.
fn check_lines(report: &mut Report) {
    for (row, expected) in LINE_ROWS {
        let body = bytes_of(row);
        report.compare(row, fault(&body, read_body(0, 3000, 4, &body, 4)), Some(expected));
    }
    let first = |number| Some((number, 0, 1, 1));
    report.compare("1, line", fault(b"\n0A", read_body(0, 0, 4, b"\n0A", 4)), first(1));
    report.compare("2, line", fault(b"\n0A", read_body(0, 3000, 4, b"\n0A", 3)), first(2));
    let long = vec![b'\n'; 1_048_577];
    report.compare("1, too long, line", fault(&long, read_body(0, 3000, 4, &long, 4)), first(1));
    report.compare("19, line", fault(&long, read_file(&long, 4)), first(19));
    let file = file_with("NPOINTS", "0\n");
    report.compare("1 in a file, line", fault(&file, read_file(&file, 4)), first(1));
    let file = file_with("", "");
    report.compare("2 in a file, line", fault(&file, read_file(&file, 3)), first(2));
    check_lines_of_files(report);
}

/// Lines and columns in a file; those of the body's faults too. XFACTOR is on line 2, XYDATA on line 8.
fn check_lines_of_files(report: &mut Report) {
    let rows = [
        ("XFACTOR", " x\n", (26, 29, 2, 12)),
        ("XFACTOR", "\r\n\t\n", (26, 32, 4, 1)),
        ("FIRSTY", " 2\n", (29, 87, 7, 11)),
        ("XYDATA", "(X++(Y..Y))\n0@Jj%\n3A\n", (10, 116, 10, 2)),
        ("XYDATA", "(X++(Y..Y))\r\n0@J!%\r\n", (3, 113, 9, 4)),
        ("XYDATA", "(X++(Y..Y))\n$$\r\r\n0@J!%\n", (3, 117, 10, 4)),
        ("XYDATA", "(X++(Y..Y))\n0@Jj%\n  ", (13, 117, 10, 3)),
        ("XYDATA", "(X++(Y..Y))\n0@Jj\n", (12, 114, 10, 1)),
    ];
    for (name, text, expected) in rows {
        let file = file_with(name, text);
        report.compare(text, fault(&file, read_file(&file, 4)), Some(expected));
    }
    let rows = [
        ("", (21, 0, 1, 1)),
        ("\n $$ c\r\n\t", (21, 9, 3, 2)),
        ("##TITLE=", (22, 8, 1, 9)),
        ("##TITLE=\n", (22, 9, 2, 1)),
        ("##TITLE=\r##A=\r", (22, 14, 1, 15)),
        ("##TITLE=\r\n  ##X\r\n##END=", (20, 12, 2, 3)),
        ("##TITLE=\n##a b=\n ##A_B=\n##END=", (23, 17, 3, 2)),
        ("##TITLE=\n##TITLE=\n##END=", (24, 9, 2, 1)),
    ];
    for (text, expected) in rows {
        let file = text.as_bytes();
        report.compare(text, fault(file, read_file(file, 4)), Some(expected));
        let RecordText::Refused(refused) = record_text(file, b"TITLE") else {
            report.compare(text, "accepted", "refused");
            continue;
        };
        report.compare(text, fault::<()>(file, Err(refused)), Some(expected));
    }
    let file = b"##TITLE=\r\n##END=";
    report.compare("25, line", fault(file, read_file(file, 4)), Some((25, 10, 2, 1)));
}

/// Every place of random texts is found again by its line and column, and the column is one of that line.
fn check_places(report: &mut Report, random: &mut Random) {
    for _ in 0..1_000 {
        let text = damage::soup(random);
        let lines: Vec<&[u8]> = text.split(|byte| *byte == b'\n').collect();
        for place in 0..=text.len() {
            let (line, column) = line_and_column(&text, place);
            let before: usize = lines[..line - 1].iter().map(|line| line.len() + 1).sum();
            let found = (before + column - 1, column - 1 <= lines[line - 1].len());
            report.compare(&format!("{}", text.escape_ascii()), found, (place, true));
        }
    }
}

/// Right spellings of random tables are read as those tables.
fn check_spellings(report: &mut Report, random: &mut Random) {
    for _ in 0..20_000 {
        let points = tables::points(random);
        let unit = random.pick(&UNITS) as i64;
        let frame = if random.once_in(2) { tables::frame(random, points) } else { coarse::frame(random, points, unit) };
        let list = tables::ordinates(random, points);
        let never = spell::NEVER;
        let style = spell::Style { half_heads: never, slips: never, over: never, tabs: never, ..spell::style(random) };
        let body = spell::body(random, &style, &frame, &list);
        let found = read_body(frame.first, frame.last, frame.points, &body, points);
        report.compare(&format!("{frame:?} {}", body.escape_ascii()), plain(found), Ok(list));
    }
}

/// Written texts of every form are read as the tables they were written from, and keep to their lengths (15 bytes for
/// each point and 44 more: include/lastarunc.h).
fn check_written(report: &mut Report, random: &mut Random) {
    for _ in 0..40_000 {
        let points = tables::points(random);
        let frame = if random.once_in(2) { tables::frame(random, points) } else { tables::tight_frame(random, points) };
        let list = tables::ordinates(random, points);
        let form = random.pick(&FORMS);
        let text = write_body(form, &frame, &list, usize::MAX).expect("the frame keeps its limits");
        let found = read_body(frame.first, frame.last, frame.points, &text, points);
        report.compare(&format!("{form:?} {frame:?} {}", text.escape_ascii()), plain(found), Ok(list));
        let long = text.split(|byte| *byte == b'\n').any(|line| line.len() > 81);
        report.compare("line length", long, false);
        report.compare("15 N + 44", text.len() <= 15 * points + 44, true);
    }
}

/// Runs all self tests and prints what failed; 0 if nothing did.
pub fn run() -> i32 {
    let report = &mut Report { wrong: 0, done: 0 };
    check_bodies(report);
    check_sample(report);
    check_texts(report);
    forms::check(report);
    heads::check(report);
    lengths::check(report);
    check_file_sample(report);
    check_numbers(report);
    check_counts(report);
    check_quotients(report);
    check_labels(report);
    check_tables(report);
    check_lines(report);
    compound::check(report);
    exact::check(report);
    profile::check(report);
    night::check(report);
    tabs::check(report);
    kept::check(report);
    let random = &mut Random::new(7);
    check_spellings(report, random);
    check_written(report, random);
    check_places(report, random);
    written_files::check(report, random);
    println!("{} comparisons, {} wrong", report.done, report.wrong);
    i32::from(report.wrong > 0)
}

/// The self tests under `cargo test`.
#[test]
fn all() {
    assert_eq!(run(), 0);
}
