//! A second reader and writer of JCAMP-DX tables, written from document 01 to compare answers with the proved one.

mod body;
mod cases;
mod compound;
mod damaged;
mod difdup;
mod file;
mod file_text;
mod file_tried;
mod frame;
mod heads;
mod kept;
mod lengths;
mod line;
mod night;
mod plain;
mod profile;
mod random;
mod selftest;
mod stored;
mod stream;
mod tabs;
mod text;

use file_text::{Given, Scales};
use frame::{Frame, Refusal, MISSING};
use std::fs::File;
use std::io::{self, BufReader, BufWriter, Read, Write};
use std::process::exit;
use text::TextForm;

/// Most bytes and points that 01's program takes (01, Bench samples).
const PROGRAM_BYTES: usize = 49_152;
const PROGRAM_POINTS: u64 = 4_096;

/// Prints how the program is used, and ends it.
fn usage() -> ! {
    eprintln!("second cases --seed S --bodies A --writes B --files C --written-files D --compound E --profiles G");
    eprintln!("             --spools H --damaged I --old J --kept M > stream");
    eprintln!("second stored --seed S --bodies A --writes B --files C --written-files D --cases PATH --answers PATH");
    eprintln!("second count < stream");
    eprintln!("second body F L N [--room R] < body");
    eprintln!("second write FORM F L N [--room R] < ordinates    (FORM: difdup, affn, pac or sqz)");
    eprintln!("second write-file T N XFACTOR YFACTOR FIRSTX LASTX FIRSTY [--room R] < title and ordinates");
    eprintln!("second file [--whole] [--room R] < file    (--whole: the library's limits, not the program's)");
    eprintln!("second compound [--room R] < file    (with the library's limits)");
    eprintln!("second profile PAGE [--room R] < file    (PAGE: a file; with the library's limits)");
    eprintln!("second night [--room R] < spool");
    eprintln!("second damage --seed S --bodies A    (what becomes of every single-byte damage)");
    eprintln!("second selftest");
    exit(2)
}

/// The number after an option, or the one given if the option is absent.
fn option(arguments: &[String], name: &str, otherwise: u64) -> u64 {
    match arguments.iter().position(|argument| argument == name) {
        Some(at) => arguments.get(at + 1).and_then(|text| text.parse().ok()).unwrap_or_else(|| usage()),
        None => otherwise,
    }
}

/// The word after an option.
fn path<'a>(arguments: &'a [String], name: &str) -> &'a str {
    let at = arguments.iter().position(|argument| argument == name).unwrap_or_else(|| usage());
    arguments.get(at + 1).unwrap_or_else(|| usage())
}

/// All of standard input.
fn input() -> io::Result<Vec<u8>> {
    let mut bytes = Vec::new();
    io::stdin().read_to_end(&mut bytes)?;
    Ok(bytes)
}

/// The answer to a text in the form of 01's program, and a refusal's line and column after its place.
fn print_answer(text: &[u8], answer: Result<(u64, i64, i64, Vec<i32>), Refusal>) {
    match answer {
        Err(fault) => println!("{}", fault.told(text)),
        Ok((points, first, last, ordinates)) => {
            let rows = ordinates.iter().map(|y| if *y == MISSING { "?\n".into() } else { format!("{y}\n") });
            print!("ok {points} {first} {last}\n{}", rows.collect::<String>());
        }
    }
}

/// Writes the stream of cases that is asked for.
fn cases_command(arguments: &[String]) -> io::Result<()> {
    let out = &mut BufWriter::new(io::stdout().lock());
    let number = |name| option(arguments, name, 0) as usize;
    let seed = option(arguments, "--seed", 1);
    let counts = ["--bodies", "--writes", "--files", "--written-files", "--compound", "--profiles", "--spools", "--damaged", "--old", "--kept"];
    let counts = counts.map(number);
    cases::write_cases(out, seed, counts)?;
    out.flush()
}

/// Writes the stored cases and their answers to the two files that are named.
fn stored_command(arguments: &[String]) -> io::Result<()> {
    let cases = BufWriter::new(File::create(path(arguments, "--cases"))?);
    let answers = BufWriter::new(File::create(path(arguments, "--answers"))?);
    let number = |name| option(arguments, name, 0) as usize;
    let seed = option(arguments, "--seed", 1);
    let counts = ["--bodies", "--writes", "--files", "--written-files"].map(number);
    stored::Stored { cases, answers }.write(seed, counts)
}

/// Reads a body from standard input.
fn body_command(arguments: &[String]) -> io::Result<()> {
    let [first, last, points, ..] = arguments else { usage() };
    let (Ok(first), Ok(last), Ok(points)) = (first.parse(), last.parse(), points.parse()) else { usage() };
    let room = option(arguments, "--room", u64::MAX) as usize;
    let body = input()?;
    let ordinates = body::read_body(first, last, points, &body, room);
    print_answer(&body, ordinates.map(|list| (points, first, last, list)));
    Ok(())
}

/// Ordinates as words, `?` for a missing one.
fn ordinates(words: &[u8]) -> Vec<i32> {
    let words = std::str::from_utf8(words).unwrap_or_else(|_| usage());
    let ordinate = |word: &str| if word == "?" { MISSING } else { word.parse().unwrap_or_else(|_| usage()) };
    words.split_whitespace().map(ordinate).collect()
}

/// Prints a text after its length, or the refusal.
fn print_text(answer: Result<Vec<u8>, Refusal>) -> io::Result<()> {
    match answer {
        Ok(text) => io::stdout().write_all(&[format!("ok {}\n", text.len()).into_bytes(), text].concat()),
        Err(fault) => io::stdout().write_all(format!("refused {} {}\n", fault.number, fault.place).as_bytes()),
    }
}

/// Writes the ordinates on standard input.
fn write_command(arguments: &[String]) -> io::Result<()> {
    let [form, first, last, points, ..] = arguments else { usage() };
    let form = TextForm::named(form).unwrap_or_else(|| usage());
    let (Ok(first), Ok(last), Ok(points)) = (first.parse(), last.parse(), points.parse()) else { usage() };
    let room = option(arguments, "--room", u64::MAX) as usize;
    let ordinates = ordinates(&input()?);
    print_text(text::write_body(form, &Frame { first, last, points }, &ordinates, room))
}

/// The decimal that a word gives: a mantissa, `E` and an exponent, each any 64-bit number.
fn given(word: &String) -> Option<Given> {
    let (mantissa, exponent) = word.split_once('E')?;
    Some(Given { mantissa: mantissa.parse().ok()?, exponent: exponent.parse().ok()? })
}

/// Writes a file with the title of so many bytes that standard input begins with, and the ordinates that follow it.
fn write_file_command(arguments: &[String]) -> io::Result<()> {
    let [length, points, decimals @ ..] = arguments else { usage() };
    let (Ok(length), Ok(points)) = (length.parse(), points.parse()) else { usage() };
    let decimals: Option<Vec<Given>> = decimals.iter().take(5).map(given).collect();
    let five: [Given; 5] = decimals.and_then(|list| list.try_into().ok()).unwrap_or_else(|| usage());
    let room = option(arguments, "--room", u64::MAX) as usize;
    let input = input()?;
    if length > input.len() {
        usage()
    }
    let (title, words) = input.split_at(length);
    let answer = file_text::write_file(title, points, &Scales::of(five), &ordinates(words), room);
    print_text(answer.map(|written| written.text))
}

/// Reads a file from standard input.
fn file_command(arguments: &[String]) -> io::Result<()> {
    let whole = arguments.iter().any(|argument| argument == "--whole");
    let file = input()?;
    if !whole && file.len() > PROGRAM_BYTES {
        print_answer(&file, Err(frame::refusal(19, 0)));
        return Ok(());
    }
    let room = option(arguments, "--room", if whole { u64::MAX } else { PROGRAM_POINTS }) as usize;
    print_answer(&file, file::read_file(&file, room).map(|t| (t.points, t.first, t.last, t.ordinates)));
    Ok(())
}

/// Surveys a file from standard input and reads its data blocks.
fn compound_command(arguments: &[String]) -> io::Result<()> {
    let file = input()?;
    let room = option(arguments, "--room", u64::MAX) as usize;
    let found = match compound::survey(&file) {
        Err(fault) => {
            print_answer(&file, Err(fault));
            return Ok(());
        }
        Ok(found) => found,
    };
    let kind = if found.is_compound() { "compound" } else { "one data block" };
    println!("{kind} {}", found.blocks());
    for k in 0..found.blocks() {
        let (from, to) = found.extent(k).expect("the block is there");
        println!("block {k} {from} {to}");
        let answer = found.read(&file, k, room).expect("the block is there");
        print_answer(&file, answer.map(|t| (t.points, t.first, t.last, t.ordinates)));
    }
    Ok(())
}

/// Reads a file from standard input with the profile, beside the page that is named: the fifteen texts first.
fn profile_command(arguments: &[String]) -> io::Result<()> {
    let [page, ..] = arguments else { usage() };
    let (file, page) = (input()?, std::fs::read(page)?);
    let room = option(arguments, "--room", u64::MAX) as usize;
    match profile::read_profile(&file, &page, room) {
        Err(refused) if refused.on_page => println!("page: {}", refused.fault.told(&page)),
        Err(refused) => println!("file: {}", refused.fault.told(&file)),
        Ok((table, shown)) => {
            for (wanted, part) in profile::WANTED.iter().zip(shown) {
                println!("{} {} {} {}", if part.on_page { "page" } else { "file" }, part.from, part.to, wanted.label);
            }
            print_answer(&file, Ok((table.points, table.first, table.last, table.ordinates)));
        }
    }
    Ok(())
}

/// Reports the spool on standard input, a line a file, then the totals.
fn night_command(arguments: &[String]) -> io::Result<()> {
    let spool = input()?;
    let night = night::report(&spool, option(arguments, "--room", u64::MAX) as usize);
    let level = |level: Option<i64>| level.map_or("none".into(), |y| y.to_string());
    for report in &night.reports {
        match &report.outcome {
            Err(fault) => println!("{} {}", report.at, fault.told(report.file)),
            Ok((account, _)) => {
                let levels = [account.lowest, account.highest, Some(account.sum), account.faintest].map(level);
                println!("{} ok {} {} {}", report.at, account.points, account.missing, levels.join(" "));
            }
        }
    }
    let night::Totals { files, points, missing, sum } = night.totals;
    println!("totals {files} {points} {missing} {sum}");
    match night.ended {
        Ok(()) => println!("whole"),
        Err(fault) => println!("refused {} {}", fault.number, fault.place),
    }
    Ok(())
}

/// Prints what becomes of every single-byte damage of so many accepted bodies, by their spelling and by the line's end.
fn damage_command(arguments: &[String]) -> io::Result<()> {
    let random = &mut random::Random::new(option(arguments, "--seed", 1));
    let names = ["DIFDUP", "AFFN", "PAC", "SQZ", "mixed"];
    let ends = ["passed over", "in DIF form", "otherwise"];
    let mut found = [[damaged::Outcomes::default(); 3]; 5];
    for index in 0..option(arguments, "--bodies", 1_000) as usize {
        let case = cases::accepted_body(random, index);
        let Frame { first, last, points } = case.frame;
        let list = body::read_body(first, last, points, &case.body, points as usize).expect("it is spelled right");
        let by_line = damaged::damaged(&case.frame, &case.body, &list).by_line;
        for (all, one) in found[index % names.len()].iter_mut().zip(by_line) {
            *all = all.with(one);
        }
    }
    println!("| spelled | line ends | damages | refused 10 | refused otherwise | same list | another list |");
    println!("|---|---|---|---|---|---|---|");
    for (name, by_line) in names.iter().zip(found) {
        for (end, outcomes) in ends.iter().zip(by_line) {
            let damaged::Outcomes { unequal, otherwise, same, other } = outcomes;
            let all = unequal + otherwise + same + other;
            if all > 0 {
                println!("| {name} | {end} | {all} | {unequal} | {otherwise} | {same} | {other} |");
            }
        }
    }
    Ok(())
}

/// Does what the first argument asks for.
fn main() -> io::Result<()> {
    let arguments: Vec<String> = std::env::args().skip(1).collect();
    match arguments.first().map(String::as_str) {
        Some("cases") => cases_command(&arguments[1..]),
        Some("stored") => stored_command(&arguments[1..]),
        Some("count") => stream::count(BufReader::new(io::stdin().lock())),
        Some("body") => body_command(&arguments[1..]),
        Some("write") => write_command(&arguments[1..]),
        Some("write-file") => write_file_command(&arguments[1..]),
        Some("file") => file_command(&arguments[1..]),
        Some("compound") => compound_command(&arguments[1..]),
        Some("profile") => profile_command(&arguments[1..]),
        Some("night") => night_command(&arguments[1..]),
        Some("damage") => damage_command(&arguments[1..]),
        Some("selftest") => exit(selftest::run()),
        _ => usage(),
    }
}
