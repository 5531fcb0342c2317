//! Damage: small changes to right bytes, and bytes that were never right.

use crate::random::Random;

/// Bytes that mean something in a body.
const MEANING: &[u8] = b"0123456789+-.$?@ABCDEFGHI%JKLMNOPQRabcdefghijklmnopqrSTUVWXYZs \t\r\n";

/// Pieces of text that are put in to hit one rule or another.
const PIECES: &[&[u8]] = &[
    b"S",
    b"T",
    b"U",
    b"Z9999",
    b"s9999",
    b"S0",
    b"S00000",
    b"T00000",
    b"S0000",
    b"?",
    b"??",
    b"?T",
    b"?5",
    b"%",
    b"%5",
    b"@5",
    b"J",
    b"j",
    b"R999999999",
    b"r999999999",
    b"I999999999",
    b"B147483647",
    b"b147483647",
    b"B147483648",
    b"b147483648",
    b"+",
    b"-",
    b".",
    b"..",
    b"$",
    b"$$",
    b"\r",
    b"\n",
    b"\r\n",
    b" 1",
    b" 12345678901",
    b"+12345678901",
    b"+0000000001",
    b"A1234567890",
    b"J1234567890",
    b"\n0A",
    b"\n1A",
    b"\n3A",
    b"\n0",
    b"\n1.5A",
    b"\n1.499A",
    b"\n+",
    b"\n12345678A",
    b"\n0.1234A",
    b"\n.5A",
    b"\n0..A",
    b"\nA",
    b"!",
    b"x",
    b"t",
    b"\xff",
    b"\0",
    b"#",
    b"TT",
    b"ST",
    b"UJ",
    b"\x0b",
    b"E",
];

/// Damages bytes once to three times.
pub fn damage(random: &mut Random, bytes: &mut Vec<u8>) {
    for _ in 0..random.pick(&[1, 1, 1, 2, 3]) {
        match random.below(16) {
            0 | 1 => damage_line(random, bytes),
            2 => lengthen(random, bytes),
            3..=7 => put_in(random, bytes),
            _ => damage_byte(random, bytes),
        }
    }
}

/// Puts a piece of text in somewhere.
fn put_in(random: &mut Random, bytes: &mut Vec<u8>) {
    let at = random.below(bytes.len() + 1);
    bytes.splice(at..at, random.pick(PIECES).iter().copied());
}

/// Changes, drops, doubles, swaps or adds one byte, or cuts the end off.
fn damage_byte(random: &mut Random, bytes: &mut Vec<u8>) {
    if bytes.is_empty() {
        return put_in(random, bytes);
    }
    let at = random.below(bytes.len());
    match random.below(9) {
        0 => bytes[at] ^= 1 << random.below(8),
        1 => bytes[at] = random.byte(),
        2 => bytes[at] = random.pick(MEANING),
        3 => bytes.insert(at, random.pick(MEANING)),
        4 => bytes.truncate(at),
        5 => change_digit(random, bytes),
        6 if at > 0 => bytes.swap(at - 1, at),
        7 => bytes.insert(at, bytes[at]),
        _ => drop(bytes.remove(at)),
    }
}

/// Changes one digit to another.
fn change_digit(random: &mut Random, bytes: &mut [u8]) {
    let digits: Vec<usize> = (0..bytes.len()).filter(|k| bytes[*k].is_ascii_digit()).collect();
    if !digits.is_empty() {
        let at = random.pick(&digits);
        bytes[at] = random.pick(b"0123456789");
    }
}

/// Drops, doubles or swaps lines.
fn damage_line(random: &mut Random, bytes: &mut Vec<u8>) {
    let mut lines: Vec<Vec<u8>> = bytes.split_inclusive(|b| *b == b'\n').map(<[u8]>::to_vec).collect();
    if lines.is_empty() {
        return;
    }
    let (at, other) = (random.below(lines.len()), random.below(lines.len()));
    match random.below(3) {
        0 => drop(lines.remove(at)),
        1 => lines.insert(other, lines[at].clone()),
        _ => lines.swap(at, other),
    }
    *bytes = lines.concat();
}

/// Fills a line up with blanks, or puts a line of blanks or a comment in: 80 bytes long, 81, or 82 (02, T-06).
fn lengthen(random: &mut Random, bytes: &mut Vec<u8>) {
    let mut lines: Vec<Vec<u8>> = bytes.split(|b| *b == b'\n').map(<[u8]>::to_vec).collect();
    let at = random.below(lines.len());
    let length = random.pick(&[80, 81, 81, 82]);
    match random.below(3) {
        0 => lines.insert(at, vec![b' '; length]),
        1 => lines.insert(at, [b"$$".to_vec(), vec![b'c'; length - 2]].concat()),
        _ => {
            let line = &mut lines[at];
            let end = if line.ends_with(b"\r") { line.len() - 1 } else { line.len() };
            let missing = length.saturating_sub(end);
            drop(line.splice(end..end, vec![b' '; missing]));
        }
    }
    *bytes = lines.join(&b'\n');
}

/// A body of pieces and small tokens that may be right or not, with heads that mostly fit F = 0 and spacing 1000.
pub fn soup(random: &mut Random) -> Vec<u8> {
    let common: [&[u8]; 18] = [
        b"A", b"B", b"@", b"E0", b"a", b"%", b"J", b"j", b"K1", b"T", b"U", b"?", b"+1", b"-1", b" 1", b" 12", b" ",
        b"\t",
    ];
    let mut body = random
        .pick(&[
            &b"0"[..],
            b"0",
            b"0",
            b"0",
            b"0",
            b"0",
            b"0",
            b"0",
            b"0.",
            b"+0",
            b"-0",
            b"0.4",
            b"",
            b" 0",
            b"1",
            b"$$\n0",
        ])
        .to_vec();
    for _ in 0..random.below(9) {
        let piece = if random.once_in(5) { random.pick(PIECES) } else { random.pick(&common) };
        body.extend(piece);
        if random.once_in(14) {
            body.extend(format!("\n{}", random.below(5)).bytes());
        }
    }
    body
}
