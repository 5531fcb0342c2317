//! Random files to be written (02, T-04): titles, decimals in all spellings, and each refusal, often several at once.

use super::files::{factor, random_decimal, times};
use super::{large_cases, tables};
use crate::file::{quotient, Decimal};
use crate::file_text::{Given, Scales, LARGEST_EXPONENT, LARGEST_MANTISSA, LONGEST_TITLE};
use crate::frame::{Frame, MISSING};
use crate::random::Random;
use crate::stream::WrittenFileCase;

/// Titles that are written: blanks, what begins a label or a comment elsewhere, the first and the last byte allowed.
const TITLES: &[&[u8]] = &[
    b"",
    b" ",
    b"one count",
    b" one count ",
    b"~",
    b"=",
    b"a = b",
    b"##",
    b"##END=",
    b" ##TITLE=again",
    b"##XFACTOR=2",
    b"$",
    b"$ $",
    b"$#$",
    b"US$",
    b"0A",
    b"(X++(Y..Y))",
    b"\\r\\n",
];

/// Bytes that no title has.
const WRONG_BYTES: &[u8] = &[0, 9, 10, 13, 30, 31, 127, 128, 160, 223, 255];

/// Mantissas beyond nine digits; cut to 32 bits some have fewer.
const WRONG_MANTISSAS: &[i64] = &[
    LARGEST_MANTISSA + 1,
    -LARGEST_MANTISSA - 1,
    1 << 32,
    (1 << 32) + 1,
    -(1 << 32) + 1,
    9_999_999_999,
    i64::MAX,
    i64::MIN,
    i64::MIN + 1,
];

/// Exponents beyond 99; cut to fewer bits some are within.
const WRONG_EXPONENTS: &[i64] =
    &[100, -100, 101, 127, -128, 256, -256, 999, 1 << 32, -(1 << 32) + 1, i64::MAX, i64::MIN, i64::MIN + 1];

/// Abscissas that are too far for most factors: 10,000,000 is beyond the limit by a thousandth.
const FAR: &[(i64, i64)] =
    &[(1, 7), (-1, 7), (10, 6), (999_999_999, -2), (999_999_999, 99), (-1, 99), (123_456_789, 2)];

/// One case of a file to be written.
pub fn written_file_case(random: &mut Random, index: usize, cases: usize) -> WrittenFileCase {
    let large = index + large_cases(cases) >= cases;
    let points = if large { random.pick(&[65_536, 65_535, 40_000]) } else { tables::points_to_write(random) };
    let frame = match random.below(6) {
        0 => tables::tight_frame(random, points),
        1 | 2 => Frame { first: 0, last: 1000 * (points as i64 - 1), points: points as u64 },
        _ => tables::frame(random, points),
    };
    let mut ordinates = tables::ordinates(random, points);
    if random.once_in(20) {
        ordinates[0] = MISSING;
    }
    let scales = scales(random, &frame, ordinates[0]);
    let mut case = WrittenFileCase { title: title(random), points: frame.points, scales, ordinates, room: 0 };
    if random.once_in(8) {
        case.ordinates.extend(tables::ordinates(random, 3));
    }
    for _ in 0..random.pick(&[0, 0, 0, 0, 0, 0, 1, 1, 1, 2, 3]) {
        fault(random, &mut case);
    }
    case.room = room(random, &case);
    case
}

/// A title that is written.
fn title(random: &mut Random) -> Vec<u8> {
    if random.once_in(2) {
        return random.pick(TITLES).to_vec();
    }
    let length = if random.once_in(2) { LONGEST_TITLE } else { random.below(LONGEST_TITLE + 1) };
    printable(random, length)
}

/// So many bytes from 32 to 126 without `$$`.
fn printable(random: &mut Random, length: usize) -> Vec<u8> {
    let mut title: Vec<u8> = Vec::new();
    while title.len() < length {
        let byte = if random.once_in(4) { random.pick(b"$#= ~") } else { 32 + random.below(95) as u8 };
        if byte != b'$' || title.last() != Some(&b'$') {
            title.push(byte);
        }
    }
    title
}

/// A title that is refused: too long, with a byte that is not allowed, or with `$$`.
fn wrong_title(random: &mut Random) -> Vec<u8> {
    let more = random.pick(&[1, 1, 1, 2, 184]);
    if random.once_in(3) {
        return printable(random, LONGEST_TITLE + more);
    }
    let length = 2 + random.below(LONGEST_TITLE - 1);
    let mut title = printable(random, length);
    let within = random.below(length - 1);
    let at = random.pick(&[0, within, length - 2]);
    match random.below(2) {
        0 => title[at..at + 2].fill(b'$'),
        _ => title[at + random.below(2)] = random.pick(WRONG_BYTES),
    }
    title
}

/// A decimal as the caller gives it, rounded to nine digits.
fn nine_digits(number: Decimal) -> Given {
    let Decimal { mut mantissa, mut exponent } = number;
    while mantissa.abs() > i128::from(LARGEST_MANTISSA) {
        mantissa = (mantissa + 5).div_euclid(10);
        exponent += 1;
    }
    Given { mantissa: mantissa as i64, exponent: i64::from(exponent) }
}

/// A whole number times a factor and ten to minus `places`, now and then half a unit off, or beside that half.
fn scaled(random: &mut Random, number: i128, factor: Decimal, places: i32) -> Given {
    let exact = || Decimal { mantissa: number * factor.mantissa, exponent: factor.exponent - places };
    if !random.once_in(6) {
        return nine_digits(times(number, factor, places).unwrap_or_else(exact));
    }
    let half = times(10 * number + random.pick(&[-5, -5, 5]), factor, places + 1);
    let mut given = nine_digits(half.unwrap_or_else(exact));
    given.mantissa += random.pick(&[0, 0, 1, -1]);
    given
}

/// The five decimals for a frame and a first ordinate.
fn scales(random: &mut Random, frame: &Frame, first: i32) -> Scales<Given> {
    let wild = |random: &mut Random| nine_digits(random_decimal(random, LARGEST_MANTISSA, LARGEST_EXPONENT));
    let x_factor = factor(random);
    let first_x = scaled(random, i128::from(frame.first), x_factor, 3);
    let last_x = if frame.points == 1 { first_x } else { scaled(random, i128::from(frame.last), x_factor, 3) };
    let (y_factor, first_y) = match first {
        MISSING => (factor(random), wild(random)),
        y if y.unsigned_abs() > 999_999 => long_ratio(random, i128::from(y)),
        y => {
            let y_factor = factor(random);
            (y_factor, scaled(random, i128::from(y), y_factor, 0))
        }
    };
    let mut x = [nine_digits(x_factor), first_x, last_x];
    let mut y = [nine_digits(y_factor), first_y];
    respell(random, &mut x);
    respell(random, &mut y);
    Scales::of([x[0], y[0], x[1], x[2], y[1]])
}

/// A factor and a decimal whose quotient, rounded, is a number of up to ten digits; at worst the last of many tries.
fn long_ratio(random: &mut Random, y: i128) -> (Decimal, Given) {
    let mut ratio = None;
    for _ in 0..20 {
        let below = Decimal { mantissa: i128::from(random.between(1, LARGEST_MANTISSA)), exponent: 0 };
        let above = nine_digits(Decimal { mantissa: y * below.mantissa, exponent: 0 });
        let right = above.decimal().and_then(|above| quotient(above, below, 0)) == Some(y);
        ratio = Some((below, above));
        if right {
            break;
        }
    }
    ratio.expect("one try was made")
}

/// Spells decimals otherwise, their quotients unaltered: zeros at the end, any exponent of zero, all exponents moved.
fn respell(random: &mut Random, decimals: &mut [Given]) {
    for given in decimals.iter_mut() {
        while given.mantissa.abs() <= LARGEST_MANTISSA / 10 && given.exponent > -90 && random.once_in(4) {
            *given = Given { mantissa: given.mantissa * 10, exponent: given.exponent - 1 };
        }
        if given.mantissa == 0 && random.once_in(3) {
            let any = random.between(-LARGEST_EXPONENT, LARGEST_EXPONENT);
            given.exponent = random.pick(&[0, 7, LARGEST_EXPONENT, -LARGEST_EXPONENT, any]);
        }
    }
    let exponents = decimals.iter().map(|given| given.exponent);
    let low = -LARGEST_EXPONENT - exponents.clone().min().unwrap_or(0);
    let high = LARGEST_EXPONENT - exponents.max().unwrap_or(0);
    if low <= high && random.once_in(4) {
        let within = random.between(low, high);
        let shift = random.pick(&[low, high, within]);
        decimals.iter_mut().for_each(|given| given.exponent += shift);
    }
}

/// Puts one fault, or something that looks like one, into a case.
fn fault(random: &mut Random, case: &mut WrittenFileCase) {
    let scales = &mut case.scales;
    match random.below(7) {
        0 => case.title = wrong_title(random),
        1 => *any_decimal(random, scales) = wrong_decimal(random),
        2 => {
            let (mantissa, exponent) = random.pick(FAR);
            let shift = if random.once_in(2) { scales.x_factor.exponent } else { 0 };
            let far = Given { mantissa, exponent: exponent.saturating_add(shift).clamp(-99, 99) };
            *(if random.once_in(2) { &mut scales.first_x } else { &mut scales.last_x }) = far;
        }
        3 => frame_fault(random, case),
        4 => case.ordinates.truncate(random.pick(&[0, 1, case.points.min(70_000) as usize]).saturating_sub(1)),
        5 => {
            let first = case.ordinates.first().copied().unwrap_or(0);
            let y = i128::from(first) + random.pick(&[1, -1, 1_000, 1 << 32, -(1 << 32)]);
            let factor = scales.y_factor.decimal().unwrap_or(Decimal { mantissa: 1, exponent: 0 });
            scales.first_y = nine_digits(times(y, factor, 0).unwrap_or(Decimal { mantissa: y, exponent: 0 }));
        }
        _ => factor_fault(random, scales),
    }
}

/// One of the five decimals.
fn any_decimal<'a>(random: &mut Random, scales: &'a mut Scales<Given>) -> &'a mut Given {
    match random.below(5) {
        0 => &mut scales.x_factor,
        1 => &mut scales.y_factor,
        2 => &mut scales.first_x,
        3 => &mut scales.last_x,
        _ => &mut scales.first_y,
    }
}

/// A decimal out of its limits, or, once in four times, at one of them.
fn wrong_decimal(random: &mut Random) -> Given {
    let mantissa = random.pick(&[1, 0, -1, LARGEST_MANTISSA, -LARGEST_MANTISSA]);
    let exponent = random.pick(&[0, 1, -1, LARGEST_EXPONENT, -LARGEST_EXPONENT]);
    match random.below(8) {
        0 | 1 => Given { mantissa, exponent },
        2 => Given { mantissa: random.bits() as i64, exponent: random.bits() as i64 },
        3 => Given { mantissa: random.pick(WRONG_MANTISSAS), exponent: random.pick(WRONG_EXPONENTS) },
        4 | 5 => Given { mantissa, exponent: random.pick(WRONG_EXPONENTS) },
        _ => Given { mantissa: random.pick(WRONG_MANTISSAS), exponent },
    }
}

/// A factor that is zero, or below it.
fn factor_fault(random: &mut Random, scales: &mut Scales<Given>) {
    let mantissa = random.pick(&[0, 0, -1, -10, -LARGEST_MANTISSA]);
    let factor = if random.once_in(2) { &mut scales.x_factor } else { &mut scales.y_factor };
    factor.mantissa = mantissa;
}

/// Another number of points, mostly out of its limits, or abscissas that are one though they should differ.
fn frame_fault(random: &mut Random, case: &mut WrittenFileCase) {
    let given = case.ordinates.len() as u64;
    let wrong = [0, 1, 2, 65_536, 65_537, 1 << 31, 1 << 32, (1 << 32) + given, i64::MAX as u64, u64::MAX];
    if random.once_in(3) {
        case.scales.last_x = case.scales.first_x;
    } else {
        case.points = random.pick(&wrong);
    }
}

/// Bytes lent: exact, one too few, none, few, or more; for a file that is refused anyway, as many as it might need.
fn room(random: &mut Random, case: &WrittenFileCase) -> u32 {
    let Ok(written) = case.answer_in(usize::MAX) else {
        return random.pick(&[0, 1, 154, 400, 400 + 15 * case.ordinates.len() as u32]);
    };
    let length = written.text.len() as u32;
    match random.below(10) {
        0 | 1 => length - 1,
        2 => random.pick(&[0, 1, length / 2, length - 8]),
        3 | 4 => length + 1 + random.below(40) as u32,
        5 => length + 1_000,
        _ => length,
    }
}
