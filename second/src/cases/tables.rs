//! Random tables: numbers of points, frames and ordinate lists of every kind.

use crate::frame::{Frame, MISSING};
use crate::random::Random;

/// A number of points, mostly few.
pub fn points(random: &mut Random) -> usize {
    match random.below(400) {
        0..=29 => 1,
        30..=59 => 2,
        60..=279 => 3 + random.below(8),
        280..=369 => 4 + random.below(30),
        370..=389 => 20 + random.below(100),
        390..=398 => 60 + random.below(250),
        _ => 300 + random.below(2000),
    }
}

/// A number of points for the writer, often enough for several lines.
pub fn points_to_write(random: &mut Random) -> usize {
    match random.below(4) {
        0 => 20 + random.below(60),
        1 => 40 + random.below(200),
        _ => points(random),
    }
}

/// A frame in its limits for this number of points.
pub fn frame(random: &mut Random, points: usize) -> Frame {
    let steps = points as i64 - 1;
    let first = start(random);
    let mut last = first + steps * step(random) + offset(random, steps);
    if random.once_in(20) {
        last = random.between(-LIMIT, LIMIT);
    }
    if first == last {
        last = if first < LIMIT { first + 1 } else { first - 1 };
    }
    let last = if points == 1 { first } else { last.clamp(-LIMIT, LIMIT) };
    let frame = Frame { first, last, points: points as u64 };
    if frame.in_limits() {
        frame
    } else {
        Frame { first: -LIMIT, last: LIMIT, points: points as u64 }
    }
}

/// Largest abscissa, as the frames of this generator need it.
const LIMIT: i64 = 9_999_999_999;

/// A first abscissa.
fn start(random: &mut Random) -> i64 {
    match random.below(8) {
        0..=2 => 0,
        3 => random.between(-9, 9) * 1000,
        4 => random.between(-5000, 5000),
        5 => random.between(-4_000_000, 4_000_000),
        6 => random.between(-LIMIT, LIMIT),
        _ => random.pick(&[-LIMIT, LIMIT, -1, 1, -500, 999, -1000]),
    }
}

/// A spacing in thousandths.
fn step(random: &mut Random) -> i64 {
    let size = match random.below(8) {
        0..=3 => 1000,
        4 => random.between(1, 9) * 1000,
        5 => random.between(1, 20),
        6 => random.between(1, 5000),
        _ => random.pick(&[1, 2, 3, 10, 100, 500, 1929, 100_000]),
    };
    if random.once_in(3) {
        -size
    } else {
        size
    }
}

/// What makes the span no multiple of the spacing.
fn offset(random: &mut Random, steps: i64) -> i64 {
    if random.once_in(3) {
        random.between(-steps, steps)
    } else {
        0
    }
}

/// A frame with a span near N - 1, or below it: heads of neighbours are the same (02, T-03).
pub fn tight_frame(random: &mut Random, points: usize) -> Frame {
    let steps = points as i64 - 1;
    let near = steps + random.between(-1, 3);
    let span = if random.once_in(4) { random.between(1, steps.max(1)) } else { near.max(1) };
    let first = random.between(-2000, 2000);
    let last = if points == 1 {
        first
    } else if random.once_in(2) {
        first + span
    } else {
        first - span
    };
    Frame { first, last, points: points as u64 }
}

/// A frame that is often outside the limits.
pub fn odd_frame(random: &mut Random) -> Frame {
    let abscissas = [0, 1, 1000, -1000, LIMIT, -LIMIT, LIMIT + 1, -LIMIT - 1, i64::MAX, i64::MIN, i64::MIN + 1, 3000];
    let points = [0, 1, 2, 3, 4, 65_535, 65_536, 65_537, 1 << 31, 1 << 32, (1 << 32) + 4, u64::MAX, i64::MAX as u64];
    let first = random.pick(&abscissas);
    let last = if random.once_in(4) { first } else { random.pick(&abscissas) };
    Frame { first, last, points: random.pick(&points) }
}

/// A list of ordinates of a random kind.
pub fn ordinates(random: &mut Random, count: usize) -> Vec<i32> {
    let kind = random.below(14);
    ordinates_of(random, count, kind)
}

/// A list of ordinates with very long runs.
pub fn long_runs(random: &mut Random, count: usize) -> Vec<i32> {
    ordinates_of(random, count, 10)
}

/// A list of ordinates of one kind.
fn ordinates_of(random: &mut Random, count: usize, kind: usize) -> Vec<i32> {
    let mut list = Vec::with_capacity(count);
    while list.len() < count {
        let before = list.last().copied();
        let next = ordinate(random, kind, list.len(), before);
        let often = if kind == 10 { 2 } else { 4 };
        let run = if random.once_in(often) { run_length(random, kind).min(count) } else { 1 };
        repeat(&mut list, next, run, random.once_in(2));
    }
    list.truncate(count);
    list
}

/// How often an ordinate or a step is repeated.
fn run_length(random: &mut Random, kind: usize) -> usize {
    match kind {
        0..=4 => 1 + random.below(4),
        5..=8 => 1 + random.below(15),
        9 => 1 + random.below(400),
        10 => 1 + random.below(40_000),
        _ => 1,
    }
}

/// Adds an ordinate to a list several times over, or goes on with the same step as long as the range allows.
fn repeat(list: &mut Vec<i32>, next: i32, run: usize, same_step: bool) {
    let step = match list.last() {
        Some(before) if same_step && *before != MISSING && next != MISSING => i64::from(next) - i64::from(*before),
        _ => 0,
    };
    for k in 0..run as i64 {
        let wanted = i64::from(next) + k * step;
        if next != MISSING && wanted.abs() > i64::from(i32::MAX) {
            break;
        }
        list.push(if next == MISSING { MISSING } else { wanted as i32 });
    }
}

/// The next ordinate of a list of some kind.
fn ordinate(random: &mut Random, kind: usize, index: usize, before: Option<i32>) -> i32 {
    let known = before.filter(|y| *y != MISSING).unwrap_or(0);
    let step = walk(random, known, [12, 3, 1000, 100_000, 2][kind % 5]);
    let any = random.bits() as i32;
    match kind {
        0 => random.pick(&[0, 0, 0, 1, 0, 0, -1, MISSING]),
        1 => random.pick(&[step, step, step, step, MISSING]),
        2 => random.between(-30, 30) as i32,
        3 => random.pick(&[-3, -1, 0, 0, 2, 3, MISSING, MISSING]),
        6 => [i32::MAX, -i32::MAX][index % 2],
        7 => near_limit(random),
        8 if random.once_in(40) => any,
        10 => random.pick(&[0, 1, MISSING, 7, step, step]),
        11 => MISSING,
        12 => any,
        13 => random.pick(&[any, any, any, any, any, MISSING]),
        _ => step,
    }
}

/// An ordinate at most so far from the one before.
fn walk(random: &mut Random, from: i32, reach: i64) -> i32 {
    let wanted = i64::from(from) + random.between(-reach, reach);
    wanted.clamp(-i64::from(i32::MAX), i64::from(i32::MAX)) as i32
}

/// An ordinate at or near a limit, with values of few and of many digits between.
fn near_limit(random: &mut Random) -> i32 {
    let edge = random.pick(&[i32::MAX, -i32::MAX, 0, 999_999_999, 1_000_000_000, -1_000_000_000, 99, -10]);
    walk(random, edge, 2)
}
