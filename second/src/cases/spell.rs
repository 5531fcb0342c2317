//! Right spellings of a table, in every form that 01 lets pass, mixed at random.

use super::coarse;
use crate::frame::{nearest, Frame, LONGEST_LINE, MISSING, UNITS};
use crate::random::Random;

/// How a body is spelled: odds (once in so many times) and forms that one body keeps to.
pub struct Style {
    pub blanks: usize,
    pub comments: usize,
    pub passed_over: usize,
    pub new_line: usize,
    pub duplicates: usize,
    pub forms: Vec<Form>,
    pub line_ends: Vec<&'static [u8]>,
    pub odd_heads: usize,
    pub half_heads: usize,
    /// To how many places after the point heads are rounded, if they are (02, T-03).
    pub places: Option<usize>,
    pub slips: usize,
    /// How often a line is filled up to 80 bytes, and how often beyond (02, T-06).
    pub full: usize,
    pub over: usize,
    /// How often a blank is a tab, which a body no longer may have (02, T-13).
    pub tabs: usize,
}

/// The ways to spell a value.
#[derive(Clone, Copy, PartialEq, Eq)]
pub enum Form {
    Signed,
    AfterBlank,
    Squeezed,
    Difference,
}

/// Odds of what one style never does.
pub const NEVER: usize = 1_000_000_000;

/// A random style.
pub fn style(random: &mut Random) -> Style {
    use Form::{AfterBlank, Difference, Signed, Squeezed};
    let all = vec![Signed, AfterBlank, Squeezed, Difference];
    let forms = [all, vec![Difference], vec![Squeezed], vec![AfterBlank, Signed], vec![Squeezed, Difference]];
    let ends: [Vec<&'static [u8]>; 3] = [vec![b"\n"], vec![b"\r\n"], vec![b"\n", b"\r\n"]];
    Style {
        blanks: random.pick(&[3, 8, 1_000]),
        comments: random.pick(&[4, 30, 1_000]),
        passed_over: random.pick(&[4, 20, 1_000]),
        new_line: random.pick(&[3, 10, 30]),
        duplicates: random.pick(&[1, 2, 2, 10]),
        forms: random.pick(&forms),
        line_ends: random.pick(&ends),
        odd_heads: random.pick(&[2, 6, 1_000]),
        half_heads: random.pick(&[40, 1_000_000, 1_000_000]),
        places: random.pick(&[None, None, None, None, Some(0), Some(1), Some(2)]),
        slips: random.pick(&[20, NEVER, NEVER]),
        full: random.pick(&[4, 40, NEVER]),
        over: random.pick(&[12, NEVER, NEVER, NEVER]),
        tabs: random.pick(&[3, 40, NEVER, NEVER, NEVER, NEVER]),
    }
}

/// A spelling of a table in this frame. It is right unless the style takes heads at half a spacing, slips, or makes
/// lines over 80 bytes.
pub fn body(random: &mut Random, style: &Style, frame: &Frame, ordinates: &[i32]) -> Vec<u8> {
    let mut body = Vec::new();
    let mut next = 0;
    let mut check = false;
    passed_over(random, style, &mut body);
    while next < ordinates.len() || (check && !random.once_in(style.slips / 5)) {
        (next, check) = line(random, style, frame, ordinates, next, check, &mut body);
        line_end(random, style, &mut body);
        passed_over(random, style, &mut body);
    }
    if random.once_in(3) {
        drop_last_line_end(&mut body);
    }
    body
}

/// Takes the last line end away, CR and LF together.
fn drop_last_line_end(body: &mut Vec<u8>) {
    if body.last() == Some(&b'\n') {
        body.pop();
        if body.last() == Some(&b'\r') {
            body.pop();
        }
    }
}

/// One line from its blanks to before its line end; gives the next point and whether a check line must follow.
fn line(
    random: &mut Random,
    style: &Style,
    frame: &Frame,
    ordinates: &[i32],
    from: usize,
    check: bool,
    body: &mut Vec<u8>,
) -> (usize, bool) {
    let mut next = if check { from - 1 } else { from };
    let start = body.len();
    blanks(random, style, body);
    body.extend(head(random, style, frame, next));
    let mut form = None;
    while form.is_none() || (next < ordinates.len() && !random.once_in(style.new_line)) {
        let before = body.len();
        let (here, after) = group(random, style, ordinates, next, form.is_none().then_some(check), body);
        if form.is_some() && body.len() - start > LONGEST_LINE {
            body.truncate(before);
            break;
        }
        (form, next) = (Some(here), after);
    }
    let end = body.len();
    blanks(random, style, body);
    if random.once_in(style.comments) {
        comment(random, body);
    }
    fit(random, style, start, end, body);
    (next, form == Some(Form::Difference))
}

/// A value and perhaps a DUP after it, its form, and the point after them. `first` says whether a line's first value is
/// a check line's.
fn group(
    random: &mut Random,
    style: &Style,
    ordinates: &[i32],
    next: usize,
    first: Option<bool>,
    body: &mut Vec<u8>,
) -> (Form, usize) {
    blanks(random, style, body);
    if random.once_in(if first == Some(true) { style.slips / 4 } else { style.slips }) {
        slip(random, ordinates[next], body);
    }
    let form = value(random, style, ordinates, next, first.is_none(), body);
    let mut after = next + 1;
    if random.once_in(style.duplicates) {
        after += duplicate(random, style, ordinates, after, form, body);
    }
    (form, after)
}

/// Makes the line from `start` on, whose tokens end at `end`, at most 80 bytes long, if it can, and now and then fills
/// it up to 80 bytes or beyond, with blanks or with a comment.
fn fit(random: &mut Random, style: &Style, start: usize, end: usize, body: &mut Vec<u8>) {
    if body.len() - start > LONGEST_LINE {
        body.truncate(end);
    }
    let length = if random.once_in(style.over) {
        LONGEST_LINE + random.pick(&[1, 1, 1, 2, 20])
    } else if random.once_in(style.full) {
        LONGEST_LINE
    } else {
        return;
    };
    let missing = (start + length).saturating_sub(body.len());
    let has_comment = body[start..].windows(2).any(|pair| pair == b"$$");
    if !has_comment && missing >= 2 && random.once_in(2) {
        body.extend(b"$$");
    }
    let in_comment = body[start..].windows(2).any(|pair| pair == b"$$");
    while body.len() < start + length {
        let byte = if in_comment { random.pick(b"c$\r\xff \t") } else { blank(random, style) };
        body.push(byte);
    }
}

/// A value too many: one that is seldom allowed, a neighbour of the right one, or steps that come near the range's end.
fn slip(random: &mut Random, y: i32, body: &mut Vec<u8>) {
    let pieces: [&[u8]; 12] = [
        b"R999999999",
        b"r999999999",
        b"M294967295",
        b"I999999999",
        b"b147483648",
        b"Z9999",
        b"s9999",
        b"S",
        b"T",
        b"%",
        b"J",
        b"?",
    ];
    match random.below(4) {
        0 | 1 => body.extend(random.pick(&pieces)),
        2 => {
            let near = i64::from(y) + random.between(-1, 1);
            body.extend(pseudo(near, b"@ABCDEFGHI", b"-abcdefghi"));
        }
        _ => body.extend(steps_to_the_limit(random, i64::from(y))),
    }
}

/// A DIF and a DUP that lead from an ordinate to the last one in range or a little beyond it.
fn steps_to_the_limit(random: &mut Random, y: i64) -> Vec<u8> {
    let most = random.pick(&[10, 10, 10, 99_999]);
    let count = random.between(2, most);
    let limit = random.pick(&[i64::from(i32::MAX), -i64::from(i32::MAX)]);
    let step = (limit - y) / count + random.pick(&[0, 0, limit.signum()]);
    let from = pseudo(y, b"@ABCDEFGHI", b"-abcdefghi");
    [from, pseudo(step, b"%JKLMNOPQR", b"-jklmnopqr"), pseudo(count, b"-STUVWXYZs", b"----------")].concat()
}

/// One value for a point; gives its form. A missing ordinate counts as squeezed.
fn value(random: &mut Random, style: &Style, list: &[i32], at: usize, inside: bool, body: &mut Vec<u8>) -> Form {
    if list[at] == MISSING {
        body.push(b'?');
        return Form::Squeezed;
    }
    let mut form = random.pick(&style.forms);
    let y = i64::from(list[at]);
    if form == Form::Difference && !(inside && list[at - 1] != MISSING) {
        form = Form::Squeezed;
    }
    match form {
        Form::Signed => signed(random, y, body),
        Form::AfterBlank => after_blank(random, style, y, body),
        Form::Squeezed => body.extend(pseudo(y, b"@ABCDEFGHI", b"-abcdefghi")),
        Form::Difference => body.extend(pseudo(y - i64::from(list[at - 1]), b"%JKLMNOPQR", b"-jklmnopqr")),
    }
    form
}

/// A DUP for the value just given, if the points after it allow one; gives how many points it took.
fn duplicate(random: &mut Random, style: &Style, list: &[i32], next: usize, form: Form, body: &mut Vec<u8>) -> usize {
    let step = |k: usize| i64::from(list[k]) - i64::from(list[k - 1]);
    let follows = |k: &usize| match form {
        Form::Difference => list[*k] != MISSING && step(*k) == step(next - 1),
        _ => list[*k] == list[next - 1],
    };
    let run = (next..list.len()).take_while(follows).count();
    if run == 0 {
        return 0;
    }
    let taken = if random.once_in(2) { run } else { 1 + random.below(run) };
    blanks(random, style, body);
    body.extend(pseudo(taken as i64 + 1, b"-STUVWXYZs", b"----------"));
    taken
}

/// A number with a pseudo-digit in place of its first digit.
fn pseudo(number: i64, plus: &[u8; 10], minus: &[u8; 10]) -> Vec<u8> {
    let mut digits = number.abs().to_string().into_bytes();
    let row = if number < 0 { minus } else { plus };
    digits[0] = row[usize::from(digits[0] - b'0')];
    digits
}

/// A number in digits with leading zeros, at most `most` digits in all.
fn zero_filled(random: &mut Random, number: u64, most: usize) -> Vec<u8> {
    let digits = number.to_string();
    let room = most - digits.len();
    let zeros = if random.once_in(8) { random.below(room + 1) } else { 0 };
    [vec![b'0'; zeros], digits.into_bytes()].concat()
}

/// An AFFN value with a sign.
fn signed(random: &mut Random, y: i64, body: &mut Vec<u8>) {
    let minus = y < 0 || (y == 0 && random.once_in(3));
    body.push(if minus { b'-' } else { b'+' });
    body.extend(zero_filled(random, y.unsigned_abs(), 10));
}

/// An AFFN or PAC value after a blank; one below zero keeps its sign.
fn after_blank(random: &mut Random, style: &Style, y: i64, body: &mut Vec<u8>) {
    body.push(blank(random, style));
    if y < 0 {
        body.push(b'-');
    }
    body.extend(zero_filled(random, y.unsigned_abs(), 10));
}

/// A head for a point: rounded to the style's places, if it has some, or else spelled anyhow.
pub fn head(random: &mut Random, style: &Style, frame: &Frame, index: usize) -> Vec<u8> {
    if let Some(places) = style.places {
        if let Some(h) = coarse::head(random, style, frame, index, UNITS[places]) {
            return spelled_head(random, style, h, places);
        }
    }
    let h =
        if random.once_in(style.odd_heads) { odd_head(random, style, frame, index) } else { exact_head(frame, index) };
    spelled_head(random, style, h.clamp(-9_999_999_999, 9_999_999_999), 0)
}

/// The abscissa of a point, in thousandths times the number of steps.
fn scaled_abscissa(frame: &Frame, index: usize) -> i128 {
    i128::from(frame.first) * frame.steps() + index as i128 * frame.span()
}

/// The abscissa of a point to the nearest thousandth.
fn exact_head(frame: &Frame, index: usize) -> i128 {
    if frame.points == 1 {
        return i128::from(frame.first);
    }
    nearest(scaled_abscissa(frame, index), frame.steps())
}

/// A head off the abscissa by less than half a spacing, often by as much as passes, seldom by exactly half or more.
fn odd_head(random: &mut Random, style: &Style, frame: &Frame, index: usize) -> i128 {
    if frame.points == 1 {
        return i128::from(frame.first);
    }
    let (twice, double_steps) = (2 * scaled_abscissa(frame, index), 2 * frame.steps());
    let low = (twice - frame.span().abs()).div_euclid(double_steps) + 1;
    let high = -(-(twice + frame.span().abs())).div_euclid(double_steps) - 1;
    if random.once_in(style.half_heads) {
        return random.pick(&[low - 1, high + 1]);
    }
    if low > high {
        return exact_head(frame, index);
    }
    match random.below(3) {
        0 => low,
        1 => high,
        _ => low + i128::from(random.bits()) % (high - low + 1),
    }
}

/// A head of so many thousandths with signs, leading zeros, a point and as many digits after it as one likes; if it has
/// no more than so many places, just those.
fn spelled_head(random: &mut Random, style: &Style, h: i128, places: usize) -> Vec<u8> {
    let plain = random.once_in(2) || style.odd_heads >= 1_000;
    let mut spelled = Vec::new();
    if h < 0 || (h == 0 && !plain && random.once_in(4)) {
        spelled.push(b'-');
    } else if !plain && random.once_in(4) {
        spelled.push(b'+');
    }
    let magnitude = h.unsigned_abs() as u64;
    spelled.extend(if plain {
        (magnitude / 1000).to_string().into_bytes()
    } else {
        zero_filled(random, magnitude / 1000, 7)
    });
    let part = format!("{:03}", magnitude % 1000);
    let least = part.trim_end_matches('0').len();
    let shown = if plain || style.places.is_some() { least.max(places) } else { least + random.below(4 - least) };
    if shown > 0 || (!plain && random.once_in(4)) {
        spelled.push(b'.');
        spelled.extend(&part.as_bytes()[..shown]);
    }
    spelled
}

/// A blank: a space, or as often as the style says a tab.
fn blank(random: &mut Random, style: &Style) -> u8 {
    if random.once_in(style.tabs) {
        b'\t'
    } else {
        b' '
    }
}

/// Blanks, now and then.
pub fn blanks(random: &mut Random, style: &Style, body: &mut Vec<u8>) {
    if random.once_in(style.blanks) {
        for _ in 0..1 + random.below(3) {
            body.push(blank(random, style));
        }
    }
}

/// A comment of any bytes but LF.
pub fn comment(random: &mut Random, body: &mut Vec<u8>) {
    body.extend(b"$$");
    for _ in 0..random.below(12) {
        let byte = if random.once_in(3) { random.byte() } else { random.pick(b"A0$#=\r \t?.x%T1") };
        body.push(if byte == b'\n' { b'\r' } else { byte });
    }
}

/// A line end of the style.
pub fn line_end(random: &mut Random, style: &Style, body: &mut Vec<u8>) {
    body.extend(random.pick(&style.line_ends));
}

/// Lines that are passed over, now and then.
pub fn passed_over(random: &mut Random, style: &Style, body: &mut Vec<u8>) {
    while random.once_in(style.passed_over) {
        let start = body.len();
        blanks(random, style, body);
        if random.once_in(2) {
            comment(random, body);
        }
        fit(random, style, start, start, body);
        line_end(random, style, body);
    }
}
