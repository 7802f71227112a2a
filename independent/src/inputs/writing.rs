//! Step texts: readable ones of any size, and ways to spoil them. What the
//! paper says of a text is known here by its making, not by reading it.

use crate::dice::Dice;
use independent::{TextRead, STEP};

/// The bytes of the shortest and of the longest step line.
const LINE: (usize, usize) = (2, 42);

/// What is said of a text that is too long, or has too many steps.
pub const TOO_LONG: TextRead = TextRead { number: 11, answers: 0, count: 0, line: 0 };

/// What is said of a text whose first unreadable line is this one.
pub fn unreadable(line: usize) -> TextRead {
    TextRead { number: 10, answers: 0, count: 0, line: line as u16 }
}

// ---------------------------------------------------------------------------
// Readable texts
// ---------------------------------------------------------------------------

/// A readable text: its numbers, and its lines with their line feeds.
#[derive(Clone)]
pub struct Written {
    pub answers: u16,
    pub steps: Vec<[u16; STEP]>,
    pub lines: Vec<Vec<u8>>,
}

impl Written {
    /// A text of exactly so many steps and bytes: 4 to 8 bytes for line 1 and
    /// 2 to 42 for each step.
    pub fn new(dice: &mut Dice, steps: usize, bytes: usize) -> Self {
        let digits = share(dice, bytes - 3, (1, 5), steps, LINE);
        let answers = number(dice, digits);
        let lines = vec![format!("A\t{answers}\n").into_bytes()];
        let mut written = Written { answers, steps: Vec::new(), lines };
        let mut left = bytes - 3 - digits;
        for behind in (0..steps).rev() {
            let len = share(dice, left, LINE, behind, LINE);
            written.add(dice, len);
            left -= len;
        }
        written
    }

    /// A text of so many steps, short or long, with at most so many bytes.
    pub fn any(dice: &mut Dice, steps: usize, most: usize) -> Self {
        let least = 8 + LINE.0 * steps;
        let most = most.min(4 + LINE.1 * steps).max(least);
        let bytes =
            if steps == 0 { 4 + dice.below(5) } else { least + dice.below(most + 1 - least) };
        Self::new(dice, steps, bytes)
    }

    /// One more step, in a line of this many bytes.
    fn add(&mut self, dice: &mut Dice, len: usize) {
        let numbers = len.div_ceil(6) + dice.below((len / 2).min(STEP) + 1 - len.div_ceil(6));
        let mut step = [0; STEP];
        let mut left = len - numbers;
        for (i, written) in step[..numbers].iter_mut().enumerate() {
            let digits = share(dice, left, (1, 5), numbers - 1 - i, (1, 5));
            *written = number(dice, digits);
            left -= digits;
        }
        let words: Vec<String> = step[..numbers].iter().map(u16::to_string).collect();
        self.lines.push((words.join("\t") + "\n").into_bytes());
        self.steps.push(step);
    }

    pub fn bytes(&self) -> Vec<u8> {
        self.lines.concat()
    }

    /// What is said of its first so many lines, line 1 among them.
    pub fn said(&self, lines: usize) -> TextRead {
        TextRead { number: 0, answers: self.answers, count: lines as u16 - 1, line: 0 }
    }

    /// The text cut off behind so many bytes, and what is then said of it: a
    /// line that lost its line feed is unreadable, and so is a line 1 that is
    /// not there.
    pub fn cut(&self, bytes: usize) -> (Vec<u8>, TextRead) {
        let text = self.bytes()[..bytes].to_vec();
        let whole = text.iter().filter(|&&byte| byte == b'\n').count();
        if text.ends_with(b"\n") {
            (text, self.said(whole))
        } else {
            (text, unreadable(whole + 1))
        }
    }
}

/// What the first of some things takes of what is left, when so many others
/// stand behind it. All have limits, and none takes much more than the rest.
fn share(
    dice: &mut Dice,
    left: usize,
    own: (usize, usize),
    others: usize,
    each: (usize, usize),
) -> usize {
    let least = left.saturating_sub(each.1 * others).max(own.0);
    let most = (left - each.0 * others).min(own.1);
    let fair = 2 * left / (others + 1);
    let most = most.min(fair).max(least);
    least + dice.below(most + 1 - least)
}

/// A number that is written with so many digits.
fn number(dice: &mut Dice, digits: usize) -> u16 {
    let (low, high) = [(0, 9), (10, 99), (100, 999), (1_000, 9_999), (10_000, 65_535)][digits - 1];
    match dice.below(8) {
        0 => low,
        1 => high,
        _ => dice.between(low, high),
    }
}

// ---------------------------------------------------------------------------
// Faults in a line
// ---------------------------------------------------------------------------

/// A way to make a readable line unreadable.
pub type LineFault = (&'static str, fn(&mut Dice, &mut Vec<u8>));

/// They do for line 1 and for every other one.
pub const LINE_FAULTS: [LineFault; 18] = [
    ("an empty line", |_, line| *line = b"\n".to_vec()),
    ("a carriage return", |_, line| put_last(line, b"\r")),
    ("a space for a tab", |dice, line| for_a_tab(dice, line, b" ")),
    ("two tabs", |dice, line| for_a_tab(dice, line, b"\t\t")),
    ("a tab first", |_, line| line.insert(0, b'\t')),
    ("a tab last", |_, line| put_last(line, b"\t")),
    ("a space first", |_, line| line.insert(0, b' ')),
    ("a space last", |_, line| put_last(line, b" ")),
    ("a needless 0", |dice, line| {
        let (start, _) = a_number(dice, line);
        line.insert(start, b'0');
    }),
    ("65,536 to 99,999", |dice, line| {
        let any = 65_536 + dice.below(34_464);
        let number = dice.pick(&[65_536, 65_537, 65_540, 65_600, 66_000, 70_000, 99_999, any]);
        for_a_number(dice, line, number.to_string().as_bytes());
    }),
    ("six digits and more", |dice, line| {
        let digits = dice.pick(&LONG_NUMBERS);
        for_a_number(dice, line, digits.as_bytes());
    }),
    ("no number", |dice, line| for_a_number(dice, line, b"")),
    ("too many numbers", |dice, line| {
        let numbers = if line[0] == b'A' { 1 } else { 1 + count(line, b'\t') };
        let more = dice.pick(&[0, 0, 1, 5]);
        (numbers..=STEP + more).for_each(|_| put_last(line, b"\t5"));
    }),
    ("a sign or a letter", |dice, line| {
        let byte = dice.pick(b"+-.,;'\"_#AaBbEeXxOolI");
        put_in(dice, line, byte);
    }),
    ("a byte beside the digits", |dice, line| {
        let byte = dice.pick(b"/:");
        put_in(dice, line, byte);
    }),
    ("a zero byte", |dice, line| put_in(dice, line, 0)),
    ("a control byte", |dice, line| {
        let byte = dice.pick(&[1, 8, 11, 12, 13, 14, 26, 27, 28, 31, 127]);
        put_in(dice, line, byte);
    }),
    ("a high byte", |dice, line| {
        let any = 128 + dice.below(128) as u8;
        let byte = dice.pick(&[128 + b'\t', 128 + b'\n', 128 + b'0', 128 + b'9', 255, any]);
        put_in(dice, line, byte);
    }),
];

/// Numbers of more than five digits, also such that would be small again if
/// kept in 16, 32 or 64 bits.
const LONG_NUMBERS: [&str; 10] = [
    "100000",
    "065535",
    "000000",
    "000007",
    "655350",
    "131072",
    "0000000001",
    "4294967297",
    "18446744073709551617",
    "99999999999999999999999",
];

fn count(line: &[u8], byte: u8) -> usize {
    line.iter().filter(|&&other| other == byte).count()
}

/// Puts bytes before the line feed.
fn put_last(line: &mut Vec<u8>, bytes: &[u8]) {
    let end = line.len() - 1;
    line.splice(end..end, bytes.iter().copied());
}

/// Puts a byte somewhere before the line feed.
fn put_in(dice: &mut Dice, line: &mut Vec<u8>, byte: u8) {
    let at = dice.below(line.len());
    line.insert(at, byte);
}

/// Puts bytes for one of the tabs; a line with none gets one more number.
fn for_a_tab(dice: &mut Dice, line: &mut Vec<u8>, bytes: &[u8]) {
    if count(line, b'\t') == 0 {
        put_last(line, b"\t3");
    }
    let tabs: Vec<usize> = (0..line.len()).filter(|&i| line[i] == b'\t').collect();
    let tab = dice.pick(&tabs);
    line.splice(tab..=tab, bytes.iter().copied());
}

/// Where one of the numbers begins and ends.
fn a_number(dice: &mut Dice, line: &[u8]) -> (usize, usize) {
    let digit = |i: usize| line.get(i).is_some_and(u8::is_ascii_digit);
    let starts: Vec<usize> =
        (0..line.len()).filter(|&i| digit(i) && (i == 0 || !digit(i - 1))).collect();
    let start = dice.pick(&starts);
    (start, (start..).find(|&i| !digit(i)).unwrap_or(start))
}

/// Puts bytes for one of the numbers.
fn for_a_number(dice: &mut Dice, line: &mut Vec<u8>, bytes: &[u8]) {
    let (start, end) = a_number(dice, line);
    line.splice(start..end, bytes.iter().copied());
}

// ---------------------------------------------------------------------------
// Faults in a text
// ---------------------------------------------------------------------------

/// A way to spoil the lines of a text. It returns the unreadable line.
pub type TextFault = (&'static str, fn(&mut Vec<Vec<u8>>) -> usize);

pub const TEXT_FAULTS: [TextFault; 17] = [
    ("no line 1", |lines| {
        lines.remove(0);
        1
    }),
    ("an empty line before line 1", |lines| {
        lines.insert(0, b"\n".to_vec());
        1
    }),
    ("a small `a`", |lines| in_line_1(lines, 0..1, b"a")),
    ("no `A`", |lines| in_line_1(lines, 0..1, b"")),
    ("neither `A` nor its tab", |lines| in_line_1(lines, 0..2, b"")),
    ("another letter for `A`", |lines| in_line_1(lines, 0..1, b"B")),
    ("`A` without its tab", |lines| in_line_1(lines, 1..2, b"")),
    ("a space behind `A`", |lines| in_line_1(lines, 1..2, b" ")),
    ("two `A`", |lines| in_line_1(lines, 0..0, b"A")),
    ("a byte order mark", |lines| in_line_1(lines, 0..0, b"\xef\xbb\xbf")),
    ("`A` alone in its line", |lines| {
        lines[0] = b"A\n".to_vec();
        1
    }),
    ("line 1 twice", |lines| {
        lines.insert(1, lines[0].clone());
        2
    }),
    ("no last line feed", |lines| {
        let last = lines.len() - 1;
        lines[last].pop();
        last + 1
    }),
    ("an empty line at the end", |lines| add_line(lines, b"\n")),
    ("a step without its line feed", |lines| add_line(lines, b"1\t3\t2")),
    ("a zero byte at the end", |lines| add_line(lines, b"\0")),
    ("a tab at the end", |lines| add_line(lines, b"\t")),
];

/// Puts bytes for a piece of line 1.
fn in_line_1(lines: &mut [Vec<u8>], piece: std::ops::Range<usize>, bytes: &[u8]) -> usize {
    lines[0].splice(piece, bytes.iter().copied());
    1
}

fn add_line(lines: &mut Vec<Vec<u8>>, line: &[u8]) -> usize {
    lines.push(line.to_vec());
    lines.len()
}

// ---------------------------------------------------------------------------
// Bytes altered
// ---------------------------------------------------------------------------

/// A way to alter bytes of a text that has some. It may stay readable.
pub type Change = (&'static str, fn(&mut Dice, &mut Vec<u8>));

/// The bytes of which a readable text consists, and a few more.
const USUAL: &[u8] = b"\t\t\n\nA0123456789 \r";

pub const CHANGES: [Change; 9] = [
    ("a byte changed to any", |dice, text| {
        let at = dice.below(text.len());
        text[at] = dice.next() as u8;
    }),
    ("a byte changed to a usual one", |dice, text| {
        let at = dice.below(text.len());
        text[at] = dice.pick(USUAL);
    }),
    ("a bit changed", |dice, text| {
        let at = dice.below(text.len());
        text[at] ^= 1 << dice.below(8);
    }),
    ("a byte inserted", |dice, text| {
        let at = dice.below(text.len() + 1);
        text.insert(at, dice.pick(USUAL));
    }),
    ("a byte removed", |dice, text| {
        let at = dice.below(text.len());
        text.remove(at);
    }),
    ("a byte doubled", |dice, text| {
        let at = dice.below(text.len());
        text.insert(at, text[at]);
    }),
    ("two bytes swapped", |dice, text| {
        let (one, other) = (dice.below(text.len()), dice.below(text.len()));
        text.swap(one, other);
    }),
    ("a piece cut out", |dice, text| {
        let start = dice.below(text.len());
        let end = start + dice.below(text.len() + 1 - start);
        text.drain(start..end);
    }),
    ("cut off at the front", |dice, text| {
        let at = dice.below(text.len());
        text.drain(..at);
    }),
];

/// Usual bytes in no order, mostly behind a good beginning.
pub fn scribble(dice: &mut Dice) -> Vec<u8> {
    let mut text =
        dice.pick(&[&b""[..], b"A", b"A\t", b"A\t7\n", b"A\t7\n", b"A\t0\n1\t"]).to_vec();
    for _ in 0..dice.below(10) {
        text.push(dice.pick(USUAL));
    }
    if dice.chance(70) {
        text.push(b'\n');
    }
    text
}
