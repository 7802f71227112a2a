//! Texts: readable ones of all sizes, such with one thing wrong, texts cut and
//! altered, and step tables of all lengths. Where the making of a text settles
//! what is said of it, both programs must say that.

use super::calls::Bench;
use crate::dice::Dice;
use crate::writing::{scribble, unreadable, Written, CHANGES, LINE_FAULTS, TEXT_FAULTS, TOO_LONG};
use independent::{TextRead, MAX_STEPS, MAX_TEXT, STEP};

/// The least numbers that a step table must have.
const TABLE: usize = MAX_STEPS * STEP;
/// The bytes of a text that stays short enough when one thing is put in.
const ROOMY: usize = MAX_TEXT - 200;

/// What is said of a text, with its steps. A refused one has none.
pub type Said<'a> = (TextRead, &'a [[u16; STEP]]);

fn refused(said: TextRead) -> Option<Said<'static>> {
    Some((said, &[]))
}

/// Reads a text of some kind in both, into a table that is long enough.
pub fn try_text(
    bench: &mut Bench,
    dice: &mut Dice,
    kind: &'static str,
    text: &[u8],
    said: Option<Said>,
) {
    let len = TABLE + dice.pick(&[0, 0, 0, 0, 1, 6, 7, 100]);
    try_table(bench, dice, kind, text, len, said);
}

/// The same with a table of this length.
fn try_table(
    bench: &mut Bench,
    dice: &mut Dice,
    kind: &'static str,
    text: &[u8],
    len: usize,
    said: Option<Said>,
) {
    let lent_text = bench.text(dice, text);
    let table = bench.any_table(dice, len);
    let read = bench.read(&lent_text, &table);
    bench.counts.text(kind, read.number);
    if let Some((said, steps)) = said {
        let numbers = steps.as_flattened();
        if read != said || bench.own.inside()[..numbers.len()] != *numbers {
            bench.both_wrong(kind, text, &format!("{said:?} {steps:?}"));
        }
    }
}

// ---------------------------------------------------------------------------
// One thing wrong
// ---------------------------------------------------------------------------

/// A readable text, and the same with each thing wrong in turn.
pub fn play_text(bench: &mut Bench, dice: &mut Dice, steps: usize) {
    let written = Written::any(dice, steps, ROOMY);
    let text = written.bytes();
    let good = (written.said(written.lines.len()), &written.steps[..]);
    try_text(bench, dice, "readable", &text, Some(good));

    for (kind, spoil) in LINE_FAULTS {
        let mut lines = written.lines.clone();
        let i = dice.below(lines.len());
        spoil(dice, &mut lines[i]);
        try_text(bench, dice, kind, &lines.concat(), refused(unreadable(i + 1)));
    }
    for (kind, spoil) in TEXT_FAULTS {
        let mut lines = written.lines.clone();
        let line = spoil(&mut lines);
        try_text(bench, dice, kind, &lines.concat(), refused(unreadable(line)));
    }
    for (kind, change) in CHANGES {
        let mut text = text.clone();
        change(dice, &mut text);
        try_text(bench, dice, kind, &text, None);
    }
    let end = dice.below(text.len());
    try_cut(bench, dice, &written, end);
}

/// A text cut off behind so many bytes.
fn try_cut(bench: &mut Bench, dice: &mut Dice, written: &Written, bytes: usize) {
    let (text, said) = written.cut(bytes);
    let steps = &written.steps[..usize::from(said.count)];
    try_text(bench, dice, "cut off at the end", &text, Some((said, steps)));
}

// ---------------------------------------------------------------------------
// Sizes
// ---------------------------------------------------------------------------

/// Texts about as long as they may be, and longer.
pub fn play_bytes_limit(bench: &mut Bench, dice: &mut Dice) {
    let steps = dice.between(400, MAX_STEPS as u16).into();
    let mut written = Written::new(dice, steps, MAX_TEXT);
    let good = (written.said(steps + 1), &written.steps[..]);
    try_text(bench, dice, "16,384 bytes", &written.bytes(), Some(good));
    let line = dice.below(steps + 1);
    let byte = dice.below(written.lines[line].len() - 1);
    written.lines[line][byte] = b'x';
    let bad = refused(unreadable(line + 1));
    try_text(bench, dice, "16,384 bytes, a line unreadable", &written.bytes(), bad);

    for more in [1, 1, 2, 600, 65_536 - MAX_TEXT + 40] {
        let steps = if more > 600 { 2_000 } else { steps.max(420) };
        let mut written = Written::new(dice, steps, MAX_TEXT + more);
        let kind = if more == 1 { "16,385 bytes" } else { "more bytes" };
        try_text(bench, dice, kind, &written.bytes(), refused(TOO_LONG));
        let line = if dice.chance(50) { 0 } else { dice.below(steps + 1) };
        written.lines[line][0] = b'x';
        let kind = "too many bytes, a line unreadable";
        try_text(bench, dice, kind, &written.bytes(), refused(TOO_LONG));
    }
}

/// Texts with about as many steps as they may have, and more.
pub fn play_steps_limit(bench: &mut Bench, dice: &mut Dice) {
    let most = dice.pick(&[4_000, 8_000, ROOMY]);
    let written = Written::any(dice, MAX_STEPS, most);
    let good = (written.said(MAX_STEPS + 1), &written.steps[..]);
    try_text(bench, dice, "1,024 steps", &written.bytes(), Some(good));
    let written = Written::any(dice, MAX_STEPS + 1, most);
    try_text(bench, dice, "1,025 steps", &written.bytes(), refused(TOO_LONG));
    let cut = written.bytes().len() - 1;
    let (text, said) = written.cut(cut);
    try_text(bench, dice, "1,025 steps, no last line feed", &text, refused(said));

    let steps = MAX_STEPS + 2 + dice.below(40);
    let long = Written::any(dice, steps, most);
    try_text(bench, dice, "more steps", &long.bytes(), refused(TOO_LONG));
    for (_, spoil) in LINE_FAULTS {
        let early = dice.below(MAX_STEPS + 1);
        let late = MAX_STEPS + 2 + dice.below(steps - MAX_STEPS - 1);
        for (kind, line, said) in [
            ("more steps, an earlier line unreadable", early, unreadable(early + 1)),
            ("more steps, the 1,025th unreadable", MAX_STEPS + 1, unreadable(MAX_STEPS + 2)),
            ("more steps, a later one unreadable", late, TOO_LONG),
        ] {
            let mut lines = long.lines.clone();
            spoil(dice, &mut lines[line]);
            try_text(bench, dice, kind, &lines.concat(), refused(said));
        }
    }
}

/// Step tables that are too short, and such that are just long enough, for
/// texts that are readable, unreadable and too long.
pub fn play_tables(bench: &mut Bench, dice: &mut Dice) {
    let few = dice.below(20);
    let short = Written::any(dice, few, ROOMY);
    let long = Written::any(dice, MAX_STEPS, ROOMY);
    let good = |written: &Written| written.said(written.lines.len());
    let (cut, said) = short.cut(short.bytes().len() - 1);
    let more = Written::any(dice, MAX_STEPS + 1, ROOMY);
    let texts = [
        (short.bytes(), good(&short), &short.steps[..]),
        (long.bytes(), good(&long), &long.steps[..]),
        (cut, said, &[]),
        (Vec::new(), unreadable(1), &[]),
        (more.bytes(), TOO_LONG, &[]),
    ];
    let any = dice.below(TABLE);
    for (kind, lengths) in [
        ("a table of 0 numbers", &[0, 0][..]),
        ("a table that is too short", &[1, 7, any, TABLE - 7, TABLE - 2]),
        ("a table of 7,167 numbers", &[TABLE - 1]),
        ("a table of 7,168 numbers", &[TABLE]),
        ("a table of 7,169 numbers", &[TABLE + 1]),
        ("a table of many numbers", &[2 * TABLE, 65_536, 65_536 + 70]),
    ] {
        for &len in lengths {
            for (text, said, steps) in &texts {
                let said = if len < TABLE { refused(TOO_LONG) } else { Some((*said, *steps)) };
                try_table(bench, dice, kind, text, len, said);
            }
        }
    }
}

// ---------------------------------------------------------------------------
// Everything in turn
// ---------------------------------------------------------------------------

/// Each byte of a short text changed to each, each byte put in before each,
/// and the text cut off before each and behind each.
pub fn play_bytes(bench: &mut Bench, dice: &mut Dice) {
    let steps = dice.below(4);
    let written = Written::any(dice, steps, 30);
    let text = written.bytes();
    for at in 0..text.len() {
        for byte in 0..=255 {
            let mut other = text.clone();
            other[at] = byte;
            try_text(bench, dice, "each byte changed", &other, None);
            other.insert(at, text[at]);
            try_text(bench, dice, "each byte inserted", &other, None);
        }
        let mut other = text.clone();
        other.remove(at);
        try_text(bench, dice, "each byte removed", &other, None);
        try_text(bench, dice, "cut off at the front", &text[at..], None);
        try_cut(bench, dice, &written, at);
    }
}

/// Each number from 0 to 100,999 in line 1 and in a step, and each with a 0
/// before it.
pub fn play_numbers(bench: &mut Bench, dice: &mut Dice) {
    for number in 0..101_000 {
        let text = format!("A\t{number}\n5\t{number}\n");
        let step = [5, number as u16, 0, 0, 0, 0, 0];
        let read = TextRead { number: 0, answers: number as u16, count: 1, line: 0 };
        let good = Some((read, &[step][..]));
        let said = if number < 65_536 { good } else { refused(unreadable(1)) };
        try_text(bench, dice, "each number", text.as_bytes(), said);
        for (line, text) in [
            (1, format!("A\t0{number}\n5\t{number}\n")),
            (2, format!("A\t5\n6\t0{number}\n")),
            (2, format!("A\t5\n0{number}\n")),
        ] {
            let said = refused(unreadable(line));
            try_text(bench, dice, "each number with a needless 0", text.as_bytes(), said);
        }
        if number > 65_535 {
            let text = format!("A\t5\n{number}\n");
            let said = refused(unreadable(2));
            try_text(bench, dice, "each number over 65,535", text.as_bytes(), said);
        }
    }
}

/// Bytes in no order.
pub fn play_scribble(bench: &mut Bench, dice: &mut Dice) {
    for _ in 0..1_000 {
        let text = scribble(dice);
        try_text(bench, dice, "usual bytes in no order", &text, None);
    }
}
