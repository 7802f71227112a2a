//! Writes pseudo-random step lists that really play, in step text, for later
//! comparison: honest sessions, some with a buyer sent to the false gateway,
//! mixed with forged steps of every code, among them copies of honest messages
//! that differ in one thing.
//!
//! `lists SEED COUNT DIR [SPOILED]` writes COUNT lists to the directory DIR,
//! and after them SPOILED texts in which one byte was changed. It prints how
//! often each code was tried and accepted, each step's number, and the
//! reports. The same seed gives the same lists.

#[path = "../inputs/dice.rs"]
mod dice;
#[path = "../inputs/playing.rs"]
mod playing;

use dice::Dice;
use independent::{read_text, report, MAX_STEPS, MAX_TEXT, ROOM, STEP};
use playing::List;
use std::path::Path;
use std::{env, fs, io, process};

/// The fewest and the most steps that an ordinary list may have.
const ORDINARY: (u16, u16) = (45, 85);
/// One list in this many is long enough to use all room.
const LONG_EVERY: usize = 40;
// ---------------------------------------------------------------------------
// Counts
// ---------------------------------------------------------------------------

/// What became of all the steps.
struct Tally {
    tried: [usize; 39],
    accepted: [usize; 39],
    numbers: [usize; 8],
    reports: [usize; 3],
    lists: usize,
    spoiled: usize,
    unread: usize,
}

impl Tally {
    fn new() -> Self {
        Tally {
            tried: [0; 39],
            accepted: [0; 39],
            numbers: [0; 8],
            reports: [0; 3],
            lists: 0,
            spoiled: 0,
            unread: 0,
        }
    }

    /// Codes out of range are counted at 0.
    fn count(&mut self, code: u16, number: u8) {
        let code = if code <= 38 { usize::from(code) } else { 0 };
        self.tried[code] += 1;
        self.accepted[code] += usize::from(number == 0);
        self.numbers[usize::from(number)] += 1;
    }

    fn count_list(&mut self, list: &List) {
        self.lists += 1;
        for (s, &number) in list.steps.iter().zip(&list.numbers) {
            self.count(s[0], number);
        }
        for place in 1..=list.n {
            let said = report(&list.record, list.n, place);
            if let Some(i) = said.checked_sub(20) {
                self.reports[usize::from(i)] += 1;
            }
        }
    }

    fn print(&self) {
        println!("lists\t{}", self.lists);
        println!("code\ttried\taccepted");
        for code in 1..=38 {
            println!("{code}\t{}\t{}", self.tried[code], self.accepted[code]);
        }
        println!("other\t{}\t{}", self.tried[0], self.accepted[0]);
        println!("number\tsteps");
        for (number, steps) in self.numbers.iter().enumerate() {
            println!("{number}\t{steps}");
        }
        println!("report\treplies");
        for (said, replies) in (20..).zip(self.reports) {
            println!("{said}\t{replies}");
        }
        println!("spoiled\t{}\nof these refused\t{}", self.spoiled, self.unread);
    }
}

// ---------------------------------------------------------------------------
// Spoiled texts
// ---------------------------------------------------------------------------

/// Changes, adds or takes away one byte.
fn spoil(dice: &mut Dice, text: &mut Vec<u8>) {
    let at = dice.below(text.len());
    let byte = dice.pick(b"0123456789\t\t\n\n \rA-+.x\0\xff");
    match dice.below(3) {
        0 => text[at] = byte,
        1 => text.insert(at, byte),
        _ => {
            text.remove(at);
        }
    }
}

// ---------------------------------------------------------------------------
// The program
// ---------------------------------------------------------------------------

/// An ordinary list, or now and then a long one.
fn make_list(dice: &mut Dice, tally: &mut Tally, index: usize) -> Vec<u8> {
    let long = index.is_multiple_of(LONG_EVERY);
    let (fewest, most) = ORDINARY;
    let steps = if long { MAX_STEPS } else { dice.between(fewest, most).into() };
    let list = List::new(dice, ROOM).fill(steps, MAX_TEXT);
    tally.count_list(&list);
    list.text
}

/// A short text with one byte changed.
fn make_spoiled(dice: &mut Dice, tally: &mut Tally) -> Vec<u8> {
    let mut text = List::new(dice, ROOM).fill(20, MAX_TEXT).text;
    spoil(dice, &mut text);
    tally.spoiled += 1;
    let read = read_text(&text, &mut [0; MAX_STEPS * STEP]);
    tally.unread += usize::from(read.number != 0);
    text
}

fn write_all(seed: u64, count: usize, dir: &Path, spoiled: usize) -> io::Result<Tally> {
    let mut dice = Dice::new(seed);
    let mut tally = Tally::new();
    fs::create_dir_all(dir)?;
    for index in 1..=count {
        let text = make_list(&mut dice, &mut tally, index);
        fs::write(dir.join(format!("list-{seed}-{index:05}.txt")), text)?;
    }
    for index in 1..=spoiled {
        let text = make_spoiled(&mut dice, &mut tally);
        fs::write(dir.join(format!("spoiled-{seed}-{index:05}.txt")), text)?;
    }
    Ok(tally)
}

/// The seed, the count, the directory and the count of spoiled texts.
fn arguments() -> Option<(u64, usize, String, usize)> {
    let args: Vec<String> = env::args().skip(1).collect();
    match &args[..] {
        [seed, count, dir] => Some((seed.parse().ok()?, count.parse().ok()?, dir.clone(), 0)),
        [seed, count, dir, spoiled] => {
            Some((seed.parse().ok()?, count.parse().ok()?, dir.clone(), spoiled.parse().ok()?))
        }
        _ => None,
    }
}

fn main() -> io::Result<()> {
    let Some((seed, count, dir, spoiled)) = arguments() else {
        eprintln!("lists SEED COUNT DIR [SPOILED]");
        process::exit(2);
    };
    write_all(seed, count, Path::new(&dir), spoiled)?.print();
    Ok(())
}
