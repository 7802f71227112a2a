//! Compares the proved engine, as a host in C sees it, with the independent
//! program, on very many inputs: runs of lists, single steps and reports, on
//! records that runs reach, on lawful ones that none reaches and on damaged
//! ones, and step texts, readable and not. After each call the numbers
//! returned and every number of every lent table must be the same, and the
//! guards before and behind the tables too.
//!
//! `compare [SEED]` counts and prints what was seen; each code accepted, also
//! with items out of slips under key 0, each refusal, each report and each kind
//! of text must be seen often enough. On a difference it prints the input and
//! both answers and stops with exit status 1.

#[path = "../compare/mod.rs"]
mod compare;
#[path = "../inputs/dice.rs"]
mod dice;
#[path = "../engine.rs"]
mod engine;
#[path = "../inputs/playing.rs"]
mod playing;
#[path = "../inputs/records.rs"]
mod records;
#[path = "../inputs/writing.rs"]
mod writing;

use compare::calls::Bench;
use compare::{lists, records as damaged, texts};
use dice::Dice;
use independent::{MAX_STEPS, ROOM};
use records::Few;
use std::time::Instant;
use std::{env, process};

/// Lists of ordinary length, lists that use all steps, records with a session
/// and one number changed, records of any lawful messages, and records of
/// such messages that use all room.
const ORDINARY_LISTS: u64 = 12_000;
const LONG_LISTS: u64 = 60;
const SESSIONS: u64 = 300;
const RECORDS: u64 = 8_000;
const FULL_RECORDS: u64 = 20;
/// Short texts and long ones with each thing wrong in turn, texts about as
/// long as they may be, short texts with each byte another in turn, and a
/// thousand texts each of bytes in no order.
const SHORT_TEXTS: u64 = 3_000;
const LONG_TEXTS: u64 = 100;
const LIMITS: u64 = 150;
const BYTES: u64 = 20;
const SCRIBBLES: u64 = 200;

/// A part of the inputs: its name, how many, and how one is made and tried.
type Part = (&'static str, u64, fn(&mut Bench, &mut Dice));

const PARTS: [Part; 13] = [
    ("every number at every position", 2, |bench, dice| {
        let few = Few::new(dice);
        damaged::play_positions(bench, dice, &few);
    }),
    ("sessions with one number changed", SESSIONS, |bench, dice| {
        let few = Few::new(dice);
        damaged::play_session(bench, dice, &few);
    }),
    ("lawful records that no run reaches", RECORDS, |bench, dice| {
        let few = Few::new(dice);
        let n = dice.below(20);
        let room = n + dice.pick(&[0, 1, 2, 5, 20]);
        damaged::play_record(bench, dice, &few, n, room, 30);
    }),
    ("the same with all room used", FULL_RECORDS, |bench, dice| {
        let few = Few::new(dice);
        let n = ROOM - dice.below(4);
        damaged::play_record(bench, dice, &few, n, ROOM, 30);
    }),
    ("lists", ORDINARY_LISTS, |bench, dice| {
        let room = match dice.below(20) {
            0..3 => dice.below(12),
            3..8 => dice.below(70),
            8..18 => 60 + dice.below(60),
            _ => ROOM,
        };
        let steps = dice.pick(&[0, 1, 2, 30, 60, 60, 60, 60, 80, 80, 80, 80]);
        lists::play_list(bench, dice, room, steps);
    }),
    ("lists of 1,024 steps", LONG_LISTS, |bench, dice| {
        let room = dice.pick(&[ROOM, ROOM, ROOM, ROOM - 1, 300]);
        lists::play_list(bench, dice, room, MAX_STEPS);
    }),
    ("short texts with one thing wrong", SHORT_TEXTS, |bench, dice| {
        let steps = dice.pick(&[0, 1, 2, 3, 5, 20, 40]);
        let steps = dice.below(steps + 1);
        texts::play_text(bench, dice, steps);
    }),
    ("long texts with one thing wrong", LONG_TEXTS, |bench, dice| {
        let steps = dice.pick(&[200, MAX_STEPS]);
        let steps = dice.below(steps + 1);
        texts::play_text(bench, dice, steps);
    }),
    ("texts of very many bytes or steps", LIMITS, |bench, dice| {
        texts::play_bytes_limit(bench, dice);
        texts::play_steps_limit(bench, dice);
    }),
    ("step tables of all lengths", LIMITS, texts::play_tables),
    ("each byte of a text", BYTES, texts::play_bytes),
    ("each number in a text", 1, texts::play_numbers),
    ("usual bytes in no order", SCRIBBLES, texts::play_scribble),
];

fn main() {
    let first_seed = match env::args().nth(1).map(|seed| seed.parse()) {
        None => 1,
        Some(Ok(seed)) => seed,
        Some(Err(_)) => {
            eprintln!("compare [SEED]");
            process::exit(2);
        }
    };
    let start = Instant::now();
    let mut bench = Bench::new(first_seed);
    println!("inputs\tcomparisons\tseconds\tof what");
    for (part, (name, many, play)) in (0..).zip(PARTS) {
        let (before, start) = (bench.counts.calls, Instant::now());
        for index in 0..many {
            let seed = first_seed + (part << 32) + index;
            bench.seed = seed;
            play(&mut bench, &mut Dice::new(seed));
        }
        let calls = bench.counts.calls - before;
        println!("{many}\t{calls}\t{:.1}\t{name}", start.elapsed().as_secs_f64());
    }
    let missing = bench.counts.print();
    let (steps, read) = (bench.counts.steps, bench.counts.steps_read);
    println!("{steps} steps and {read} in texts, {:.1} seconds", start.elapsed().as_secs_f64());
    for line in &missing {
        println!("{line}");
    }
    println!("{} comparisons, 0 differences", bench.counts.calls);
    if !missing.is_empty() {
        process::exit(1);
    }
}
