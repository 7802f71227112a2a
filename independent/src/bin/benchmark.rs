//! Times the proved engine, as a host in C calls it, beside the independent
//! program: runs of 1,024 steps, one step on a full record, one report on it
//! and the reading of a step text, in one process and on the same inputs.
//!
//! `benchmark [REPEATS [WORD]]`: only what has the word in its name, if one is
//! given. In each repeat both sides are called once, each on tables of its
//! own, and the side that begins changes from one repeat to the next, so that
//! a drift of the machine meets both. The depth of the stack changes too.
//! Before each call, outside the timed part, the tables are set back to what
//! they were: zeros for a run and a text. After each pair the answers and all tables must
//! be equal; if not, the exit status is 1. The ratio is taken pair by pair.

#[path = "../inputs/dice.rs"]
mod dice;
#[path = "../engine.rs"]
mod engine;
#[path = "../inputs/playing.rs"]
mod playing;

use dice::Dice;
use engine::{kp_read, kp_report, kp_run, kp_step};
use independent::{read_text, report, run, step, TextRead, MAX_STEPS, ROOM, STEP, WIDTH};
use playing::List;
use std::hint::black_box;
use std::time::Instant;
use std::{env, process};

const REPEATS: usize = 5_000;
/// Pairs that are not counted, while caches and the processor settle.
const WARM_UP: usize = 200;
/// Depths of the stack, from which calls are made in turn.
const DEPTHS: usize = 101;
const ANSWERS: u16 = 0x5555;
/// What is shown of a spread.
const PERCENTS: [usize; 5] = [50, 25, 75, 5, 95];

/// A number returned, and the place or count that goes with it; with a text
/// the account answers, the count of steps and the line.
type Answer = (u8, [u16; 3]);
type Step = [u16; STEP];

// ---------------------------------------------------------------------------
// The two sides
// ---------------------------------------------------------------------------

/// The tables that a call is lent. What it only reads is in the case.
#[derive(Clone, PartialEq)]
struct Tables {
    numbers: Vec<u16>,
    bytes: Vec<u8>,
}

impl Tables {
    fn set_back(&mut self, to: &Self) {
        self.numbers.copy_from_slice(&to.numbers);
        self.bytes.copy_from_slice(&to.bytes);
    }
}

/// An answer with one number beside it.
fn with_one((number, one): (u8, u16)) -> Answer {
    (number, [one, 0, 0])
}

/// An answer of the reader.
fn of_text(TextRead { number, answers, count, line }: TextRead) -> Answer {
    (number, [answers, count, line])
}

fn engine_run(lent: &mut Tables, answers: u16, steps: &[u16]) -> Answer {
    let Tables { numbers: record, bytes: verdicts } = lent;
    let mut n = 0;
    // SAFETY: each pointer is to as many numbers as it says, of a table that
    // nobody else uses during the call.
    let number = unsafe {
        kp_run(
            record.as_mut_ptr(),
            record.len(),
            answers,
            steps.as_ptr(),
            steps.len(),
            verdicts.as_mut_ptr(),
            verdicts.len(),
            &mut n,
        )
    };
    with_one((number, n))
}

fn engine_step(record: &mut [u16], n: usize, answers: u16, s: Step) -> Answer {
    let [code, a1, a2, a3, a4, a5, a6] = s;
    let (table, len) = (record.as_mut_ptr(), record.len());
    let mut place = 0;
    // SAFETY: as in `engine_run`.
    let number =
        unsafe { kp_step(table, len, n, answers, code, a1, a2, a3, a4, a5, a6, &mut place) };
    with_one((number, place))
}

fn engine_report(record: &[u16], n: usize, place: usize) -> Answer {
    // SAFETY: as in `engine_run`.
    with_one((unsafe { kp_report(record.as_ptr(), record.len(), n, place) }, 0))
}

fn engine_read(text: &[u8], steps: &mut [u16]) -> Answer {
    let (bytes, len) = (text.as_ptr(), text.len());
    let (table, numbers) = (steps.as_mut_ptr(), steps.len());
    let [mut answers, mut count, mut line] = [0; 3];
    // SAFETY: as in `engine_run`.
    let number =
        unsafe { kp_read(bytes, len, table, numbers, &mut answers, &mut count, &mut line) };
    (number, [answers, count, line])
}

type Call = Box<dyn Fn(&mut Tables) -> Answer>;

/// One thing to measure: the same call to both sides, on the same tables.
struct Case {
    name: &'static str,
    before: Tables,
    engine: Call,
    own: Call,
}

fn run_of(name: &'static str, list: &[Step]) -> Case {
    let before = Tables { numbers: vec![0; ROOM * WIDTH], bytes: vec![0; MAX_STEPS] };
    let steps = list.as_flattened().to_vec();
    let same_steps = steps.clone();
    Case {
        name,
        before,
        engine: Box::new(move |lent| engine_run(lent, ANSWERS, black_box(&steps))),
        own: Box::new(move |lent| {
            with_one(run(&mut lent.numbers, ANSWERS, black_box(&same_steps), &mut lent.bytes))
        }),
    }
}

fn step_on(name: &'static str, record: &[u16], n: usize, s: Step) -> Case {
    Case {
        name,
        before: Tables { numbers: record.to_vec(), bytes: Vec::new() },
        engine: Box::new(move |lent| engine_step(&mut lent.numbers, n, ANSWERS, black_box(s))),
        own: Box::new(move |lent| with_one(step(&mut lent.numbers, n, ANSWERS, black_box(s)))),
    }
}

fn report_on(name: &'static str, record: &[u16], n: usize, place: usize) -> Case {
    Case {
        name,
        before: Tables { numbers: record.to_vec(), bytes: Vec::new() },
        engine: Box::new(move |lent| engine_report(&lent.numbers, n, black_box(place))),
        own: Box::new(move |lent| with_one((report(&lent.numbers, n, black_box(place)), 0))),
    }
}

fn read_of(name: &'static str, text: Vec<u8>) -> Case {
    println!("{name}: {} bytes", text.len());
    let same_text = text.clone();
    Case {
        name,
        before: Tables { numbers: vec![0; MAX_STEPS * STEP], bytes: Vec::new() },
        engine: Box::new(move |lent| engine_read(black_box(&text), &mut lent.numbers)),
        own: Box::new(move |lent| of_text(read_text(black_box(&same_text), &mut lent.numbers))),
    }
}

// ---------------------------------------------------------------------------
// Lists
// ---------------------------------------------------------------------------

/// Honest sessions until all room is used, and then the same steps again:
/// each is good in itself, and refused with 7 at the last.
fn honest_list() -> Vec<Step> {
    let sessions = (0..).flat_map(|i: u16| {
        let (b, s, at) = (1 + i % 15, 1 + i % 7, 5 * i + 1);
        [
            [1, b, s, 0, 0, 0, 0],
            [2, s, at, 0, 0, 0, 0],
            [3, b, at, at + 1, 0, 0, 0],
            [4, s, at + 1, at + 2, 0, 0, 0],
            [5, at + 3, 0, 0, 0, 0, 0],
        ]
    });
    let steps: Vec<Step> = sessions.take(ROOM).collect();
    steps.iter().copied().cycle().take(MAX_STEPS).collect()
}

/// Honest sessions mixed with forged steps of every code that really play,
/// and with some that are refused.
fn mixed_list() -> Vec<Step> {
    let mut dice = Dice::new(1);
    let mut steps = List::new(&mut dice, ROOM).fill(MAX_STEPS + 10, usize::MAX).steps;
    steps.truncate(MAX_STEPS);
    steps
}

/// A few steps that play, and then steps that differ from one of them in a
/// number or two and are refused, with 2, 3, 4, 5 and 6 in turn.
fn refused_list() -> Vec<Step> {
    let mut dice = Dice::new(2);
    let List { mut steps, mut record, n, .. } = List::new(&mut dice, ROOM).fill(60, usize::MAX);
    let few = steps.len();
    for wanted in (2..=6).cycle().take(MAX_STEPS - few) {
        steps.push(loop {
            let mut s = steps[dice.below(few)];
            for _ in 0..2 {
                s[dice.below(STEP)] = dice.pick(&[0, 1, 2, 3, 5, 8, 15, 16, 38, 39, n as u16 + 1]);
            }
            if step(&mut record[..n * WIDTH], n, ANSWERS, s).0 == wanted {
                break s;
            }
        });
    }
    steps
}

/// The paper's list P1.
const P1: &[u8] = b"A\t8\n1\t3\t2\n2\t2\t1\n3\t3\t1\t2\n4\t2\t2\t3\n5\t4\n31\t2\t2\t3\n5\t6\n";

/// How many steps of a list get each number, and the record it leaves.
fn played(name: &str, list: &[Step]) -> (Vec<u16>, usize) {
    let mut record = vec![0; ROOM * WIDTH];
    let mut verdicts = [0; MAX_STEPS];
    let (_, n) = run(&mut record, ANSWERS, list.as_flattened(), &mut verdicts[..list.len()]);
    let counts: Vec<String> = (0..=7)
        .map(|number| (number, verdicts[..list.len()].iter().filter(|&&v| v == number).count()))
        .filter(|&(_, count)| count > 0)
        .map(|(number, count)| format!("{count} with {number}"))
        .collect();
    println!("{name}: {} steps, {}", list.len(), counts.join(", "));
    (record, n.into())
}

/// A list as step text. Arguments that are 0 at the end are left off.
fn text_of(list: &[Step]) -> Vec<u8> {
    let mut text = format!("A\t{ANSWERS}\n");
    for s in list {
        let used = s.iter().rposition(|&number| number != 0).map_or(1, |last| last + 1);
        let numbers: Vec<String> = s[..used].iter().map(u16::to_string).collect();
        text += &numbers.join("\t");
        text.push('\n');
    }
    text.into_bytes()
}

/// All that is measured.
fn cases() -> Vec<Case> {
    let lists = [
        ("run, honest", honest_list()),
        ("run, mixed", mixed_list()),
        ("run, mostly refused", refused_list()),
    ];
    let records = lists.each_ref().map(|(name, list)| played(name, list));
    let (full, n) = &records[0];
    let again = lists[0].1[1];
    let last_reply = n - n % 5;
    let mut cases: Vec<Case> = lists.iter().map(|(name, list)| run_of(name, list)).collect();
    cases.push(step_on("step, last place free", full, n - 1, again));
    cases.push(step_on("step, no room", full, *n, again));
    cases.push(report_on("report, full record", full, *n, last_reply));
    cases.push(read_of("text, 1,024 steps", text_of(&lists[1].1)));
    cases.push(read_of("text, 7 steps", P1.to_vec()));
    cases
}

// ---------------------------------------------------------------------------
// Measuring
// ---------------------------------------------------------------------------

/// Sets the tables back, then times one call, in microseconds.
fn timed(call: &Call, before: &Tables, lent: &mut Tables) -> (f64, Answer) {
    lent.set_back(before);
    let lent = black_box(lent);
    let start = Instant::now();
    let answer = black_box(call(lent));
    (start.elapsed().as_secs_f64() * 1e6, answer)
}

/// Calls from this many frames deeper. A store across the border of a page is
/// slow, so it matters where the frames lie, and one depth would show one case.
#[inline(never)]
fn from_depth(depth: usize, call: &mut dyn FnMut()) {
    let frame = black_box([0u8; 64]);
    match depth {
        0 => call(),
        _ => from_depth(depth - 1, call),
    }
    black_box(&frame);
}

/// The times of both sides in one repeat.
fn pair(case: &Case, lent: &mut [Tables; 2], engine_first: bool) -> [f64; 2] {
    let [to_engine, to_own] = lent;
    let ((engine, engine_says), (own, own_says));
    if engine_first {
        (engine, engine_says) = timed(&case.engine, &case.before, to_engine);
        (own, own_says) = timed(&case.own, &case.before, to_own);
    } else {
        (own, own_says) = timed(&case.own, &case.before, to_own);
        (engine, engine_says) = timed(&case.engine, &case.before, to_engine);
    }
    if engine_says != own_says || to_engine != to_own {
        println!("{}: the two differ: {engine_says:?}, {own_says:?}", case.name);
        process::exit(1);
    }
    [engine, own]
}

/// The median, the quartiles, and what all but 5 in 100 are above and below.
/// The very least and most would only tell when the system took the processor
/// away.
fn spread(mut values: Vec<f64>) -> [f64; 5] {
    values.sort_by(f64::total_cmp);
    PERCENTS.map(|percent| values[(values.len() - 1) * percent / 100])
}

fn measure(case: &Case, repeats: usize) {
    let mut lent = [case.before.clone(), case.before.clone()];
    let mut times = Vec::with_capacity(WARM_UP + repeats);
    for i in 0..WARM_UP + repeats {
        from_depth(i % DEPTHS, &mut || times.push(pair(case, &mut lent, i % 2 == 0)));
    }
    let times = &times[WARM_UP..];
    let columns = [
        spread(times.iter().map(|&[engine, _]| engine).collect()),
        spread(times.iter().map(|&[_, own]| own).collect()),
        spread(times.iter().map(|[engine, own]| engine / own).collect()),
    ];
    print!("{:21}", case.name);
    columns.iter().for_each(|column| print!(" |{}", column.map(|x| format!("{x:8.2}")).concat()));
    println!();
}

fn print_heading() {
    let [engine, own, ratio] = ["proved engine", "independent program", "proved / independent"];
    println!("{:21} | {engine:39} | {own:39} | {ratio}", "");
    let names = PERCENTS.map(|percent| format!("{percent:7}%")).concat();
    println!("{:21} |{names} |{names} |{names}", "");
}

/// How often, and the word.
fn arguments() -> Option<(usize, String)> {
    let mut args = env::args().skip(1);
    let repeats = args.next().map_or(Some(REPEATS), |word| word.parse().ok())?;
    Some((repeats, args.next().unwrap_or_default()))
}

fn main() {
    let Some((repeats @ 1.., word)) = arguments() else {
        eprintln!("benchmark [REPEATS [WORD]]");
        process::exit(2);
    };
    let cases = cases();
    println!("\n{repeats} repeats; microseconds a call; tables set back before each, not timed\n");
    print_heading();
    cases.iter().filter(|case| case.name.contains(&word)).for_each(|case| measure(case, repeats));
}
