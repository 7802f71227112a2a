//! What was seen: codes accepted, refusals, reports, and kinds of text. Each
//! must be seen often enough.

use super::lent::Lent;
use independent::{step, takes, Arg, TextRead, Words, STEP, WIDTH};

/// How often each thing counted must be seen.
const OFTEN: u64 = 100;
/// How often a slip under key 0, and what it shows, must be seen on records
/// that runs reach.
const VERY_OFTEN: u64 = 1_000;

/// What was seen. Numbers are those that the two agreed on.
pub struct Counts {
    pub calls: u64,
    /// Steps tried, in runs and alone.
    pub steps: u64,
    /// Steps of texts that were read.
    pub steps_read: u64,
    /// Steps accepted by code, in runs and alone.
    accepted: [[Accepted; 2]; 39],
    /// In runs, and in single steps that go on from runs: steps 38 accepted,
    /// steps accepted with a and with r out of a slip, and steps 5 refused for
    /// a key 0 alone.
    reached: [u64; 4],
    /// By number: verdicts of runs, runs, single steps, reports, texts.
    numbers: [[u64; 5]; 23],
    /// Reports 20 and 21 on records that runs and single steps left, the
    /// steps with account answers of their own.
    mixtures: [u64; 2],
    /// The kinds of text, and how many got 0, 10 and 11.
    kinds: Vec<(&'static str, [u64; 3])>,
}

/// Steps accepted; of these, with an account out of a slip, and with drawer
/// and draw out of a slip.
type Accepted = [u64; 3];

const IN_RUNS: usize = 0;
const ALONE: usize = 1;

const VERDICTS: usize = 0;
const RUNS: usize = 1;
const STEPS: usize = 2;
pub const REPORTS: usize = 3;
const TEXTS: usize = 4;

/// The numbers that each of the five may give.
const POSSIBLE: [(&str, &[usize]); 5] = [
    ("verdict", &[0, 2, 3, 4, 5, 6, 7]),
    ("run", &[0, 1, 8, 9]),
    ("step", &[0, 1, 2, 3, 4, 5, 6, 7]),
    ("report", &[1, 4, 5, 20, 21, 22]),
    ("text", &[0, 10, 11]),
];

impl Counts {
    pub fn new() -> Self {
        Counts {
            calls: 0,
            steps: 0,
            steps_read: 0,
            accepted: [[[0; 3]; 2]; 39],
            reached: [0; 4],
            numbers: [[0; 5]; 23],
            mixtures: [0; 2],
            kinds: Vec::new(),
        }
    }

    pub fn number(&mut self, of: usize, number: u8) {
        self.numbers[usize::from(number)][of] += 1;
    }

    /// A report on a record that runs and single steps left.
    pub fn mixture(&mut self, report: u8) {
        if let Some(count) = self.mixtures.get_mut(usize::from(report).wrapping_sub(20)) {
            *count += 1;
        }
    }

    /// A step alone on a record of n messages.
    pub fn step(&mut self, table: &Lent<u16>, n: usize, s: &[u16; STEP], number: u8) {
        self.steps += 1;
        self.number(STEPS, number);
        if number == 0 {
            self.accept(ALONE, table.messages(n), s);
        }
    }

    /// A run of a list, and the messages it left. None of them changes once it
    /// is written, so each place holds what the step that named it found there.
    pub fn run(&mut self, left: &[Words], list: &[u16], number: u8, verdicts: &[u8]) {
        self.number(RUNS, number);
        if number != 0 {
            return;
        }
        for (s, &verdict) in list.as_chunks::<STEP>().0.iter().zip(verdicts) {
            self.steps += 1;
            self.number(VERDICTS, verdict);
            self.reach(left, s, verdict);
            if verdict == 0 {
                self.accept(IN_RUNS, left, s);
            }
        }
    }

    fn accept(&mut self, how: usize, past: &[Words], s: &[u16; STEP]) {
        let [a, r] = out_of_slips(past, s);
        let [all, with_a, with_r] = &mut self.accepted[usize::from(s[0])][how];
        *all += 1;
        *with_a += u64::from(a);
        *with_r += u64::from(r);
    }

    /// A step, in a run or alone, on a record that a run reaches.
    pub fn reach(&mut self, past: &[Words], s: &[u16; STEP], number: u8) {
        let [a, r] = if number == 0 { out_of_slips(past, s) } else { [false; 2] };
        let refused = (s[0], number) == (5, 6) && but_for_the_key(named(past, s[1]));
        let seen = [s[0] == 38 && number == 0, a, r, refused];
        for (count, seen) in self.reached.iter_mut().zip(seen) {
            *count += u64::from(seen);
        }
    }

    /// What both said of a text.
    pub fn read(&mut self, said: TextRead) {
        self.number(TEXTS, said.number);
        self.steps_read += u64::from(said.count);
    }

    /// A text of some kind, by the number it got.
    pub fn text(&mut self, kind: &'static str, number: u8) {
        let i = self.kinds.iter().position(|&(other, _)| other == kind).unwrap_or_else(|| {
            self.kinds.push((kind, [0; 3]));
            self.kinds.len() - 1
        });
        self.kinds[i].1[usize::from(number.saturating_sub(9))] += 1;
    }

    /// Prints all counts; returns those that are too small.
    pub fn print(&self) -> Vec<String> {
        let mut missing = Vec::new();
        let mut want_least = |least: u64, count: u64, what: String| {
            if count < least {
                missing.push(format!("seen {count} times only: {what}"));
            }
        };
        let mut want = |count: u64, what: String| want_least(OFTEN, count, what);
        self.print_kinds(&mut want);
        self.print_accepted(&mut want);
        self.print_numbers(&mut want);
        self.print_mixtures(&mut want);
        self.print_reached(&mut want_least);
        missing
    }

    fn print_kinds(&self, want: &mut impl FnMut(u64, String)) {
        println!("texts\t0\t10\t11\tof which kind");
        for (kind, counts) in &self.kinds {
            let all = counts.iter().sum();
            want(all, format!("text, {kind}"));
            println!("{all}\t{}\t{}\t{}\t{kind}", counts[0], counts[1], counts[2]);
        }
    }

    fn print_accepted(&self, want: &mut impl FnMut(u64, String)) {
        let of_which = "of which a from a slip\tof which r from a slip";
        println!("accepted\tin runs\t{of_which}\talone\t{of_which}");
        for (code, row) in self.accepted.iter().enumerate().skip(1) {
            let args = takes(code as u16).unwrap_or_default();
            let items = [
                ("", true),
                (", a from a slip", args.contains(&Arg::Account)),
                (", r from a slip", args.contains(&Arg::Nonce)),
            ];
            print!("{code}");
            for (how, counts) in ["in a run", "alone"].iter().zip(row) {
                for ((item, taken), &count) in items.into_iter().zip(counts) {
                    if taken {
                        print!("\t{count}");
                        want(count, format!("code {code} accepted {how}{item}"));
                    } else {
                        print!("\t-");
                    }
                }
            }
            println!();
        }
    }

    fn print_mixtures(&self, want: &mut impl FnMut(u64, String)) {
        let [agreed, outside] = self.mixtures;
        println!("{agreed} reports 20 and {outside} reports 21 where runs and single steps mix");
        want(agreed, "report 20 where runs and single steps mix".into());
        want(outside, "report 21 where runs and single steps mix".into());
    }

    fn print_reached(&self, want_least: &mut impl FnMut(u64, u64, String)) {
        println!("times\ton records that runs reach");
        let [accepted_38, a, r, refused] = self.reached;
        for (count, least, what) in [
            (accepted_38, VERY_OFTEN, "step 38 accepted"),
            (a, VERY_OFTEN, "a step accepted with a from a slip"),
            (r, VERY_OFTEN, "a step accepted with r from a slip"),
            (refused, OFTEN, "step 5 refused for a key 0 alone"),
        ] {
            println!("{count}\t{what}");
            want_least(least, count, format!("{what}, on a record that runs reach"));
        }
    }

    fn print_numbers(&self, want: &mut impl FnMut(u64, String)) {
        println!("number\tverdicts\truns\tsteps\treports\ttexts");
        for (number, counts) in self.numbers.iter().enumerate() {
            if (12..20).contains(&number) {
                continue;
            }
            let cells = [VERDICTS, RUNS, STEPS, REPORTS, TEXTS].map(|of| {
                let (name, possible) = POSSIBLE[of];
                if possible.contains(&number) {
                    want(counts[of], format!("{name} {number}"));
                    counts[of].to_string()
                } else {
                    "-".into()
                }
            });
            println!("{number}\t{}", cells.join("\t"));
        }
    }
}

/// The message at a place that an accepted step named, or one refused with 6.
fn named(past: &[Words], place: u16) -> &Words {
    &past[usize::from(place) - 1]
}

/// Whether an accepted step took item a, and whether item r, out of a slip.
fn out_of_slips(past: &[Words], s: &[u16; STEP]) -> [bool; 2] {
    let args = takes(s[0]).unwrap_or_default();
    [Arg::Account, Arg::Nonce].map(|item| {
        let place = args.iter().position(|&arg| arg == item).map_or(0, |i| s[i + 1]);
        place != 0 && named(past, place)[0] != 1
    })
}

/// Whether step 5 accepts this Auth-Request once its three slips are under
/// key 1.
fn but_for_the_key(request: &Words) -> bool {
    let mut record = [&request[..], &[0; WIDTH]].concat();
    for key in [9, 24, 34] {
        record[key] = 1;
    }
    step(&mut record, 1, 0, [5, 1, 0, 0, 0, 0, 0]).0 == 0
}
