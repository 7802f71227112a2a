//! The calls: each to both programs, with the same input. The numbers
//! returned and every number of every lent table must be the same.

use super::counts::{Counts, REPORTS};
use super::lent::{first_difference, the_one, Lent, GUARD, ONE};
use crate::dice::Dice;
use crate::engine::{kp_read, kp_report, kp_run, kp_step};
use independent::{read_text, report, run, step, TextRead, STEP, WIDTH};
use std::fmt::Write;
use std::process;

/// Both programs side by side.
pub struct Bench {
    /// The seed of the inputs at hand.
    pub seed: u64,
    pub counts: Counts,
    /// Any numbers, for guards and for places past n.
    garbage: Vec<u16>,
    /// The record of an earlier list, also to stand past n.
    pub stale: Vec<u16>,
    /// The table as the engine left it, and as the independent program did.
    engine: Lent<u16>,
    pub own: Lent<u16>,
}

impl Bench {
    pub fn new(seed: u64) -> Self {
        let mut dice = Dice::new(seed);
        let garbage = (0..1 << 17).map(|_| dice.next() as u16).collect();
        Bench {
            seed,
            counts: Counts::new(),
            garbage,
            stale: Vec::new(),
            engine: Lent::default(),
            own: Lent::default(),
        }
    }

    /// A table of this length with any numbers in it and around it.
    pub fn any_table(&self, dice: &mut Dice, len: usize) -> Lent<u16> {
        let cells = len + 2 * GUARD;
        let from = dice.below(self.garbage.len() - cells);
        Lent { cells: self.garbage[from..from + cells].to_vec(), null: dice.chance(50) }
    }

    /// A table of this length that begins with these numbers. Behind them
    /// stand any numbers, or messages of an earlier list.
    pub fn table(&self, dice: &mut Dice, front: &[u16], len: usize) -> Lent<u16> {
        let mut table = self.any_table(dice, len);
        let inside = table.inside_mut();
        if dice.chance(50) {
            let common = inside.len().min(self.stale.len());
            inside[..common].copy_from_slice(&self.stale[..common]);
        }
        let common = inside.len().min(front.len());
        inside[..common].copy_from_slice(&front[..common]);
        table
    }

    /// Verdict bytes, any numbers.
    pub fn verdicts(&self, dice: &mut Dice, len: usize) -> Lent<u8> {
        let cells = self.any_table(dice, len).cells.iter().map(|&number| number as u8).collect();
        Lent { cells, null: dice.chance(50) }
    }

    /// A text. Behind it stand any bytes, or such as would make it longer.
    pub fn text(&self, dice: &mut Dice, text: &[u8]) -> Lent<u8> {
        let mut lent = self.verdicts(dice, text.len());
        lent.inside_mut().copy_from_slice(text);
        let more = dice.pick(&[&b""[..], b"\n", b"1\t3\t2\n", b"7\n1\n", b"\t7\n\n"]);
        let end = GUARD + text.len();
        lent.cells[end..end + more.len()].copy_from_slice(more);
        lent
    }

    /// One step in both. The tables they leave stay in `engine` and `own`.
    pub fn step(&mut self, table: &Lent<u16>, n: usize, answers: u16, s: [u16; STEP]) -> (u8, u16) {
        self.engine.copy_from(table);
        self.own.copy_from(table);
        let mut place = ONE;
        let (record, len) = (self.engine.pointer(), table.len());
        let out = place.as_mut_ptr().wrapping_add(1);
        let [code, a1, a2, a3, a4, a5, a6] = s;
        // SAFETY: both pointers are to numbers that nobody else uses during
        // the call, the first to as many as it says.
        let number = unsafe { kp_step(record, len, n, answers, code, a1, a2, a3, a4, a5, a6, out) };
        let engine = (number, the_one(place));
        let (number, place) = step(self.own.inside_mut(), n, answers, s);
        let own = (number, Some(place));

        self.counts.calls += 1;
        if engine != own || self.engine.cells != self.own.cells {
            let input = format!("step {s:?}\nanswers {answers}\n{}", record_text(table, n));
            let tables = first_difference("record", &self.engine, &self.own);
            self.stop(&input, &format!("{engine:?}"), &format!("{own:?}"), &[tables]);
        }
        self.counts.step(table, n, &s, number);
        (number, place)
    }

    /// One run in both. The tables they leave stay in `engine` and `own`.
    pub fn run(
        &mut self,
        table: &Lent<u16>,
        answers: u16,
        list: &Lent<u16>,
        verdicts: &Lent<u8>,
    ) -> (u8, u16) {
        self.engine.copy_from(table);
        self.own.copy_from(table);
        let (mut engine_verdicts, mut own_verdicts) = (verdicts.clone(), verdicts.clone());
        let mut list_lent = list.clone();
        let engine = engine_run(&mut self.engine, answers, &mut list_lent, &mut engine_verdicts);
        let (number, n) =
            run(self.own.inside_mut(), answers, list.inside(), own_verdicts.inside_mut());
        let own = (number, Some(n));

        self.counts.calls += 1;
        if engine != own
            || self.engine.cells != self.own.cells
            || engine_verdicts.cells != own_verdicts.cells
            || list_lent.cells != list.cells
        {
            let input = format!(
                "run, record length {}, list length {}, verdict bytes {}\n{}",
                table.len(),
                list.len(),
                verdicts.len(),
                step_text(answers, list.inside())
            );
            let tables = [
                first_difference("record", &self.engine, &self.own),
                first_difference("verdicts", &engine_verdicts, &own_verdicts),
                first_difference("list", &list_lent, list),
            ];
            self.stop(&input, &format!("{engine:?}"), &format!("{own:?}"), &tables);
        }
        self.counts.run(self.own.messages(n.into()), list.inside(), number, own_verdicts.inside());
        (number, n)
    }

    /// One report in both.
    pub fn report(&mut self, table: &Lent<u16>, n: usize, place: usize) -> u8 {
        self.engine.copy_from(table);
        // SAFETY: the pointer is to as many numbers as it says.
        let engine = unsafe { kp_report(self.engine.pointer(), table.len(), n, place) };
        let own = report(table.inside(), n, place);

        self.counts.calls += 1;
        if engine != own || self.engine.cells != table.cells {
            let input = format!("report on place {place}\n{}", record_text(table, n));
            let tables = first_difference("record", &self.engine, table);
            self.stop(&input, &engine.to_string(), &own.to_string(), &[tables]);
        }
        self.counts.number(REPORTS, own);
        own
    }

    /// One text read in both. The tables they leave stay in `engine` and
    /// `own`.
    pub fn read(&mut self, text: &Lent<u8>, table: &Lent<u16>) -> TextRead {
        self.engine.copy_from(table);
        self.own.copy_from(table);
        let mut lent_text = text.clone();
        let mut ones = [ONE; 3];
        let [answers, count, line] = ones.each_mut().map(|one| one.as_mut_ptr().wrapping_add(1));
        let (bytes, steps) = (lent_text.pointer(), self.engine.pointer());
        // SAFETY: the pointers are to numbers that nobody else uses during
        // the call, the first two to as many as it says.
        let number =
            unsafe { kp_read(bytes, text.len(), steps, table.len(), answers, count, line) };
        let engine = (number, ones.map(the_one));
        let own = read_text(text.inside(), self.own.inside_mut());
        let own_says = (own.number, [own.answers, own.count, own.line].map(Some));

        self.counts.calls += 1;
        if engine != own_says
            || self.engine.cells != self.own.cells
            || lent_text.cells != text.cells
        {
            let (bytes, shown) = (text.len(), text.inside().escape_ascii());
            let numbers = table.len();
            let input = format!("text of {bytes} bytes, table of {numbers} numbers\n{shown}\n");
            let tables = [
                first_difference("step table", &self.engine, &self.own),
                first_difference("text", &lent_text, text),
            ];
            self.stop(&input, &format!("{engine:?}"), &format!("{own_says:?}"), &tables);
        }
        self.counts.read(own);
        own
    }

    /// Prints a text that both read in a way other than the paper's, and ends
    /// the program.
    pub fn both_wrong(&self, kind: &str, text: &[u8], said: &str) -> ! {
        println!("BOTH WRONG after {} comparisons, seed {}", self.counts.calls, self.seed);
        println!("{kind}\n{}\nby its making: {said}", text.escape_ascii());
        process::exit(1)
    }

    /// Prints a difference and ends the program.
    fn stop(&self, input: &str, engine: &str, own: &str, tables: &[Option<String>]) -> ! {
        println!("DIFFERENCE after {} comparisons, seed {}", self.counts.calls, self.seed);
        println!("{input}engine: {engine}\nindependent: {own}");
        tables.iter().flatten().for_each(|table| print!("{table}"));
        process::exit(1)
    }
}

/// A run in the engine: its number, and n unless a guard was written.
fn engine_run(
    table: &mut Lent<u16>,
    answers: u16,
    list: &mut Lent<u16>,
    verdicts: &mut Lent<u8>,
) -> (u8, Option<u16>) {
    let mut n = ONE;
    let out = n.as_mut_ptr().wrapping_add(1);
    let (record, room) = (table.pointer(), table.len());
    let (steps, numbers) = (list.pointer(), list.len());
    let (bytes, many) = (verdicts.pointer(), verdicts.len());
    // SAFETY: the pointers are to numbers that nobody else uses during the
    // call, each to as many as it says.
    let number = unsafe { kp_run(record, room, answers, steps, numbers, bytes, many, out) };
    (number, the_one(n))
}

/// A record by its length, its count and its messages.
fn record_text(table: &Lent<u16>, n: usize) -> String {
    let mut text = format!("record length {}, n {n}\n", table.len());
    for (place, w) in (1..=n).zip(table.inside().chunks(WIDTH)) {
        let _ = writeln!(text, "{place}: {w:?}");
    }
    text
}

/// A list as step text.
fn step_text(answers: u16, list: &[u16]) -> String {
    let mut text = format!("A\t{answers}\n");
    for s in list.chunks(STEP) {
        let numbers: Vec<String> = s.iter().map(u16::to_string).collect();
        text += &numbers.join("\t");
        text.push('\n');
    }
    text
}
